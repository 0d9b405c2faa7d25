/*
 * A box that boots by our plan: scan, mark, clear, plan, write, ask everybody, judge the registers, route. Each step is printed, and the
 * first that is not as planned ends the machine with another status.
 */
#include "boot.h"

static uint8_t sheet[CARTSUNDIAL_SHEET_BYTES], script[CARTSUNDIAL_SCRIPT_BYTES];
static size_t sheet_len, script_len;

static void plan_board(void)
{
    uint64_t written[1];
    uint32_t number;

    stack_paint();
    number = cartsundial_plan(board, board_len, sheet, sizeof sheet, written, 1);
    stack_hold("cartsundial_plan", PLAN_STACK);
    if (number != CARTSUNDIAL_ACCEPTED)
        fail("the board is refused: %u", number);
    sheet_len = (size_t)written[0];
    print_plan(sheet);
}

static void make_script(void)
{
    uint64_t written[1];
    uint32_t number;
    size_t at;

    stack_paint();
    number = cartsundial_script(board, board_len, REQUESTER, FIRST_TAG, script, sizeof script, written, 1);
    stack_hold("cartsundial_script", SCRIPT_STACK);
    if (number != CARTSUNDIAL_ACCEPTED)
        fail("there is no script: %u", number);
    script_len = (size_t)written[0];
    for (at = 0; at < script_len; at += 18)
        print_bytes("script: ", script + at, 18);
}

/* A sabotage: another plan is brought up first, and nothing of it cleared. */
static void leave_another_plan(const struct host *host)
{
    struct host other = *host;

    other.low_first += 16 << 20;
    other.io_first += 0x1000;
    write_board(&other);
    plan_board();
    make_script();
    know_plan(&other, sheet);
    perform(script, script_len, other.first_bus, false);
}

static void bring_up(const struct host *host)
{
    scan(host);
    mark_all(host);
    clear();
    if (SABOTAGE == NOT_CLEARED)
        leave_another_plan(host);
    write_board(host);
    plan_board();
    make_script();
    know_plan(host, sheet);
    perform(script, script_len, host->first_bus, true);
    probe_ids(host);
    probe_switched_off();
    route_all(judge_registers(sheet, sheet_len), sheet_len);
}

/* A card that comes later is brought up in the room that its slot keeps, as a board of its own. */
static void take_card(void)
{
    unsigned port = empty_slot();
    struct host room;

    if (port == 0)
        fail("no slot keeps room");
    remember_box();
    wait_for_card(port, sheet, &room);
    print("-- the card\n");
    bring_up(&room);
    probe_box();
}

/* A pool that the processor, or the page tables, do not reach could not be looked at. */
static void check_reach(uint64_t last)
{
    uint32_t leaf = 0x80000008, other[3];

    __asm__ volatile("cpuid" : "+a"(leaf), "=b"(other[0]), "=c"(other[1]), "=d"(other[2]));
    if (last >> (leaf & 0xFF) != 0 || last >> 30 >= MAPPED_GIB)
        fail("%016lX is beyond the processor's %u bits or the page tables' %u GiB", last, leaf & 0xFF, (unsigned)MAPPED_GIB);
}

void boot_main(void)
{
    static const struct host host = { FIRST_BUS, LAST_BUS, LOW_FIRST, LOW_LAST, HIGH_FIRST, HIGH_LAST, IO_FIRST, IO_LAST };

    console_start();
    if (HIGH_FIRST <= HIGH_LAST)
        check_reach(HIGH_LAST);
    print("-- the box\n");
    bring_up(&host);
    if (PLUG)
        take_card();
    print("good\n");
    quit(EXIT_GOOD);
}

/* An exception: its number, and the address, before which some have an error code. 08h is the code segment. */
void boot_fault(uint64_t number, uint64_t first, uint64_t second)
{
    print("FAULT: exception %u at %016lX\n", (unsigned)number, second == 0x08 ? first : second);
    quit(EXIT_FAULT);
}
