/*
 * How much stack each call takes, held to what include/cartsundial.h says: every call runs on a painted stack of its own, over the deepest
 * inputs that there are, and the lowest byte that changed tells.
 */
#include <stdint.h>
#include <stdio.h>
#include <string.h>
#include <ucontext.h>

#include "cartsundial.h"

#define KIB 1024u
#define PAINT 0xA5

enum {
    BUSES = 255,                       /* bridges in a row on a sheet that no planner wrote */
    ROW = CARTSUNDIAL_BRIDGES_ABOVE + 1, /* bridges in a row on a board, the last with nothing below */
    RECORD = CARTSUNDIAL_RECORD_BYTES,
    ROOM = CARTSUNDIAL_SHEET_BYTES
};

static uint8_t stack[256 * KIB];
static uint8_t board[64 * KIB], sheet[ROOM], planned[ROOM], lines[64 * KIB];
static uint8_t script[CARTSUNDIAL_SCRIPT_BYTES], index_bytes[CARTSUNDIAL_INDEX_BYTES];
static size_t board_len, sheet_len, planned_len;
static uint64_t answer[CARTSUNDIAL_ANY_SENT_NUMBERS], state[CARTSUNDIAL_TRACE_NUMBERS], ledger[CARTSUNDIAL_LEDGER_NUMBERS];
static uint64_t packet[CARTSUNDIAL_PACKET_NUMBERS], written[1];
static ucontext_t here, there;
static uint32_t number;

/* A read of the planned card, one of the card at F9200000, and a trace of that. */
static const uint8_t nearest[] = { 0x00, 0x00, 0x00, 0x01, 0x00, 0x00, 0x07, 0x0F, 0xF9, 0x00, 0x00, 0x00 };
static const uint8_t header[] = { 0x00, 0x00, 0x00, 0x01, 0x00, 0x00, 0x07, 0x0F, 0xF9, 0x20, 0x00, 0x00 };
static const uint8_t trace[] = { 0x01, 0x00, 0x0C, 0x00, 0x00, 0x00, 0x01, 0x00, 0x00, 0x07, 0x0F, 0xF9, 0x20, 0x00, 0x00 };
/* A write to the host's memory, for the way up. */
static const uint8_t upward[] = { 0x40, 0x00, 0x00, 0x01, 0x00, 0x00, 0x07, 0x0F, 0x00, 0x10, 0x00, 0x00 };
/* The same from the card at FF00h, its completion for the host, and one that goes down to it from the first bridge; over the planned sheet
   the card's completion, up past its 32 bridges. */
static const uint8_t sent_up[] = { 0x40, 0x00, 0x00, 0x01, 0xFF, 0x00, 0x07, 0x0F, 0x00, 0x10, 0x00, 0x00 };
static const uint8_t by_id_up[] = { 0x4A, 0x00, 0x00, 0x01, 0xFF, 0x00, 0x00, 0x04, 0x00, 0x08, 0x07, 0x00 };
static const uint8_t by_id_down[] = { 0x4A, 0x00, 0x00, 0x01, 0x00, 0x00, 0x00, 0x04, 0xFF, 0x00, 0x07, 0x00 };
static const uint8_t by_id_planned[] = { 0x4A, 0x00, 0x00, 0x01, CARTSUNDIAL_BRIDGES_ABOVE, 0x08, 0x00, 0x04, 0xFF, 0x00, 0x07, 0x00 };
static const uint8_t completion[] = { 0x4A, 0x00, 0x00, 0x01, 0x01, 0x00, 0x00, 0x04, 0x00, 0x00, 0x07, 0x00 };
static const uint8_t host[] = { 0x00, 0xFF, 0xF9, 0x00, 0x00, 0x00, 0xF9, 0xFF, 0xFF, 0xFF, 0x00, 0x00, 0x00, 0x02, 0x40,
                                0x00, 0x00, 0x00, 0x00, 0x00, 0x00, 0x02, 0x7F, 0xFF, 0xFF, 0xFF, 0x40, 0x00, 0x4F, 0xFF };

/* ---- inputs ---- */

static uint8_t *put(uint8_t *to, const uint8_t *bytes, size_t count)
{
    memcpy(to, bytes, count);
    return to + count;
}

/* A row of bridges with a card below the last but one. */
static void make_board(void)
{
    static const uint8_t front[] = { 0x01, 0x00, 0x1E };
    uint8_t *at = put(put(board, front, sizeof front), host, sizeof host);
    int i;

    for (i = 0; i < ROW; i++) {
        uint8_t bridge[16] = { 0x00, 0x0E, 0, (uint8_t)i, 0x00, 0x01, 0x00, 0x07 };
        at = put(at, bridge, sizeof bridge);
    }
    {
        uint8_t card[32] = { 0x00, 0x1E, 0, ROW - 1, 0x08, 0x00, 0x00, 0x07, 0xFF, 0xF0, 0x00, 0x00 };
        at = put(at, card, sizeof card);
    }
    board_len = (size_t)(at - board);
}

/* Bridges in a row over every bus, and a card behind the last. */
static void make_sheet(int window)
{
    uint8_t *record = sheet + 1;
    int i;

    memset(sheet, 0, sizeof sheet);
    sheet[0] = 1;
    for (i = 0; i < BUSES; i++, record += RECORD) {
        uint8_t *registers = record + 4;
        record[1] = 90;
        record[2] = (uint8_t)i;
        registers[0x04] = 7;
        registers[0x0E] = 1;
        registers[0x18] = (uint8_t)i;
        registers[0x19] = (uint8_t)(i + 1);
        registers[0x1A] = BUSES;
        registers[0x1C] = 0xF0;
        registers[0x20] = window ? 0x00 : 0xF0;
        registers[0x21] = window ? 0xF9 : 0xFF;
        registers[0x22] = window ? 0xF0 : 0x00;
        registers[0x23] = window ? 0xF9 : 0x00;
        registers[0x24] = 0xF1;
        registers[0x25] = 0xFF;
        registers[0x26] = 0x01;
    }
    record[1] = 90;
    record[2] = BUSES;
    record[4 + 0x04] = 7;
    record[4 + 0x12] = 0x20;
    record[4 + 0x13] = 0xF9;
    record[68] = 0xFF;
    record[69] = 0xF0;
    sheet_len = 1 + (BUSES + 1) * RECORD;
}

/* ---- calls ---- */

static void plan(void) { number = cartsundial_plan(board, board_len, planned, sizeof planned, written, 1); }
static void plan_where(void) { number = cartsundial_plan_where(board, board_len, answer, CARTSUNDIAL_PLAN_WHO_NUMBERS); }

/* The same board with its low pool closed: what does not fit is looked for. */
static void plan_where_refused(void)
{
    static uint8_t closed[sizeof board];

    memcpy(closed, board, board_len);
    memset(closed + 3 + 6, 0, 4);
    number = cartsundial_plan_where(closed, board_len, answer, CARTSUNDIAL_PLAN_WHO_NUMBERS);
    number = number == CARTSUNDIAL_E_NO_LOW_ROOM && answer[0] != 0 ? CARTSUNDIAL_ACCEPTED : 1;
}
static void write_script(void) { number = cartsundial_script(board, board_len, 0, 0, script, sizeof script, written, 1); }
static void read_header(void) { number = cartsundial_read(header, sizeof header, packet, 20); }
static void judge(void) { number = cartsundial_judge(header, sizeof header); }
static void write_header(void) { number = cartsundial_write(packet, 20, lines, 16, written, 1); }
static void check(void) { number = cartsundial_check(sheet, sheet_len); }
static void audit(void) { number = cartsundial_audit(host, sizeof host, sheet, sheet_len); }
static void audit_where(void) { number = cartsundial_audit_where(host, sizeof host, sheet, sheet_len, answer, CARTSUNDIAL_WHO_NUMBERS); }
static void sound(void) { number = cartsundial_sound(host, sizeof host, sheet, sheet_len); }
static void lookup(void) { number = cartsundial_lookup(sheet, sheet_len, 0xFF00, written, 1); }
static void id(void) { number = cartsundial_id(sheet, sheet_len, 256, written, 1); }
static void command(void) { number = cartsundial_command(sheet, sheet_len, 0xFF00, 7); }
static void route(void) { number = cartsundial_route(header, sizeof header, sheet, sheet_len, answer, 534); }
static void route_planned(void) { number = cartsundial_route(nearest, sizeof nearest, planned, planned_len, answer, 534); }
static void route_up(void) { number = cartsundial_route_from(256, upward, sizeof upward, sheet, sheet_len, answer, 534); }
static void sender(void) { number = cartsundial_sender(0xFFFF, sent_up, sizeof sent_up, sheet, sheet_len, written, 1); }
static void sent(const uint8_t *bytes)
{
    number = cartsundial_route_sent(0xFFFF, bytes, 12, sheet, sheet_len, answer, CARTSUNDIAL_SENT_NUMBERS);
}
static void sent_request(void) { sent(sent_up); }
static void sent_by_id_up(void) { sent(by_id_up); }
static void sent_by_id_down(void) { sent(by_id_down); }
static void sent_planned(void)
{
    number = cartsundial_route_sent(0xFFFF, by_id_planned, 12, planned, planned_len, answer, CARTSUNDIAL_SENT_NUMBERS);
    if (number == CARTSUNDIAL_ACCEPTED && answer[CARTSUNDIAL_SENT_BRIDGES] != CARTSUNDIAL_BRIDGES_ABOVE)
        number = 1;
}
static void make_index(void) { number = cartsundial_index(host, sizeof host, sheet, sheet_len, index_bytes, sizeof index_bytes); }
static void make_index_sound(void)
{
    number = cartsundial_index_sound(host, sizeof host, sheet, sheet_len, index_bytes, sizeof index_bytes);
}
static void make_index_alone(void) { number = cartsundial_index_alone(sheet, sheet_len, index_bytes, sizeof index_bytes); }
static void sound_alone(void) { number = cartsundial_sound_alone(sheet, sheet_len); }
static void find(void) { number = cartsundial_find(header, sizeof header, index_bytes, sizeof index_bytes, answer, 534); }
static void annotate(void)
{
    memset(state, 0, sizeof state);
    number = cartsundial_annotate(state, CARTSUNDIAL_TRACE_NUMBERS, sheet, sheet_len, trace, sizeof trace, lines, sizeof lines, written, 1);
}
static void label(void)
{
    memset(state, 0, sizeof state);
    number = cartsundial_label(state, CARTSUNDIAL_TRACE_NUMBERS, index_bytes, sizeof index_bytes, trace, sizeof trace, lines, sizeof lines,
                               written, 1);
}
static void follow(void)
{
    memset(state, 0, sizeof state);
    number = cartsundial_follow(0, state, CARTSUNDIAL_TRACE_NUMBERS, sheet, sheet_len, trace, sizeof trace, lines, sizeof lines,
                                written, 1);
}
static void annotate_end(void)
{
    number = cartsundial_annotate_end(state, CARTSUNDIAL_TRACE_NUMBERS, lines, sizeof lines, written, 1);
}
static void ledger_open(void) { number = cartsundial_ledger_open(ledger, CARTSUNDIAL_LEDGER_NUMBERS, header, sizeof header); }
static void ledger_complete(void)
{
    number = cartsundial_ledger_complete(ledger, CARTSUNDIAL_LEDGER_NUMBERS, completion, sizeof completion);
}
static void ledger_count(void) { number = cartsundial_ledger_count(ledger, CARTSUNDIAL_LEDGER_NUMBERS, written, 1); }

/* ---- measured ---- */

static int failed;

/* How many bytes of the stack are not as they were painted. */
static size_t taken(void)
{
    size_t left = 0;

    while (left < sizeof stack && stack[left] == PAINT)
        left++;
    return sizeof stack - left;
}

/* Runs a call that has to answer 0, on a stack that it may take so many KiB of. */
static void measure(const char *name, void (*call)(void), unsigned most)
{
    memset(stack, PAINT, sizeof stack);
    getcontext(&there);
    there.uc_stack.ss_sp = stack;
    there.uc_stack.ss_size = sizeof stack;
    there.uc_link = &here;
    makecontext(&there, call, 0);
    swapcontext(&here, &there);
    printf("%-20s %5.1f KiB of %u\n", name, (double)taken() / KIB, most);
    if (number != CARTSUNDIAL_ACCEPTED || taken() > most * KIB) {
        printf("%s: answers %u, and may take %u KiB\n", name, (unsigned)number, most);
        failed = 1;
    }
}

int main(void)
{
    make_board();
    make_sheet(1);
    measure("plan", plan, 60);
    planned_len = (size_t)written[0];
    measure("plan_where", plan_where, 60);
    measure("plan_where, refused", plan_where_refused, 60);
    measure("script", write_script, 60);
    measure("read", read_header, 12);
    measure("judge", judge, 12);
    measure("write", write_header, 12);
    measure("check", check, 12);
    measure("audit", audit, 12);
    measure("sound", sound, 12);
    measure("sound_alone", sound_alone, 12);
    measure("audit_where", audit_where, 16);
    measure("lookup", lookup, 12);
    measure("id", id, 12);
    measure("command", command, 12);
    measure("route, 255 bridges", route, 22);
    measure("route, planned", route_planned, 12);
    measure("by ID, planned", sent_planned, 12);
    measure("annotate", annotate, 22);
    measure("follow", follow, 46);
    measure("annotate_end", annotate_end, 12);
    measure("index", make_index, 12);
    measure("index_sound", make_index_sound, 12);
    measure("index_alone", make_index_alone, 12);
    measure("find", find, 12);
    measure("label", label, 12);
    measure("ledger_open", ledger_open, 12);
    measure("ledger_count", ledger_count, 12);
    measure("ledger_complete", ledger_complete, 12);
    make_sheet(0);
    measure("route_from, 255 up", route_up, 46);
    measure("sender", sender, 12);
    measure("route_sent, 255 up", sent_request, 46);
    measure("by ID, 255 up", sent_by_id_up, 46);
    measure("by ID, 255 down", sent_by_id_down, 46);
    return failed;
}
