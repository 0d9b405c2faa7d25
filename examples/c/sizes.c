/*
 * Asks the calls whether the constants of cartsundial.h are right: the largest board, sheet, script and index have those sizes, one element
 * less is too short, and what has a place is there. How the constants hang together is checked when this is compiled.
 */
#include <stdio.h>
#include <string.h>

#include "cartsundial.h"

#define HOLDS(name, condition) typedef char name[(condition) ? 1 : -1]

enum {
    CARD_BYTES = 32,                   /* records of a board, with their lengths */
    BRIDGE_BYTES = 16,
    BRIDGES = 255,                     /* so many bridges have buses, and the most writes */
    CARDS = CARTSUNDIAL_FUNCTIONS - BRIDGES,
    FRONT = CARTSUNDIAL_HOST_OFFSET + CARTSUNDIAL_HOST_BYTES,
    SHORT = CARTSUNDIAL_E_SHORT_ROOM
};

HOLDS(a_board, CARTSUNDIAL_BOARD_BYTES == FRONT + CARTSUNDIAL_FUNCTIONS * CARD_BYTES);
HOLDS(a_sheet, CARTSUNDIAL_SHEET_BYTES == CARTSUNDIAL_RECORDS_OFFSET + CARTSUNDIAL_FUNCTIONS * CARTSUNDIAL_RECORD_BYTES);
HOLDS(registers, CARTSUNDIAL_READ_BACKS_OFFSET == CARTSUNDIAL_REGISTERS_OFFSET + CARTSUNDIAL_REGISTER_BYTES);
HOLDS(read_backs, CARTSUNDIAL_RECORD_BYTES == CARTSUNDIAL_READ_BACKS_OFFSET + 6 * 4);
HOLDS(a_script, CARTSUNDIAL_SCRIPT_BYTES == CARTSUNDIAL_SCRIPT_WRITES * CARTSUNDIAL_SCRIPT_WRITE_BYTES);
HOLDS(writes, CARTSUNDIAL_SCRIPT_WRITES == BRIDGES * (1 + 2 + 5 + 1) + CARDS * (6 + 1));
HOLDS(a_write, CARTSUNDIAL_SCRIPT_WRITE_BYTES == CARTSUNDIAL_WRITE_DATA_OFFSET + 4);
HOLDS(an_index, CARTSUNDIAL_INDEX_BYTES == CARTSUNDIAL_INDEX_FRONT_BYTES + CARTSUNDIAL_FUNCTIONS * CARTSUNDIAL_INDEX_FUNCTION_BYTES);
HOLDS(a_route, CARTSUNDIAL_ROUTE_NUMBERS == 2 + CARTSUNDIAL_PACKET_NUMBERS);
HOLDS(any_route, CARTSUNDIAL_ANY_ROUTE_NUMBERS == CARTSUNDIAL_ROUTE_NUMBERS + CARTSUNDIAL_FUNCTIONS);
HOLDS(both_ends, CARTSUNDIAL_SENT_NUMBERS == CARTSUNDIAL_SENT_PACKET + CARTSUNDIAL_PACKET_NUMBERS);
HOLDS(any_ends, CARTSUNDIAL_ANY_SENT_NUMBERS == CARTSUNDIAL_SENT_LIST + CARTSUNDIAL_FUNCTIONS);

static uint8_t board[CARTSUNDIAL_BOARD_BYTES + CARD_BYTES], sheet[CARTSUNDIAL_SHEET_BYTES], script[CARTSUNDIAL_SCRIPT_BYTES];
static uint8_t index_bytes[CARTSUNDIAL_INDEX_BYTES], lines[CARTSUNDIAL_LINE_BYTES];
static uint64_t answer[CARTSUNDIAL_ANY_SENT_NUMBERS], ledger[CARTSUNDIAL_LEDGER_NUMBERS], written[1];
static size_t board_len;
static int asked, failed;

static const uint8_t broadcast[] = { 0x33, 0, 0, 0, 0, 0, 0, 0x19, 0, 0, 0, 0, 0, 0, 0, 0 };
static const uint8_t request[] = { 0x20, 0, 0, 0x01, 0, 0, 0x05, 0x0F, 0, 0, 0, 0x02, 0, 0, 0, 0 };

/* What a call, or something in its answer, has to be. */
static void expect(const char *what, uint64_t is, uint64_t wanted)
{
    asked++;
    if (is == wanted)
        return;
    failed = 1;
    printf("examples/c/sizes.c: %s is %lu, and not %lu\n", what, (unsigned long)is, (unsigned long)wanted);
}

/* ---- boards ---- */

/* A host with all buses and 2 GiB of low memory. */
static void start_board(void)
{
    static const uint8_t front[FRONT] = { 0x01, 0x00, 0x1E, 0x00, 0xFF, 0x80, 0x00, 0x00, 0x00, 0xFF, 0xFF, 0xFF, 0xFF,
                                          0xFF, 0xFF, 0xFF, 0xFF, 0xFF, 0xFF, 0xFF, 0xFF, 0, 0, 0, 0, 0, 0, 0, 0, 0xFF, 0xFF, 0, 0 };

    memcpy(board, front, sizeof front);
    board_len = sizeof front;
}

/* A function, enabled, with BARs of 128 bytes in all of its slots. */
static void add(unsigned parent, unsigned device_function, int is_bridge)
{
    uint8_t *record = board + board_len;
    int slot, slots = is_bridge ? 2 : 6;

    board_len += is_bridge ? BRIDGE_BYTES : CARD_BYTES;
    memset(record, 0xFF, (size_t)(board + board_len - record));
    record[0] = 0;
    record[1] = is_bridge ? BRIDGE_BYTES - 2 : CARD_BYTES - 2;
    record[2] = (uint8_t)(parent >> 8);
    record[3] = (uint8_t)parent;
    record[4] = (uint8_t)device_function;
    record[5] = is_bridge ? 0x81 : 0x80;
    record[6] = 0;
    record[7] = 0x07;
    for (slot = 0; slot < slots; slot++)
        record[8 + 4 * slot + 3] = 0x80;
}

/* As many functions and as many writes as there can be: bridges on the root bus with a card below each, and two cards more. */
static void make_full_board(void)
{
    unsigned bridge;

    start_board();
    for (bridge = 0; bridge < BRIDGES; bridge++) {
        add(0, bridge, 1);
        add(2 * bridge + 1, 0, 0);
    }
    add(2 * BRIDGES - 1, 8, 0);
    add(0, BRIDGES, 0);
}

/* Bridges in a row, so many, and a card below the last. */
static uint32_t plan_row(unsigned bridges)
{
    unsigned bridge;

    start_board();
    for (bridge = 0; bridge < bridges; bridge++)
        add(bridge, 0, 1);
    add(bridges, 0, 0);
    return cartsundial_plan(board, board_len, sheet, sizeof sheet, written, 1);
}

/* ---- what is asked ---- */

static void ask_boards(void)
{
    int card;

    /* a board of the greatest length and not too many functions; that its cards do not rise is found later */
    start_board();
    for (card = 0; card < CARTSUNDIAL_FUNCTIONS; card++)
        add(0, 0, 0);
    expect("the length of 512 cards", board_len, CARTSUNDIAL_BOARD_BYTES);
    expect("a plan of 512 cards of one number", cartsundial_plan(board, board_len, sheet, sizeof sheet, written, 1), CARTSUNDIAL_E_ORDER);
    add(0, 0, 0);
    expect("a plan of 513", cartsundial_plan(board, board_len, sheet, sizeof sheet, written, 1), CARTSUNDIAL_E_TOO_MANY_FUNCTIONS);
    expect("a plan with 32 bridges above", plan_row(CARTSUNDIAL_BRIDGES_ABOVE), CARTSUNDIAL_ACCEPTED);
    expect("a plan with 33", plan_row(CARTSUNDIAL_BRIDGES_ABOVE + 1), CARTSUNDIAL_E_ORDER);
}

static void ask_plan(void)
{
    make_full_board();
    expect("a plan without its last byte", cartsundial_plan(board, board_len, sheet, sizeof sheet - 1, written, 1), SHORT);
    expect("a plan of 512 functions", cartsundial_plan(board, board_len, sheet, sizeof sheet, written, 1), CARTSUNDIAL_ACCEPTED);
    expect("what it needs", cartsundial_plan_where(board, board_len, answer, CARTSUNDIAL_PLAN_WHO_NUMBERS), CARTSUNDIAL_ACCEPTED);
    expect("what it needs, too short", cartsundial_plan_where(board, board_len, answer, CARTSUNDIAL_NEEDS_IO), SHORT);
    expect("the sheet's length", written[0], CARTSUNDIAL_SHEET_BYTES);
    expect("a script without its last byte", cartsundial_script(board, board_len, 0, 0, script, sizeof script - 1, written, 1), SHORT);
    expect("its script", cartsundial_script(board, board_len, 0, 0, script, sizeof script, written, 1), CARTSUNDIAL_ACCEPTED);
    expect("the script's length", written[0], CARTSUNDIAL_SCRIPT_BYTES);
}

/* Each record of the full sheet: its ID and its registers, and of a card the last read-back. */
static void ask_records(void)
{
    uint32_t record;

    for (record = 1; record <= CARTSUNDIAL_FUNCTIONS; record++) {
        size_t at = CARTSUNDIAL_RECORDS_OFFSET + CARTSUNDIAL_RECORD_BYTES * (size_t)(record - 1);
        const uint8_t *id = sheet + at + CARTSUNDIAL_ID_OFFSET;
        int is_card = sheet[at + CARTSUNDIAL_REGISTERS_OFFSET + 0x0E] == 0x80;

        expect("an ID", cartsundial_id(sheet, sizeof sheet, record, written, 1), CARTSUNDIAL_ACCEPTED);
        expect("the ID's bytes", (uint64_t)id[0] << 8 | id[1], written[0]);
        expect("a lookup", cartsundial_lookup(sheet, sizeof sheet, (uint32_t)written[0], written, 1), CARTSUNDIAL_ACCEPTED);
        expect("the registers' place", written[0], at + CARTSUNDIAL_REGISTERS_OFFSET);
        expect("the last read-back", sheet[at + CARTSUNDIAL_READ_BACKS_OFFSET + 23], is_card ? 0x80 : 0);
    }
}

static void ask_script(void)
{
    const uint8_t *last = script + sizeof script - CARTSUNDIAL_SCRIPT_WRITE_BYTES;
    uint64_t packet[CARTSUNDIAL_PACKET_NUMBERS];

    expect("the last write", cartsundial_read(last + CARTSUNDIAL_WRITE_HEADER_OFFSET, 12, packet, CARTSUNDIAL_PACKET_NUMBERS),
           CARTSUNDIAL_ACCEPTED);
    expect("its kind", packet[CARTSUNDIAL_KIND], CARTSUNDIAL_KIND_CFGWR0);
    expect("its data", last[CARTSUNDIAL_WRITE_DATA_OFFSET], 0x07);
    expect("a packet of 19 numbers", cartsundial_read(request, sizeof request, packet, CARTSUNDIAL_PACKET_NUMBERS - 1), SHORT);
    expect("a header", cartsundial_read(request, sizeof request, packet, CARTSUNDIAL_PACKET_NUMBERS), CARTSUNDIAL_ACCEPTED);
    expect("15 bytes", cartsundial_write(packet, CARTSUNDIAL_PACKET_NUMBERS, lines, CARTSUNDIAL_HEADER_BYTES - 1, written, 1), SHORT);
    expect("16", cartsundial_write(packet, CARTSUNDIAL_PACKET_NUMBERS, lines, CARTSUNDIAL_HEADER_BYTES, written, 1), 0);
    expect("its length", written[0], CARTSUNDIAL_HEADER_BYTES);
}

static void ask_routes(void)
{
    const uint8_t *host = board + CARTSUNDIAL_HOST_OFFSET;
    uint8_t read_request[12] = { 0x00, 0, 0, 0x01, 0, 0, 0x05, 0x0F, 0x80, 0, 0, 0 }, empty[] = { 1 };
    size_t all = CARTSUNDIAL_ANY_ROUTE_NUMBERS, one = CARTSUNDIAL_ROUTE_NUMBERS;

    expect("a route", cartsundial_route(read_request, 12, sheet, sizeof sheet, answer, one), CARTSUNDIAL_ACCEPTED);
    expect("a route of 21 numbers", cartsundial_route(read_request, 12, sheet, sizeof sheet, answer, one - 1), SHORT);
    expect("a broadcast", cartsundial_route(broadcast, sizeof broadcast, sheet, sizeof sheet, answer, all), CARTSUNDIAL_ACCEPTED);
    expect("a broadcast, too short", cartsundial_route(broadcast, sizeof broadcast, sheet, sizeof sheet, answer, all - 1), SHORT);
    expect("both ends", cartsundial_route_sent(0, read_request, 12, sheet, sizeof sheet, answer, CARTSUNDIAL_SENT_NUMBERS), 0);
    expect("both ends in 23 numbers",
           cartsundial_route_sent(0, read_request, 12, sheet, sizeof sheet, answer, CARTSUNDIAL_SENT_NUMBERS - 1), SHORT);
    expect("a broadcast's ends",
           cartsundial_route_sent(0, broadcast, sizeof broadcast, sheet, sizeof sheet, answer, CARTSUNDIAL_ANY_SENT_NUMBERS), 0);
    expect("where it goes", answer[CARTSUNDIAL_SENT_TO], CARTSUNDIAL_TO_EVERY);
    expect("its last record", answer[CARTSUNDIAL_ANY_SENT_NUMBERS - 1], CARTSUNDIAL_FUNCTIONS);
    expect("a broadcast's ends, too short",
           cartsundial_route_sent(0, broadcast, sizeof broadcast, sheet, sizeof sheet, answer, CARTSUNDIAL_ANY_SENT_NUMBERS - 1), SHORT);
    expect("a sender", cartsundial_sender(0xFFFF, read_request, 12, sheet, sizeof sheet, written, 1), CARTSUNDIAL_ACCEPTED);
    expect("a sender, no room", cartsundial_sender(0xFFFF, read_request, 12, sheet, sizeof sheet, written, 0), SHORT);
    expect("a host ID above FFFFh", cartsundial_sender(0x10000, read_request, 12, sheet, sizeof sheet, written, 0), 10);
    expect("an index", cartsundial_index(host, CARTSUNDIAL_HOST_BYTES, sheet, sizeof sheet, index_bytes, sizeof index_bytes), 0);
    expect("an index, too short",
           cartsundial_index(host, CARTSUNDIAL_HOST_BYTES, sheet, sizeof sheet, index_bytes, sizeof index_bytes - 1), SHORT);
    expect("an index of no functions",
           cartsundial_index(host, CARTSUNDIAL_HOST_BYTES, empty, 1, index_bytes, CARTSUNDIAL_INDEX_FRONT_BYTES), CARTSUNDIAL_ACCEPTED);
    expect("one too short",
           cartsundial_index(host, CARTSUNDIAL_HOST_BYTES, empty, 1, index_bytes, CARTSUNDIAL_INDEX_FRONT_BYTES - 1), SHORT);
    expect("who", cartsundial_audit_where(host, CARTSUNDIAL_HOST_BYTES, sheet, sizeof sheet, answer, CARTSUNDIAL_WHO_NUMBERS), 0);
    expect("who, too short",
           cartsundial_audit_where(host, CARTSUNDIAL_HOST_BYTES, sheet, sizeof sheet, answer, CARTSUNDIAL_WHO_NUMBERS - 1), SHORT);
}

/* The longest number of a record, and a ledger. */
static void ask_states(void)
{
    uint64_t state[CARTSUNDIAL_TRACE_NUMBERS] = { 2, 0, UINT64_MAX - 1, 0, 0, 0 };
    static const uint8_t piece[] = { 0, 12, 0x4B, 0, 0, 0x01, 0, 0, 0, 0x04, 0xFF, 0xFF, 0x05, 0 };

    expect("a trace's five numbers", cartsundial_annotate(state, CARTSUNDIAL_TRACE_NUMBERS - 1, sheet, sizeof sheet, piece, sizeof piece,
           lines, sizeof lines, written, 1), SHORT);
    expect("its six", cartsundial_annotate(state, CARTSUNDIAL_TRACE_NUMBERS, sheet, sizeof sheet, piece, sizeof piece,
           lines, sizeof lines, written, 1), CARTSUNDIAL_ACCEPTED);
    expect("255 places", cartsundial_ledger_open(ledger, CARTSUNDIAL_LEDGER_NUMBERS - 1, request, sizeof request), SHORT);
    expect("256", cartsundial_ledger_open(ledger, CARTSUNDIAL_LEDGER_NUMBERS, request, sizeof request), CARTSUNDIAL_ACCEPTED);
}

int main(void)
{
    ask_boards();
    ask_plan();
    ask_records();
    ask_script();
    ask_routes();
    ask_states();
    if (!failed)
        printf("examples/c: the header's constants are those of the calls, asked %d times\n", asked);
    return failed;
}
