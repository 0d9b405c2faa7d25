/*
 * Plans document 01's board P10, looks its functions up, routes memory reads over the sheet, labels a trace that comes in two pieces, over
 * the sheet and by its index, judges the sheet as another firmware's, and matches completions with an open request.
 * examples/c/run builds it and compares what it prints.
 */
#include <inttypes.h>
#include <stdio.h>

#include "cartsundial.h"

static const uint8_t board[] = {
    0x01,
    /* host: buses 00 to FF, the low, high and I/O pool */
    0x00, 0x1E, 0x00, 0xFF, 0xF9, 0x00, 0x00, 0x00, 0xF9, 0xFF, 0xFF, 0xFF,
    0x00, 0x00, 0x00, 0x02, 0x40, 0x00, 0x00, 0x00, 0x00, 0x00, 0x00, 0x02, 0x7F, 0xFF, 0xFF, 0xFF,
    0x40, 0x00, 0x4F, 0xFF,
    /* record 1: a bridge on the root bus, memory and I/O enabled */
    0x00, 0x0E, 0x00, 0x00, 0x00, 0x01, 0x00, 0x03, 0x00, 0x00, 0x00, 0x00, 0x00, 0x00, 0x00, 0x00,
    /* record 2: a function below it, with a 4 KiB low, a 64 MiB high and a 256-byte I/O BAR */
    0x00, 0x1E, 0x00, 0x01, 0x00, 0x00, 0x00, 0x03, 0xFF, 0xFF, 0xF0, 0x00, 0xFC, 0x00, 0x00, 0x0C,
    0xFF, 0xFF, 0xFF, 0xFF, 0xFF, 0xFF, 0xFF, 0x01, 0x00, 0x00, 0x00, 0x00, 0x00, 0x00, 0x00, 0x00,
};

static const uint8_t trace[] = {
    0x01,
    /* a read of record 2's first BAR, an I/O write past its last, a broadcast message; each after its length */
    0x00, 0x0C, 0x00, 0x00, 0x00, 0x01, 0x00, 0x00, 0x05, 0x0F, 0xF9, 0x00, 0x0F, 0xFC,
    0x00, 0x0C, 0x42, 0x00, 0x00, 0x01, 0x00, 0x00, 0x06, 0x0F, 0x00, 0x00, 0x41, 0x00,
    0x00, 0x10, 0x33, 0x00, 0x00, 0x00, 0x00, 0x00, 0x00, 0x19, 0x00, 0x00, 0x00, 0x00, 0x00, 0x00, 0x00, 0x00,
};

static uint8_t sheet[CARTSUNDIAL_SHEET_BYTES];
static size_t sheet_len;
static uint8_t board_index[CARTSUNDIAL_INDEX_BYTES];

/* A four-byte read at an address below 4 GiB, built as numbers and written as a header. */
static uint32_t read_request(uint64_t address, uint8_t header[CARTSUNDIAL_HEADER_BYTES], size_t *header_len)
{
    uint64_t packet[CARTSUNDIAL_PACKET_NUMBERS] = {0};
    uint64_t written[1];
    uint32_t number;

    packet[CARTSUNDIAL_KIND] = CARTSUNDIAL_KIND_MRD;
    packet[CARTSUNDIAL_FORM] = 3;
    packet[CARTSUNDIAL_LENGTH] = 1;
    packet[CARTSUNDIAL_FIRST_ENABLES] = 0xF;
    packet[CARTSUNDIAL_ADDRESS] = address;
    number = cartsundial_write(packet, CARTSUNDIAL_PACKET_NUMBERS, header, CARTSUNDIAL_HEADER_BYTES, written, 1);
    if (number == CARTSUNDIAL_ACCEPTED)
        *header_len = (size_t)written[0];
    return number;
}

static void route_read(uint64_t address)
{
    uint8_t header[CARTSUNDIAL_HEADER_BYTES];
    uint64_t answer[CARTSUNDIAL_ROUTE_NUMBERS], id[1] = { 0 };
    size_t header_len = 0;
    uint32_t number = read_request(address, header, &header_len);

    if (number == CARTSUNDIAL_ACCEPTED)
        number = cartsundial_route(header, header_len, sheet, sheet_len, answer, CARTSUNDIAL_ROUTE_NUMBERS);
    if (number == CARTSUNDIAL_ACCEPTED)
        number = cartsundial_id(sheet, sheet_len, (uint32_t)answer[0], id, 1);
    if (number == CARTSUNDIAL_ACCEPTED)
        printf("read %08" PRIX64 ": record %" PRIu64 ", %02X:%02X.%X, bridges %" PRIu64 ", %s %08" PRIX64 "\n", address, answer[0],
               (unsigned)(id[0] >> 8), (unsigned)(id[0] >> 3 & 31), (unsigned)(id[0] & 7), answer[1],
               cartsundial_kind_name(answer[2 + CARTSUNDIAL_KIND]), answer[2 + CARTSUNDIAL_ADDRESS]);
    else
        printf("read %08" PRIX64 ": refused %" PRIu32 ": %s\n", address, number, cartsundial_refusal_words(number));
}

/* Registers 10h to 1Fh of a function, as configuration space has them: BARs, and of a bridge its buses and I/O window. */
static void print_registers(uint32_t id)
{
    uint64_t offset[1];
    uint32_t number = cartsundial_lookup(sheet, sheet_len, id, offset, 1);
    size_t i;

    if (number != CARTSUNDIAL_ACCEPTED) {
        printf("%04" PRIX32 ": refused %" PRIu32 "\n", id, number);
        return;
    }
    printf("%04" PRIX32 " at %" PRIu64 ":", id, offset[0]);
    for (i = 0x10; i < 0x20; i++)
        printf(" %02X", sheet[offset[0] + i]);
    printf("\n");
}

static void print_lines(uint32_t number, const uint8_t *lines, const uint64_t *written)
{
    if (number == CARTSUNDIAL_ACCEPTED)
        fwrite(lines, 1, (size_t)written[0], stdout);
    else
        printf("refused %" PRIu32 "\n", number);
}

/* The next piece of the trace: its lines, each with the last byte of its header. */
static void annotate(uint64_t *state, const uint8_t *piece, size_t piece_len)
{
    uint8_t lines[3 * CARTSUNDIAL_LINE_BYTES];
    uint64_t written[1];
    uint32_t number = cartsundial_annotate(state, CARTSUNDIAL_TRACE_NUMBERS, sheet, sheet_len, piece, piece_len,
                                           lines, sizeof lines, written, 1);

    print_lines(number, lines, written);
}

/* The same by the index. */
static void label(uint64_t *state, const uint8_t *piece, size_t piece_len)
{
    uint8_t lines[3 * CARTSUNDIAL_LINE_BYTES];
    uint64_t written[1];
    uint32_t number = cartsundial_label(state, CARTSUNDIAL_TRACE_NUMBERS, board_index, sizeof board_index, piece, piece_len,
                                        lines, sizeof lines, written, 1);

    print_lines(number, lines, written);
}

/* The sheet judged for the board's host record. */
static void audit(const char *when)
{
    uint32_t number = cartsundial_audit(board + CARTSUNDIAL_HOST_OFFSET, CARTSUNDIAL_HOST_BYTES, sheet, sheet_len);

    printf("audit, %s: %" PRIu32 ", %s\n", when, number, cartsundial_refusal_words(number));
}

/* The line that the trace gets if it ends here. */
static void annotate_end(const uint64_t *state)
{
    uint8_t lines[CARTSUNDIAL_LINE_BYTES];
    uint64_t written[1];
    uint32_t number = cartsundial_annotate_end(state, CARTSUNDIAL_TRACE_NUMBERS, lines, sizeof lines, written, 1);

    print_lines(number, lines, written);
}

/* A read of two dwords, and a completion with one of them, given three times. */
static void match(void)
{
    static const uint8_t request[] = { 0x00, 0x00, 0x00, 0x02, 0x00, 0x00, 0x07, 0xFF, 0xF9, 0x00, 0x00, 0x00 };
    static const uint8_t completion[] = { 0x4A, 0x00, 0x00, 0x01, 0x01, 0x00, 0x00, 0x08, 0x00, 0x00, 0x07, 0x00 };
    uint64_t ledger[CARTSUNDIAL_LEDGER_NUMBERS] = { 0 }, open[1] = { 0 };
    uint32_t number = cartsundial_ledger_open(ledger, CARTSUNDIAL_LEDGER_NUMBERS, request, sizeof request);
    int i;

    printf("opened: %" PRIu32 "\n", number);
    for (i = 0; i < 3; i++) {
        number = cartsundial_ledger_complete(ledger, CARTSUNDIAL_LEDGER_NUMBERS, completion, sizeof completion);
        printf("completed: %" PRIu32, number);
        if (cartsundial_ledger_count(ledger, CARTSUNDIAL_LEDGER_NUMBERS, open, 1) == CARTSUNDIAL_ACCEPTED)
            printf(", open %" PRIu64 "\n", open[0]);
    }
}

int main(void)
{
    uint64_t written[1], state[CARTSUNDIAL_TRACE_NUMBERS] = { 0 }, again[CARTSUNDIAL_TRACE_NUMBERS] = { 0 };
    uint32_t number = cartsundial_plan(board, sizeof board, sheet, sizeof sheet, written, 1);

    if (cartsundial_version() != CARTSUNDIAL_VERSION_NUMBER) {
        printf("the archive is of another version than cartsundial.h\n");
        return 1;
    }
    if (number != CARTSUNDIAL_ACCEPTED) {
        printf("refused %" PRIu32 "\n", number);
        return 1;
    }
    sheet_len = (size_t)written[0];
    printf("planned: %zu bytes, check %" PRIu32 "\n", sheet_len, cartsundial_check(sheet, sheet_len));
    print_registers(0x0000);
    print_registers(0x0100);
    print_registers(0x10000);
    route_read(0xF9000FFC);
    route_read(0xF9001000);

    /* the trace in two pieces; the cut falls in the second header */
    annotate(state, trace, 20);
    printf("if it ended here: ");
    annotate_end(state);
    annotate(state, trace + 20, sizeof trace - 20);
    annotate_end(state);

    /* the same lines by an index of the sheet, built once; another cut */
    number = cartsundial_index(board + CARTSUNDIAL_HOST_OFFSET, CARTSUNDIAL_HOST_BYTES, sheet, sheet_len, board_index, sizeof board_index);
    printf("index: %" PRIu32 "\n", number);
    label(again, trace, 2);
    label(again, trace + 2, sizeof trace - 2);
    annotate_end(again);

    /* memory switched off at the bridge: nobody below it has an address */
    number = cartsundial_command(sheet, sheet_len, 0x0000, 0x0001);
    printf("command 0001 at 0000: %" PRIu32 "\n", number);
    route_read(0xF9000FFC);

    /* enabled or not, all is in its place; then the first BAR of record 2 moves 1 MiB on, past the window of the bridge above */
    audit("as planned");
    sheet[CARTSUNDIAL_RECORDS_OFFSET + CARTSUNDIAL_RECORD_BYTES + CARTSUNDIAL_REGISTERS_OFFSET + 0x12] = 0x10;
    audit("a BAR moved");

    match();
    return 0;
}
