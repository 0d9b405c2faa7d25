/*
 * The router's word on every address that was asked: over the registers that were read back, a read goes to the card that answered with its
 * mark, over as many bridges as are above it, and where nobody answered it is refused. The same by the index, and from a card.
 */
#include "boot.h"

static uint8_t table[CARTSUNDIAL_INDEX_BYTES];
static const uint8_t *registers;
static size_t registers_len;

/* A read of one dword, as the bytes of its header. */
static size_t read_header(bool io, uint64_t address, uint8_t header[CARTSUNDIAL_HEADER_BYTES])
{
    uint64_t packet[CARTSUNDIAL_PACKET_NUMBERS] = { 0 }, written[1];

    packet[CARTSUNDIAL_KIND] = io ? CARTSUNDIAL_IORD : CARTSUNDIAL_MRD;
    packet[CARTSUNDIAL_FORM] = address >> 32 != 0 ? 4 : 3;
    packet[CARTSUNDIAL_LENGTH] = 1;
    packet[CARTSUNDIAL_REQUESTER] = REQUESTER;
    packet[CARTSUNDIAL_FIRST_ENABLES] = 0xF;
    packet[CARTSUNDIAL_ADDRESS] = address;
    if (cartsundial_write(packet, CARTSUNDIAL_PACKET_NUMBERS, header, CARTSUNDIAL_HEADER_BYTES, written, 1) != CARTSUNDIAL_ACCEPTED)
        fail("no read of %016lX is written", address);
    return (size_t)written[0];
}

/* A type 0 function other than this one that may send requests, 0 for none. */
static unsigned other_card(unsigned record)
{
    unsigned other;

    for (other = function_count; other > 0; other--)
        if (other != record && !is_bridge(&functions[other]) && (functions[other].command & BUS_MASTER))
            break;
    return other;
}

static unsigned bridges_above(unsigned record)
{
    unsigned count = 0;

    while ((record = functions[record].parent) != 0)
        count++;
    return count;
}

/* record: whose address it is, 0 for nobody's. */
static void route_read(bool io, uint64_t address, unsigned record)
{
    uint8_t header[CARTSUNDIAL_HEADER_BYTES];
    uint64_t answer[3][CARTSUNDIAL_ROUTE_NUMBERS];
    size_t length = read_header(io, address, header);
    uint32_t expected = record != 0 ? CARTSUNDIAL_ACCEPTED : CARTSUNDIAL_E_NO_OWNER;
    unsigned from = other_card(record);

    if (cartsundial_route(header, length, registers, registers_len, answer[0], CARTSUNDIAL_ROUTE_NUMBERS) != expected
        || cartsundial_find(header, length, table, sizeof table, answer[1], CARTSUNDIAL_ROUTE_NUMBERS) != expected)
        fail("a read of %016lX is not routed as record %u answers", address, record);
    if (record == 0)
        return;
    if (answer[0][0] != record || answer[0][1] != bridges_above(record) || answer[1][0] != record || answer[1][1] != answer[0][1])
        fail("a read of %016lX goes to record %u, and record %u answers", address, (unsigned)answer[0][0], record);
    if (from != 0 && (cartsundial_route_from(from, header, length, registers, registers_len, answer[2], CARTSUNDIAL_ROUTE_NUMBERS)
                      != CARTSUNDIAL_ACCEPTED || answer[2][0] != record))
        fail("from record %u a read of %016lX does not go to record %u", from, address, record);
}

void route_all(const uint8_t *sheet, size_t sheet_len)
{
    unsigned i;

    registers = sheet;
    registers_len = sheet_len;
    stack_paint();
    if (cartsundial_index(board + 3, CARTSUNDIAL_HOST_BYTES, sheet, sheet_len, table, sizeof table) != CARTSUNDIAL_ACCEPTED)
        fail("there is no index");
    stack_hold("cartsundial_index", OTHER_STACK);
    stack_paint();
    for (i = 0; i < bar_count; i++) {
        route_read(bars[i].io, bars[i].address, bars[i].record);
        route_read(bars[i].io, bars[i].address + bars[i].size - 4, bars[i].record);
    }
    for (i = 0; i < hole_count; i++)
        route_read(holes[i].io, holes[i].address, 0);
    stack_hold("cartsundial_write, route, route_from, find", OTHER_STACK);
    print("routed: reads of %u BARs and %u holes\n", bar_count, hole_count);
}
