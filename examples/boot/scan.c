/*
 * What is there: every function in the planner's order, depth first and rising, with the read-backs of its BARs. Bus numbers are given on
 * the way down and stay until clear().
 */
#include "boot.h"

struct function functions[MAX_FUNCTIONS + 1];
unsigned function_count;
uint8_t board[BOARD_BYTES];
size_t board_len;

static unsigned last_bus, bus_limit;

bool is_bridge(const struct function *function)
{
    return (function->header_type & 0x7F) == 1;
}

unsigned record_with_id(unsigned id)
{
    unsigned record;

    for (record = function_count; record > 0 && functions[record].id != id; record--)
        ;
    return record;
}

static unsigned header_type(unsigned id)
{
    return config_read(id, CACHE_LINE) >> 16 & 0xFF;
}

/* The next function of a bus from an ID on, NOBODY after the last. Functions 1 to 7 are looked for where function 0 says that there are. */
static unsigned next_function(unsigned bus, unsigned from)
{
    unsigned device_function;

    for (device_function = from; device_function < 256; device_function++) {
        unsigned id = bus << 8 | device_function, first = id & ~7u;

        if (id != first && ((config_read(first, 0) & 0xFFFF) == NOBODY || !(header_type(first) & 0x80)))
            device_function |= 7;
        else if ((config_read(id, 0) & 0xFFFF) != NOBODY)
            return id;
        else if (id == first)
            device_function |= 7;
    }
    return NOBODY;
}

/* Nothing on the bus answers an address or passes anything on. Before any bridge is opened: numbers that were left there lead astray. */
static void silence(unsigned bus)
{
    unsigned id;

    for (id = next_function(bus, 0); id != NOBODY; id = next_function(bus, (id & 0xFF) + 1)) {
        config_write(id, COMMAND, 0, BYTES_10);
        if ((header_type(id) & 0x7F) == 1)
            config_write(id, BUSES, 0, BYTES_210);
    }
}

static void size_bars(struct function *function)
{
    unsigned slot, slots = is_bridge(function) ? 2 : 6;

    for (slot = 0; slot < slots; slot++) {
        config_write(function->id, BAR + 4 * slot, 0xFFFFFFFF, ALL_BYTES);
        function->readback[slot] = config_read(function->id, BAR + 4 * slot);
        config_write(function->id, BAR + 4 * slot, 0, ALL_BYTES);
    }
}

/* The command word that is to be written: what the BARs need, and bus master; a bridge passes everything on. */
static uint16_t command_for(const struct function *function)
{
    uint16_t command = 0;
    unsigned slot;

    if (is_bridge(function))
        return IO_ENABLE | MEMORY_ENABLE | BUS_MASTER;
    for (slot = 0; slot < 6; slot++) {
        uint32_t readback = function->readback[slot];

        if (readback != 0)
            command |= BUS_MASTER | (readback & 1 ? IO_ENABLE : MEMORY_ENABLE);
        if ((readback & 7) == 4)
            slot++;
    }
    return command;
}

static unsigned add_function(unsigned id, unsigned parent)
{
    struct function *function;

    if (function_count == MAX_FUNCTIONS)
        fail("over %u functions", (unsigned)MAX_FUNCTIONS);
    function = &functions[++function_count];
    *function = (struct function){ .parent = parent, .id = id, .vendor_device = config_read(id, 0) };
    function->header_type = (uint8_t)header_type(id);
    size_bars(function);
    function->command = command_for(function);
    return function_count;
}

static void set_buses(unsigned id, unsigned secondary, unsigned subordinate)
{
    config_write(id, BUSES, id >> 8 | secondary << 8 | subordinate << 16, BYTES_210);
}

/* A slot that takes a card while the machine runs (PCI Express capability: slot, hot plug). */
static bool takes_cards_later(unsigned id)
{
    unsigned express = capability(id, 0x10);

    return express != 0 && (config_read(id, express) & 0x01000000) && (config_read(id, express + 0x14) & 0x40);
}

static void scan_bus(unsigned bus, unsigned parent);

static void scan_below(unsigned record)
{
    struct function *bridge = &functions[record];
    unsigned secondary = ++last_bus;

    if (last_bus > bus_limit)            /* the planner says 30 */
        return;
    set_buses(bridge->id, secondary, bus_limit);
    scan_bus(secondary, record);
    set_buses(bridge->id, secondary, last_bus < bus_limit ? last_bus : bus_limit);
    if (SPARES && function_count == record && takes_cards_later(bridge->id)) {
        bridge->spare_buses = SPARE_BUSES;
        bridge->spare_mib = SPARE_MIB;
    }
}

static void scan_bus(unsigned bus, unsigned parent)
{
    unsigned id;

    silence(bus);
    for (id = next_function(bus, 0); id != NOBODY; id = next_function(bus, (id & 0xFF) + 1)) {
        unsigned record = add_function(id, parent);

        if (is_bridge(&functions[record]))
            scan_below(record);
    }
}

void scan(const struct host *host)
{
    function_count = 0;
    last_bus = host->first_bus;
    bus_limit = host->last_bus;
    scan_bus(host->first_bus, 0);
}

static void clear_function(const struct function *function)
{
    unsigned offset, end = is_bridge(function) ? BUSES : BAR + 24;

    config_write(function->id, COMMAND, 0, BYTES_10);
    for (offset = BAR; offset < end; offset += 4)
        config_write(function->id, offset, 0, ALL_BYTES);
    config_write(function->id, is_bridge(function) ? BRIDGE_ROM : ROM, 0, ALL_BYTES);
    if (!is_bridge(function))
        return;
    config_write(function->id, IO_WINDOW, 0, BYTES_10);
    for (offset = LOW_WINDOW; offset <= IO_UPPER; offset += 4)
        config_write(function->id, offset, 0, ALL_BYTES);
    config_write(function->id, INTERRUPT, 0, BYTES_32);         /* bridge control */
    config_write(function->id, BUSES, 0, BYTES_210);
}

/* From the last record to the first, so that the way to each is still there. */
void clear(void)
{
    unsigned record;

    for (record = function_count; record > 0; record--)
        clear_function(&functions[record]);
}

/* ---- the board's bytes: docs/FORMATS.md, the board ---- */

static void put_number(uint64_t value, unsigned bytes)
{
    while (bytes-- > 0)
        board[board_len++] = (uint8_t)(value >> 8 * bytes);
}

static void put_host(const struct host *host)
{
    put_number(CARTSUNDIAL_HOST_BYTES, 2);
    put_number(host->first_bus, 1);
    put_number(host->last_bus, 1);
    put_number(host->low_first, 4);
    put_number(host->low_last, 4);
    put_number(host->high_first, 8);
    put_number(host->high_last, 8);
    put_number(host->io_first, 2);
    put_number(host->io_last, 2);
}

static void put_function(const struct function *function)
{
    unsigned slot, slots = is_bridge(function) ? 2 : 6;

    put_number(!is_bridge(function) ? 30 : SPARES ? 17 : 14, 2);
    put_number(function->parent, 2);
    put_number(function->id & 0xFF, 1);
    put_number(function->header_type, 1);
    put_number(function->command, 2);
    for (slot = 0; slot < slots; slot++)
        put_number(function->readback[slot], 4);
    if (is_bridge(function) && SPARES) {
        put_number(function->spare_buses, 1);
        put_number(function->spare_mib, 2);
    }
}

void write_board(const struct host *host)
{
    unsigned record;
    size_t start;

    board_len = 0;
    put_number(SPARES ? 2 : 1, 1);
    put_host(host);
    print_bytes("board: ", board, board_len);
    for (record = 1; record <= function_count; record++) {
        start = board_len;
        put_function(&functions[record]);
        print_bytes("board: ", board + start, board_len - start);
    }
}
