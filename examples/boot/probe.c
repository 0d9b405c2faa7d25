/*
 * Who answers: after every write each BAR's planned address is read, and places where nobody is to be. An address must give its owner's
 * mark or nothing; exactly, the mark where the owner and all bridges above it have their command words, and nothing anywhere else.
 */
#include "boot.h"

struct hole holes[MAX_HOLES];
unsigned hole_count;
static unsigned switched_off;

/* ---- what the plan says ---- */

static uint32_t register_of(const uint8_t *sheet, unsigned record, unsigned offset)
{
    const uint8_t *byte = sheet + 92 * record - 87 + offset;

    return byte[0] | (uint32_t)byte[1] << 8 | (uint32_t)byte[2] << 16 | (uint32_t)byte[3] << 24;
}

static uint64_t planned_address(const struct bar *bar, const uint8_t *sheet)
{
    uint32_t value = register_of(sheet, bar->record, BAR + 4 * bar->slot);

    if (bar->io)
        return value & ~3u;
    return (value & ~15u) | (bar->wide ? (uint64_t)register_of(sheet, bar->record, BAR + 4 * bar->slot + 4) << 32 : 0);
}

static bool in_some_bar(bool io, uint64_t address)
{
    unsigned i;

    for (i = 0; i < bar_count; i++)
        if (bars[i].io == io && address - bars[i].address < bars[i].size)
            return true;
    return false;
}

static bool in_a_pool(const struct host *host, bool io, uint64_t address)
{
    if (io)
        return address >= host->io_first && address <= host->io_last;
    return (address >= host->low_first && address <= host->low_last) || (address >= host->high_first && address <= host->high_last);
}

static void add_hole(const struct host *host, bool io, uint64_t address)
{
    if (hole_count < MAX_HOLES && in_a_pool(host, io, address) && !in_some_bar(io, address))
        holes[hole_count++] = (struct hole){ .io = io, .address = address };
}

/* Before and after every BAR, 1 MiB after it (4 KiB for I/O), and the ends of the pools. */
static void find_holes(const struct host *host)
{
    unsigned i;

    hole_count = 0;
    for (i = 0; i < bar_count; i++) {
        uint64_t end = bars[i].address + bars[i].size;

        add_hole(host, bars[i].io, bars[i].address - 4);
        add_hole(host, bars[i].io, end);
        add_hole(host, bars[i].io, end + (bars[i].io ? 0x1000 : 0x100000));
    }
    add_hole(host, false, host->low_first);
    add_hole(host, false, host->low_last & ~3u);
    add_hole(host, false, host->high_first);
    add_hole(host, false, host->high_last & ~(uint64_t)3);
    add_hole(host, true, host->io_first);
    add_hole(host, true, host->io_last & ~3u);
}

void know_plan(const struct host *host, const uint8_t *sheet)
{
    unsigned record, i;

    for (record = 1; record <= function_count; record++)
        functions[record].id = (unsigned)sheet[92 * record - 89] << 8 | sheet[92 * record - 88];
    for (i = 0; i < bar_count; i++)
        bars[i].address = planned_address(&bars[i], sheet);
    find_holes(host);
    switched_off = 0;
    print("probes: %u BARs, %u holes\n", bar_count, hole_count);
}

/* ---- reading ---- */

static uint32_t empty_value(bool io, unsigned width)
{
    uint32_t value = io ? empty_io : empty_memory;

    return width == 1 ? value & 0xFF : width == 2 ? value & 0xFFFF : value;
}

/* Whether a BAR is to answer: its function and every bridge above have the command word of its space, and none is switched off. */
static bool answers(const struct bar *bar, unsigned commanded)
{
    unsigned record, bit = bar->io ? IO_ENABLE : MEMORY_ENABLE;

    for (record = bar->record; record != 0; record = functions[record].parent)
        if (record > commanded || record == switched_off || !(functions[record].command & bit))
            return false;
    return true;
}

static void probe_bar(const struct bar *bar, unsigned commanded, bool exact)
{
    uint32_t found = address_read(bar->io, bar->address + bar->offset, bar->width);
    bool heard = (found & bar->mask) == bar->mark, silent = found == empty_value(bar->io, bar->width);

    if (exact ? (answers(bar, commanded) ? !heard : !silent) : !heard && !silent)
        fail("%s %016lX, of record %u slot %u, reads %08X, %s", bar->io ? "I/O" : "memory", bar->address + bar->offset, bar->record,
             bar->slot, found, heard ? "its mark though it is off" : silent ? "nobody" : "somebody else");
}

void probe_stop(unsigned commanded, bool exact)
{
    unsigned i;

    for (i = 0; i < bar_count; i++)
        if (bars[i].width != 0)
            probe_bar(&bars[i], commanded, exact);
    for (i = 0; i < hole_count; i++)
        if (address_read(holes[i].io, holes[i].address, 4) != empty_value(holes[i].io, 4))
            fail("somebody answers in the hole at %s %016lX", holes[i].io ? "I/O" : "memory", holes[i].address);
}

/* Each function off by itself, then on again: its own addresses and those below it are empty meanwhile, all others as before. */
void probe_switched_off(void)
{
    unsigned record;

    for (record = 1; record <= function_count; record++) {
        switched_off = record;
        config_write(functions[record].id, COMMAND, 0, BYTES_10);
        probe_stop(function_count, true);
        config_write(functions[record].id, COMMAND, functions[record].command, BYTES_10);
    }
    switched_off = 0;
    probe_stop(function_count, true);
    print("switched off: %u functions, each unheard meanwhile\n", function_count);
}

/* ---- everybody else, when a card has come ---- */

static struct bar box[MAX_BARS];
static unsigned box_count;

void remember_box(void)
{
    unsigned i;

    for (box_count = i = 0; i < bar_count; i++)
        if (bars[i].width != 0 && answers(&bars[i], function_count))
            box[box_count++] = bars[i];
}

void probe_box(void)
{
    unsigned i;

    for (i = 0; i < box_count; i++)
        if ((address_read(box[i].io, box[i].address + box[i].offset, box[i].width) & box[i].mask) != box[i].mark)
            fail("%s %016lX of the box is no longer what it was", box[i].io ? "I/O" : "memory", box[i].address);
    print("box: %u BARs as before\n", box_count);
}

/* ---- IDs ---- */

static void probe_id(unsigned id, unsigned record)
{
    uint32_t found = config_read(id, 0);
    unsigned mark;

    if (record == 0) {
        if ((found & 0xFFFF) != NOBODY)
            fail("ID %04X answers and is nobody's", id);
        return;
    }
    mark = (config_read(id, CACHE_LINE) & 0xFF) << 8 | (config_read(id, INTERRUPT) & 0xFF);
    if (found != functions[record].vendor_device || mark != record)
        fail("ID %04X is record %u, and %08X with mark %u answers", id, record, found, mark);
}

/* Every ID of the host's buses: its own function, or nobody. */
void probe_ids(const struct host *host)
{
    unsigned id;

    for (id = host->first_bus << 8; id <= (host->last_bus << 8 | 0xFF); id++)
        probe_id(id, record_with_id(id));
    print("IDs: %04X to %04X, %u answer\n", host->first_bus << 8, host->last_bus << 8 | 0xFF, function_count);
}
