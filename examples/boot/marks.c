/*
 * By what a card is known: a mark of its own in every BAR, in a register that holds what is written to it, and its record's number in two
 * configuration bytes. The marks are made before anything is planned, with one function at a time enabled and all others silent, so that
 * they say nothing about the plan. Two cards of one kind have different marks.
 */
#include "boot.h"

struct bar bars[MAX_BARS];
unsigned bar_count;
uint32_t empty_memory, empty_io;

/* A register that keeps the bits of mask. turned: it gives back the complement of what was written. */
struct scratch {
    uint32_t vendor_device;
    unsigned slot, offset, width;
    uint32_t mask;
    bool turned;
};

static const struct scratch scratches[] = {
    { 0x11E81234, 0, 0x04, 4, 0xFFFFFFFF, true },        /* edu: liveness check */
    { 0x11101AF4, 0, 0x00, 4, 0xFFFFFFFF, false },       /* ivshmem: interrupt mask */
    { 0x11101AF4, 2, 0x00, 4, 0xFFFFFFFF, false },       /*          shared memory */
    { 0x29228086, 4, 0x10, 4, 0x00000FFC, false },       /* AHCI of q35: index of the index and data pair */
    { 0x29228086, 5, 0x100, 4, 0xFFFFFFFF, false },      /*              port 0, command list */
    { 0x29308086, 4, 0x05, 1, 0x000000FF, false },       /* SMBus of q35: host data 0 */
    { 0x00021B36, 0, 0x07, 1, 0x000000FF, false },       /* serial port: its scratch register */
    { 0x00031B36, 0, 0x07, 1, 0x000000FF, false },       /* two of them */
    { 0x00041B36, 0, 0x07, 1, 0x000000FF, false },       /* four */
    { 0x00051B36, 2, 0x00, 4, 0xFFFFFFFF, false },       /* test device: memory behind it */
    { 0x00011B36, 0, 0x27, 1, 0x0000007F, false },       /* PCI bridges: events of the first slot that are off */
    { 0x000E1B36, 0, 0x27, 1, 0x0000007F, false },
    { 0x26688086, 0, 0x40, 4, 0xFFFFFF80, false },       /* HD audio: command ring, base */
    { 0x293E8086, 0, 0x40, 4, 0xFFFFFF80, false },
};

enum { SMBUS = 0x29308086, SMBUS_HOST = 0x40, MSI_X = 0x11 };

/* ---- the way to one function ---- */

/* Every bridge above passes one range of a space on, and nothing else. 0 as last closes them again. */
static void open_way(const struct function *function, bool io, uint64_t first, uint64_t last)
{
    unsigned parent;

    for (parent = function->parent; parent != 0; parent = functions[parent].parent) {
        unsigned id = functions[parent].id;

        config_write(id, COMMAND, 0, BYTES_10);
        config_write(id, HIGH_WINDOW, 0x0000FFF0, ALL_BYTES);
        if (io)
            config_write(id, IO_WINDOW, (uint32_t)(first >> 8 & 0xF0) | (uint32_t)(last & 0xF000), BYTES_10);
        else
            config_write(id, LOW_WINDOW, (uint32_t)(first >> 16 & 0xFFF0) | (uint32_t)(last & 0xFFF00000), ALL_BYTES);
        if (last != 0)
            config_write(id, COMMAND, io ? IO_ENABLE : MEMORY_ENABLE, BYTES_10);
    }
}

static void place_alone(const struct bar *bar, uint64_t address)
{
    const struct function *function = &functions[bar->record];
    unsigned offset = BAR + 4 * bar->slot;

    open_way(function, bar->io, address, address + bar->size - 1);
    config_write(function->id, offset, (uint32_t)address, ALL_BYTES);
    if (bar->wide)
        config_write(function->id, offset + 4, 0, ALL_BYTES);
    config_write(function->id, COMMAND, bar->io ? IO_ENABLE : MEMORY_ENABLE, BYTES_10);
}

static void take_away(const struct bar *bar)
{
    const struct function *function = &functions[bar->record];

    config_write(function->id, COMMAND, 0, BYTES_10);
    config_write(function->id, BAR + 4 * bar->slot, 0, ALL_BYTES);
    open_way(function, bar->io, 0, 0);
}

/* ---- the mark of one BAR ---- */

static uint32_t empty(const struct bar *bar)
{
    uint32_t all = bar->io ? empty_io : empty_memory;

    return bar->width == 1 ? all & 0xFF : bar->width == 2 ? all & 0xFFFF : all;
}

/* The next number, as far as the register holds it, that nobody could take for an empty place. */
static uint32_t new_mark(const struct bar *bar)
{
    static uint32_t last = 0x5A000000;
    uint32_t mark;

    do
        mark = ++last << __builtin_ctz(bar->mask) & bar->mask;
    while (mark == 0 || mark == bar->mask || mark == (empty(bar) & bar->mask));
    return mark;
}

static bool find_scratch(struct bar *bar, bool *turned)
{
    const struct function *function = &functions[bar->record];
    unsigned i, msix = capability(function->id, MSI_X);

    for (i = 0; i < sizeof scratches / sizeof *scratches; i++)
        if (scratches[i].vendor_device == function->vendor_device && scratches[i].slot == bar->slot) {
            bar->offset = scratches[i].offset;
            bar->width = scratches[i].width;
            bar->mask = scratches[i].mask;
            *turned = scratches[i].turned;
            return true;
        }
    if (msix == 0 || (config_read(function->id, msix + 4) & 7) != bar->slot)
        return false;
    bar->offset = (config_read(function->id, msix + 4) & ~7u) + 8;      /* the first vector's message data */
    bar->width = 4;
    bar->mask = 0xFFFFFFFF;
    return true;
}

/* Without such a register the first dword that is not empty will do, though a card of the same kind may have the same. */
static void take_what_is_there(struct bar *bar, uint64_t address)
{
    uint64_t offset, end = bar->size < 256 ? bar->size : 256;

    bar->width = 4;
    bar->mask = 0xFFFFFFFF;
    for (offset = 0; offset < end; offset += 4) {
        bar->offset = (unsigned)offset;
        bar->mark = address_read(bar->io, address + offset, 4);
        if (bar->mark != empty(bar) && bar->mark == address_read(bar->io, address + offset, 4))
            return;
    }
    bar->width = 0;
}

static const char *make_mark(struct bar *bar, uint64_t address)
{
    bool turned = false;

    if (find_scratch(bar, &turned)) {
        bar->mark = new_mark(bar);
        address_write(bar->io, address + bar->offset, turned ? ~bar->mark : bar->mark, bar->width);
        if ((address_read(bar->io, address + bar->offset, bar->width) & bar->mask) == bar->mark)
            return "own mark";
    }
    take_what_is_there(bar, address);
    return bar->width != 0 ? "what it reads" : "nothing to know it by";
}

static void mark_bar(struct bar *bar, const struct host *host)
{
    uint64_t first = bar->io ? host->io_first : host->low_first, last = bar->io ? host->io_last : host->low_last;
    uint64_t address = (first + bar->size - 1) & ~(bar->size - 1);
    const char *known = "too large to look at";

    if (address + bar->size - 1 <= last) {
        place_alone(bar, address);
        known = make_mark(bar, address);
        take_away(bar);
    }
    print("mark: record %u slot %u %s\n", bar->record, bar->slot, known);
}

/* ---- all of them ---- */

static void list_bars(unsigned record)
{
    const struct function *function = &functions[record];
    unsigned slot;

    for (slot = 0; slot < 6; slot++) {
        uint32_t readback = function->readback[slot];
        struct bar bar = { .record = record, .slot = slot, .io = readback & 1 };

        if (readback == 0)
            continue;
        bar.wide = (readback & 7) == 4 && slot < 5;
        bar.size = ~(uint64_t)(bar.io ? (readback & ~3u) | 0xFFFF0000 : readback & ~15u) + 1;
        if (bar.wide)
            bar.size = ~((uint64_t)function->readback[++slot] << 32 | (readback & ~15u)) + 1;
        else
            bar.size &= 0xFFFFFFFF;
        if (bar_count == MAX_BARS)
            fail("over %u BARs", (unsigned)MAX_BARS);
        bars[bar_count++] = bar;
    }
}

/* The record's number in Cache Line Size and Interrupt Line, which do nothing on a PCI Express function. */
static void mark_id(unsigned record)
{
    config_write(functions[record].id, CACHE_LINE, record >> 8, BYTES_0);
    config_write(functions[record].id, INTERRUPT, record & 0xFF, BYTES_0);
}

void mark_all(const struct host *host)
{
    unsigned record, i;

    bar_count = 0;
    if (host->low_first <= host->low_last)
        empty_memory = address_read(false, host->low_first, 4);
    if (host->io_first <= host->io_last)
        empty_io = port_in(host->io_first, 4);
    print("empty: memory %08X, I/O %08X\n", empty_memory, empty_io);
    for (record = 1; record <= function_count; record++) {
        if (functions[record].vendor_device == SMBUS)
            config_write(functions[record].id, SMBUS_HOST, 1, BYTES_0);      /* its ports are off until this is set */
        mark_id(record);
        list_bars(record);
    }
    for (i = 0; i < bar_count; i++)
        mark_bar(&bars[i], host);
}
