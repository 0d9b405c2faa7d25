/* What the files of this firmware share, by file. main.c has the story. */
#ifndef BOOT_H
#define BOOT_H

#include <stdbool.h>
#include <stddef.h>
#include <stdint.h>

#include "cartsundial.h"
#include "settings.h"

/* ---- console.c: the serial port, and the end of the machine ---- */

void console_start(void);
void print(const char *format, ...) __attribute__((format(printf, 1, 2)));    /* %s %u %0nX %0nlX */
void print_bytes(const char *name, const uint8_t *bytes, size_t count);       /* a line: name, hexadecimal */
void await_byte(void);
void quit(unsigned status) __attribute__((noreturn));
void fail(const char *format, ...) __attribute__((noreturn, format(printf, 1, 2)));

/* ---- pci.c: ports, memory and configuration space ---- */

enum {
    COMMAND = 0x04, CACHE_LINE = 0x0C, BAR = 0x10, BUSES = 0x18, IO_WINDOW = 0x1C, LOW_WINDOW = 0x20, HIGH_WINDOW = 0x24,
    HIGH_BASE_UPPER = 0x28, HIGH_LIMIT_UPPER = 0x2C, ROM = 0x30, IO_UPPER = 0x30, CAPABILITIES = 0x34, BRIDGE_ROM = 0x38, INTERRUPT = 0x3C,
    IO_ENABLE = 1, MEMORY_ENABLE = 2, BUS_MASTER = 4,
    BYTES_0 = 0x1, BYTES_10 = 0x3, BYTES_210 = 0x7, BYTES_32 = 0xC, ALL_BYTES = 0xF,
    NOBODY = 0xFFFF
};

uint32_t port_in(uint16_t port, unsigned width);
void port_out(uint16_t port, uint32_t value, unsigned width);
uint32_t address_read(bool io, uint64_t address, unsigned width);
void address_write(bool io, uint64_t address, uint32_t value, unsigned width);
uint32_t config_read(unsigned id, unsigned offset);
void config_write(unsigned id, unsigned offset, uint32_t value, unsigned enables);
unsigned capability(unsigned id, unsigned wanted);       /* its offset, 0 for none */

/* ---- scan.c: what is there ---- */

/* A host record: buses and pools. A pool is closed by a first address above its last. */
struct host {
    unsigned first_bus, last_bus;
    uint32_t low_first, low_last;
    uint64_t high_first, high_last;
    uint16_t io_first, io_last;
};

struct function {
    unsigned parent;                                     /* record of the bridge above, 0 for the host */
    unsigned id;                                         /* by the bus numbers of the scan; after the plan by the plan */
    uint32_t vendor_device;
    uint8_t header_type;
    uint16_t command;                                    /* what boot code is going to write */
    uint32_t readback[6];
    uint8_t spare_buses;
    uint16_t spare_mib;
};

enum { MAX_FUNCTIONS = 512, BOARD_BYTES = 16417 };
extern struct function functions[MAX_FUNCTIONS + 1];     /* by record, from 1 */
extern unsigned function_count;
extern uint8_t board[BOARD_BYTES];
extern size_t board_len;

bool is_bridge(const struct function *function);
unsigned record_with_id(unsigned id);                    /* 0 for none */
void scan(const struct host *host);                      /* fills functions, by temporary bus numbers that stay set */
void clear(void);                                        /* every planned register to 0, the temporary bus numbers last */
void write_board(const struct host *host);

/* ---- marks.c: by what a card is known ---- */

struct bar {
    unsigned record, slot;
    bool io, wide;                                       /* wide: 64 bits, the next slot is the upper half */
    uint64_t size;
    uint64_t address;                                    /* planned */
    unsigned offset, width;                              /* the register that has the mark; width 0 for none */
    uint32_t mask, mark;
};

enum { MAX_BARS = 2048 };
extern struct bar bars[MAX_BARS];
extern unsigned bar_count;
extern uint32_t empty_memory, empty_io;                  /* what is read where nobody is */

void mark_all(const struct host *host);                  /* each function alone; needs the scan's bus numbers */

/* ---- script.c: the writes ---- */

enum { RECORD_BYTES = 18, MAX_WRITES = CARTSUNDIAL_SCRIPT_BYTES / RECORD_BYTES };

struct write {
    unsigned number;                                     /* its place in the script */
    unsigned id, offset, enables;
    uint32_t value;
};

void perform(const uint8_t *script, size_t script_len, unsigned first_bus, bool watched);

/* ---- sabotage.c: the same done wrong ---- */

enum { COMMANDS_FIRST = 1, BUSES_LATE = 2, EXCHANGED = 3, CLOSED_LEFT_OUT = 4, ONE_UNDER_ANOTHER = 5, NOT_CLEARED = 6 };

unsigned do_it_wrong(struct write *writes, unsigned count);    /* how many are left */

/* ---- probe.c: who answers ---- */

struct hole {
    bool io;
    uint64_t address;
};

enum { MAX_HOLES = 3 * MAX_BARS + 8 };
extern struct hole holes[MAX_HOLES];                     /* addresses that are nobody's */
extern unsigned hole_count;

void know_plan(const struct host *host, const uint8_t *sheet);    /* planned IDs, addresses and holes */
void probe_stop(unsigned commanded, bool exact);         /* after a write: records 1 to commanded have their command words */
void probe_ids(const struct host *host);
void probe_switched_off(void);
void remember_box(void);                                 /* for probe_box, when functions and bars are those of a card */
void probe_box(void);

/* ---- readback.c: the registers at the end ---- */

void print_plan(const uint8_t *sheet);
const uint8_t *judge_registers(const uint8_t *sheet, size_t sheet_len);    /* a sheet of what was read */

/* ---- route.c: the router's word on it ---- */

void route_all(const uint8_t *sheet, size_t sheet_len);

/* ---- stack.c: what a call takes ---- */

/* The figures of cartsundial.h, in bytes. */
enum { PLAN_STACK = 60 << 10, SCRIPT_STACK = 60 << 10, OTHER_STACK = 12 << 10 };

void stack_paint(void);
void stack_hold(const char *call, size_t limit);         /* how deep the stack was used since it was painted */

/* ---- slot.c: a card that is plugged in later ---- */

unsigned empty_slot(void);                               /* record of a port with spare room, 0 for none */
void wait_for_card(unsigned port, const uint8_t *sheet, struct host *room);    /* the port's spare room as a host of its own */

/* ---- main.c: called by start.S ---- */

void boot_main(void);
void boot_fault(uint64_t number, uint64_t first, uint64_t second);

#endif
