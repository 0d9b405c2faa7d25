/*
 * A card that is plugged in later. A port of a version 2 board keeps buses and low memory free below it; those are a host of their own, for
 * which what is in the slot is planned as any board. Nothing outside the slot is written.
 */
#include "boot.h"

enum {
    EXPRESS = 0x10, SLOT_CONTROL = 0x18,         /* the capability, and in it control (bytes 1:0) and status (3:2) of the slot */
    POWER_OFF = 0x0400, PRESENT = 0x00400000, PATIENCE = 40000000
};

unsigned empty_slot(void)
{
    unsigned record;

    for (record = function_count; record > 0 && functions[record].spare_buses == 0; record--)
        ;
    return record;
}

static void await_presence(unsigned id, unsigned slot)
{
    unsigned tries;

    for (tries = 0; tries < PATIENCE; tries++)
        if (config_read(id, slot) & PRESENT)
            return;
    fail("no card was plugged in");
}

/* What the port's registers keep: its secondary bus to its subordinate, and its low window, in which nothing lies yet. */
static void room_below(const uint8_t *sheet, unsigned port, struct host *room)
{
    const uint8_t *registers = sheet + 92 * port - 87;

    *room = (struct host){ .first_bus = registers[0x19], .last_bus = registers[0x1A], .high_first = ~(uint64_t)0, .io_first = 0xFFFF };
    room->low_first = (uint32_t)registers[0x21] << 24 | (uint32_t)(registers[0x20] & 0xF0) << 16;
    room->low_last = ((uint32_t)registers[0x23] << 24 | (uint32_t)(registers[0x22] & 0xF0) << 16) + 0xFFFFF;
}

void wait_for_card(unsigned port, const uint8_t *sheet, struct host *room)
{
    unsigned id = functions[port].id, slot = capability(id, EXPRESS) + SLOT_CONTROL;

    room_below(sheet, port, room);
    print("slot: %04X waits for a card\n", id);
    await_presence(id, slot);
    config_write(id, slot, config_read(id, slot) & ~(uint32_t)POWER_OFF, BYTES_10);
    print("slot: %04X has power\n", id);
}
