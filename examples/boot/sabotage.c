/*
 * The script done wrong on purpose, in the ways that boot code gets it wrong. Each has to be noticed by the probes, the read-backs or the
 * registers at the end; a firmware of one's own has no need of this file. NOT_CLEARED is in main.c.
 */
#include "boot.h"

static struct write kept[MAX_WRITES];

/* 1 for bus registers, 2 for BARs and windows, 3 for command words. */
static unsigned part(const struct write *write)
{
    if (write->offset == COMMAND)
        return 3;
    return write->offset == BUSES && is_bridge(&functions[record_with_id(write->id)]) ? 1 : 2;
}

static void put_parts(struct write *writes, unsigned count, unsigned first, unsigned second, unsigned third)
{
    unsigned parts[3] = { first, second, third }, turn, i, put = 0;

    for (turn = 0; turn < 3; turn++)
        for (i = 0; i < count; i++)
            if (part(&writes[i]) == parts[turn])
                kept[put++] = writes[i];
    for (i = 0; i < count; i++)
        writes[i] = kept[i];
}

/* Two cards of one kind, the first such pair. */
static void find_twins(unsigned *one, unsigned *other)
{
    for (*one = 1; *one <= function_count; ++*one)
        for (*other = *one + 1; *other <= function_count; ++*other)
            if (!is_bridge(&functions[*one]) && functions[*one].readback[0] != 0
                && functions[*one].vendor_device == functions[*other].vendor_device
                && functions[*one].readback[0] == functions[*other].readback[0])
                return;
    fail("no two cards of one kind");
}

static struct write *first_bar_of(struct write *writes, unsigned count, unsigned record)
{
    unsigned i;

    for (i = 0; i < count; i++)
        if (writes[i].id == functions[record].id && writes[i].offset == BAR)
            return &writes[i];
    fail("record %u has no BAR", record);
}

/* The second of two equal cards gets the address of the first; exchanged, the first gets the other's too. */
static void misplace_twins(struct write *writes, unsigned count, bool exchanged)
{
    unsigned one, other;
    struct write *first, *second;
    uint32_t value;

    find_twins(&one, &other);
    first = first_bar_of(writes, count, one);
    second = first_bar_of(writes, count, other);
    value = second->value;
    second->value = first->value;
    if (exchanged)
        first->value = value;
}

static bool closes_window(const struct write *write)
{
    if (part(write) != 2 || !is_bridge(&functions[record_with_id(write->id)]))
        return false;
    if (write->offset == IO_WINDOW)
        return (write->value & 0xFF) > (write->value >> 8 & 0xFF);
    return (write->offset == LOW_WINDOW || write->offset == HIGH_WINDOW) && (write->value & 0xFFFF) > write->value >> 16;
}

static unsigned leave_out_closed(struct write *writes, unsigned count)
{
    unsigned i, left = 0;

    for (i = 0; i < count; i++)
        if (!closes_window(&writes[i]))
            writes[left++] = writes[i];
    return left;
}

unsigned do_it_wrong(struct write *writes, unsigned count)
{
    if (SABOTAGE == COMMANDS_FIRST)
        put_parts(writes, count, 1, 3, 2);
    else if (SABOTAGE == BUSES_LATE)
        put_parts(writes, count, 2, 1, 3);
    else if (SABOTAGE == CLOSED_LEFT_OUT)
        return leave_out_closed(writes, count);
    else if (SABOTAGE == EXCHANGED || SABOTAGE == ONE_UNDER_ANOTHER)
        misplace_twins(writes, count, SABOTAGE == EXCHANGED);
    return count;
}
