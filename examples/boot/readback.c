/* The registers at the end: printed, compared with the sheet, and judged by the audit as any firmware's. */
#include "boot.h"

enum { RECORD = 92, REGISTERS = 4 };

static uint8_t found[CARTSUNDIAL_SHEET_BYTES];

/* ---- the plan as `plan` prints it ---- */

static uint32_t little(const uint8_t *byte, unsigned bytes)
{
    uint32_t value = 0;

    while (bytes-- > 0)
        value = value << 8 | byte[bytes];
    return value;
}

static void print_bridge(const uint8_t *registers)
{
    print(" %02X %02X %02X", registers[0x18], registers[0x19], registers[0x1A]);
    print(" %02X %02X", registers[0x1C], registers[0x1D]);
    print(" %04X %04X", little(registers + 0x20, 2), little(registers + 0x22, 2));
    print(" %04X %04X", little(registers + 0x24, 2), little(registers + 0x26, 2));
    print(" %08X %08X", little(registers + 0x28, 4), little(registers + 0x2C, 4));
}

void print_plan(const uint8_t *sheet)
{
    unsigned record, slot;

    print("plan: plan %u\n", function_count);
    for (record = 1; record <= function_count; record++) {
        const uint8_t *start = sheet + 1 + RECORD * (record - 1), *registers = start + REGISTERS;
        bool bridge = is_bridge(&functions[record]);

        print("plan: %02X%02X %s", start[2], start[3], bridge ? "bridge" : "end");
        for (slot = 0; slot < (bridge ? 2u : 6u); slot++)
            print(" %08X", little(registers + BAR + 4 * slot, 4));
        if (bridge)
            print_bridge(registers);
        print("\n");
    }
}

/* ---- what the machine holds ---- */

/* A sheet's record of what is read: length, ID, 64 registers, and the board's read-backs. */
static void read_record(unsigned record)
{
    const struct function *function = &functions[record];
    uint8_t *start = found + 1 + RECORD * (record - 1);
    unsigned offset, slot, byte;

    start[0] = 0;
    start[1] = RECORD - 2;
    start[2] = (uint8_t)(function->id >> 8);
    start[3] = (uint8_t)function->id;
    for (offset = 0; offset < CARTSUNDIAL_REGISTER_BYTES; offset += 4) {
        uint32_t value = config_read(function->id, offset);

        for (byte = 0; byte < 4; byte++)
            start[REGISTERS + offset + byte] = (uint8_t)(value >> 8 * byte);
    }
    for (slot = 0; slot < 6; slot++)
        for (byte = 0; byte < 4; byte++)
            start[REGISTERS + CARTSUNDIAL_REGISTER_BYTES + 4 * slot + byte] = (uint8_t)(function->readback[slot] >> (24 - 8 * byte));
}

/* The registers that a plan fills: docs/FORMATS.md, which registers to write. */
static bool planned(bool bridge, unsigned offset)
{
    if (offset == 0x04 || offset == 0x05 || offset == 0x0E)
        return true;
    if (!bridge)
        return offset >= 0x10 && offset < 0x28;
    return offset >= 0x10 && offset < 0x30 && offset != 0x1B && offset != 0x1E && offset != 0x1F;
}

static void compare_record(unsigned record, const uint8_t *sheet)
{
    size_t start = 1 + RECORD * (record - 1) + REGISTERS;
    unsigned offset;

    for (offset = 0; offset < CARTSUNDIAL_REGISTER_BYTES; offset++)
        if (planned(is_bridge(&functions[record]), offset) && found[start + offset] != sheet[start + offset])
            fail("record %u register %02X holds %02X, and the sheet has %02X", record, offset, found[start + offset],
                 sheet[start + offset]);
}

const uint8_t *judge_registers(const uint8_t *sheet, size_t sheet_len)
{
    unsigned record;
    uint32_t number;

    found[0] = 1;
    for (record = 1; record <= function_count; record++)
        read_record(record);
    print_bytes("registers: ", found, 1);
    for (record = 1; record <= function_count; record++)
        print_bytes("registers: ", found + 1 + RECORD * (record - 1), RECORD);
    for (record = 1; record <= function_count; record++)
        compare_record(record, sheet);
    stack_paint();
    number = cartsundial_audit(board + 3, CARTSUNDIAL_HOST_BYTES, found, sheet_len);
    stack_hold("cartsundial_audit", OTHER_STACK);
    print("audit: %u\n", number);
    if (number != CARTSUNDIAL_ACCEPTED)
        fail("the audit refuses the registers: %u", number);
    return found;
}
