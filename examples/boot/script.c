/*
 * The script performed: each record's header is read as any packet, and its data written to the register of the function that it names.
 * What was written is read back, and everybody is asked where they answer before the next write.
 */
#include "boot.h"

static struct write writes[MAX_WRITES];
static unsigned write_count;

/* ---- reading the script ---- */

static struct write read_write(const uint8_t *bytes, unsigned number, unsigned first_bus)
{
    uint64_t packet[CARTSUNDIAL_PACKET_NUMBERS];
    const uint8_t *data = bytes + 14;
    struct write write = { .number = number };
    uint32_t refused;

    if (number == 1)
        stack_paint();
    refused = cartsundial_read(bytes + 2, 12, packet, CARTSUNDIAL_PACKET_NUMBERS);
    if (number == 1)
        stack_hold("cartsundial_read", OTHER_STACK);
    if (bytes[0] != 0 || bytes[1] != 16 || refused != CARTSUNDIAL_ACCEPTED)
        fail("write %u is no record, or its header is refused: %u", number, refused);
    write.id = (unsigned)packet[CARTSUNDIAL_TARGET];
    write.offset = 4 * (unsigned)packet[CARTSUNDIAL_REGISTER];
    write.enables = (unsigned)packet[CARTSUNDIAL_FIRST_ENABLES];
    write.value = data[0] | (uint32_t)data[1] << 8 | (uint32_t)data[2] << 16 | (uint32_t)data[3] << 24;
    if (packet[CARTSUNDIAL_KIND] != (write.id >> 8 == first_bus ? CARTSUNDIAL_CFGWR0 : CARTSUNDIAL_CFGWR1))
        fail("write %u to %04X is of kind %u", number, write.id, (unsigned)packet[CARTSUNDIAL_KIND]);
    if (packet[CARTSUNDIAL_REQUESTER] != REQUESTER || packet[CARTSUNDIAL_TAG] != ((FIRST_TAG + number - 1) & 0xFF))
        fail("write %u has another requester or tag", number);
    return write;
}

static void read_script(const uint8_t *script, size_t script_len, unsigned first_bus)
{
    size_t at;

    write_count = 0;
    for (at = 0; at + RECORD_BYTES <= script_len; at += RECORD_BYTES) {
        writes[write_count] = read_write(script + at, write_count + 1, first_bus);
        write_count++;
    }
    if (at != script_len)
        fail("the script ends inside a record");
}

/* ---- performing it ---- */

static uint32_t enabled_bits(unsigned enables)
{
    return (enables & 1 ? 0xFFu : 0) | (enables & 2 ? 0xFF00u : 0) | (enables & 4 ? 0xFF0000u : 0) | (enables & 8 ? 0xFF000000u : 0);
}

static void perform_write(const struct write *write, bool watched)
{
    uint32_t bits = enabled_bits(write->enables), found;

    config_write(write->id, write->offset, write->value, write->enables);
    found = config_read(write->id, write->offset);
    if (watched)
        print("write %u: %04X register %02X enables %01X data %08X reads %08X\n", write->number, write->id, write->offset, write->enables,
              write->value, found);
    if (watched && ((found ^ write->value) & bits) != 0)
        fail("write %u is not read back", write->number);
}

/*
 * watched: with a line, a read-back and a look at everybody after every write. The look is exact where the order is the script's own; done
 * wrong, it is the weaker "its owner or nobody", so that what is noticed is a wrong owner and not the order itself.
 */
void perform(const uint8_t *script, size_t script_len, unsigned first_bus, bool watched)
{
    unsigned i, commanded = 0;

    read_script(script, script_len, first_bus);
    if (SABOTAGE)
        write_count = do_it_wrong(writes, write_count);
    for (i = 0; i < write_count; i++) {
        perform_write(&writes[i], watched);
        if (writes[i].offset == COMMAND)
            commanded = record_with_id(writes[i].id);
        if (watched && STEP)
            await_byte();
        if (watched)
            probe_stop(commanded, !SABOTAGE);
    }
    print("performed: %u writes\n", write_count);
}
