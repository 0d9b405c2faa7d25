/* Ports, memory, and configuration space by the ports CF8h and CFCh. */
#include "boot.h"

enum { CONFIG_ADDRESS = 0xCF8, CONFIG_DATA = 0xCFC };

uint32_t port_in(uint16_t port, unsigned width)
{
    uint32_t value = 0;

    if (width == 1)
        __asm__ volatile("inb %w1, %b0" : "+a"(value) : "Nd"(port));
    else if (width == 2)
        __asm__ volatile("inw %w1, %w0" : "+a"(value) : "Nd"(port));
    else
        __asm__ volatile("inl %w1, %0" : "=a"(value) : "Nd"(port));
    return value;
}

void port_out(uint16_t port, uint32_t value, unsigned width)
{
    if (width == 1)
        __asm__ volatile("outb %b0, %w1" : : "a"(value), "Nd"(port));
    else if (width == 2)
        __asm__ volatile("outw %w0, %w1" : : "a"(value), "Nd"(port));
    else
        __asm__ volatile("outl %0, %w1" : : "a"(value), "Nd"(port));
}

uint32_t address_read(bool io, uint64_t address, unsigned width)
{
    if (io)
        return port_in((uint16_t)address, width);
    if (width == 1)
        return *(volatile uint8_t *)address;
    if (width == 2)
        return *(volatile uint16_t *)address;
    return *(volatile uint32_t *)address;
}

void address_write(bool io, uint64_t address, uint32_t value, unsigned width)
{
    if (io)
        port_out((uint16_t)address, value, width);
    else if (width == 1)
        *(volatile uint8_t *)address = (uint8_t)value;
    else if (width == 2)
        *(volatile uint16_t *)address = (uint16_t)value;
    else
        *(volatile uint32_t *)address = value;
}

static void select(unsigned id, unsigned offset)
{
    port_out(CONFIG_ADDRESS, 0x80000000u | id << 8 | (offset & 0xFC), 4);
}

uint32_t config_read(unsigned id, unsigned offset)
{
    select(id, offset);
    return port_in(CONFIG_DATA, 4);
}

/*
 * Writes the enabled bytes of a dword, and no others. All four, a half or a single byte are one access. Three bytes (18h has them) are none
 * on x86: there the dword is written whole, with the byte that is not enabled as it was read.
 */
void config_write(unsigned id, unsigned offset, uint32_t value, unsigned enables)
{
    uint32_t kept = enables == BYTES_210 ? config_read(id, offset) & 0xFF000000 : 0;

    select(id, offset);
    if (enables == ALL_BYTES)
        port_out(CONFIG_DATA, value, 4);
    else if (enables == BYTES_210)
        port_out(CONFIG_DATA, kept | (value & 0x00FFFFFF), 4);
    else if (enables == BYTES_10)
        port_out(CONFIG_DATA, value, 2);
    else if (enables == BYTES_32)
        port_out(CONFIG_DATA + 2, value >> 16, 2);
    else if (enables == BYTES_0)
        port_out(CONFIG_DATA, value, 1);
    else
        fail("no access has enables %01X", enables);
}

unsigned capability(unsigned id, unsigned wanted)
{
    unsigned offset, left = 48;          /* a list in a circle ends as well */

    if (!(config_read(id, COMMAND) & 0x00100000))
        return 0;
    for (offset = config_read(id, CAPABILITIES) & 0xFC; offset != 0 && left > 0; left--) {
        uint32_t head = config_read(id, offset);

        if ((head & 0xFF) == wanted)
            return offset;
        offset = head >> 8 & 0xFC;
    }
    return 0;
}
