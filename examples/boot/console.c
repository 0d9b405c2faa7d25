/* The serial port at 3F8h, a small print, and the end of the machine by QEMU's isa-debug-exit. */
#include <stdarg.h>

#include "boot.h"

enum { SERIAL = 0x3F8, LINE_CONTROL = SERIAL + 3, LINE_STATUS = SERIAL + 5, CAN_READ = 0x01, CAN_SEND = 0x20 };

void console_start(void)
{
    port_out(SERIAL + 1, 0x00, 1);       /* no interrupts */
    port_out(LINE_CONTROL, 0x80, 1);     /* the divisor: 115,200 baud */
    port_out(SERIAL, 0x01, 1);
    port_out(SERIAL + 1, 0x00, 1);
    port_out(LINE_CONTROL, 0x03, 1);     /* 8 bits, no parity, one stop bit */
    port_out(SERIAL + 2, 0x07, 1);       /* buffers on and empty */
}

static void send(char c)
{
    while (!(port_in(LINE_STATUS, 1) & CAN_SEND))
        ;
    port_out(SERIAL, (uint8_t)c, 1);
}

static void put(char c)
{
    if (c == '\n')
        send('\r');
    send(c);
}

static void put_text(const char *text)
{
    while (*text)
        put(*text++);
}

static void put_hexadecimal(uint64_t value, unsigned digits)
{
    while (digits-- > 0)
        put("0123456789ABCDEF"[value >> 4 * digits & 15]);
}

static void put_decimal(unsigned value)
{
    if (value >= 10)
        put_decimal(value / 10);
    put((char)('0' + value % 10));
}

/* A hexadecimal number: its digits after 0, in one or two places, then X, or lX for 64 bits. */
static const char *put_sized(const char *format, va_list *values)
{
    unsigned digits = 0;

    while (*format >= '0' && *format <= '9')
        digits = 10 * digits + (unsigned)(*format++ - '0');
    if (*format == 'l') {
        put_hexadecimal(va_arg(*values, uint64_t), digits);
        return format + 1;
    }
    put_hexadecimal(va_arg(*values, unsigned), digits);
    return format;
}

static void print_values(const char *format, va_list *values)
{
    for (; *format; format++) {
        if (*format != '%')
            put(*format);
        else if (*++format == 's')
            put_text(va_arg(*values, const char *));
        else if (*format == 'u')
            put_decimal(va_arg(*values, unsigned));
        else
            format = put_sized(format, values);
    }
}

void print(const char *format, ...)
{
    va_list values;

    va_start(values, format);
    print_values(format, &values);
    va_end(values);
}

void print_bytes(const char *name, const uint8_t *bytes, size_t count)
{
    put_text(name);
    while (count-- > 0)
        put_hexadecimal(*bytes++, 2);
    put('\n');
}

void await_byte(void)
{
    print("waiting\n");
    while (!(port_in(LINE_STATUS, 1) & CAN_READ))
        ;
    port_in(SERIAL, 1);
}

void quit(unsigned status)
{
    port_out(EXIT_PORT, status, 4);
    for (;;)
        __asm__ volatile("hlt");
}

void fail(const char *format, ...)
{
    va_list values;

    print("FAILED: ");
    va_start(values, format);
    print_values(format, &values);
    va_end(values);
    print("\n");
    quit(EXIT_BAD);
}
