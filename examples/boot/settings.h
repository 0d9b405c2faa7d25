/*
 * What a board's owner decides: the host's buses and pools, what an empty slot keeps free, and how the machine is told how it went. Each
 * can be given to the compiler instead (-DLOW_FIRST=..).
 */
#ifndef SETTINGS_H
#define SETTINGS_H

/* Buses and pools of the host record. On QEMU's q35 these addresses are free, cold and after SeaBIOS. */
#ifndef FIRST_BUS
#define FIRST_BUS 0x00
#endif
#ifndef LAST_BUS
#define LAST_BUS 0xFF
#endif
#ifndef LOW_FIRST
#define LOW_FIRST 0xC0000000
#endif
#ifndef LOW_LAST
#define LOW_LAST 0xFEBFFFFF
#endif
#ifndef HIGH_FIRST
#define HIGH_FIRST 0x8C0000000   /* its low half is in the low pool, so that half of an address that is written would be heard there */
#endif
#ifndef HIGH_LAST
#define HIGH_LAST 0xFFFFFFFFF
#endif
#ifndef IO_FIRST
#define IO_FIRST 0x6000
#endif
#ifndef IO_LAST
#define IO_LAST 0xFFFF
#endif

/* 1: every empty slot that takes cards while running keeps so many buses and MiB of low memory: a board of version 2. */
#ifndef SPARES
#define SPARES 0
#endif
#define SPARE_BUSES 2
#define SPARE_MIB 4

/* 1: at the end a card is waited for in such a slot. */
#ifndef PLUG
#define PLUG 0
#endif

/* 1: after every write of the script a byte on the serial port is waited for, time to look at the machine (QEMU's `info mtree`). */
#ifndef STEP
#define STEP 0
#endif

/* The boot's own requester ID and the tag of its first write. */
#define REQUESTER 0x0000
#define FIRST_TAG 0x00

/* What is written to QEMU's port; its exit status is twice that, plus 1: 33, 35, 37. Never 0, which a triple fault gives too. */
#define EXIT_PORT 0xF4
#define EXIT_GOOD 16
#define EXIT_BAD 17
#define EXIT_FAULT 18

/* Memory that the page tables reach, 2 to 1,024 GiB: the high pool must lie in it, and in the processor's own physical addresses. */
#define MAPPED_GIB 1024
#define STACK_BYTES 131072

/* Wrong orders and wrong writes, 1 to 6, each of which has to be noticed: sabotage.c. 0 is none. */
#ifndef SABOTAGE
#define SABOTAGE 0
#endif

#endif
