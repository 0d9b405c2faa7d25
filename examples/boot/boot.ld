/* The firmware in RAM from 1 MiB on: copied there from the ROM, or loaded by PVH. */
OUTPUT_FORMAT(elf64-x86-64)
ENTRY(start)
PHDRS {
    code PT_LOAD FLAGS(5);
    data PT_LOAD FLAGS(6);
    note PT_NOTE FLAGS(4);
}
SECTIONS {
    . = 0x100000;
    .text : { KEEP(*(.text.start)) *(.text .text.*) } :code
    .note.pvh : { KEEP(*(.note.pvh)) } :code :note
    .rodata : { *(.rodata .rodata.*) } :code
    .data : { *(.data .data.*) } :data
    .bss (NOLOAD) : { bss_start = .; *(.bss .bss.* COMMON) . = ALIGN(16); bss_end = .; } :data
    .tables (NOLOAD) : { *(.tables) } :data
    /DISCARD/ : { *(.comment) *(.eh_frame) *(.note.GNU-stack) *(.note.gnu.property) }
}
