/* A ROM of 128 KiB that ends at 4 GiB, the reset vector in its last sixteen bytes. */
OUTPUT_FORMAT(elf64-x86-64)
ENTRY(reset_vector)
MEMORY { ROM (rx) : ORIGIN = 0xFFFE0000, LENGTH = 128K }
SECTIONS {
    .image 0xFFFE0000 : { *(.image) } > ROM
    .reset16 0xFFFFFF00 : { *(.reset16) } > ROM
    .vector 0xFFFFFFF0 : { *(.vector) } > ROM
    /DISCARD/ : { *(*) }
}
