/*
 * The ROM: the firmware as a flat image, and at the end the sixteen bytes where a processor starts after reset, FFFFFFF0h. From there, in
 * 16-bit code and then in 32 bits, the image is copied to RAM at 1 MiB and entered. Linked by rom.ld to end at 4 GiB.
 */
    .section .image, "a"
image:
    .incbin "boot.bin"
image_end:

    .section .reset16, "ax"
    .code16
enter_32_bits:
    cli
    lgdtl %cs:(gdt_pointer - 0xFFFF0000)    /* the segment that reset leaves has its base at FFFF0000h */
    movl %cr0, %eax
    orl $1, %eax
    movl %eax, %cr0
    ljmpl $0x08, $copy_image

    .code32
copy_image:
    movw $0x10, %ax
    movw %ax, %ds
    movw %ax, %es
    movw %ax, %ss
    inb $0x92, %al                          /* address line 20 on */
    orb $2, %al
    outb %al, $0x92
    cld
    movl $image, %esi
    movl $0x100000, %edi
    movl $(image_end - image + 3) / 4, %ecx
    rep movsl
    movl $0x100000, %eax
    jmp *%eax

    .balign 8
gdt:
    .quad 0
    .quad 0x00CF9B000000FFFF                /* 08h: 32-bit code, all 4 GiB */
    .quad 0x00CF93000000FFFF                /* 10h: data */
gdt_pointer:
    .word gdt_pointer - gdt - 1
    .long gdt

    .section .vector, "ax"
    .code16
    .globl reset_vector
reset_vector:
    jmp enter_32_bits
    .balign 16, 0x90

    .section .note.GNU-stack, "", @progbits
