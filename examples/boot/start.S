/*
 * From 32-bit code without paging, where reset.S and a PVH loader leave the processor, to boot_main in 64 bits: page tables, SSE, a stack,
 * and handlers on a stack of their own for every exception. Interrupts stay off.
 */
#include "settings.h"

    .section .note.pvh, "a", @note
    .balign 4
    .long 4, 4, 18                          /* name and value of 4 bytes; XEN_ELFNOTE_PHYS32_ENTRY */
    .asciz "Xen"
    .long start

    .section .text.start, "ax"
    .code32
    .globl start
start:                                      /* first in the image: reset.S jumps to 1 MiB */
    cli
    cld
    movl $bss_start, %edi
    movl $bss_end, %ecx
    subl %edi, %ecx
    xorl %eax, %eax
    rep stosb

    /* Memory below 1 TiB at its own address, in pages of 2 MiB: one table for two of 512 GiB, 1,024 tables for a GiB each. */
    movl $page_directories, %edi
    movl $0x83, %eax                        /* present, writable, 2 MiB */
    xorl %edx, %edx
    movl $MAPPED_GIB * 512, %ecx
1:  movl %eax, (%edi)
    movl %edx, 4(%edi)
    addl $8, %edi
    addl $0x200000, %eax
    adcl $0, %edx
    loop 1b
    movl $page_directories + 3, %eax
    movl $page_pointers, %edi
    movl $MAPPED_GIB, %ecx
1:  movl %eax, (%edi)
    addl $8, %edi
    addl $4096, %eax
    loop 1b
    movl $page_pointers + 3, page_root
    movl $page_pointers + 4096 + 3, page_root + 8
    movl $page_root, %eax
    movl %eax, %cr3

    movl $0x620, %eax                       /* PAE; SSE and its exceptions: the archive uses XMM registers */
    movl %eax, %cr4
    movl $0xC0000080, %ecx                  /* EFER: long mode */
    rdmsr
    orl $0x100, %eax
    wrmsr
    movl %cr0, %eax
    andl $~0x0C, %eax                       /* no emulation, no task switched: SSE without a trap */
    orl $0x80000003, %eax
    movl %eax, %cr0
    lgdt gdt_pointer
    ljmp $0x08, $start_64

    .code64
start_64:
    movw $0x10, %ax
    movw %ax, %ds
    movw %ax, %es
    movw %ax, %ss
    movw %ax, %fs
    movw %ax, %gs
    movl $stack_top, %esp

    /* The task state names the exceptions' stack; its descriptor has the address in pieces. */
    leaq exception_stack_top(%rip), %rax
    movq %rax, task_state + 36              /* interrupt stack table, entry 1 */
    movw $104, task_state + 102             /* no map of I/O ports */
    movl $task_state, %eax
    movw %ax, task_descriptor + 2
    shrl $16, %eax
    movb %al, task_descriptor + 4
    movb %ah, task_descriptor + 7
    movw $0x18, %ax
    ltr %ax

    /* 32 exceptions, each by a gate of 16 bytes on entry 1 of that table. */
    movl $exception_gates, %edi
    movl $exception_entries, %eax
    movl $32, %ecx
1:  movw %ax, (%rdi)
    movl $0x8E010008, 2(%rdi)               /* 64-bit code at 08h, stack table entry 1, present interrupt gate */
    movl %eax, %edx
    shrl $16, %edx
    movw %dx, 6(%rdi)
    addl $16, %edi
    addl $8, %eax
    loop 1b
    lidt gates_pointer

    call boot_main
    ud2                                     /* boot_main ends the machine */

    /* An exception's number in edi and the address in rsi: boot_fault does not come back. */
    .balign 8
exception_entries:
    .set vector, 0
    .rept 32
    .balign 8
    pushq $vector
    jmp exception
    .set vector, vector + 1
    .endr
exception:
    popq %rdi
    movq (%rsp), %rsi                       /* the address, or before it an error code, */
    movq 8(%rsp), %rdx                      /* and then this is the address */
    andq $-16, %rsp
    call boot_fault
1:  hlt
    jmp 1b

    .globl memset, memcpy
memset:                                     /* the archive calls these two of a C library */
    movq %rdi, %r8
    movl %esi, %eax
    movq %rdx, %rcx
    rep stosb
    movq %r8, %rax
    ret
memcpy:
    movq %rdi, %rax
    movq %rdx, %rcx
    rep movsb
    ret

    .section .data
    .balign 8
gdt:
    .quad 0
    .quad 0x00AF9B000000FFFF                /* 08h: 64-bit code */
    .quad 0x00CF93000000FFFF                /* 10h: data */
task_descriptor:
    .quad 0x0000890000000067                /* 18h: task state, 104 bytes */
    .quad 0
gdt_pointer:
    .word gdt_pointer - gdt - 1
    .quad gdt
gates_pointer:
    .word 32 * 16 - 1
    .quad exception_gates

    .section .bss
    .balign 4096
page_root:
    .skip 4096
page_pointers:
    .skip 2 * 4096
exception_gates:
    .skip 32 * 16
task_state:
    .skip 104
    .balign 16
    .skip 16384
exception_stack_top:
    .globl stack_bottom, stack_top
stack_bottom:
    .skip STACK_BYTES
stack_top:

    .section .tables, "aw", @nobits         /* written whole, so not cleared first */
    .balign 4096
page_directories:
    .skip MAPPED_GIB * 4096

    .section .note.GNU-stack, "", @progbits
