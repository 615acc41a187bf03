/* reset.S - the machine's ROM: from its first instruction, in 16-bit mode, to `start` in 32-bit mode

The last 64 KiB below 4 GiB. Nothing else is asked of a firmware, so that a reset takes some milliseconds. */

#include "map.h"

        .code16
        .text
        .globl rom
rom:    cli
        lgdtl %cs:(gdt_pointer - rom)
        movl %cr0, %eax
        orb $1, %al                     /* PE: protected mode */
        movl %eax, %cr0
        ljmpl $8, $flat

        .code32
flat:   movl $16, %eax
        movl %eax, %ds
        movl %eax, %es
        movl %eax, %ss
        movl $PROGRAM, %eax
        jmp *%eax

        .balign 8
gdt:    .quad 0
        .quad 0x00CF9A000000FFFF        /*  8: 32-bit code, all memory */
        .quad 0x00CF92000000FFFF        /* 16: data, all memory */
gdt_pointer:
        .word gdt_pointer - gdt - 1
        .long gdt

        .org 0xFFF0                     /* here a reset begins */
        .code16
        jmp rom
        .org 0x10000

        .section .note.GNU-stack, "", @progbits
