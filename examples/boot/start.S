/* start.S - from reset to stage(): 64-bit mode, SSE, a map of memory with nothing but what map.h names, the stack

The machine enters at `start`, the program's first byte, in 32-bit mode without paging: from the ROM (reset.S), or from
any firmware as the note asks (QEMU's -kernel; the PVH way of starting a kernel). */

#include "map.h"

        .if STACK % 16
        .error "the stack is no multiple of 16 bytes"
        .endif

        .section .note.start, "a", @note
        .balign 4
        .long 4, 8, 18                  /* lengths of name and entry; 18: a 32-bit entry */
        .asciz "Xen"
        .quad start

        .section .text.start, "ax"
        .code32
        .globl start
start:
        cli
        cld
        lgdt gdt_pointer
        movl $top_table, %eax
        movl %eax, %cr3
        movl $0x620, %eax               /* CR4: PAE; OSFXSR and OSXMMEXCPT for SSE */
        movl %eax, %cr4
        movl $0xC0000080, %ecx          /* EFER */
        rdmsr
        orl $0x100, %eax                /* LME: 64-bit mode */
        wrmsr
        movl $0x80010033, %eax          /* CR0: PG, WP (read-only pages hold for us, too), NE, ET, MP, PE; not EM */
        movl %eax, %cr0
        ljmp $8, $long_mode

        .code64
long_mode:
        movl $16, %eax
        movl %eax, %ds
        movl %eax, %es
        movl %eax, %ss
        movl $bss_start, %edi           /* static variables begin as 0 after every reset */
        movl $bss_end, %ecx
        subl %edi, %ecx
        xorl %eax, %eax
        rep stosb
        movl $STACK_LOW, %edi           /* painted, so that stack_used can tell how deep it went */
        movl $STACK, %ecx
        movb $0xA5, %al
        rep stosb
        movl $STACK_TOP, %esp
        call stage
        .globl halt
halt:
        cli
        hlt
        jmp halt

        .data
        .balign 8
gdt:    .quad 0
        .quad 0x00209A0000000000        /*  8: 64-bit code */
        .quad 0x0000920000000000        /* 16: data */
        .globl gdt_tss
gdt_tss:
        .quad 0, 0                      /* 24: the task segment, filled in by faults_start */
gdt_end:
        .balign 8
gdt_pointer:
        .word gdt_end - gdt - 1
        .long gdt

/* Flags of the tables: 1 present, 2 may be written, 8 write-through (a reset must not lose stores in a cache), 80 a
   large page. */
        .balign PAGE
top_table:
        .quad third_table + 3
        .fill 511, 8, 0
third_table:
        .quad directory + 3
        .fill 511, 8, 0

directory:                              /* large pages: the film read-only, kept memory, no others */
        .quad low_table + 3
        .set at, LARGE_PAGE
        .rept 511
        .if at >= GIVEN && at < FILM + FILM_ROOM
        .quad at + 0x81
        .elseif at >= KEPT && at < KEPT + KEPT_ROOM
        .quad at + 0x8B
        .else
        .quad 0
        .endif
        .set at, at + LARGE_PAGE
        .endr

low_table:                              /* the first 2 MiB: stack, display and program, no others */
        .set at, 0
        .rept 512
        .if at >= STACK_LOW && at < STACK_TOP
        .quad at + 3
        .elseif at >= WINDOW && at < WINDOW + WINDOW_BYTES
        .quad at + 3
        .elseif at >= PROGRAM
        .quad at + 3
        .else
        .quad 0
        .endif
        .set at, at + PAGE
        .endr

        .section .note.GNU-stack, "", @progbits
