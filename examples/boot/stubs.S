/* stubs.S - the 32 entries for faults, 16 bytes each: vector, error and place are handed to fault() */

        .text
        .balign 16
        .globl fault_stubs
fault_stubs:
        .set vector, 0
        .rept 32
        .balign 16
        .if vector == 8 || vector == 17 || (vector >= 10 && vector <= 14)
        .else
        pushq $0                        /* where the processor gives no error code */
        .endif
        pushq $vector
        jmp handed_on
        .set vector, vector + 1
        .endr

handed_on:
        popq %rdi
        popq %rsi
        movq (%rsp), %rdx
        movq %cr2, %rcx
        cld
        andq $-16, %rsp
        call fault

        .section .note.GNU-stack, "", @progbits
