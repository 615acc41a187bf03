/* memory.S - memset and memcpy, which the library and the compiler call. They take no stack. */

        .text
        .globl memset
memset: movq %rdi, %r8
        movl %esi, %eax
        movq %rdx, %rcx
        rep stosb
        movq %r8, %rax
        ret

        .globl memcpy
memcpy: movq %rdi, %rax
        movq %rdx, %rcx
        rep movsb
        ret

        .section .note.GNU-stack, "", @progbits
