/* stops.c - for the test: a watchdog that counts instructions, see stops.h

The processor's trap flag makes a fault of vector 1 behind every instruction. It is taken on the stack for faults. */

#include "stops.h"

#ifdef STOPS

#include "faults.h"
#include "map.h"

#include <stdint.h>

/* The number of the start, in the last word that is kept. */
#define STARTS ((volatile uint64_t *)(KEPT + KEPT_ROOM) - 1)

/* Instructions that are left; 0 where none are counted. */
uint64_t stops_left;

/* The entry of vector 1. No register is changed; the old flags come back. */
void stops_trap(void);
__asm__(".globl stops_trap\n"
        "stops_trap: decq stops_left\n"
        "    jz 1f\n"
        "    iretq\n"
        "1:  movl $0xCF9, %edx\n" /* the reset register */
        "    movb $6, %al\n"
        "    outb %al, %dx\n"
        "2:  hlt\n"
        "    jmp 2b\n");

void stops_start(void) {
    *STARTS += 1;
    stops_left = STOPS * *STARTS;
    faults_enter(1, (uintptr_t)stops_trap);
    stops_resume();
}

void stops_pause(void) {
    __asm__ volatile("pushfq; andq $~0x100, (%%rsp); popfq" : : : "memory", "cc");
}

void stops_resume(void) {
    if (stops_left > 0) {
        __asm__ volatile("pushfq; orq $0x100, (%%rsp); popfq" : : : "memory", "cc");
    }
}

#endif
