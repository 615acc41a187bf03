/* machine.h - the instructions that C has no words for */

#ifndef MACHINE_H
#define MACHINE_H

#include <stddef.h>
#include <stdint.h>

/* Four bytes of anything. */
typedef uint32_t __attribute__((may_alias)) any_word;

/* Copies a multiple of four bytes, between addresses that are multiples of four. */
static inline void copy_words(volatile uint8_t *to, const uint8_t *from, size_t bytes) {
    for (size_t i = 0; i < bytes; i += sizeof(any_word)) {
        *(volatile any_word *)(to + i) = *(const any_word *)(from + i);
    }
}

static inline void out8(uint16_t port, uint8_t value) {
    __asm__ volatile("outb %0, %1" : : "a"(value), "Nd"(port));
}

static inline uint8_t in8(uint16_t port) {
    uint8_t value;
    __asm__ volatile("inb %1, %0" : "=a"(value) : "Nd"(port));
    return value;
}

static inline void out16(uint16_t port, uint16_t value) {
    __asm__ volatile("outw %0, %1" : : "a"(value), "Nd"(port));
}

static inline uint16_t in16(uint16_t port) {
    uint16_t value;
    __asm__ volatile("inw %1, %0" : "=a"(value) : "Nd"(port));
    return value;
}

/* All stores in front of it are made before all stores behind it. The processor keeps their order (x86-64), so only the
   compiler must be told. A machine that reorders stores, or loses a cache at a reset, needs an instruction here. */
static inline void stores_in_order(void) {
    __asm__ volatile("" : : : "memory");
}

/* How a run ended, for a machine that has a port to be told so: `run` gives QEMU one for faults, and one for the other ends
   where there is no window to be left open. QEMU then ends, with the status 2 n + 1. */
enum { FAULT_PORT = 0xF4, END_PORT = 0xF5 };
enum { RUN_ENDED = 16, RUN_REFUSED = 17, RUN_FAULT = 18 };

/* memory.S; the library and the compiler call them, too. */
void *memset(void *to, int byte, size_t bytes);
void *memcpy(void *restrict to, const void *restrict from, size_t bytes);

/* start.S. Never comes back. */
_Noreturn void halt(void);

#endif
