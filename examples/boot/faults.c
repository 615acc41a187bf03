/* faults.c - what the processor refuses is told, and ends the run

Every fault is taken on a stack of its own, because the stage's may be the reason: the page below it is not mapped.
Interrupts stay off, so that nothing is pushed on the stage's stack, where the library uses some bytes below the stack
pointer, as its ABI allows. */

#include "faults.h"
#include "machine.h"
#include "map.h"
#include "text.h"

enum { VECTORS = 32, STUB = 16, CODE = 8, TASK = 24, OWN_STACK = 4096 };

struct gate {
    uint16_t low;
    uint16_t segment;
    uint16_t stack_and_kind;
    uint16_t middle;
    uint32_t high;
    uint32_t zero;
};

struct pointer {
    uint16_t unused[3];
    uint16_t limit;
    uint64_t base;
};

static struct gate gates[VECTORS];
static uint32_t task[26]; /* the task segment: of its 104 bytes only the stack for faults is used, words 9 and 10 */
static _Alignas(16) uint8_t own_stack[OWN_STACK];
static struct pointer gates_pointer;

extern uint64_t gdt_tss[2];
extern const uint8_t fault_stubs[VECTORS][STUB];

_Noreturn void fault(uint64_t vector, uint64_t error, uint64_t at, uint64_t address);

void faults_enter(size_t vector, uintptr_t entry) {
    struct gate *gate = &gates[vector];
    gate->low = (uint16_t)entry;
    gate->segment = CODE;
    gate->stack_and_kind = 0x8E01; /* the first own stack; a gate that leaves interrupts off */
    gate->middle = (uint16_t)(entry >> 16);
    gate->high = (uint32_t)(entry >> 32);
}

void faults_start(void) {
    uint64_t base = (uintptr_t)task, top = (uintptr_t)(own_stack + OWN_STACK);
    task[9] = (uint32_t)top;
    task[10] = (uint32_t)(top >> 32);
    gdt_tss[0] = (sizeof task - 1) | (base & 0xFFFFFF) << 16 | 0x89ULL << 40 | (base >> 24 & 0xFF) << 56;
    gdt_tss[1] = base >> 32;
    for (size_t i = 0; i < VECTORS; i++) {
        faults_enter(i, (uintptr_t)fault_stubs[i]);
    }
    gates_pointer.limit = sizeof gates - 1;
    gates_pointer.base = (uintptr_t)gates;
    __asm__ volatile("lidt %0" : : "m"(gates_pointer.limit), "m"(gates_pointer.base));
    __asm__ volatile("ltr %w0" : : "r"(TASK) : "memory");
}

/* Called by the stubs, on the stack for faults. */
void fault(uint64_t vector, uint64_t error, uint64_t at, uint64_t address) {
    text("\nfault ");
    text_number(vector);
    text(", error ");
    text_hex(error);
    text(", at ");
    text_hex(at);
    text(", address ");
    text_hex(address);
    text(address < STACK_LOW && address >= STACK_LOW - PAGE ? ": the stack is too small\n" : "\n");
    out8(FAULT_PORT, RUN_FAULT);
    halt();
}

size_t stack_used(void) {
    const volatile uint8_t *byte = (const volatile uint8_t *)STACK_LOW;
    while (byte < (const volatile uint8_t *)STACK_TOP && *byte == 0xA5) {
        byte++;
    }
    return (size_t)((const volatile uint8_t *)STACK_TOP - byte);
}
