/* coverage.c - tells libFuzzer which blocks of the proved library's machine code a run reaches first

The library is compiled by its own compiler, which makes no coverage. So each basic block gets a breakpoint as its first
byte. The handler takes it away and counts the block in a section that libFuzzer reads. Each block is told once, for the
first input that reaches it, and costs nothing from then on. MVE_FUZZ_BLOCKS names the file with the blocks' addresses; the
program is linked at fixed ones. */

#define _GNU_SOURCE
#include <signal.h>
#include <stdint.h>
#include <stdio.h>
#include <stdlib.h>
#include <string.h>
#include <sys/mman.h>
#include <ucontext.h>

enum { MOST = 32768, BREAKPOINT = 0xCC };

__attribute__((section("__libfuzzer_extra_counters"))) static uint8_t reached[MOST];

static uintptr_t blocks[MOST]; /* rising */
static uint8_t first_bytes[MOST];
static size_t count, told;

static int compare(const void *a, const void *b) {
    uintptr_t x = *(const uintptr_t *)a, y = *(const uintptr_t *)b;
    return x < y ? -1 : x > y;
}

static void on_breakpoint(int signal, siginfo_t *info, void *context) {
    (void)signal, (void)info;
    greg_t *next = &((ucontext_t *)context)->uc_mcontext.gregs[REG_RIP];
    uintptr_t block = (uintptr_t)*next - 1;
    const uintptr_t *found = bsearch(&block, blocks, count, sizeof *blocks, compare);
    if (found == NULL) {
        abort(); /* a breakpoint that is not ours */
    }
    *(uint8_t *)block = first_bytes[found - blocks];
    reached[found - blocks] = 1;
    told += 1;
    *next = (greg_t)block;
}

static void tell(void) {
    fprintf(stderr, "coverage: %zu of %zu blocks of the library\n", told, count);
}

void watch_coverage(void) {
    const char *name = getenv("MVE_FUZZ_BLOCKS");
    FILE *file = name == NULL ? NULL : fopen(name, "r");
    if (file == NULL) {
        fprintf(stderr, "coverage: MVE_FUZZ_BLOCKS names no file: nothing guides the fuzzer\n");
        exit(2);
    }
    while (count < MOST && fscanf(file, "%zx", &blocks[count]) == 1) {
        count += 1;
    }
    fclose(file);
    qsort(blocks, count, sizeof *blocks, compare);
    struct sigaction action = {.sa_sigaction = on_breakpoint, .sa_flags = SA_SIGINFO | SA_NODEFER};
    sigaction(SIGTRAP, &action, NULL);
    for (size_t i = 0; i < count; i += 1) {
        void *page = (void *)(blocks[i] & ~(uintptr_t)4095);
        if (mprotect(page, 4096, PROT_READ | PROT_WRITE | PROT_EXEC) != 0) {
            perror("coverage: mprotect");
            exit(2);
        }
        first_bytes[i] = *(uint8_t *)blocks[i];
        *(uint8_t *)blocks[i] = BREAKPOINT;
    }
    atexit(tell);
}
