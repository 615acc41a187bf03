/* painted.c - runs a caller of the library on a stack of its own, painted before, and tells how many of its bytes were
   written

    painted CALL ALLOWED PAINT < INPUT

CALL is a call of the library. The caller of mve_step is main of examples/synopsis.c, compiled under the name `stage`, and
INPUT is the film that it reads. The other callers are those of callers.c. INPUT of open, begin, shown, salvage and strip is
a film, too (of shown_words one with true colour); of the others it is packets, each as four numbers of four bytes, columns, rows and the lengths of map and data,
then map and data; frames of Video 1 have no map. What encode wants is the picture that a packet gives. ALLOWED is for the
drawing calls. PAINT is the byte that the stack is painted with; a caller may store it, so that more than one is to be tried.

Prints the bytes from the end of the stack to the lowest one that is not the paint. Then, of mve_step, the pictures that the
stage counted and the number of its refusal or 0; of the others how many runs were not refused, and 0.

fread, printf and fprintf of the stage are the functions below, which take less stack than a step. So is memset, which the
library calls: it takes none but its return address. */

#include "callers.h"

#include <stdarg.h>
#include <stdio.h>
#include <stdlib.h>
#include <string.h>

enum { STACK = 1 << 16 };

static uint8_t stack[STACK] __attribute__((aligned(16)));
static uint8_t input[1 << 24];
static size_t input_length, pictures, refusal;

int stage(void);
size_t stage_fread(void *to, size_t size, size_t count, FILE *file);
int stage_printf(const char *format, ...);
int stage_fprintf(FILE *file, const char *format, ...);

void *memset(void *to, int byte, size_t count) {
    void *at = to;
    __asm__ volatile("rep stosb" : "+D"(at), "+c"(count) : "a"(byte) : "memory");
    return to;
}

/* The film. */
size_t stage_fread(void *to, size_t size, size_t count, FILE *file) {
    (void)file;
    size_t length = input_length < size * count ? input_length : size * count;
    const uint8_t *from = input;
    __asm__ volatile("rep movsb" : "+D"(to), "+S"(from), "+c"(length) : : "memory");
    return input_length < size * count ? input_length : size * count;
}

/* How many pictures. */
int stage_printf(const char *format, ...) {
    va_list arguments;
    va_start(arguments, format);
    pictures = va_arg(arguments, size_t);
    va_end(arguments);
    return 0;
}

/* The number of the refusal. */
int stage_fprintf(FILE *file, const char *format, ...) {
    va_list arguments;
    (void)file;
    va_start(arguments, format);
    refusal = va_arg(arguments, size_t);
    va_end(arguments);
    return 0;
}

/* Calls a function on the stack whose end this is. At a call the stack pointer is a multiple of 16. */
static void call_on(uint8_t *end, void (*caller)(void)) {
    __asm__ volatile("movq %%rsp, %%r12\n\t"
                     "movq %0, %%rsp\n\t"
                     "call *%1\n\t"
                     "movq %%r12, %%rsp"
                     : "+r"(end), "+r"(caller)
                     :
                     : "rax", "rcx", "rdx", "rsi", "rdi", "r8", "r9", "r10", "r11", "r12", "memory", "cc", "xmm0", "xmm1",
                       "xmm2", "xmm3", "xmm4", "xmm5", "xmm6", "xmm7", "xmm8", "xmm9", "xmm10", "xmm11", "xmm12",
                       "xmm13", "xmm14", "xmm15");
}

/* The bytes of the stack that the caller writes, from the lowest on. */
static size_t written(void (*caller)(void), uint8_t paint) {
    memset(stack, paint, sizeof stack);
    call_on(stack + sizeof stack, caller);
    size_t lowest = 0;
    while (lowest < sizeof stack && stack[lowest] == paint) {
        lowest += 1;
    }
    return sizeof stack - lowest;
}

static const struct {
    const char *name;
    void (*caller)(void);
    int takes_packets;
} callers[] = {
    {"mve_open", call_mve_open, 0},
    {"mve_begin", call_mve_begin, 0},
    {"mve_shown", call_mve_shown, 0},
    {"mve_step", (void (*)(void))stage, 0},
    {"mve_check", call_mve_check, 1},
    {"mve_check_strict", call_mve_check_strict, 1},
    {"mve_draw", call_mve_draw, 1},
    {"mve_draw_strict", call_mve_draw_strict, 1},
    {"mve_shown_words", call_mve_shown_words, 0},
    {"mve_check_words", call_mve_check_words, 1},
    {"mve_check_words_strict", call_mve_check_words_strict, 1},
    {"mve_draw_words", call_mve_draw_words, 1},
    {"mve_draw_words_strict", call_mve_draw_words_strict, 1},
    {"mve_origin", call_mve_origin, 1},
    {"mve_salvage", call_mve_salvage, 0},
    {"mve_strip", call_mve_strip, 0},
    {"mve_encode", call_mve_encode, 1},
    {"mve_video1", call_mve_video1, 1},
};

static size_t number(const uint8_t *bytes) {
    return bytes[0] + 256u * bytes[1] + 65536u * bytes[2];
}

/* Lends the packet at an offset of the input. The offset of the next one. */
static size_t lend_packet(size_t at) {
    columns = number(input + at);
    rows = number(input + at + 4);
    map_length = number(input + at + 8);
    data_length = number(input + at + 12);
    map = input + at + 16;
    data = map + map_length;
    return at + 16 + map_length + data_length;
}

int main(int count, char **words) {
    size_t deepest = 0, runs = 0, which = 0;
    while (count == 4 && which < sizeof callers / sizeof *callers && strcmp(words[1], callers[which].name) != 0) {
        which += 1;
    }
    if (count != 4 || which == sizeof callers / sizeof *callers) {
        return 2;
    }
    input_length = fread(input, 1, sizeof input, stdin);
    film = input;
    film_length = input_length;
    if (callers[which].caller == call_mve_shown || callers[which].caller == call_mve_shown_words) {
        call_mve_begin();
    }
    for (size_t at = 0; at < input_length; runs += 1) {
        at = callers[which].takes_packets ? lend_packet(at) : input_length;
        allowed = strtoull(words[2], NULL, 10);
        place = 0;
        if (callers[which].caller == call_mve_encode) {
            mve_draw(columns, rows, map, map_length, data, data_length, front, sizeof front, wanted, sizeof wanted, &place,
                     MVE_ALL_STORES);
        }
        size_t bytes = written(callers[which].caller, (uint8_t)atoi(words[3]));
        deepest = bytes > deepest ? bytes : deepest;
        runs -= kind == MVE_REFUSED || verdict.kind == MVE_REFUSED || traced.kind == MVE_REFUSED || salvaged.number != 0 ||
                stripped.number != 0 || encoded.number != 0 || frame_refusal != 0;
    }
    printf("%zu %zu %zu\n", deepest, callers[which].caller == (void (*)(void))stage ? pictures : runs, refusal);
    return 0;
}
