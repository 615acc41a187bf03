/* text.c - lines of text on the first serial port */

#include "text.h"
#include "machine.h"

enum { PORT = 0x3F8, STATUS = 0x3FD, EMPTY = 0x20, PATIENCE = 100000 };

static void put(char character) {
    for (int i = 0; i < PATIENCE && (in8(STATUS) & EMPTY) == 0; i++) {
    }
    out8(PORT, (uint8_t)character);
}

void text(const char *words) {
    while (*words != '\0') {
        put(*words++);
    }
}

static void put_digits(uint64_t number, uint64_t base) {
    uint64_t place = 1;
    while (number / place >= base) {
        place *= base;
    }
    for (; place > 0; place /= base) {
        put("0123456789abcdef"[number / place % base]);
    }
}

void text_number(uint64_t number) {
    put_digits(number, 10);
}

void text_hex(uint64_t number) {
    put_digits(number, 16);
}

void text_line(const char *words, uint64_t number) {
    text(words);
    text_number(number);
    text("\n");
}
