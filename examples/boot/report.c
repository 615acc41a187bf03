/* report.c - for the test: every picture that is shown, written to QEMU's debug port as the display holds it

A message is the mark "MVE>", then its kind, the picture's number (4 bytes), width and height (2 bytes each), the 768
components of the colours, the pixels, and a sum over all from the kind on (4 bytes). Numbers have their low byte first.
A reset may cut a message anywhere; the sum tells a whole one. A stage that is not tested leaves this file out. */

#include "report.h"
#include "display.h"
#include "machine.h"
#include "stops.h"

enum { PORT = 0xE9, LISTENS = 0xE9, COMPONENTS = 768 };

static uint32_t sum;

static void put(uint8_t byte) {
    out8(PORT, byte);
    sum = (sum ^ byte) * 16777619u; /* FNV-1a */
}

static void put_number(size_t number, int bytes) {
    for (; bytes > 0; bytes--, number >>= 8) {
        put((uint8_t)number);
    }
}

static void put_picture(enum report_kind kind, size_t number, size_t copy, size_t width, size_t height) {
    put_number(0x3E45564D, 4);
    sum = 2166136261u;
    put_number(kind, 1);
    put_number(number, 4);
    put_number(width, 2);
    put_number(height, 2);
    for (size_t i = 0; i < COMPONENTS; i++) {
        put(display_component(i));
    }
    for (size_t y = 0; y < height; y++) {
        const volatile uint8_t *row = display_row(copy, width, height, y);
        for (size_t x = 0; x < width; x++) {
            put(row[x]);
        }
    }
    put_number(sum, 4);
}

void report(enum report_kind kind, size_t number, size_t copy, size_t width, size_t height) {
    stops_pause();
    if (in8(PORT) == LISTENS) {
        put_picture(kind, number, copy, width, height);
    }
    stops_resume();
}
