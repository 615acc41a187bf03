/* display.c - the standard VGA of QEMU and Bochs, by its ports: a mode that is set by numbers, the window of 64 KiB,
   and the colour table with components of 6 bits

A line of display memory has 1,024 bytes, so that the window holds 64 lines and no line is split. Copy 0 stands in the
lines from 0 on, copy 1 in those from 512 on. */

#include "display.h"
#include "machine.h"
#include "map.h"

enum { LINE = 1024, COPY_LINES = 512, WINDOW_LINES = WINDOW_BYTES / LINE };

enum { MODE_INDEX = 0x1CE, MODE_VALUE = 0x1CF };
enum { MODE_WIDTH = 1, MODE_HEIGHT = 2, MODE_BITS = 3, MODE_ON = 4, MODE_WINDOW = 5, MODE_LINE = 6, MODE_TOP = 9 };
enum { ON = 1, ON_UNCLEARED = 0x81 };

enum { FLIPFLOP = 0x3DA, ATTRIBUTES = 0x3C0, SCREEN_ON = 0x20 };
enum { COLOUR_MASK = 0x3C6, COLOUR_READ = 0x3C7, COLOUR_WRITE = 0x3C8, COLOUR = 0x3C9, COMPONENTS = 768 };

static void set(uint16_t index, size_t value) {
    out16(MODE_INDEX, index);
    out16(MODE_VALUE, (uint16_t)value);
}

static void set_mode(size_t width, size_t height, size_t on) {
    set(MODE_ON, 0);
    set(MODE_WIDTH, width);
    set(MODE_HEIGHT, height);
    set(MODE_BITS, 8);
    set(MODE_ON, on);
}

void display_start(void) {
    set_mode(LINE, 2 * COPY_LINES, ON); /* the device clears what it shows: here both copies */
    set_mode(DISPLAY_WIDTH, DISPLAY_HEIGHT, ON_UNCLEARED);
    set(MODE_LINE, LINE);
    (void)in8(FLIPFLOP);
    out8(ATTRIBUTES, SCREEN_ON);
    out8(COLOUR_MASK, 0xFF);
}

/* The address of a line of display memory, seen through the window. It is moved only where it must: that takes long. */
static volatile uint8_t *line(size_t number) {
    static size_t seen; /* the mode begins with part 0 */
    if (seen != number / WINDOW_LINES) {
        seen = number / WINDOW_LINES;
        set(MODE_WINDOW, seen);
    }
    return (volatile uint8_t *)(WINDOW + number % WINDOW_LINES * LINE);
}

static volatile uint8_t *row_of(size_t copy, size_t width, size_t height, size_t row) {
    size_t above = (DISPLAY_HEIGHT - height) / 2, left = (DISPLAY_WIDTH - width) / 2;
    return line(copy * COPY_LINES + above + row) + left;
}

const volatile uint8_t *display_row(size_t copy, size_t width, size_t height, size_t row) {
    return row_of(copy, width, height, row);
}

void display_rows(size_t copy, const uint8_t *picture, size_t width, size_t height, size_t first, size_t end) {
    for (size_t row = first; row < end; row++) {
        copy_words(row_of(copy, width, height, row), picture + row * width, width);
    }
}

/* The colours come first: for a moment the old copy is shown in them. A display that tells when it is between two
   pictures is asked here. */
void display_show(size_t copy, const uint8_t *palette) {
    out8(COLOUR_WRITE, 0);
    for (size_t i = 0; i < COMPONENTS; i++) {
        out8(COLOUR, palette[i]);
    }
    set(MODE_TOP, copy * COPY_LINES);
}

uint8_t display_component(size_t i) {
    if (i == 0) {
        out8(COLOUR_READ, 0);
    }
    return in8(COLOUR);
}
