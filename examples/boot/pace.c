/* pace.c - waiting, by channel 2 of the PC's timer, which counts 1,193,182 times a second */

#include "pace.h"
#include "machine.h"

enum { GATE = 0x61, GATE_OPEN = 1, SPEAKER = 2, DONE = 0x20 };
enum { CHANNEL_2 = 0x42, COMMAND = 0x43, COUNT_ONCE = 0xB0, RATE = 1193182, LONGEST = 50000 };

static void wait_part(uint64_t microseconds) {
    uint64_t count = microseconds * RATE / 1000000;
    out8(GATE, (uint8_t)((in8(GATE) & ~SPEAKER) | GATE_OPEN));
    out8(COMMAND, COUNT_ONCE);
    out8(CHANNEL_2, (uint8_t)count);
    out8(CHANNEL_2, (uint8_t)(count >> 8));
    while ((in8(GATE) & DONE) == 0) {
    }
}

void pace_wait(uint64_t microseconds) {
    for (; microseconds > LONGEST; microseconds -= LONGEST) {
        wait_part(LONGEST);
    }
    if (microseconds > 0) {
        wait_part(microseconds);
    }
}
