/* kept.c - saving where the player is, so that a reset at any moment leaves a whole record

There are two records, and a word that says which one holds. A new record is written beside the one that holds; the word
is stored last, at once. So a reset leaves the old record or the new one, and never a part of one.

The word has a mark in its upper bits, which memory does not have by chance when power comes on. The version of the
library is a part of the mark: a program with another one, whose state may be laid out otherwise, does not read the
record. The sum is over the record that the word names, which was whole before it was named: it finds memory that has
decayed while power was off for a moment. There is none over palette, place and pictures, because a stop may leave these
in the middle of a change, and the next step goes on from there. */

#include "kept.h"
#include "machine.h"

/* "MVEStag" and the version; the lowest bit is free for the record. */
#define MARK (0x4D56455374616700u + 2 * MVE_VERSION)

enum { RECORD_WORDS = sizeof(struct record) / sizeof(uint64_t) };

static uint64_t sum(const union record_words *of) {
    uint64_t sum = MARK;
    for (size_t i = 0; i < RECORD_WORDS - 1; i++) {
        sum = (sum ^ of->words[i]) * 0x9E3779B97F4A7C15u;
    }
    return sum;
}

static const union record_words *holding(void) {
    return &kept.records[kept.holds & 1];
}

bool kept_holds(size_t film_length) {
    return (kept.holds & ~(uint64_t)1) == MARK && holding()->record.sum == sum(holding()) &&
           holding()->record.film_length == film_length;
}

const struct record *kept_record(void) {
    return &holding()->record;
}

void kept_clear(void) {
    *(volatile uint64_t *)&kept.holds = 0;
    stores_in_order();
    memset(&kept, 0, sizeof kept);
    stores_in_order();
}

void kept_save(union record_words *next) {
    uint64_t spare = 1 - (kept.holds & 1);
#ifdef FAULT_ONE_RECORD /* wrong on purpose, for the test: the record that holds is written over */
    spare = 1 - spare;
#endif
    volatile uint64_t *to = kept.records[spare].words;
    next->record.sum = sum(next);
    for (size_t i = 0; i < RECORD_WORDS; i++) {
        to[i] = next->words[i];
    }
    stores_in_order();
    *(volatile uint64_t *)&kept.holds = MARK | spare;
    stores_in_order();
}
