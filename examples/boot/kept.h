/* kept.h - what a reset leaves: the pictures and colours, and the record of where the player is */

#ifndef KEPT_H
#define KEPT_H

#include "map.h"
#include "mve.h"

#include <stdbool.h>

/* Rows of blocks, from the first to the last; none where `touched` is 0. */
struct rows {
    size_t touched;
    size_t first;
    size_t last;
};

/* Where the player is, between two steps. */
struct record {
    struct mve_state state;
    struct rows unsent[2]; /* of each picture: the rows touched since it was last sent */
    size_t sent;           /* pictures sent */
    size_t film_length;    /* of the film that it belongs to */
    uint64_t sum;          /* of all words above */
};

/* The same as words. */
union record_words {
    struct record record;
    uint64_t words[sizeof(struct record) / sizeof(uint64_t)];
};

/* What is kept. Palette, place and pictures are the library's, which a stop leaves in the middle of a change. */
struct kept {
    uint64_t holds; /* which record holds; anything else where none does */
    size_t place;
    union record_words records[2];
    uint8_t palette[MVE_PALETTE_BYTES];
    uint8_t shown[2][MVE_PALETTE_BYTES]; /* the palette of the last picture sent, and of the one before, in turn */
    uint8_t pictures[2][MVE_PICTURE_BYTES];
};

_Static_assert(sizeof(struct kept) <= KEPT_ROOM, "more is kept than there is room for");
_Static_assert(sizeof(union record_words) == sizeof(struct record), "a record is whole words");

/* At KEPT, by the linker. */
extern struct kept kept;

/* Whether a record of a film of this length holds. */
bool kept_holds(size_t film_length);

/* The record that holds. */
const struct record *kept_record(void);

/* No record holds any more; palette, place and pictures are 0. */
void kept_clear(void);

/* The next record holds from now on. Its sum is filled in here. */
void kept_save(union record_words *next);

#endif
