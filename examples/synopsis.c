// Plays the pictures of the film on standard input: counts them, or says why the film is refused.
#include "mve.h"
#include <stdio.h>

static uint8_t film[1 << 24]; // 16 MiB; a longer film is cut there
static uint8_t palette[MVE_PALETTE_BYTES], a[MVE_PICTURE_BYTES], b[MVE_PICTURE_BYTES], room[1];
static uint16_t c[MVE_PICTURE_WORDS], d[MVE_PICTURE_WORDS], e[MVE_PICTURE_WORDS]; // for a film with true colour
static struct mve_stepped answers[2]; // in turn: the state of the one goes in, the other is written
static size_t length, place, pictures, last; // last: which answer holds

// In a function of its own, so that the steps do not stand on its stack.
__attribute__((noinline)) static size_t begin(void) {
    return mve_begin(film, length, MVE_NO_STREAM, &answers[0], MVE_STEPPED_NUMBERS, palette, sizeof palette, &place);
}

int main(void) {
    length = fread(film, 1, sizeof film, stdin);
    size_t kind = begin();
    while (kind != MVE_ENDED && kind != MVE_REFUSED) {
        const struct mve_state *from = &answers[last].state;
        struct mve_stepped *out = &answers[1 - last];
        kind = mve_step(film, length, from, MVE_STATE_NUMBERS, out, MVE_STEPPED_NUMBERS, palette, sizeof palette,
                        a, sizeof a, b, sizeof b, c, MVE_PICTURE_WORDS, d, MVE_PICTURE_WORDS, e, MVE_PICTURE_WORDS,
                        &place, room, sizeof room, MVE_ALL_STORES, MVE_DEFAULT);
        if (mve_is_sent(from, &out->state)) {
            // Show picture `front` of the film's kind: a or b by the palette, as many bytes as mve_shown says; or c, d
            // or e, as many words as mve_shown_words says.
            pictures += 1;
        }
        last = 1 - last;
    }
    const struct mve_stepped *end = &answers[last];
    if (kind == MVE_REFUSED) {
        fprintf(stderr, "refusal %zu at byte %zu: %s\n", end->number, end->state.position,
                mve_refusal_text(end->number));
        return 1;
    }
    printf("%zu pictures of %zu by %zu pixels\n", pictures, 8 * end->state.columns, 8 * end->state.rows);
    return 0;
}
