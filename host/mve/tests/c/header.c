/* The film of document 01's listing, opened and stepped over through the C header, with a call that leaves a block begun;
   states of any numbers; numbers of any count; a film with sound, in rooms that are too small at first; packets with bytes
   left over, by the default and the strict forms; the rows that packets touch; where pixels come from; what is left of a
   scratched film; a film that is stripped; map and packet of a picture; a frame of Video 1; a film and a packet with true
   colour. Exits with 0 where every answer is the one that the documents give. */
#include "mve.h"

#include <stddef.h>
#include <stdio.h>
#include <stdlib.h>
#include <string.h>

static const uint8_t film[] = {
    'I', 'n', 't', 'e', 'r', 'p', 'l', 'a', 'y', ' ', 'M', 'V', 'E', ' ', 'F', 'i', 'l', 'e', 0x1a, 0x00,
    0x1a, 0x00, 0x00, 0x01, 0x33, 0x11,
    0x0c, 0x00, 0x02, 0x00, 0x04, 0x00, 0x05, 0x00, 0x01, 0x00, 0x01, 0x00, 0x00, 0x00, 0x01, 0x00,
    0x24, 0x00, 0x03, 0x00, 0x01, 0x00, 0x0f, 0x00, 0x0e, 0x0f, 0x00, 0x11, 0x00,
    0, 0, 0, 0, 0, 0, 0, 0, 0, 0, 0, 0, 0, 0,
    0x2a, 0x04, 0x00, 0x07, 0x00, 0x00, 0x00, 0x00, 0x00, 0x00, 0x00, 0x01, 0x00,
};

#define EXPECT(holds)                                                                     \
    do {                                                                                  \
        if (!(holds)) {                                                                   \
            fprintf(stderr, "line %d: not so: %s\n", __LINE__, #holds);                   \
            return 1;                                                                     \
        }                                                                                 \
    } while (0)

/* 03, version 1: 16-bit, stereo, compressed; 08 with two start words and a byte a channel; 08 with a byte a channel; 09 of
   two samples. All for stream 5, which mask 20 has. */
static const uint8_t sound_film[] = {
    'I', 'n', 't', 'e', 'r', 'p', 'l', 'a', 'y', ' ', 'M', 'V', 'E', ' ', 'F', 'i', 'l', 'e', 0x1a, 0x00,
    0x1a, 0x00, 0x00, 0x01, 0x33, 0x11,
    0x34, 0x00, 0x01, 0x00,
    0x0a, 0x00, 0x03, 0x01, 0x00, 0x00, 0x07, 0x00, 0x22, 0x56, 0x00, 0x00, 0x00, 0x00,
    0x0c, 0x00, 0x08, 0x00, 0x00, 0x00, 0x20, 0x00, 0x04, 0x00, 0xff, 0x7f, 0x64, 0x00, 0x88, 0x03,
    0x08, 0x00, 0x08, 0x00, 0x01, 0x00, 0x20, 0x00, 0x02, 0x00, 0xff, 0x01,
    0x06, 0x00, 0x09, 0x00, 0x02, 0x00, 0x20, 0x00, 0x02, 0x00,
};

/* 32767 and entry 136, 29973, with wrap-around: -2796, in bytes 14 f5; 100 and 3; -2796 and -1; 103 and 1; silence. */
static const uint8_t samples[] = {
    0xff, 0x7f, 0x64, 0x00, 0x14, 0xf5, 0x67, 0x00, 0x13, 0xf5, 0x68, 0x00, 0x00, 0x00, 0x00, 0x00,
};

/* What is lent to a film's steps. */
struct lent {
    uint8_t palette[768], a[64], b[64], room[16];
    uint16_t c[64], d[64], e[64];
    size_t palette_length, room_length, place;
};

static struct lent all_lent(void) {
    struct lent lent;
    memset(&lent, 0, sizeof lent);
    lent.palette_length = sizeof lent.palette;
    return lent;
}

static int is_same(struct mve_state s, struct mve_state t) {
    return memcmp(&s, &t, sizeof s) == 0;
}

/* A call returns the kind that it writes. */
static void same_kind(size_t returned, const struct mve_stepped *out) {
    if (returned != out->kind) {
        fprintf(stderr, "returned %zu, written %zu\n", returned, out->kind);
        exit(1);
    }
}

/* In each of these all numbers of the answer are other ones before the call. */
static struct mve_stepped opened(const uint8_t *bytes, size_t length, size_t stream) {
    struct mve_stepped out;
    memset(&out, 0x77, sizeof out);
    same_kind(mve_open(bytes, length, stream, &out, MVE_STEPPED_NUMBERS), &out);
    return out;
}

static struct mve_stepped begun(const uint8_t *bytes, size_t length, size_t stream, struct lent *lent) {
    struct mve_stepped out;
    memset(&out, 0x77, sizeof out);
    same_kind(mve_begin(bytes, length, stream, &out, MVE_STEPPED_NUMBERS, lent->palette, lent->palette_length,
                        &lent->place), &out);
    return out;
}

static struct mve_stepped stepped(const uint8_t *bytes, size_t length, struct mve_state state, struct lent *lent,
                                  size_t allowed, size_t form) {
    struct mve_state from = state;
    struct mve_stepped out;
    memset(&out, 0x77, sizeof out);
    same_kind(mve_step(bytes, length, &from, MVE_STATE_NUMBERS, &out, MVE_STEPPED_NUMBERS, lent->palette,
                       lent->palette_length, lent->a, sizeof lent->a, lent->b, sizeof lent->b, lent->c, 64, lent->d, 64,
                       lent->e, 64, &lent->place, lent->room, lent->room_length, allowed, form), &out);
    if (!is_same(from, state)) {
        fprintf(stderr, "the state that went in was written\n");
        exit(1);
    }
    return out;
}

static size_t shown(const struct mve_state *state, const struct lent *lent) {
    return mve_shown(state, MVE_STATE_NUMBERS, lent->a, sizeof lent->a, lent->b, sizeof lent->b);
}

static int sound(void) {
    struct lent lent = all_lent();
    uint8_t heard[sizeof samples];
    size_t length = 0, refused = 0;

    /* By the separate calls: the film has no size, and the samples before one are wanted. */
    struct mve_stepped s = opened(sound_film, sizeof sound_film, 5);
    EXPECT(s.kind == MVE_TAKEN && s.bytes == 0 && s.state.stream == 5 && s.state.has_format == 0);
    for (;;) {
        struct mve_state found = s.state;
        memset(lent.room, 0x5a, sizeof lent.room);
        lent.room_length = 0;
        s = stepped(sound_film, sizeof sound_film, found, &lent, 0, MVE_DEFAULT);
        EXPECT(s.bytes == 0);
        if (s.kind == MVE_ENDED) {
            break;
        }
        if (s.kind == MVE_TAKEN) {
            continue;
        }
        /* Nothing has changed, so the step is called again with more room. */
        EXPECT(s.kind == MVE_REFUSED && s.number == MVE_ERROR_ROOM && is_same(s.state, found) && lent.room[0] == 0x5a);
        lent.room_length = sizeof lent.room;
        s = stepped(sound_film, sizeof sound_film, found, &lent, 0, MVE_DEFAULT);
        EXPECT(s.kind == MVE_TAKEN && s.bytes > 0 && length + s.bytes <= sizeof heard && lent.room[s.bytes] == 0x5a);
        memcpy(heard + length, lent.room, s.bytes);
        length += s.bytes;
        refused += 1;
    }
    EXPECT(refused == 3 && length == sizeof samples && memcmp(heard, samples, sizeof samples) == 0);
    EXPECT(s.state.has_format == 1 && s.state.stereo == 1 && s.state.wide == 1 && s.state.compressed == 1);
    EXPECT(s.state.begun == 1 && s.state.left == 0xf513 && s.state.right == 104);

    /* Without a stream all of it is passed over. */
    s = opened(sound_film, sizeof sound_film, 16);
    for (length = 0; s.kind == MVE_TAKEN; length += 1) {
        s = stepped(sound_film, sizeof sound_film, s.state, &lent, 0, MVE_DEFAULT);
    }
    EXPECT(s.kind == MVE_ENDED && length == 6 && s.state.has_format == 0);
    return 0;
}

static int pictures(void) {
    struct lent lent = all_lent();
    uint8_t drawn[64];
    size_t whole = 0, unfinished = 0, sent = 0;
    memset(drawn, 0x2a, sizeof drawn);
    EXPECT(sizeof film == 82);

    struct mve_stepped s = begun(film, sizeof film, 0, &lent);
    EXPECT(s.kind == MVE_TAKEN && s.state.position == 38 && s.state.chunk_end == 42 && s.stores == 0 && s.bytes == 0);
    EXPECT(s.state.columns == 1 && s.state.rows == 1 && shown(&s.state, &lent) == 64);
    while (s.kind != MVE_ENDED) {
        /* 40 is too few for the block: as a stop, it leaves a block begun. */
        size_t allowed = unfinished == 0 ? 40 : 70;
        struct mve_state before = s.state;
        s = stepped(film, sizeof film, before, &lent, allowed, MVE_DEFAULT);
        EXPECT(s.kind != MVE_REFUSED && s.bytes == 0);
        if (s.kind == MVE_UNFINISHED) {
            EXPECT(s.stores == 40 && lent.place == 0 && is_same(s.state, before) && s.state.position == 51);
            unfinished += 1;
        }
        if (s.kind == MVE_WHOLE) {
            EXPECT(s.stores == 65 && lent.place == 1 && s.state.position == 70 && s.state.unsent != 0);
            whole += 1;
        }
        if (mve_is_sent(&before, &s.state)) {
            EXPECT(before.position == 70 && before.front == 0 && s.state.front == 1);
            sent += 1;
        }
    }
    EXPECT(sent == 1);
    EXPECT(unfinished == 1 && whole == 1 && s.state.position == 82 && s.state.front == 1);
    EXPECT(s.state.columns == 1 && s.state.rows == 1 && s.state.unsent == 0 && s.state.has_map == 0);
    EXPECT(shown(&s.state, &lent) == 64 && memcmp(lent.b, drawn, 64) == 0);

    /* Where the state stays, its numbers come back as they came. */
    struct mve_state odd = s.state;
    odd.map_start = 7;
    odd.unsent = 2;
    odd.begun = 3;
    odd.right = 4;
    s = stepped(film, sizeof film, odd, &lent, 70, MVE_DEFAULT);
    EXPECT(s.kind == MVE_ENDED && is_same(s.state, odd));

    lent.palette_length = 767;
    struct mve_stepped short_palette = stepped(film, sizeof film, s.state, &lent, 70, MVE_DEFAULT);
    EXPECT(short_palette.kind == MVE_REFUSED && short_palette.number == MVE_ERROR_LENT_LENGTH);
    EXPECT(is_same(short_palette.state, odd));
    struct mve_state zeros;
    memset(&zeros, 0, sizeof zeros);
    s = opened(film, 25, 0);
    EXPECT(s.kind == MVE_REFUSED && s.number == MVE_ERROR_HEADER && is_same(s.state, zeros));

    /* A film that is not opened up to its size: where it was refused. Nothing is changed. */
    struct mve_stepped unbegun = begun(film, 26, 0, &lent);
    EXPECT(unbegun.kind == MVE_REFUSED && unbegun.number == MVE_ERROR_LENT_LENGTH && unbegun.state.position == 26);
    lent.palette_length = 768;
    unbegun = begun(film, 25, 0, &lent);
    EXPECT(unbegun.kind == MVE_REFUSED && unbegun.number == MVE_ERROR_HEADER && is_same(unbegun.state, zeros));
    unbegun = begun(film, 26, 0, &lent);
    EXPECT(unbegun.kind == MVE_REFUSED && unbegun.number == MVE_ERROR_NO_SIZE && unbegun.state.position == 26);
    unbegun = begun(film, 34, 0, &lent);
    EXPECT(unbegun.kind == MVE_REFUSED && unbegun.number == MVE_ERROR_CHUNK && unbegun.state.position == 26);
    EXPECT(lent.place == 1);

    /* Two blocks in a row, code 1 and then code 6, which is refused in block 1. */
    const uint8_t map[] = {0x61}, none[] = {0};
    size_t place = 0;
    struct mve_answer answer = mve_check(2, 1, map, 1, none, 0);
    EXPECT(answer.kind == MVE_REFUSED && answer.number == MVE_ERROR_CODE_6 && answer.block == 1);
    answer = mve_check(1, 1, map, 1, none, 0);
    EXPECT(answer.kind == MVE_ACCEPTED);
    answer = mve_draw(1, 1, map, 1, none, 0, lent.a, sizeof lent.a, lent.b, sizeof lent.b, &place, 70);
    EXPECT(answer.kind == MVE_WHOLE && answer.stores == 1 && place == 1 && memcmp(lent.b, drawn, 64) == 0);
    place = 2;
    answer = mve_draw(1, 1, map, 1, none, 0, lent.a, sizeof lent.a, lent.b, sizeof lent.b, &place, 70);
    EXPECT(answer.kind == MVE_REFUSED && answer.number == MVE_ERROR_PLACE && place == 2);

    /* Columns come before rows: 80 of them are taken, 80 rows are not. */
    uint8_t untouched[40];
    memset(untouched, 0x11, sizeof untouched);
    EXPECT(mve_check(80, 1, untouched, sizeof untouched, none, 0).kind == MVE_ACCEPTED);
    EXPECT(mve_check(1, 80, untouched, sizeof untouched, none, 0).number == MVE_ERROR_FRAME_SIZE);
    return 0;
}

/* A step makes of any numbers in a state what the header says: here at the head of the second chunk. */
static int states(void) {
    struct lent lent = all_lent();
    struct mve_stepped s = begun(film, sizeof film, 0, &lent);
    EXPECT(s.kind == MVE_TAKEN && s.state.chunk_end == 42);

    /* Without a map and a format, what stands behind them is not read, and comes back as 0. */
    struct mve_state odd = s.state, plain = s.state;
    odd.position = 42;
    odd.map_start = odd.map_length = odd.unsent = 2;
    odd.stereo = odd.compressed = odd.begun = 3;
    odd.left = odd.right = 4;
    plain.position = 46;
    plain.chunk_end = 82;
    plain.unsent = 1;
    s = stepped(film, sizeof film, odd, &lent, 70, MVE_DEFAULT);
    EXPECT(s.kind == MVE_TAKEN && is_same(s.state, plain));

    /* With both, a flag that is not 0 comes back as 1, and the other numbers as they are. */
    odd.has_map = odd.has_format = odd.wide = (size_t)-1;
    plain.has_map = plain.has_format = plain.wide = plain.stereo = plain.compressed = plain.begun = 1;
    plain.map_start = plain.map_length = 2;
    plain.left = plain.right = 4;
    s = stepped(film, sizeof film, odd, &lent, 70, MVE_DEFAULT);
    EXPECT(s.kind == MVE_TAKEN && is_same(s.state, plain));

    /* A refused step gives all numbers back as they came. */
    lent.palette_length = 767;
    s = stepped(film, sizeof film, odd, &lent, 70, MVE_DEFAULT);
    EXPECT(s.kind == MVE_REFUSED && s.number == MVE_ERROR_LENT_LENGTH && is_same(s.state, odd));
    lent.palette_length = 768;
    odd.front = 2;
    s = stepped(film, sizeof film, odd, &lent, 70, MVE_DEFAULT);
    EXPECT(s.kind == MVE_REFUSED && s.number == MVE_ERROR_STATE && is_same(s.state, odd));
    return 0;
}

/* The fields in the order of the numbers, which the library goes by. */
static const size_t state_places[] = {
    offsetof(struct mve_state, position),   offsetof(struct mve_state, chunk_end), offsetof(struct mve_state, columns),
    offsetof(struct mve_state, rows),       offsetof(struct mve_state, front),     offsetof(struct mve_state, has_map),
    offsetof(struct mve_state, map_start),  offsetof(struct mve_state, map_length), offsetof(struct mve_state, unsent),
    offsetof(struct mve_state, stream),     offsetof(struct mve_state, has_format), offsetof(struct mve_state, stereo),
    offsetof(struct mve_state, wide),       offsetof(struct mve_state, compressed), offsetof(struct mve_state, begun),
    offsetof(struct mve_state, left),       offsetof(struct mve_state, right),      offsetof(struct mve_state, true_colour),
};
static const size_t stepped_places[] = {
    offsetof(struct mve_stepped, kind),      offsetof(struct mve_stepped, number),   offsetof(struct mve_stepped, block),
    offsetof(struct mve_stepped, stores),    offsetof(struct mve_stepped, bytes),    offsetof(struct mve_stepped, touched),
    offsetof(struct mve_stepped, first_row), offsetof(struct mve_stepped, last_row), offsetof(struct mve_stepped, state),
};

/* Each number at its place: the fields lie one behind the other, and each number that a step is given comes back where it
   stood. One flag at a time is set, so that two that change places are seen. */
static int places(void) {
    EXPECT(sizeof state_places / sizeof *state_places == MVE_STATE_NUMBERS && sizeof(size_t) == 8);
    EXPECT(sizeof stepped_places / sizeof *stepped_places == MVE_STEPPED_NUMBERS - MVE_STATE_NUMBERS + 1);
    for (size_t i = 0; i < MVE_STATE_NUMBERS; i += 1) {
        EXPECT(state_places[i] == 8 * i && (i > 8 || stepped_places[i] == 8 * i));
    }

    static const size_t flags[] = {5, 8, 10, 11, 12, 13, 14, 17};
    struct lent lent = all_lent();
    for (size_t i = 0; i < sizeof flags / sizeof *flags; i += 1) {
        /* position and chunk end at the second chunk's head; then columns, rows, front, .., stream, .., left, right,
           true_colour */
        size_t from[18] = {42, 42, 1, 1, 1, 0, 0, 0, 0, 77, 0, 0, 0, 0, 0, 0, 0, 0}, next[18];
        from[flags[i]] = 1;
        if (flags[i] == 5) {
            from[6] = 6;
            from[7] = 7;
        }
        if (flags[i] > 10 && flags[i] < 15) {
            from[10] = 1;
            from[12] |= flags[i] == 13; /* compressed sound has 16 bits */
            from[15] = 65534;
            from[16] = 65535;
        }
        memcpy(next, from, sizeof next);
        next[0] = 46;
        next[1] = 82;
        struct mve_state state;
        memcpy(&state, from, sizeof state);
        struct mve_stepped s = stepped(film, sizeof film, state, &lent, 70, MVE_DEFAULT);
        EXPECT(s.kind == MVE_TAKEN && memcmp(&s.state, next, sizeof next) == 0);
    }
    return 0;
}

/* Memory for numbers of any count, and what is lent beside. */
struct counted {
    size_t from[19], out[27];
    struct lent lent;
};

/* A step at the head of the second chunk, with numbers of these counts. */
static size_t counted_step(struct counted *c, size_t from_numbers, size_t out_numbers) {
    struct lent *lent = &c->lent;
    return mve_step(film, sizeof film, (const struct mve_state *)c->from, from_numbers, (struct mve_stepped *)c->out,
                    out_numbers, lent->palette, lent->palette_length, lent->a, sizeof lent->a, lent->b, sizeof lent->b,
                    lent->c, 0, lent->d, 0, lent->e, 0, &lent->place, lent->room, lent->room_length, 70, MVE_DEFAULT);
}

/* As found but for the answer: refused by 16, and a state of zeros. */
static int is_no_state(const struct counted *c, const struct counted *found) {
    struct counted expected = *found;
    memset(expected.out, 0, MVE_STEPPED_NUMBERS * sizeof(size_t));
    expected.out[0] = MVE_REFUSED;
    expected.out[1] = MVE_ERROR_STATE;
    return memcmp(c, &expected, sizeof expected) == 0;
}

static int counts(void) {
    static const size_t first[19] = {42, 42, 1, 1, 0, 0, 0, 0, 1, 16, 0, 0, 0, 0, 0, 0, 0, 0, 0x77};
    static const size_t wrong[] = {0, 1, 17, 19};
    struct counted found, c;
    memset(&found, 0x77, sizeof found);
    memcpy(found.from, first, sizeof first);
    found.lent = all_lent();

    /* An out that is too short: nothing is touched, whatever else is wrong. */
    for (size_t out = 0; out < MVE_STEPPED_NUMBERS; out += 1) {
        c = found;
        c.from[15] = 65536;
        found.from[15] = 65536;
        EXPECT(counted_step(&c, out % 2 ? MVE_STATE_NUMBERS : 0, out) == MVE_REFUSED);
        EXPECT(memcmp(&c, &found, sizeof c) == 0);
        EXPECT(mve_open(film, sizeof film, 0, (struct mve_stepped *)c.out, out) == MVE_REFUSED);
        EXPECT(mve_begin(film, sizeof film, 0, (struct mve_stepped *)c.out, out, c.lent.palette, out, &c.lent.place) ==
               MVE_REFUSED);
        EXPECT(memcmp(&c, &found, sizeof c) == 0);
        found.from[15] = 0;
    }

    /* One that is long enough: the numbers behind the answer stay. */
    for (size_t out = MVE_STEPPED_NUMBERS; out <= MVE_STEPPED_NUMBERS + 1; out += 1) {
        c = found;
        EXPECT(counted_step(&c, MVE_STATE_NUMBERS, out) == MVE_TAKEN && c.out[0] == MVE_TAKEN && c.out[8] == 46);
        EXPECT(memcmp(c.from, found.from, sizeof c.from) == 0 && c.out[26] == found.out[26]);
        c = found;
        EXPECT(mve_open(film, sizeof film, 3, (struct mve_stepped *)c.out, out) == MVE_TAKEN);
        EXPECT(c.out[8] == 26 && c.out[17] == 3 && c.out[26] == found.out[26]);
        c = found;
        EXPECT(mve_begin(film, sizeof film, 3, (struct mve_stepped *)c.out, out, c.lent.palette, 768, &c.lent.place) ==
               MVE_TAKEN);
        EXPECT(c.out[8] == 38 && c.out[10] == 1 && c.out[17] == 3 && c.out[26] == found.out[26]);
    }

    /* Numbers that are no state's: refused by 16 before anything else is looked at, here a palette that is too short. */
    for (size_t i = 0; i < sizeof wrong / sizeof *wrong; i += 1) {
        for (size_t out = MVE_STEPPED_NUMBERS; out <= MVE_STEPPED_NUMBERS + 1; out += 1) {
            c = found;
            c.lent.palette_length = found.lent.palette_length = 767;
            EXPECT(counted_step(&c, wrong[i], out) == MVE_REFUSED && is_no_state(&c, &found));
            found.lent.palette_length = 768;
        }
        EXPECT(mve_shown((const struct mve_state *)found.from, wrong[i], c.lent.a, 64, c.lent.b, 64) == 0);
        EXPECT(mve_shown_words((const struct mve_state *)found.from, wrong[i], c.lent.c, 64, c.lent.d, 64, c.lent.e, 64) ==
               0);
    }
    EXPECT(mve_shown((const struct mve_state *)found.from, MVE_STATE_NUMBERS, c.lent.a, 64, c.lent.b, 64) == 64);

    /* A last sample of more than 16 bits, with a format and without: no state's, either. 65,535 is one. */
    for (size_t i = 0; i < 4; i += 1) {
        size_t at = 15 + i % 2;
        struct counted with = found;
        with.from[10] = with.from[12] = i / 2;
        with.from[at] = 65535;
        c = with;
        EXPECT(counted_step(&c, MVE_STATE_NUMBERS, MVE_STEPPED_NUMBERS) == MVE_TAKEN);
        EXPECT(c.out[8 + at] == (i / 2 ? 65535 : 0));
        EXPECT(mve_shown((const struct mve_state *)with.from, MVE_STATE_NUMBERS, c.lent.a, 64, c.lent.b, 64) == 64);
        with.from[at] = i % 2 ? 65536 : (size_t)-1;
        c = with;
        EXPECT(counted_step(&c, MVE_STATE_NUMBERS, MVE_STEPPED_NUMBERS) == MVE_REFUSED && is_no_state(&c, &with));
        EXPECT(mve_shown((const struct mve_state *)with.from, MVE_STATE_NUMBERS, c.lent.a, 64, c.lent.b, 64) == 0);
    }
    return 0;
}

/* One solid block, with a byte that pads its packet: the default forms take it, the strict forms refuse it. */
static int padded_packet(void) {
    const uint8_t map[] = {0x0e}, data[] = {0x2a, 0x99, 0x99};
    uint8_t front[64] = {0}, back[64] = {0}, zeros[64] = {0}, drawn[64];
    size_t place = 0;
    memset(drawn, 0x2a, sizeof drawn);
    for (size_t length = 1; length <= 3; length += 1) {
        struct mve_answer answer = mve_check(1, 1, map, 1, data, length);
        EXPECT(answer.kind == (length <= 2 ? MVE_ACCEPTED : MVE_REFUSED));
        EXPECT(answer.number == (length <= 2 ? 0 : MVE_ERROR_DATA_LEFT) && answer.block == 0);
        answer = mve_check_strict(1, 1, map, 1, data, length);
        EXPECT(answer.kind == (length == 1 ? MVE_ACCEPTED : MVE_REFUSED));
        EXPECT(answer.number == (length == 1 ? 0 : MVE_ERROR_DATA_LEFT) && answer.block == 0);
    }

    struct mve_answer answer = mve_draw_strict(1, 1, map, 1, data, 2, front, 64, back, 64, &place, 70);
    EXPECT(answer.kind == MVE_REFUSED && answer.number == MVE_ERROR_DATA_LEFT && answer.stores == 0);
    EXPECT(place == 0 && memcmp(back, zeros, 64) == 0);
    answer = mve_draw(1, 1, map, 1, data, 2, front, 64, back, 64, &place, 70);
    EXPECT(answer.kind == MVE_WHOLE && answer.stores == 65 && place == 1 && memcmp(back, drawn, 64) == 0);
    place = 0;
    memset(back, 0, sizeof back);
    answer = mve_draw_strict(1, 1, map, 1, data, 1, front, 64, back, 64, &place, 70);
    EXPECT(answer.kind == MVE_WHOLE && answer.stores == 65 && place == 1 && memcmp(back, drawn, 64) == 0);
    return 0;
}

/* The film again, as it is, and cut in its opcode 07. Its packet has one byte; where the length of opcode 11 says two, the
   first byte of the next opcode's head is left over. */
static int padded_film(void) {
    struct lent lent = all_lent();
    uint8_t zeros[64] = {0}, drawn[64], padded[71];
    memset(drawn, 0x2a, sizeof drawn);
    memcpy(padded, film, sizeof padded);
    padded[42] = 25; /* the chunk's length: 5 bytes of opcode 0F, 20 of opcode 11 */
    padded[51] = 16; /* the opcode's */

    struct mve_stepped s = begun(padded, sizeof padded, 0, &lent);
    EXPECT(s.kind == MVE_TAKEN && s.state.position == 38);
    while (s.kind == MVE_TAKEN && s.state.position != 51) {
        s = stepped(padded, sizeof padded, s.state, &lent, 70, MVE_STRICT);
    }
    EXPECT(s.kind == MVE_TAKEN && s.state.has_map != 0);
    struct mve_state at_video = s.state;
    /* Every number but 0 means the strict form. */
    static const size_t strict[] = {MVE_STRICT, 2, 256, (size_t)-1};
    for (size_t i = 0; i < sizeof strict / sizeof *strict; i += 1) {
        s = stepped(padded, sizeof padded, at_video, &lent, 70, strict[i]);
        EXPECT(s.kind == MVE_REFUSED && s.number == MVE_ERROR_DATA_LEFT && s.block == 0 && s.stores == 0 && s.bytes == 0);
        EXPECT(is_same(s.state, at_video) && lent.place == 0 && memcmp(lent.b, zeros, 64) == 0);
    }
    s = stepped(padded, sizeof padded, at_video, &lent, 70, MVE_DEFAULT);
    EXPECT(s.kind == MVE_WHOLE && s.stores == 65 && s.state.position == 71 && lent.place == 1);
    EXPECT(memcmp(lent.b, drawn, 64) == 0);

    /* With nothing left over the strict form draws the same. */
    memset(lent.b, 0, sizeof lent.b);
    s = begun(film, sizeof film, 0, &lent);
    while (s.kind == MVE_TAKEN || s.kind == MVE_WHOLE) {
        s = stepped(film, sizeof film, s.state, &lent, 70, MVE_STRICT);
    }
    EXPECT(s.kind == MVE_ENDED && s.state.front == 1 && memcmp(lent.b, drawn, 64) == 0);
    return 0;
}

/* The constants, from the rules: 256 entries of three bytes; 80 by 60 blocks of 64 pixels; as many blocks of 65 stores; a
   word of samples, two bytes each. */
static int constants(void) {
    EXPECT(MVE_VERSION == 16 && MVE_PALETTE_BYTES == 256 * 3 && MVE_PICTURE_BYTES == 80 * 60 * 64);
    EXPECT(MVE_PICTURE_WORDS == 80 * 60 * 64);
    EXPECT(MVE_BLOCK_STORES == 64 + 1 && MVE_ALL_STORES == 80 * 60 * MVE_BLOCK_STORES);
    EXPECT(MVE_PALETTE_STORES == 2 * 256 * 3);
    EXPECT(MVE_ROOM_BYTES == 2 * 65535 && MVE_NO_STREAM == 16);
    EXPECT(MVE_MAP_BYTES == 80 * 60 / 2 && MVE_BODY_BYTES == 65535 - 4);
    EXPECT(MVE_DEFAULT == 0 && MVE_STRICT == 1 && MVE_STATE_NUMBERS == 18 && MVE_STEPPED_NUMBERS == 8 + 18);
    EXPECT(sizeof(struct mve_state) == 18 * sizeof(size_t) && sizeof(struct mve_stepped) == 26 * sizeof(size_t));
    /* What a player lends for writing, at most: palette, pictures, room, place and two answers. */
    EXPECT(MVE_PALETTE_BYTES + 2 * MVE_PICTURE_BYTES + MVE_ROOM_BYTES + sizeof(size_t) + 2 * sizeof(struct mve_stepped) ==
           746662);
    EXPECT(MVE_PALETTE_BYTES + 3 * 2 * MVE_PICTURE_WORDS + MVE_ROOM_BYTES + sizeof(size_t) +
               2 * sizeof(struct mve_stepped) ==
           1975462);
    return 0;
}

/* Every number has a text of its own, and no other has one; 12 to 14 name a block. */
static int texts(void) {
    const char *none = mve_refusal_text(0);
    for (size_t number = 0; number <= 30; number += 1) {
        int known = number >= 1 && number <= 26;
        EXPECT((strcmp(mve_refusal_text(number), none) != 0) == known);
        EXPECT((mve_is_of_block(number) != 0) == (number >= 12 && number <= 14));
        for (size_t other = 1; other < number && known; other += 1) {
            EXPECT(strcmp(mve_refusal_text(number), mve_refusal_text(other)) != 0);
        }
    }
    return 0;
}

/* The time of a picture: of an opcode 02 at the state, and of nothing else. */
static int timers(void) {
    uint8_t film[] = {9, 9, 6, 0, 2, 0, 0x95, 0x20, 0, 0, 8, 0, 9, 9};
    struct mve_state state;
    memset(&state, 0, sizeof state);
    state.position = 2;
    state.chunk_end = 12;
    EXPECT(mve_timer(film, sizeof film, &state) == 66728);
    EXPECT(mve_timer(film, 12, &state) == 66728 && mve_timer(film, 11, &state) == 0);
    film[9] = 255; /* all 32 bits of the rate */
    EXPECT(mve_timer(film, sizeof film, &state) == (UINT64_C(0xFF002095) * 8));
    for (size_t at = 0; at <= 14; at += 1) {
        for (size_t end = 0; end <= 14; end += 1) {
            state.position = at;
            state.chunk_end = end;
            EXPECT((mve_timer(film, sizeof film, &state) != 0) == (at == 2 && end >= 12));
        }
    }
    state.position = 2;
    state.chunk_end = 12;
    film[2] = 5; /* a body that is too short; one that passes its chunk; another type */
    EXPECT(mve_timer(film, sizeof film, &state) == 0);
    film[2] = 7;
    EXPECT(mve_timer(film, sizeof film, &state) == 0);
    film[2] = 6;
    film[4] = 3;
    EXPECT(mve_timer(film, sizeof film, &state) == 0);
    return 0;
}

/* A component's high bits come again: 0 is 0, 63 is 255, and what is above 63 is 63. */
static int colours(void) {
    EXPECT(mve_widened(0) == 0 && mve_widened(1) == 4 && mve_widened(16) == 65 && mve_widened(63) == 255);
    EXPECT(mve_widened(64) == 255 && mve_widened(255) == 255);
    for (unsigned component = 0; component < 64; component += 1) {
        EXPECT(mve_widened((uint8_t)component) == component * 4 + component / 16);
    }
    for (unsigned component = 0; component < 32; component += 1) {
        EXPECT(mve_widened_5((uint8_t)component) == component * 8 + component / 4);
    }
    EXPECT(mve_widened_5(0) == 0 && mve_widened_5(31) == 255 && mve_widened_5(32) == 255 && mve_widened_5(255) == 255);
    return 0;
}

static int has_rows(struct mve_answer answer, size_t touched, size_t first, size_t last) {
    return answer.touched == touched && answer.first_row == first && answer.last_row == last;
}

/* One column and four rows of blocks: code 1, E, 0, 1. The rows are those of the whole packet in every answer but a
   refusal; and the film's step at its only block. */
static int rows(void) {
    const uint8_t map[] = {0xe1, 0x10}, untouched[] = {0x11, 0x11}, data[] = {0x2a, 0x99};
    uint8_t front[256] = {0}, back[256];
    struct lent lent = all_lent();
    size_t place = 0, calls = 0;
    memset(back, 7, sizeof back);
    EXPECT(has_rows(mve_check(1, 4, map, 2, data, 1), 1, 1, 2));
    EXPECT(has_rows(mve_check(1, 4, map, 2, data, 2), 1, 1, 2));
    EXPECT(has_rows(mve_check_strict(1, 4, map, 2, data, 1), 1, 1, 2));
    EXPECT(has_rows(mve_check_strict(1, 4, map, 2, data, 2), 0, 0, 0));
    EXPECT(has_rows(mve_check(1, 4, untouched, 2, data, 0), 0, 0, 0));
    struct mve_answer answer = mve_check(1, 4, map, 2, data, 1);
    for (; answer.kind != MVE_WHOLE; calls += 1) {
        answer = calls % 2 ? mve_draw(1, 4, map, 2, data, 1, front, 256, back, 256, &place, 65)
                           : mve_draw_strict(1, 4, map, 2, data, 1, front, 256, back, 256, &place, 65);
        EXPECT(answer.kind != MVE_REFUSED && has_rows(answer, 1, 1, 2));
        EXPECT(back[63] == 7 && back[192] == 7 && back[255] == 7);
    }
    EXPECT(calls == 4 && place == 4 && back[64] == 0x2a && back[191] == 0);

    size_t drawn = 0;
    struct mve_stepped s = begun(film, sizeof film, 0, &lent);
    EXPECT(s.kind == MVE_TAKEN && s.touched == 0 && s.first_row == 0 && s.last_row == 0);
    while (s.kind != MVE_ENDED) {
        s = stepped(film, sizeof film, s.state, &lent, drawn == 0 ? 40 : 70, MVE_DEFAULT);
        size_t draws = s.kind == MVE_WHOLE || s.kind == MVE_UNFINISHED;
        EXPECT(s.kind != MVE_REFUSED && s.touched == draws && s.first_row == 0 && s.last_row == 0);
        drawn += draws;
    }
    EXPECT(drawn == 2);
    return 0;
}

/* Three blocks: one colour, a copy from 8 pixels to the left, and one that is kept. */
static int origins(void) {
    static const uint8_t map[] = {0x3e, 0x01}, data[] = {7, 0}, picture[192] = {0};
    struct mve_traced o = mve_origin(3, 1, map, sizeof map, data, sizeof data, picture, sizeof picture, picture,
                                     sizeof picture, 10, 6);
    EXPECT(o.kind == MVE_FOUND && o.number == 0 && o.block == 1 && o.code == 3);
    EXPECT(o.source == MVE_NEW && o.byte == 0 && o.x == 2 && o.y == 6);
    o = mve_origin(3, 1, map, sizeof map, data, sizeof data, picture, sizeof picture, picture, sizeof picture, o.x, o.y);
    EXPECT(o.kind == MVE_FOUND && o.block == 0 && o.code == 0x0e && o.source == MVE_DATA && o.byte == 0);
    o = mve_origin(3, 1, map, sizeof map, data, sizeof data, picture, sizeof picture, picture, sizeof picture, 23, 7);
    EXPECT(o.block == 2 && o.code == 1 && o.source == MVE_BACK && o.x == 23 && o.y == 7);
    o = mve_origin(3, 1, map, sizeof map, data, sizeof data, picture, sizeof picture, picture, sizeof picture, 24, 7);
    EXPECT(o.kind == MVE_REFUSED && o.number == MVE_ERROR_POSITION && o.block == 0);
    o = mve_origin(3, 1, map, sizeof map, data, 0, picture, sizeof picture, picture, sizeof picture, 24, 7);
    EXPECT(o.kind == MVE_REFUSED && o.number == MVE_ERROR_DATA_SHORT && o.block == 0);
    o = mve_origin(3, 1, map, 1, data, 0, picture, sizeof picture, picture, sizeof picture - 1, 24, 7);
    EXPECT(o.kind == MVE_REFUSED && o.number == MVE_ERROR_LENT_LENGTH);
    return 0;
}

/* An empty chunk, one with an opcode of type 99, one whose 07 is a byte too short, and a head that passes the end. */
static int salvages(void) {
    static const uint8_t chunks[] = {0, 0, 2, 0, 4, 0, 3, 0, 0, 0, 0x99, 0, 7, 0, 3, 0, 3, 0, 0x07, 0, 0, 0, 0, 0x40, 0, 0};
    static const uint8_t left[] = {0, 0, 2, 0, 4, 0, 5, 0, 0, 0, 0, 0};
    uint8_t scratched[26 + sizeof chunks], room[40];
    size_t list[2 * MVE_LOSS_NUMBERS + 1], i;
    const size_t length = sizeof scratched, expected[] = {30, 4, MVE_ERROR_TYPE, 38, 7, MVE_ERROR_BODY_LENGTH, 77};
    memcpy(scratched, film, 26);
    memcpy(scratched + 26, chunks, sizeof chunks);
    memset(room, 0x5a, sizeof room);
    for (i = 0; i < sizeof list / sizeof *list; i += 1) {
        list[i] = 77;
    }
    struct mve_salvaged s = mve_salvage(scratched, length, room, 37, list, 6);
    EXPECT(s.number == MVE_ERROR_ROOM && s.bytes == 0 && s.header == 0 && room[0] == 0x5a && list[0] == 77);
    s = mve_salvage(scratched, length, room, sizeof room, list, 5);
    EXPECT(s.number == MVE_ERROR_ROOM && room[0] == 0x5a && list[0] == 77);
    s = mve_salvage(scratched, 25, room, sizeof room, list, 6);
    EXPECT(s.number == MVE_ERROR_HEADER && room[0] == 0x5a && list[0] == 77);
    s = mve_salvage(scratched, length, room, sizeof room, list, 6);
    EXPECT(s.number == 0 && s.bytes == 38 && s.left_out == 2 && s.stop == MVE_STOP_PAST_END);
    EXPECT(s.header == 26 && s.kept == 4 && s.lost == 19 && s.rest == 3);
    EXPECT(memcmp(room, film, 26) == 0 && memcmp(room + 26, left, sizeof left) == 0 && room[38] == 0x5a);
    EXPECT(memcmp(list, expected, sizeof expected) == 0);
    s = mve_salvage(scratched, 38, room, sizeof room, list, 6);
    EXPECT(s.number == 0 && s.bytes == 38 && s.left_out == 1 && s.stop == MVE_STOP_FILM_END && s.lost == 8 && s.rest == 0);
    s = mve_salvage(scratched, 26, room, sizeof room, list, 0);
    EXPECT(s.number == 0 && s.bytes == 34 && s.stop == MVE_STOP_FILM_END);
    return 0;
}

/* A chunk with a timer, sound for stream 1 and an 07; an empty one; one with a timer alone; one with 00; then a byte. */
static int strips(void) {
    static const uint8_t chunks[] = {22, 0, 9, 1, 0, 0, 0x02, 7, 6, 0, 0x08, 0, 1, 0, 2, 0, 0, 0, 4, 0, 0x07, 0, 0, 0, 0, 0,
                                     0,  0, 2, 0, 4, 0, 3, 0, 0, 0, 0x02, 0, 4, 0, 5, 0, 0, 0, 0, 0, 0x40};
    static const uint8_t silent[] = {8, 0, 9, 1, 4, 0, 0x07, 0, 0, 0, 0, 0, 4, 0, 5, 0, 0, 0, 0, 0};
    static const uint8_t heard[] = {18, 0, 9, 1, 6, 0, 0x08, 0, 1, 0, 2, 0, 0, 0, 4, 0,
                                    0x07, 0, 0, 0, 0, 0, 4, 0, 5, 0, 0, 0, 0, 0};
    uint8_t padded[26 + sizeof chunks], room[60];
    const size_t length = sizeof padded, shorter = 26 + sizeof silent, longer = 26 + sizeof heard;
    memcpy(padded, film, 26);
    memcpy(padded + 26, chunks, sizeof chunks);
    memset(room, 0x5a, sizeof room);
    struct mve_stripped s = mve_strip(padded, length, MVE_NO_STREAM, room, shorter - 1);
    EXPECT(s.number == MVE_ERROR_ROOM && s.length == 0 && room[0] == 0x5a);
    s = mve_strip(padded, 25, 0, room, sizeof room);
    EXPECT(s.number == MVE_ERROR_HEADER && s.length == 0 && room[0] == 0x5a);
    s = mve_strip(padded, length - 3, 0, room, 0);
    EXPECT(s.number == MVE_ERROR_CHUNK && s.length == 0 && room[0] == 0x5a);
    padded[32] = 0x06;
    s = mve_strip(padded, length, 0, room, sizeof room);
    EXPECT(s.number == MVE_ERROR_TYPE && s.length == 0 && room[0] == 0x5a);
    padded[32] = 0x02;
    s = mve_strip(padded, length, MVE_NO_STREAM, room, sizeof room);
    EXPECT(s.number == 0 && s.length == shorter && memcmp(room, film, 26) == 0);
    EXPECT(memcmp(room + 26, silent, sizeof silent) == 0 && room[shorter] == 0x5a);
    s = mve_strip(padded, length, 0, room, shorter);
    EXPECT(s.number == 0 && s.length == shorter && memcmp(room + 26, silent, sizeof silent) == 0);
    s = mve_strip(padded, length, 1, room, sizeof room);
    EXPECT(s.number == 0 && s.length == longer && memcmp(room + 26, heard, sizeof heard) == 0 && room[longer] == 0x5a);
    return 0;
}

/* Three blocks: one that front has, one that back has, and one of two colours in turn. */
static int encodes(void) {
    uint8_t wanted[192], front[192], back[192], map[3], body[17];
    size_t i, place = 0;
    for (i = 0; i < sizeof wanted; i += 1) {
        size_t x = i % 24, y = i / 24;
        front[i] = (uint8_t)(x < 8 ? i : 1);
        back[i] = (uint8_t)(x < 16 ? 255 - i : 2);
        wanted[i] = x < 8 ? front[i] : x < 16 ? back[i] : (uint8_t)((x + y) % 2 == 0 ? 3 : 4);
    }
    memset(map, 0x5a, sizeof map);
    memset(body, 0x5a, sizeof body);
    struct mve_encoded e = mve_encode(0, 1, wanted, 0, front, 0, back, 0, map, 0, body, 0);
    EXPECT(e.number == MVE_ERROR_FRAME_SIZE && e.map_length == 0 && e.body_length == 0);
    e = mve_encode(3, 1, wanted, 192, front, 191, back, 192, map, 3, body, 17);
    EXPECT(e.number == MVE_ERROR_LENT_LENGTH && e.map_length == 0 && e.body_length == 0);
    e = mve_encode(3, 1, wanted, 192, front, 192, back, 192, map, 1, body, 16);
    EXPECT(e.number == MVE_ERROR_ROOM && e.map_length == 0 && e.body_length == 0);
    e = mve_encode(3, 1, wanted, 192, front, 192, back, 192, map, 2, body, 15);
    EXPECT(e.number == MVE_ERROR_ROOM && map[0] == 0x5a && body[0] == 0x5a);
    e = mve_encode(3, 1, wanted, 192, front, 192, back, 192, map, 3, body, 17);
    EXPECT(e.number == 0 && e.map_length == 2 && e.body_length == 16);
    EXPECT(map[0] == 0x10 && map[1] == 0x0f && map[2] == 0x5a);
    for (i = 0; i < 14; i += 1) {
        EXPECT(body[i] == 0);
    }
    EXPECT(body[14] == 3 && body[15] == 4 && body[16] == 0x5a);
    struct mve_answer a = mve_draw_strict(3, 1, map, 2, body + 14, 2, front, 192, back, 192, &place, 195);
    EXPECT(a.kind == MVE_WHOLE && place == 3 && memcmp(back, wanted, sizeof wanted) == 0);
    return 0;
}

/* One block of 8x8, so four of 4x4: one colour, two that are skipped, and two colours, the first of them in the bottom row. */
static int video1_frame(void) {
    static const uint8_t data[] = {9, 0x8f, 2, 0x84, 0x0f, 0, 7, 8, 0, 0};
    static const uint8_t lent[65] = {0};
    uint8_t picture[65] = {0};
    EXPECT(mve_video1(81, 1, data, sizeof data, picture, 0) == MVE_ERROR_FRAME_SIZE);
    EXPECT(mve_video1(1, 1, data, 0, picture, 63) == MVE_ERROR_LENT_LENGTH);
    EXPECT(mve_video1(1, 1, data, 7, picture, 64) == MVE_ERROR_FRAME_SHORT);
    EXPECT(mve_video1(1, 1, data + 2, 2, picture, 64) == MVE_ERROR_FRAME_SHORT);
    EXPECT(mve_video1(1, 1, data, 9, picture, 64) == MVE_ERROR_END_MARK);
    static const uint8_t skip[] = {5, 0x84, 0, 0};
    EXPECT(mve_video1(1, 1, skip, sizeof skip, picture, 64) == MVE_ERROR_SKIP_OUTSIDE);
    EXPECT(memcmp(picture, lent, sizeof picture) == 0);
    EXPECT(mve_video1(1, 1, data, sizeof data, picture, sizeof picture) == 0);
    for (size_t y = 0; y < 8; y += 1) {
        for (size_t x = 0; x < 8; x += 1) {
            uint8_t expected = y >= 4 && x < 4 ? 9 : y >= 4 || x < 4 ? 0 : y == 3 ? 7 : 8;
            EXPECT(picture[8 * y + x] == expected);
        }
    }
    EXPECT(picture[64] == 0);
    return 0;
}

/* 05 of version 2 with true-colour word 1, a block of colour fc1f and one that copies the oldest picture, each sent. */
static const uint8_t words_film[] = {
    'I', 'n', 't', 'e', 'r', 'p', 'l', 'a', 'y', ' ', 'M', 'V', 'E', ' ', 'F', 'i', 'l', 'e', 0x1a, 0x00,
    0x1a, 0x00, 0x00, 0x01, 0x33, 0x11,
    0x0c, 0x00, 0x02, 0x00, 0x08, 0x00, 0x05, 0x02, 0x01, 0x00, 0x01, 0x00, 0x00, 0x00, 0x01, 0x00,
    0x23, 0x00, 0x03, 0x00, 0x01, 0x00, 0x0f, 0x00, 0x0e, 0x12, 0x00, 0x11, 0x00,
    0, 0, 0, 0, 0, 0, 0, 0, 0, 0, 0, 0, 0, 0,
    0x04, 0x00, 0x1f, 0xfc, 0x04, 0x00, 0x07, 0x00, 0x00, 0x00, 0x00, 0x00,
    0x21, 0x00, 0x03, 0x00, 0x01, 0x00, 0x0f, 0x00, 0x0f, 0x10, 0x00, 0x11, 0x00,
    0, 0, 0, 0, 0, 0, 0, 0, 0, 0, 0, 0, 0, 0,
    0x02, 0x00, 0x04, 0x00, 0x07, 0x00, 0x00, 0x00, 0x00, 0x00,
};

static int are(const uint16_t *words, uint16_t word) {
    for (size_t i = 0; i < 64; i += 1) {
        if (words[i] != word) {
            return 0;
        }
    }
    return 1;
}

static size_t words_shown(const struct mve_state *state, const struct lent *lent) {
    return mve_shown_words(state, MVE_STATE_NUMBERS, lent->c, 64, lent->d, 64, lent->e, 64);
}

/* A film with true colour: three pictures in turn; the pictures of bytes stay, and are not shown. */
static int true_colour_film(void) {
    struct lent lent = all_lent();
    memset(lent.a, 7, sizeof lent.a);
    for (size_t i = 0; i < 64; i += 1) {
        lent.c[i] = 0x8001;
        lent.d[i] = 0x8002;
        lent.e[i] = 0x8003;
    }
    struct mve_stepped s = begun(words_film, sizeof words_film, 0, &lent);
    EXPECT(s.kind == MVE_TAKEN && s.state.true_colour == 1 && s.state.front == 0);
    EXPECT(words_shown(&s.state, &lent) == 64 && shown(&s.state, &lent) == 0);
    struct mve_stepped other = begun(film, sizeof film, 0, &lent);
    EXPECT(other.state.true_colour == 0 && words_shown(&other.state, &lent) == 0 && shown(&other.state, &lent) == 64);
    size_t sent = 0, drawn = 0;
    while (s.kind != MVE_ENDED) {
        struct mve_state before = s.state;
        s = stepped(words_film, sizeof words_film, before, &lent, drawn == 0 ? 40 : 65, MVE_STRICT);
        EXPECT(s.kind != MVE_REFUSED && shown(&s.state, &lent) == 0 && words_shown(&s.state, &lent) == 64);
        if (s.kind == MVE_WHOLE || s.kind == MVE_UNFINISHED) {
            EXPECT(s.touched == 1 && s.first_row == 0 && s.last_row == 0 && s.stores == (drawn == 0 ? 40 : 65));
            drawn += 1;
        }
        if (mve_is_sent(&before, &s.state)) {
            sent += 1;
            EXPECT(s.state.front == sent);
        }
    }
    EXPECT(sent == 2 && drawn == 3 && are(lent.c, 0x8001) && are(lent.d, 0x7c1f) && are(lent.e, 1) && lent.a[0] == 7);

    /* 8 tests the film's own kind; front 2 is taken of true colour alone, and true colour not without a size. */
    static uint16_t none[1];
    static const size_t lengths[][3] = {{63, 64, 64}, {64, 63, 64}, {64, 64, 63}, {0, 0, 0}};
    struct mve_stepped begin = begun(words_film, sizeof words_film, 0, &lent);
    for (size_t i = 0; i < 4; i += 1) {
        const size_t *length = lengths[i];
        uint16_t *c = i == 3 ? none : lent.c, *d = i == 3 ? none : lent.d, *e = i == 3 ? none : lent.e;
        EXPECT(mve_step(words_film, sizeof words_film, &begin.state, MVE_STATE_NUMBERS, &s, MVE_STEPPED_NUMBERS,
                        lent.palette, 768, lent.a, 64, lent.b, 64, c, length[0], d, length[1], e, length[2], &lent.place,
                        lent.room, 0, 65, MVE_DEFAULT) == MVE_REFUSED);
        EXPECT(s.number == MVE_ERROR_LENT_LENGTH);
    }
    struct mve_state state = begin.state;
    state.front = 2;
    EXPECT(stepped(words_film, sizeof words_film, state, &lent, 65, MVE_DEFAULT).kind == MVE_TAKEN);
    EXPECT(words_shown(&state, &lent) == 64);
    state.true_colour = 0;
    EXPECT(stepped(words_film, sizeof words_film, state, &lent, 65, MVE_DEFAULT).number == MVE_ERROR_STATE);
    state.front = 3;
    state.true_colour = 1;
    EXPECT(stepped(words_film, sizeof words_film, state, &lent, 65, MVE_DEFAULT).number == MVE_ERROR_STATE);
    EXPECT(words_shown(&state, &lent) == 0);
    state.front = state.columns = state.rows = 0;
    EXPECT(stepped(words_film, sizeof words_film, state, &lent, 65, MVE_DEFAULT).number == MVE_ERROR_STATE);
    return 0;
}

/* Two blocks: the left one copies the oldest picture, 8 pixels to its right, the right one has a colour; then a padding
   byte. */
static int true_colour_packet(void) {
    static const uint8_t map[] = {0xe2}, data[] = {0x04, 0x00, 0x1f, 0xfc, 0x00, 0x99};
    uint16_t last[128], oldest[128], drawn[128];
    size_t place = 0;
    for (size_t i = 0; i < 128; i += 1) {
        last[i] = 0x8001;
        oldest[i] = (uint16_t)(0x8000 + i);
        drawn[i] = 0xffff;
    }
    struct mve_answer a = mve_check_words(2, 1, map, 1, data, 6);
    EXPECT(a.kind == MVE_ACCEPTED && has_rows(a, 1, 0, 0) && a.stores == 0);
    EXPECT(mve_check_words_strict(2, 1, map, 1, data, 5).kind == MVE_ACCEPTED);
    EXPECT(mve_check_words_strict(2, 1, map, 1, data, 6).number == MVE_ERROR_DATA_LEFT);
    EXPECT(mve_check_words(2, 1, map, 1, data, 4).number == MVE_ERROR_DATA_SHORT);
    EXPECT(mve_check_words(2, 1, map, 1, data, 3).number == MVE_ERROR_PARTS);
    EXPECT(mve_check_words(2, 1, map, 1, data, 1).number == MVE_ERROR_PARTS);
    a = mve_draw_words_strict(2, 1, map, 1, data, 6, last, 128, oldest, 128, drawn, 128, &place, 130);
    EXPECT(a.number == MVE_ERROR_DATA_LEFT && place == 0 && drawn[0] == 0xffff);
    a = mve_draw_words(2, 1, map, 1, data, 6, last, 128, oldest, 127, drawn, 128, &place, 130);
    EXPECT(a.number == MVE_ERROR_LENT_LENGTH && place == 0);
    a = mve_draw_words(2, 1, map, 1, data, 6, last, 128, oldest, 128, drawn, 128, &place, 70);
    EXPECT(a.kind == MVE_UNFINISHED && a.stores == 70 && place == 1 && has_rows(a, 1, 0, 0));
    EXPECT(drawn[0] == 8 && drawn[16] == 24 && drawn[12] == 0x7c1f && drawn[13] == 0xffff);
    a = mve_draw_words_strict(2, 1, map, 1, data, 5, last, 128, oldest, 128, drawn, 128, &place, 70);
    EXPECT(a.kind == MVE_WHOLE && a.stores == 65 && place == 2 && drawn[119] == 127 && drawn[127] == 0x7c1f);
    return 0;
}

int main(void) {
    return constants() | texts() | timers() | colours() | pictures() | states() | places() | counts() | sound() |
           padded_packet() | padded_film() | rows() | origins() | salvages() | strips() | encodes() | video1_frame() |
           true_colour_film() | true_colour_packet();
}
