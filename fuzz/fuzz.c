/* fuzz.c - a fuzz target of the C boundary, for libFuzzer

An input is a byte that chooses a trial, then what the trial reads. Every lent buffer ends right before a page that may not be
touched. What is tested beside that is what include/mve.h promises of any input: that refused calls change nothing, that steps
get on, that cuts change no picture, that a check and a drawing agree, that an origin holds the value, that no stored word has
bit 15, that a film leaves the pictures of the other kind alone, that the parts of a scratched film add up, that a stripped
film is never longer and stays when it is stripped again. No expectation comes from a second decoder here: host/compare has
those. */

#define _GNU_SOURCE
#include "mve.h"

#include <stdio.h>
#include <stdlib.h>
#include <string.h>
#include <sys/mman.h>

void watch_coverage(void);

#define PROMISE(fact)                                                                                                  \
    do {                                                                                                               \
        if (!(fact)) {                                                                                                 \
            fprintf(stderr, "line %d: not so: %s\n", __LINE__, #fact);                                                 \
            abort();                                                                                                   \
        }                                                                                                              \
    } while (0)

enum {
    PICTURE = 16384, /* bytes or words of a lent picture: what needs more is refused by 8 */
    WORDS = PICTURE * sizeof(uint16_t),
    ROOM = 8192,
    LONGEST = 65536, /* of an input */
    PAGE = 4096,
    STEPS = 4000
};

/* Lent memory, with a page behind it that may not be touched. */
struct guarded {
    uint8_t *end;
};

static struct guarded guarded(size_t most) {
    size_t pages = (most + PAGE - 1) / PAGE * PAGE;
    uint8_t *start = mmap(NULL, pages + PAGE, PROT_READ | PROT_WRITE, MAP_PRIVATE | MAP_ANONYMOUS, -1, 0);
    if (start == MAP_FAILED || mprotect(start + pages, PAGE, PROT_NONE) != 0) {
        perror("fuzz: mmap");
        exit(2);
    }
    return (struct guarded){start + pages};
}

/* The last so many bytes of it. */
static uint8_t *last(struct guarded memory, size_t length) {
    return memory.end - length;
}

static struct guarded input, map, a, b, word_memory[3], palette, room, list, numbers[2], place_memory;

/* What the film's calls write to. */
struct memory {
    uint8_t palette[MVE_PALETTE_BYTES];
    uint8_t a[PICTURE];
    uint8_t b[PICTURE];
    uint16_t words[3][PICTURE];
    uint8_t room[ROOM];
    size_t place;
};

/* Picture c, d or e. */
static uint16_t *word_picture(size_t which) {
    return (uint16_t *)(void *)last(word_memory[which], WORDS);
}

static size_t *place(void) {
    return (size_t *)(void *)last(place_memory, sizeof(size_t));
}

static void load(const struct memory *memory) {
    memcpy(last(palette, MVE_PALETTE_BYTES), memory->palette, MVE_PALETTE_BYTES);
    memcpy(last(a, PICTURE), memory->a, PICTURE);
    memcpy(last(b, PICTURE), memory->b, PICTURE);
    for (size_t i = 0; i < 3; i += 1) {
        memcpy(word_picture(i), memory->words[i], WORDS);
    }
    memcpy(last(room, ROOM), memory->room, ROOM);
    *place() = memory->place;
}

static void save(struct memory *memory) {
    memcpy(memory->palette, last(palette, MVE_PALETTE_BYTES), MVE_PALETTE_BYTES);
    memcpy(memory->a, last(a, PICTURE), PICTURE);
    memcpy(memory->b, last(b, PICTURE), PICTURE);
    for (size_t i = 0; i < 3; i += 1) {
        memcpy(memory->words[i], word_picture(i), WORDS);
    }
    memcpy(memory->room, last(room, ROOM), ROOM);
    memory->place = *place();
}

/* Whether the pictures of bytes, or of words, are those of the memory. */
static int are_same_bytes(const struct memory *memory) {
    return memcmp(memory->a, last(a, PICTURE), PICTURE) == 0 && memcmp(memory->b, last(b, PICTURE), PICTURE) == 0;
}

static int are_same_words(const struct memory *memory) {
    return memcmp(memory->words[0], word_picture(0), WORDS) == 0 && memcmp(memory->words[1], word_picture(1), WORDS) == 0 &&
           memcmp(memory->words[2], word_picture(2), WORDS) == 0;
}

static int is_same(const struct memory *memory) {
    return memcmp(memory->palette, last(palette, MVE_PALETTE_BYTES), MVE_PALETTE_BYTES) == 0 && are_same_bytes(memory) &&
           are_same_words(memory) && memcmp(memory->room, last(room, ROOM), ROOM) == 0 && memory->place == *place();
}

static struct mve_stepped *answer(size_t which) {
    return (struct mve_stepped *)(void *)last(numbers[which], sizeof(struct mve_stepped));
}

/* How a film is played. */
struct way {
    size_t stream, allowed, form;
};

/* One step between two answers. */
static size_t step(const uint8_t *film, size_t length, size_t from, struct way way) {
    return mve_step(film, length, &answer(from)->state, MVE_STATE_NUMBERS, answer(1 - from), MVE_STEPPED_NUMBERS,
                    last(palette, MVE_PALETTE_BYTES), MVE_PALETTE_BYTES, last(a, PICTURE), PICTURE, last(b, PICTURE),
                    PICTURE, word_picture(0), PICTURE, word_picture(1), PICTURE, word_picture(2), PICTURE, place(),
                    last(room, ROOM), ROOM, way.allowed, way.form);
}

/* Plays a film from zeros to its end, its refusal, or STEPS steps. Which answer holds; the number of unfinished steps in a
   row is bounded, since every call gets on. */
static size_t play(const uint8_t *film, size_t length, struct way way) {
    static struct memory before;
    static const struct memory zeros;
    load(&zeros);
    size_t kind = mve_open(film, length, way.stream, answer(0), MVE_STEPPED_NUMBERS), from = 0, unfinished = 0;
    PROMISE(kind == answer(0)->kind && (kind == MVE_TAKEN || (kind == MVE_REFUSED && answer(0)->number == 1)));
    for (size_t steps = 0; kind != MVE_REFUSED && kind != MVE_ENDED && steps < STEPS; steps += 1) {
        save(&before);
        kind = step(film, length, from, way);
        const struct mve_stepped *out = answer(1 - from);
        const struct mve_state *old = &answer(from)->state;
        PROMISE(kind == out->kind && out->stores <= way.allowed && out->bytes <= ROOM);
        if (kind == MVE_REFUSED || kind == MVE_ENDED) {
            PROMISE(is_same(&before) && memcmp(old, &out->state, sizeof *old) == 0 && out->stores == 0);
            PROMISE((kind == MVE_REFUSED) == (out->number != 0));
        } else if (kind == MVE_UNFINISHED) {
            unfinished += 1;
            PROMISE(memcmp(old, &out->state, sizeof *old) == 0 && out->stores == way.allowed && unfinished <= 4800);
        } else {
            unfinished = 0;
            PROMISE(kind == MVE_TAKEN || kind == MVE_WHOLE);
            PROMISE(out->state.position >= old->position + 4 && out->state.position <= length);
        }
        PROMISE(old->true_colour != 0 ? are_same_bytes(&before) : are_same_words(&before));
        from = 1 - from;
        const struct mve_state *state = &answer(from)->state;
        size_t shown = mve_shown(state, MVE_STATE_NUMBERS, last(a, PICTURE), PICTURE, last(b, PICTURE), PICTURE);
        size_t words_shown = mve_shown_words(state, MVE_STATE_NUMBERS, word_picture(0), PICTURE, word_picture(1), PICTURE,
                                             word_picture(2), PICTURE);
        PROMISE(shown == 0 || (shown == 64 * state->columns * state->rows && state->true_colour == 0));
        PROMISE(words_shown == 0 || (words_shown == 64 * state->columns * state->rows && state->true_colour == 1));
        (void)mve_timer(film, length, state);
    }
    return from;
}

/* A film: whole steps and steps that are cut give the same pictures, palette and end. */
static void try_film(const uint8_t *data, size_t size) {
    static struct memory whole;
    if (size < 3) {
        return;
    }
    struct way way = {data[0] % 20, MVE_ALL_STORES, data[1] % 2};
    struct way cut = {way.stream, MVE_PALETTE_STORES + data[2], way.form};
    const uint8_t *film = data + 3;
    size_t length = size - 3;
    struct mve_stepped end = *answer(play(film, length, way));
    save(&whole);
    struct mve_stepped cut_end = *answer(play(film, length, cut));
    if (end.kind == MVE_REFUSED || end.kind == MVE_ENDED) {
        if (cut_end.kind == MVE_REFUSED || cut_end.kind == MVE_ENDED) {
            PROMISE(end.kind == cut_end.kind && end.number == cut_end.number && end.block == cut_end.block);
            PROMISE(memcmp(&end.state, &cut_end.state, sizeof end.state) == 0 && is_same(&whole));
        }
    }
}

/* The opening call: a refusal leaves palette and place. */
static void try_begin(const uint8_t *data, size_t size) {
    static struct memory memory;
    if (size < 1) {
        return;
    }
    memset(&memory, data[0], sizeof memory);
    load(&memory);
    size_t kind = mve_begin(data + 1, size - 1, data[0] % 20, answer(0), MVE_STEPPED_NUMBERS,
                            last(palette, MVE_PALETTE_BYTES), MVE_PALETTE_BYTES, place());
    PROMISE(kind == answer(0)->kind && (kind == MVE_TAKEN || kind == MVE_REFUSED));
    if (kind == MVE_REFUSED) {
        PROMISE(is_same(&memory) && answer(0)->number != 0);
    } else {
        PROMISE(answer(0)->state.columns >= 1 && answer(0)->state.columns <= 80 && answer(0)->state.rows >= 1 &&
                answer(0)->state.rows <= 60);
    }
}

/* A step from any numbers: a state that no film gives is refused, and nothing changes. */
static void try_state(const uint8_t *data, size_t size) {
    static struct memory before;
    static const struct memory zeros;
    size_t wanted = MVE_STATE_NUMBERS * 2 + 2;
    if (size < wanted) {
        return;
    }
    size_t *from = (size_t *)(void *)&answer(0)->state;
    for (size_t i = 0; i < MVE_STATE_NUMBERS; i += 1) {
        from[i] = data[2 * i] + 256u * data[2 * i + 1];
        from[i] = data[2 * i + 1] == 255 ? SIZE_MAX - data[2 * i] : from[i];
    }
    struct way way = {0, data[wanted - 2] + 256u * data[wanted - 1], data[wanted - 1] % 3};
    load(&zeros);
    save(&before);
    size_t kind = step(data + wanted, size - wanted, 0, way);
    PROMISE(kind == answer(1)->kind && kind <= MVE_REFUSED);
    if (kind == MVE_REFUSED) {
        PROMISE(is_same(&before));
    }
}

/* A packet: columns, rows, length of the map, place, allowance; then map and data. */
struct packet {
    size_t columns, rows, map_length, data_length, place, allowed;
    const uint8_t *map, *data;
};

static int read_packet(const uint8_t *data, size_t size, struct packet *packet) {
    if (size < 6) {
        return 0;
    }
    *packet = (struct packet){.columns = data[0], .rows = data[1], .map_length = data[2] + 256u * data[3]};
    packet->place = data[4];
    packet->allowed = 66 + 7u * data[5];
    data += 6;
    size -= 6;
    packet->map_length = packet->map_length < size ? packet->map_length : size;
    memcpy(last(map, packet->map_length), data, packet->map_length);
    packet->map = last(map, packet->map_length);
    packet->data = data + packet->map_length;
    packet->data_length = size - packet->map_length;
    return 1;
}

static struct mve_answer draw(const struct packet *p, size_t allowed) {
    return mve_draw(p->columns, p->rows, p->map, p->map_length, p->data, p->data_length, last(a, PICTURE), PICTURE,
                    last(b, PICTURE), PICTURE, place(), allowed);
}

/* Draws by calls of a few stores each, to the end. */
static struct mve_answer draw_cut(const struct packet *p) {
    struct mve_answer drawn = draw(p, p->allowed);
    for (size_t calls = 0; drawn.kind == MVE_UNFINISHED && calls <= 4800; calls += 1) {
        PROMISE(drawn.stores == p->allowed);
        drawn = draw(p, p->allowed);
    }
    return drawn;
}

/* The origin of some pixels of the drawn picture holds their value. */
static void try_origins(const struct packet *p, const struct memory *before) {
    size_t width = 8 * p->columns, height = 8 * p->rows;
    for (size_t i = 0; i < 64; i += 1) {
        size_t x = (i * 37 + p->allowed) % width, y = (i * 13 + p->data_length) % height;
        struct mve_traced found = mve_origin(p->columns, p->rows, p->map, p->map_length, p->data, p->data_length,
                                             last(a, PICTURE), PICTURE, last(b, PICTURE), PICTURE, x, y);
        PROMISE(found.kind == MVE_FOUND && found.number == 0 && found.block == y / 8 * p->columns + x / 8);
        uint8_t value = last(b, PICTURE)[y * width + x];
        size_t at = found.y * width + found.x;
        PROMISE(found.source == MVE_DATA ? found.byte < p->data_length : found.x < width && found.y < height);
        PROMISE(value == (found.source == MVE_DATA    ? p->data[found.byte]
                          : found.source == MVE_FRONT ? before->a[at]
                          : found.source == MVE_BACK  ? before->b[at]
                                                      : last(b, PICTURE)[at]));
    }
}

static void try_packet(const uint8_t *data, size_t size) {
    static struct memory before, whole;
    struct packet p;
    if (!read_packet(data, size, &p)) {
        return;
    }
    for (size_t i = 0; i < PICTURE; i += 1) {
        before.a[i] = (uint8_t)(i * 7 + i / 256);
        before.b[i] = (uint8_t)(i * 11 + i / 512 + 1);
    }
    before.place = 0;
    load(&before);
    struct mve_answer checked = mve_check(p.columns, p.rows, p.map, p.map_length, p.data, p.data_length);
    struct mve_answer strict = mve_check_strict(p.columns, p.rows, p.map, p.map_length, p.data, p.data_length);
    PROMISE(checked.kind == MVE_ACCEPTED || checked.kind == MVE_REFUSED);
    PROMISE(strict.kind == checked.kind || (strict.number == 15 && checked.kind == MVE_ACCEPTED));
    struct mve_answer drawn = draw(&p, MVE_ALL_STORES);
    if (drawn.kind == MVE_REFUSED) {
        PROMISE(is_same(&before) && (drawn.number == 8 || drawn.number == checked.number));
        return;
    }
    PROMISE(drawn.kind == MVE_WHOLE && checked.kind == MVE_ACCEPTED && *place() == p.columns * p.rows);
    try_origins(&p, &before);
    save(&whole);
    load(&before);
    PROMISE(draw_cut(&p).kind == MVE_WHOLE && is_same(&whole));
    load(&before); /* from a place in the middle, of any kind of answer */
    *place() = p.place;
    drawn = draw(&p, p.allowed);
    PROMISE((drawn.kind == MVE_REFUSED) == (p.place > p.columns * p.rows) && (drawn.kind != MVE_REFUSED || drawn.number == 11));
}

static struct mve_answer draw_words(const struct packet *p, size_t allowed) {
    return mve_draw_words(p->columns, p->rows, p->map, p->map_length, p->data, p->data_length, word_picture(0), PICTURE,
                          word_picture(1), PICTURE, word_picture(2), PICTURE, place(), allowed);
}

/* Draws by calls of a few stores each, to the end. */
static struct mve_answer draw_words_cut(const struct packet *p) {
    struct mve_answer drawn = draw_words(p, p->allowed);
    for (size_t calls = 0; drawn.kind == MVE_UNFINISHED && calls <= 4800; calls += 1) {
        PROMISE(drawn.stores == p->allowed);
        drawn = draw_words(p, p->allowed);
    }
    return drawn;
}

/* A packet with true colour: check and drawing agree, cuts change nothing, no stored word has bit 15, and the older
   pictures stay. */
static void try_words(const uint8_t *data, size_t size) {
    static struct memory before, whole;
    struct packet p;
    if (!read_packet(data, size, &p)) {
        return;
    }
    for (size_t i = 0; i < 3 * PICTURE; i += 1) {
        before.words[i / PICTURE][i % PICTURE] = (uint16_t)(i * 40503 + i / 64);
    }
    before.place = 0;
    load(&before);
    struct mve_answer checked = mve_check_words(p.columns, p.rows, p.map, p.map_length, p.data, p.data_length);
    struct mve_answer strict = mve_check_words_strict(p.columns, p.rows, p.map, p.map_length, p.data, p.data_length);
    PROMISE(checked.kind == MVE_ACCEPTED || (checked.kind == MVE_REFUSED && checked.number != MVE_ERROR_CODE_6));
    PROMISE(strict.kind == checked.kind || (strict.number == 15 && checked.kind == MVE_ACCEPTED));
    struct mve_answer drawn = draw_words(&p, MVE_ALL_STORES);
    if (drawn.kind == MVE_REFUSED) {
        PROMISE(is_same(&before) && (drawn.number == 8 || drawn.number == checked.number));
        return;
    }
    size_t blocks = p.columns * p.rows;
    PROMISE(drawn.kind == MVE_WHOLE && checked.kind == MVE_ACCEPTED && *place() == blocks && drawn.stores == 65 * blocks);
    PROMISE(drawn.touched == 1 && drawn.first_row == 0 && drawn.last_row == p.rows - 1);
    for (size_t i = 0; i < PICTURE; i += 1) {
        PROMISE(i < 64 * blocks ? word_picture(2)[i] < 0x8000 : word_picture(2)[i] == before.words[2][i]);
    }
    PROMISE(memcmp(before.words[0], word_picture(0), WORDS) == 0 && memcmp(before.words[1], word_picture(1), WORDS) == 0);
    save(&whole);
    load(&before);
    PROMISE(draw_words_cut(&p).kind == MVE_WHOLE && is_same(&whole));
    load(&before); /* from a place in the middle, of any kind of answer */
    *place() = p.place;
    drawn = draw_words(&p, p.allowed);
    PROMISE((drawn.kind == MVE_REFUSED) == (p.place > blocks) && (drawn.kind != MVE_REFUSED || drawn.number == 11));
}

/* A scratched film: the parts add up, and what is saved is saved whole. */
static void try_salvage(const uint8_t *data, size_t size) {
    static uint8_t saved[LONGEST + 8];
    size_t list_numbers = 3 * (size / 5), length = size + 8;
    size_t *losses = (size_t *)(void *)last(list, list_numbers * sizeof(size_t));
    struct mve_salvaged told = mve_salvage(data, size, last(room, length), length, losses, list_numbers);
    PROMISE(told.number == 0 || told.number == 1);
    if (told.number != 0) {
        return;
    }
    PROMISE(told.header + told.kept + told.lost + told.rest == size && told.bytes <= length);
    memcpy(saved, last(room, length), told.bytes);
    struct mve_salvaged again = mve_salvage(saved, told.bytes, last(room, told.bytes), told.bytes, losses, 0);
    PROMISE(again.number == 0 && again.left_out == 0 && again.bytes == told.bytes && again.lost == 0);
    PROMISE(memcmp(saved, last(room, told.bytes), told.bytes) == 0);
    if (told.bytes > 26) {
        PROMISE(mve_salvage(saved, told.bytes, last(room, told.bytes - 1), told.bytes - 1, losses, 0).number == 19);
    }
}

/* A film without what the player passes over, for the stream that the first byte says: never longer, the same when it is
   stripped again, and refused by 2 to 5 exactly where mve_salvage leaves something out. */
static void try_strip(const uint8_t *data, size_t size) {
    static uint8_t new_film[LONGEST];
    if (size < 1) {
        return;
    }
    size_t stream = data[0], length = size - 1, losses_numbers = 3 * (length / 5);
    const uint8_t *film = data + 1;
    struct mve_stripped told = mve_strip(film, length, stream, last(room, length), length);
    PROMISE(told.number <= 5 && told.length <= length && (told.number == 0 || told.length == 0));
    if (told.number == 0) {
        PROMISE(told.length >= 26);
        memcpy(new_film, last(room, length), told.length);
        struct mve_stripped again = mve_strip(new_film, told.length, stream, last(room, told.length), told.length);
        PROMISE(again.number == 0 && again.length == told.length);
        PROMISE(memcmp(new_film, last(room, told.length), told.length) == 0);
        PROMISE(mve_strip(film, length, stream, last(room, told.length - 1), told.length - 1).number == 19);
    }
    size_t *losses = (size_t *)(void *)last(list, losses_numbers * sizeof(size_t));
    struct mve_salvaged saved = mve_salvage(film, length, last(room, length + 8), length + 8, losses, losses_numbers);
    size_t first = saved.left_out > 0 ? losses[2] : saved.stop == MVE_STOP_PAST_END ? MVE_ERROR_CHUNK : 0;
    PROMISE(told.number == (saved.number == 0 ? first : saved.number));
}

int LLVMFuzzerInitialize(int *count, char ***words) {
    (void)count, (void)words;
    input = guarded(LONGEST);
    map = guarded(LONGEST);
    a = guarded(PICTURE);
    b = guarded(PICTURE);
    for (size_t i = 0; i < 3; i += 1) {
        word_memory[i] = guarded(WORDS);
    }
    palette = guarded(MVE_PALETTE_BYTES);
    room = guarded(LONGEST + 8);
    list = guarded(3 * (LONGEST / 5) * sizeof(size_t));
    place_memory = guarded(sizeof(size_t));
    numbers[0] = guarded(sizeof(struct mve_stepped));
    numbers[1] = guarded(sizeof(struct mve_stepped));
    watch_coverage();
    return 0;
}

int LLVMFuzzerTestOneInput(const uint8_t *data, size_t size) {
    if (size < 1 || size > LONGEST) {
        return 0;
    }
    size_t length = size - 1;
    uint8_t *lent = last(input, length);
    memcpy(lent, data + 1, length);
#ifdef PLANTED /* a host that lends a byte too many: the guard page must find it */
    lent += length > 26 ? 1 : 0;
#endif
    switch (data[0] % 7) {
    case 0: try_film(lent, length); break;
    case 1: try_packet(lent, length); break;
    case 2: try_salvage(lent, length); break;
    case 3: try_begin(lent, length); break;
    case 4: try_strip(lent, length); break;
    case 6: try_words(lent, length); break;
    default: try_state(lent, length); break;
    }
    return 0;
}
