/* play.c - an example player: a film to numbered pictures and its sound to WAV files, through stops

    play FILM FOLDER ALLOWANCE [STREAM [EVERY]]

Writes each picture that the film sends to FOLDER, as 000000.ppm, 000001.ppm and so on, and the sound of stream STREAM
(0 to 15, 0 if it is not given; above 15 none) as 000000.wav; where format or rate changes 000001.wav begins, and so on.
The heading of each picture says, in a line like "# rows 3 to 5" or "# rows none", which rows of blocks were touched
since this one of the film's pictures was last sent: all that a display with a copy of each needs to be sent. A second
line, like "# at 400000 us", says when to show it: so many microseconds after the film's begin, by its timer (opcode 0x02).
8-bit films and films with true colour are played alike.
FOLDER must be there and hold no name that ends in .ppm or .wav. Every step is allowed ALLOWANCE stores; when they do
not suffice, the player is stopped as a watchdog would stop it, and goes on. A drawing goes on from its place. A palette
begins again with its first store; so a step that came no further is allowed twice as many stores when it is taken
again. If EVERY is given, the player is also stopped at every so many opcodes of sound, when what they give is written
and the state is not saved yet. Exits with 0 where the film ended, 1 where it was refused or a file or the folder
failed, 2 on bad arguments. host/play is the same player in Rust.

    make library
    cc -std=c11 -Iinclude examples/play.c target/staticlib/libmve.a -o play
*/

#define _POSIX_C_SOURCE 200809L /* for dirent.h and truncate */

#include "mve.h"

#include <ctype.h>
#include <dirent.h>
#include <errno.h>
#include <inttypes.h>
#include <stdatomic.h>
#include <stdbool.h>
#include <stdio.h>
#include <stdlib.h>
#include <string.h>
#include <unistd.h>

enum {
    LEAST_EVERY = 2, /* a player that is stopped at every opcode of sound never gets on */
    USUAL = 66728,   /* microseconds that a picture stays where the film has no timer yet */
    FILE_NAME = 32,  /* room for a slash and the name of a picture or a sound file */
    WAV_HEADER = 44
};

/* The sound files: how many were begun, and of the last one, which is being written, the bytes of samples and what its
   header says. */
struct sound {
    size_t files;
    size_t bytes;
    size_t stereo;
    size_t wide;
    size_t rate;
};

/* Rows of blocks, from the first to the last; none where `touched` is 0. */
struct rows {
    size_t touched;
    size_t first;
    size_t last;
};

/* When to show a picture, in microseconds: the time of the next one, and how long it stays. */
struct clock {
    uint64_t now;
    uint64_t stays;
};

/* Where a player is: what it must not lose at a stop. The answer of a step has the state at its end. The rows of each
   of the film's pictures, a and b, or c, d and e, are those touched since it was last sent, which a display's copy of it
   lacks: a stop may fall between drawing and sending. */
struct saved {
    struct mve_stepped step;
    struct sound sound;
    struct rows unsent[3];
    struct clock clock;
};

/* All that a stop leaves, beside the files. In a real player it lies in memory that outlives the stop. */
struct kept {
    struct saved records[2];
    atomic_size_t holds; /* which of the two is the saved one */
    uint8_t palette[MVE_PALETTE_BYTES];
    uint8_t a[MVE_PICTURE_BYTES]; /* of an 8-bit film */
    uint8_t b[MVE_PICTURE_BYTES];
    uint16_t c[MVE_PICTURE_WORDS]; /* of a film with true colour */
    uint16_t d[MVE_PICTURE_WORDS];
    uint16_t e[MVE_PICTURE_WORDS];
    size_t place;
};

/* The command line, which every run is given anew. */
struct arguments {
    const char *film;
    const char *folder;
    size_t allowance;
    size_t stream;
    size_t every; /* 0: no stop at opcodes of sound */
};

/* What stops a run. It outlives the runs and knows nothing of the film. */
struct watchdog {
    size_t stops;
    size_t sounds;  /* opcodes of sound; one that is taken again counts again */
    size_t allowed; /* the stores of a step after which it stops a run */
};

struct film {
    uint8_t *bytes;
    size_t length;
};

enum outcome { STOPPED, ENDED, FAILED };

/* The record that holds. */
static const struct saved *saved_in(const struct kept *kept) {
    return &kept->records[atomic_load(&kept->holds)];
}

/* The other one, which the next step writes. */
static struct saved *spare_in(struct kept *kept) {
    return &kept->records[1 - atomic_load(&kept->holds)];
}

/* When the spare record is written in full, the answer of the step with the sound and the rows that belong to it, one
   store makes it the one that holds, an atomic one, which stays behind the others. A stop before it leaves the old
   record, which no step writes, and the step is taken again. */
static void save(struct kept *kept) {
    atomic_store(&kept->holds, 1 - atomic_load(&kept->holds));
}

/* Every message about a film begins its line anew, over the progress line. */
static void tell_error(const char *film, const char *what, const char *name) {
    fprintf(stderr, "\r%s: cannot %s %s: %s\n", film, what, name, strerror(errno));
}

static void picture_path(char *path, size_t room, const char *folder, size_t number) {
    snprintf(path, room, "%s/%06zu.ppm", folder, number);
}

static void sound_path(char *path, size_t room, const char *folder, size_t number) {
    snprintf(path, room, "%s/%06zu.wav", folder, number);
}

static bool is_output_name(const char *name) {
    size_t length = strlen(name);
    return length >= 4 && (strcmp(name + length - 4, ".ppm") == 0 || strcmp(name + length - 4, ".wav") == 0);
}

static bool has_picture(const char *folder, size_t number) {
    char path[FILENAME_MAX];
    picture_path(path, sizeof path, folder, number);
    FILE *file = fopen(path, "rb");
    if (file != NULL) {
        fclose(file);
    }
    return file != NULL;
}

/* Looks for a name that ends in .ppm or .wav in the folder. False where the folder cannot be read. */
static bool find_output(const char *folder, bool *found) {
    DIR *names = opendir(folder);
    if (names == NULL) {
        return false;
    }
    const struct dirent *entry;
    do {
        errno = 0;
        entry = readdir(names);
    } while (entry != NULL && !is_output_name(entry->d_name));
    *found = entry != NULL;
    int error = errno;
    closedir(names);
    errno = error;
    return *found || error == 0;
}

/* How many pictures are in the folder. A run cannot know how many the runs before it wrote, so it looks. There were
   none before the first run, so they are numbered from 0 without a gap: halving finds the first free number. */
static size_t count_pictures(const char *folder) {
    size_t low = 0, high = SIZE_MAX;
    while (low < high) {
        size_t middle = low + (high - low) / 2;
        if (has_picture(folder, middle)) {
            low = middle + 1;
        } else {
            high = middle;
        }
    }
    return low;
}

/* The film's bytes, to be freed; never a null address, also of an empty film. */
static bool read_all(FILE *file, struct film *film) {
    size_t room = 0, got = 0;
    do {
        film->length += got;
        if (film->length == room) {
            room = 2 * room + 65536;
            uint8_t *bytes = realloc(film->bytes, room);
            if (bytes == NULL) {
                return false;
            }
            film->bytes = bytes;
        }
        got = fread(film->bytes + film->length, 1, room - film->length, file);
    } while (got > 0);
    return ferror(file) == 0;
}

static bool read_film(const char *name, struct film *film) {
    *film = (struct film){NULL, 0};
    FILE *file = fopen(name, "rb");
    bool read = file != NULL && read_all(file, film);
    if (!read) {
        tell_error(name, "read", "the film");
        free(film->bytes);
    }
    if (file != NULL) {
        fclose(file);
    }
    return read;
}

/* The picture that is drawn on: of two the other one, of three the one behind the front. */
static size_t drawn_on(const struct mve_state *state) {
    return (state->front + 1) % (state->true_colour != 0 ? 3 : 2);
}

/* Joins the rows that a packet touches to those of the picture that it was drawn on, which was not the front. */
static void join_rows(struct saved *next) {
    const struct mve_stepped *drawn = &next->step;
    struct rows *rows = &next->unsent[drawn_on(&drawn->state)];
    if (drawn->touched == 0) {
        return;
    }
    if (rows->touched == 0 || drawn->first_row < rows->first) {
        rows->first = drawn->first_row;
    }
    if (rows->touched == 0 || drawn->last_row > rows->last) {
        rows->last = drawn->last_row;
    }
    rows->touched = 1;
}

/* The shown picture of an 8-bit film; of another film nothing is shown. */
static void put_bytes(FILE *file, const struct kept *kept, const struct mve_state *state) {
    const uint8_t *front = state->front == 0 ? kept->a : kept->b;
    size_t shown = mve_shown(state, MVE_STATE_NUMBERS, kept->a, sizeof kept->a, kept->b, sizeof kept->b);
    for (size_t i = 0; i < shown; i++) {
        const uint8_t *colour = &kept->palette[3 * front[i]];
        putc(mve_widened(colour[0]), file);
        putc(mve_widened(colour[1]), file);
        putc(mve_widened(colour[2]), file);
    }
}

/* The shown picture of a film with true colour; of another film nothing is shown. */
static void put_words(FILE *file, const struct kept *kept, const struct mve_state *state) {
    const uint16_t *front = state->front == 0 ? kept->c : state->front == 1 ? kept->d : kept->e;
    size_t shown = mve_shown_words(state, MVE_STATE_NUMBERS, kept->c, MVE_PICTURE_WORDS, kept->d, MVE_PICTURE_WORDS,
                                   kept->e, MVE_PICTURE_WORDS);
    for (size_t i = 0; i < shown; i++) {
        putc(mve_widened_5(front[i] >> 10 & 31), file);
        putc(mve_widened_5(front[i] >> 5 & 31), file);
        putc(mve_widened_5(front[i] & 31), file);
    }
}

static bool write_ppm(FILE *file, const struct kept *kept, const struct mve_state *state, struct rows rows,
                      uint64_t at) {
    if (rows.touched != 0) {
        fprintf(file, "P6\n# rows %zu to %zu\n", rows.first, rows.last);
    } else {
        fprintf(file, "P6\n# rows none\n");
    }
    fprintf(file, "# at %" PRIu64 " us\n%zu %zu\n255\n", at, 8 * state->columns, 8 * state->rows);
    put_bytes(file, kept, state);
    put_words(file, kept, state);
    return ferror(file) == 0;
}

/* Writes the shown picture under the first free number, with the rows that were touched since it was last sent; then
   none are. The next one is to be shown when this one has stayed for its time. It gets its number when it is written in full, so that a stop leaves no half picture that counts. */
static bool write_picture(const struct kept *kept, struct saved *next, const struct arguments *arguments,
                          size_t film_length) {
    char part[FILENAME_MAX], path[FILENAME_MAX];
    const struct mve_state *state = &next->step.state;
    struct rows *rows = &next->unsent[state->front];
    size_t number = count_pictures(arguments->folder);
    picture_path(path, sizeof path, arguments->folder, number);
    snprintf(part, sizeof part, "%s/picture.part", arguments->folder);
    FILE *file = fopen(part, "wb");
    bool written = file != NULL && write_ppm(file, kept, state, *rows, next->clock.now);
    if (file != NULL && fclose(file) != 0) {
        written = false;
    }
    if (!written || rename(part, path) != 0) {
        tell_error(arguments->film, "write", path);
        remove(part);
        return false;
    }
    *rows = (struct rows){0};
    next->clock.now += next->clock.stays;
    fprintf(stderr, "\r%s: byte %zu of %zu, pictures: %zu", arguments->film, state->position, film_length, number + 1);
    return true;
}

static void put_number(uint8_t *bytes, size_t length, size_t number) {
    for (size_t i = 0; i < length; i++) {
        bytes[i] = (uint8_t)(number >> 8 * i);
    }
}

/* The header of a WAV file with so many bytes of samples; where they are odd, a byte is to follow them. */
static void wav_header(uint8_t *header, struct sound sound, size_t bytes) {
    size_t channels = sound.stereo ? 2 : 1, sample = sound.wide ? 2 : 1;
    memcpy(header, "RIFF", 4);
    memcpy(header + 8, "WAVEfmt ", 8);
    memcpy(header + 36, "data", 4);
    put_number(header + 4, 4, WAV_HEADER - 8 + bytes + bytes % 2);
    put_number(header + 16, 4, 16);
    put_number(header + 20, 2, 1); /* samples as they are */
    put_number(header + 22, 2, channels);
    put_number(header + 24, 4, sound.rate);
    put_number(header + 28, 4, sound.rate * channels * sample);
    put_number(header + 32, 2, channels * sample);
    put_number(header + 34, 2, 8 * sample);
    put_number(header + 40, 4, bytes);
}

/* Writes bytes to a sound file, from an offset on. Flushed: a stop loses nothing of what was written. */
static bool write_at(const char *path, const char *mode, size_t offset, const uint8_t *bytes, size_t length) {
    FILE *file = fopen(path, mode);
    bool written = file != NULL && fseek(file, (long)offset, SEEK_SET) == 0 && fwrite(bytes, 1, length, file) == length;
    if (file != NULL && fclose(file) != 0) {
        written = false;
    }
    return written;
}

/* Fills in the lengths of the last sound file, if there is one. Doing it twice changes nothing. */
static bool finish_sound(struct sound sound, const struct arguments *arguments) {
    char path[FILENAME_MAX];
    uint8_t header[WAV_HEADER], pad = 0;
    if (sound.files == 0) {
        return true;
    }
    sound_path(path, sizeof path, arguments->folder, sound.files - 1);
    wav_header(header, sound, sound.bytes);
    if (!write_at(path, "r+b", 0, header, WAV_HEADER) ||
        !write_at(path, "r+b", WAV_HEADER + sound.bytes, &pad, sound.bytes % 2)) {
        tell_error(arguments->film, "write", path);
        return false;
    }
    return true;
}

/* After a taken 03 of this rate: goes on with the last sound file where format and rate are the same, else finishes it
   and begins the next. */
static bool take_format(struct saved *next, size_t rate, const struct arguments *arguments) {
    struct sound *sound = &next->sound;
    size_t stereo = next->step.state.stereo, wide = next->step.state.wide;
    char path[FILENAME_MAX];
    uint8_t header[WAV_HEADER];
    if (sound->files != 0 && sound->stereo == stereo && sound->wide == wide && sound->rate == rate) {
        return true;
    }
    if (!finish_sound(*sound, arguments)) {
        return false;
    }
    *sound = (struct sound){.files = sound->files + 1, .bytes = 0, .stereo = stereo, .wide = wide, .rate = rate};
    sound_path(path, sizeof path, arguments->folder, sound->files - 1);
    wav_header(header, *sound, 0);
    if (!write_at(path, "wb", 0, header, WAV_HEADER)) {
        tell_error(arguments->film, "write", path);
        return false;
    }
    return true;
}

/* Writes the samples of a packet behind those that the saved state knows of, and not behind all that are in the file: a
   packet that is written again stands where it stood. */
static bool write_samples(struct sound *sound, const uint8_t *samples, size_t bytes,
                          const struct arguments *arguments) {
    char path[FILENAME_MAX];
    sound_path(path, sizeof path, arguments->folder, sound->files - 1);
    if (bytes > UINT32_MAX - WAV_HEADER - sound->bytes) { /* no WAV file is longer */
        errno = EFBIG;
    } else if (write_at(path, "r+b", WAV_HEADER + sound->bytes, samples, bytes)) {
        sound->bytes += bytes;
        return true;
    }
    tell_error(arguments->film, "write", path);
    return false;
}

/* At the start of a run: cuts the last sound file back to the samples that the saved state knows of, and removes one
   that was begun behind it. */
static bool cut_sound(struct sound sound, const struct arguments *arguments) {
    char path[FILENAME_MAX];
    sound_path(path, sizeof path, arguments->folder, sound.files);
    if (remove(path) != 0 && errno != ENOENT) {
        tell_error(arguments->film, "write", path);
        return false;
    }
    if (sound.files == 0) {
        return true;
    }
    sound_path(path, sizeof path, arguments->folder, sound.files - 1);
    if (truncate(path, (off_t)(WAV_HEADER + sound.bytes)) != 0) {
        tell_error(arguments->film, "write", path);
        return false;
    }
    return true;
}

static void tell_refusal(const struct mve_stepped *refused, size_t sounds, const struct arguments *arguments) {
    fprintf(stderr, "\r%s: refusal %zu", arguments->film, refused->number);
    if (mve_is_of_block(refused->number)) {
        fprintf(stderr, " in block %zu", refused->block);
    }
    fprintf(stderr, ": %s, at byte %zu, pictures: %zu, sound files: %zu\n", mve_refusal_text(refused->number),
            refused->state.position, count_pictures(arguments->folder), sounds);
}

/* Whether the opcode that a state stands at, which was taken, is a 03 that gave the format of the sound. */
static bool is_format(const struct film *film, const struct mve_state *state) {
    return state->position != state->chunk_end && film->bytes[state->position + 2] == 0x03 &&
           state->stream < MVE_NO_STREAM;
}

/* The rate in a 03: the third word of its body. */
static size_t rate_of(const struct film *film, const struct mve_state *state) {
    const uint8_t *body = film->bytes + state->position + 4;
    return body[4] + 256u * body[5];
}

/* Writes what a step that was taken or whole gave: samples, the beginning of a sound file, a picture. */
static bool write_output(const struct film *film, const struct kept *kept, const struct mve_state *before,
                         struct saved *next, const uint8_t *room, const struct arguments *arguments) {
    uint64_t timer = mve_timer(film->bytes, film->length, before);
    if (timer != 0) {
        next->clock.stays = timer;
    }
    if (is_format(film, before) && !take_format(next, rate_of(film, before), arguments)) {
        return false;
    }
    if (next->step.bytes > 0 && !write_samples(&next->sound, room, next->step.bytes, arguments)) {
        return false;
    }
    return !mve_is_sent(before, &next->step.state) || write_picture(kept, next, arguments, film->length);
}

/* The watchdog stops a run in a step. One that came no further is given twice the stores next time. */
static void stop_in_step(struct watchdog *watchdog, bool is_further, const struct arguments *arguments) {
    if (is_further) {
        watchdog->allowed = arguments->allowance;
    } else {
        watchdog->allowed = watchdog->allowed > SIZE_MAX / 2 ? SIZE_MAX : 2 * watchdog->allowed;
    }
}

/* Whether the watchdog stops a run that has just written what an opcode of sound gave. */
static bool stops_at_sound(struct watchdog *watchdog, const struct arguments *arguments) {
    watchdog->sounds += 1;
    return arguments->every != 0 && watchdog->sounds % arguments->every == 0;
}

/* Steps over the film from the record that holds to the spare one, in the default form: many films pad their packets by
   a byte, and are to be played (MVE_STRICT is for those who make films). What a step gives is written before it is saved:
   a stop in between writes a picture twice, but loses none; samples go to the same place of the file again. */
static enum outcome play(const struct film *film, struct kept *kept, const struct arguments *arguments,
                         struct watchdog *watchdog) {
    static uint8_t room[MVE_ROOM_BYTES]; /* need not outlive a stop */
    for (;;) {
        const struct saved *saved = saved_in(kept);
        const struct mve_state *from = &saved->step.state;
        struct saved *next = spare_in(kept);
        size_t place = kept->place;
        *next = *saved;
        size_t kind = mve_step(film->bytes, film->length, from, MVE_STATE_NUMBERS, &next->step, MVE_STEPPED_NUMBERS,
                               kept->palette, sizeof kept->palette, kept->a, sizeof kept->a, kept->b, sizeof kept->b,
                               kept->c, MVE_PICTURE_WORDS, kept->d, MVE_PICTURE_WORDS, kept->e, MVE_PICTURE_WORDS,
                               &kept->place, room, sizeof room, watchdog->allowed, MVE_DEFAULT);
        switch (kind) {
        case MVE_UNFINISHED: /* the next run takes the step again; of a drawing it is told the same rows at its end */
            stop_in_step(watchdog, kept->place != place, arguments);
            return STOPPED;
        case MVE_ENDED:
            return finish_sound(saved->sound, arguments) ? ENDED : FAILED;
        case MVE_REFUSED:
            if (finish_sound(saved->sound, arguments)) {
                tell_refusal(&next->step, saved->sound.files, arguments);
            }
            return FAILED;
        default: /* MVE_TAKEN, MVE_WHOLE */
            join_rows(next);
            if (!write_output(film, kept, from, next, room, arguments)) {
                return FAILED;
            }
            if ((is_format(film, from) || next->step.bytes > 0) && stops_at_sound(watchdog, arguments)) {
                return STOPPED;
            }
            save(kept);
            watchdog->allowed = arguments->allowance;
        }
    }
}

/* A run of the player, up to its stop. All that it knows besides `kept` it finds out anew, the film included. */
static enum outcome run(struct kept *kept, const struct arguments *arguments, struct watchdog *watchdog) {
    struct film film;
    if (!cut_sound(saved_in(kept)->sound, arguments) || !read_film(arguments->film, &film)) {
        return FAILED;
    }
    enum outcome outcome = play(&film, kept, arguments, watchdog);
    free(film.bytes);
    return outcome;
}

/* Before the first run: looks into the folder, opens the film and saves its first state. */
static bool begin(struct kept *kept, const struct arguments *arguments) {
    struct film film;
    bool found;
    if (!find_output(arguments->folder, &found)) {
        tell_error(arguments->film, "read the folder", arguments->folder);
        return false;
    }
    if (found) {
        fprintf(stderr, "\r%s: %s has pictures or sound already: give a folder without\n", arguments->film,
                arguments->folder);
        return false;
    }
    if (!read_film(arguments->film, &film)) {
        return false;
    }
    /* Not mve_begin, which drops the samples before the size. */
    struct mve_stepped *opened = &spare_in(kept)->step;
    spare_in(kept)->clock.stays = USUAL;
    size_t kind = mve_open(film.bytes, film.length, arguments->stream, opened, MVE_STEPPED_NUMBERS);
    free(film.bytes);
    if (kind == MVE_REFUSED) {
        tell_refusal(opened, 0, arguments);
        return false;
    }
    save(kept);
    return true;
}

static bool read_number(const char *text, size_t least, size_t *number) {
    char *end;
    errno = 0;
    *number = strtoull(text, &end, 10);
    return isdigit((unsigned char)text[0]) && *end == '\0' && errno == 0 && *number >= least;
}

static bool read_numbers(int count, char **words, struct arguments *arguments) {
    if (!read_number(words[3], 1, &arguments->allowance)) {
        fprintf(stderr, "play: allowance %s: give a number of stores, 1 or more\n", words[3]);
        return false;
    }
    if (count > 4 && !read_number(words[4], 0, &arguments->stream)) {
        fprintf(stderr, "play: stream %s: give a number, 0 to 15, or more for no sound\n", words[4]);
        return false;
    }
    if (count > 5 && !read_number(words[5], LEAST_EVERY, &arguments->every)) {
        fprintf(stderr, "play: every %s: give a number of opcodes, %d or more, or the first one is never saved\n",
                words[5], LEAST_EVERY);
        return false;
    }
    return true;
}

static bool read_arguments(int count, char **words, struct arguments *arguments) {
    if (count < 4 || count > 6) {
        fputs("usage: play FILM FOLDER ALLOWANCE [STREAM [EVERY]]\n", stderr);
        return false;
    }
    *arguments = (struct arguments){.film = words[1], .folder = words[2]};
    if (strlen(arguments->folder) + FILE_NAME > FILENAME_MAX) {
        fputs("play: the folder's name is too long\n", stderr);
        return false;
    }
    return read_numbers(count, words, arguments);
}

/* The watchdog: it starts a run after every stop. */
int main(int count, char **words) {
    static struct kept kept;
    struct arguments arguments;
    if (!read_arguments(count, words, &arguments)) {
        return 2;
    }
    struct watchdog watchdog = {.allowed = arguments.allowance};
    if (!begin(&kept, &arguments)) {
        return 1;
    }
    enum outcome outcome;
    while ((outcome = run(&kept, &arguments, &watchdog)) == STOPPED) {
        watchdog.stops += 1;
    }
    if (outcome == FAILED) {
        return 1;
    }
    fprintf(stderr, "\r%s: ended at byte %zu, pictures: %zu, sound files: %zu, stops: %zu\n", arguments.film,
            saved_in(&kept)->step.state.position, count_pictures(arguments.folder), saved_in(&kept)->sound.files,
            watchdog.stops);
    return 0;
}
