/* stage.c - plays the film, from where the last reset stopped it

One loop: a step of the library from the record that holds; what the step sends goes to the display; then the next
record is saved. A reset may fall anywhere. A step that was stopped is taken again from the same state, and leaves what
it would have left. A picture that was shown, but whose record was not saved, is sent again: the same picture under the
same number.

The library reads the state where it is kept, in the record that holds, and never writes it. Its answer, with the next
state, goes to a static variable. All variables are static, because the stack is small. They begin as 0 after every
reset; kept.h has what outlives it. */

#include "display.h"
#include "faults.h"
#include "kept.h"
#include "machine.h"
#include "mve.h"
#include "pace.h"
#include "report.h"
#include "stops.h"
#include "text.h"

/* What the machine gives, at GIVEN and at FILM by the linker. */
extern const struct given {
    uint64_t film_length;
    uint64_t wait; /* microseconds behind each picture */
} given;
extern const uint8_t film[];

static struct mve_stepped answer;
static uint8_t room[1];  /* for samples, of which there are none: sound is passed over */
static uint16_t none[1]; /* no pictures of words: a film with true colour is refused by 8, right behind its size */
static union record_words next;
static bool is_copied[2]; /* since the reset: the display has a copy of this picture */

void stage(void);

/* How the film ended. */
static void tell_end(void) {
    text_line("stack ", stack_used());
    if (answer.kind != MVE_REFUSED) {
        text_line("ended, pictures ", kept_record()->sent);
        return;
    }
    text("refusal ");
    text_number(answer.number);
    if (mve_is_of_block(answer.number)) {
        text(" in block ");
        text_number(answer.block);
    }
    text(" at byte ");
    text_number(answer.state.position);
    text(": ");
    text(mve_refusal_text(answer.number));
    text("\n");
}

/* Sends the front picture to the display's copy of it, these rows, or all where the display has no copy yet; then shows
   it. */
static void show(const struct mve_state *state, const struct rows *rows, const uint8_t *palette) {
    size_t front = state->front, width = 8 * state->columns, height = 8 * state->rows;
    stops_pause();
    if (!is_copied[front]) {
        display_rows(front, kept.pictures[front], width, height, 0, height);
    } else if (rows->touched != 0) {
        display_rows(front, kept.pictures[front], width, height, 8 * rows->first, 8 * rows->last + 8);
    }
    is_copied[front] = true;
    display_show(front, palette);
    stops_resume();
}

static void report_front(enum report_kind kind, size_t number, const struct mve_state *state) {
    report(kind, number, state->front, 8 * state->columns, 8 * state->rows);
}

/* Opens the film and saves its first record, unless it is refused. Not inlined: what the opening call needs on the stack
   must not stay there. */
__attribute__((noinline)) static bool open_film(void) {
    kept_clear();
    mve_begin(film, given.film_length, MVE_NO_STREAM, &answer, MVE_STEPPED_NUMBERS, kept.palette, sizeof kept.palette,
              &kept.place);
    if (answer.kind == MVE_REFUSED) {
        return false;
    }
    next.record.state = answer.state;
    next.record.film_length = given.film_length;
    kept_save(&next);
    text("opened\n");
    return true;
}

/* After a reset: shows the last picture that was sent again, with the palette that it was sent with. */
__attribute__((noinline)) static void resume(void) {
    const struct record *record = kept_record();
    text("goes on at byte ");
    text_number(record->state.position);
    text_line(", block ", kept.place);
    size_t shown = mve_shown(&record->state, MVE_STATE_NUMBERS, kept.pictures[0], sizeof kept.pictures[0],
                             kept.pictures[1], sizeof kept.pictures[1]);
    if (record->sent > 0 && shown > 0) {
        show(&record->state, &record->unsent[record->state.front], kept.shown[(record->sent - 1) % 2]);
        report_front(REPORT_AGAIN, record->sent - 1, &record->state);
    }
}

/* Joins the rows that a packet touches to those of the picture that it was drawn on, which was not the front. */
static void join_rows(void) {
    struct rows *rows = &next.record.unsent[1 - answer.state.front];
    if (answer.touched == 0) {
        return;
    }
#ifdef FAULT_LAST_ROWS /* wrong on purpose, for the test: the rows of the last packet alone */
    rows->touched = 0;
#endif
    if (rows->touched == 0 || answer.first_row < rows->first) {
        rows->first = answer.first_row;
    }
    if (rows->touched == 0 || answer.last_row > rows->last) {
        rows->last = answer.last_row;
    }
    rows->touched = 1;
}

/* The film has sent a picture: the front of the new state. Its palette is kept for the next reset, beside that of the
   picture before, because the library's palette changes before the next picture is sent. */
static void send_picture(void) {
    struct rows *rows = &next.record.unsent[next.record.state.front];
    uint8_t *palette = kept.shown[next.record.sent % 2];
    copy_words(palette, kept.palette, MVE_PALETTE_BYTES);
    show(&next.record.state, rows, palette);
    report_front(REPORT_SENT, next.record.sent, &next.record.state);
    *rows = (struct rows){0, 0, 0};
    next.record.sent += 1;
}

/* The step from the record that holds. */
static void take_step(size_t *place, size_t allowed) {
    mve_step(film, given.film_length, &kept_record()->state, MVE_STATE_NUMBERS, &answer, MVE_STEPPED_NUMBERS,
             kept.palette, sizeof kept.palette, kept.pictures[0], sizeof kept.pictures[0], kept.pictures[1],
             sizeof kept.pictures[1], none, 0, none, 0, none, 0, place, room, sizeof room, allowed, MVE_DEFAULT);
}

/* The step with all its stores, so that it is never unfinished. */
static void take_whole_step(void) {
#ifdef FAULT_EARLY_PLACE /* wrong on purpose, for the test: the place is kept a row of blocks before it is drawn */
    static size_t place;
    const struct mve_state *from = &kept_record()->state;
    size_t row = MVE_BLOCK_STORES * from->columns;
    place = kept.place;
    do {
        bool is_last = place + from->columns >= from->columns * from->rows;
        kept.place = is_last ? place : place + from->columns;
        stores_in_order();
        take_step(&place, row > MVE_PALETTE_STORES ? row : MVE_PALETTE_STORES);
    } while (answer.kind == MVE_UNFINISHED);
    kept.place = place;
#else
    take_step(&kept.place, MVE_ALL_STORES);
#endif
}

/* One step, what it sends, and the next record. Whether there are more steps. */
static bool play_step(void) {
    take_whole_step();
    if (answer.kind == MVE_ENDED || answer.kind == MVE_REFUSED) {
        return false;
    }
    next.record = *kept_record();
    next.record.state = answer.state;
    join_rows();
    bool is_sent = mve_is_sent(&kept_record()->state, &next.record.state);
    if (is_sent) {
        send_picture();
    }
    kept_save(&next);
    if (is_sent) {
        pace_wait(given.wait);
    }
    return true;
}

/* From a film that is open to its end. */
static void play(void) {
    stops_start();
    while (play_step()) {
    }
    stops_pause();
}

/* Plays the film, unless there is none that can be played. Whether it ended, and was not refused. */
static bool play_film(void) {
    if (given.film_length > FILM_ROOM) {
        text_line("the film is larger than its room of bytes ", FILM_ROOM);
        return false;
    }
    if (kept_holds(given.film_length)) {
        resume();
        play();
    } else if (open_film()) {
        play();
    }
    tell_end();
    return answer.kind != MVE_REFUSED;
}

void stage(void) {
    faults_start();
    text("\nstart\n"); /* a reset may have cut the last line */
    display_start();
    out8(END_PORT, play_film() ? RUN_ENDED : RUN_REFUSED);
}
