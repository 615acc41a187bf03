/* A least caller of each call of the library but mve_step, whose least caller is examples/synopsis.c. What they need is not
   on the stack: painted.c sets it. */
#include "callers.h"

const uint8_t *film, *map, *data;
size_t film_length, map_length, data_length, columns, rows, allowed, place;
uint8_t palette[MVE_PALETTE_BYTES], front[MVE_PICTURE_BYTES], back[MVE_PICTURE_BYTES];
uint16_t last_words[MVE_PICTURE_WORDS], oldest_words[MVE_PICTURE_WORDS], new_words[MVE_PICTURE_WORDS];
struct mve_stepped answer;
struct mve_answer verdict;
struct mve_traced traced;
struct mve_salvaged salvaged;
struct mve_stripped stripped;
uint8_t new_film[NEW_FILM_BYTES];
size_t losses[LOSSES * MVE_LOSS_NUMBERS];
uint8_t wanted[MVE_PICTURE_BYTES], new_map[MVE_MAP_BYTES], new_body[MVE_BODY_BYTES];
struct mve_encoded encoded;
size_t kind, shown, frame_refusal;

void call_mve_open(void) {
    kind = mve_open(film, film_length, 0, &answer, MVE_STEPPED_NUMBERS);
}

void call_mve_begin(void) {
    kind = mve_begin(film, film_length, 0, &answer, MVE_STEPPED_NUMBERS, palette, sizeof palette, &place);
}

void call_mve_shown(void) {
    shown = mve_shown(&answer.state, MVE_STATE_NUMBERS, front, sizeof front, back, sizeof back);
}

void call_mve_shown_words(void) {
    shown = mve_shown_words(&answer.state, MVE_STATE_NUMBERS, last_words, MVE_PICTURE_WORDS, oldest_words,
                            MVE_PICTURE_WORDS, new_words, MVE_PICTURE_WORDS);
}

void call_mve_check(void) {
    verdict = mve_check(columns, rows, map, map_length, data, data_length);
}

void call_mve_check_strict(void) {
    verdict = mve_check_strict(columns, rows, map, map_length, data, data_length);
}

void call_mve_draw(void) {
    do {
        verdict = mve_draw(columns, rows, map, map_length, data, data_length, front, sizeof front, back, sizeof back,
                           &place, allowed);
    } while (verdict.kind == MVE_UNFINISHED);
}

void call_mve_draw_strict(void) {
    do {
        verdict = mve_draw_strict(columns, rows, map, map_length, data, data_length, front, sizeof front, back,
                                  sizeof back, &place, allowed);
    } while (verdict.kind == MVE_UNFINISHED);
}

void call_mve_check_words(void) {
    verdict = mve_check_words(columns, rows, map, map_length, data, data_length);
}

void call_mve_check_words_strict(void) {
    verdict = mve_check_words_strict(columns, rows, map, map_length, data, data_length);
}

void call_mve_draw_words(void) {
    do {
        verdict = mve_draw_words(columns, rows, map, map_length, data, data_length, last_words, MVE_PICTURE_WORDS,
                                 oldest_words, MVE_PICTURE_WORDS, new_words, MVE_PICTURE_WORDS, &place, allowed);
    } while (verdict.kind == MVE_UNFINISHED);
}

void call_mve_draw_words_strict(void) {
    do {
        verdict = mve_draw_words_strict(columns, rows, map, map_length, data, data_length, last_words, MVE_PICTURE_WORDS,
                                        oldest_words, MVE_PICTURE_WORDS, new_words, MVE_PICTURE_WORDS, &place, allowed);
    } while (verdict.kind == MVE_UNFINISHED);
}

void call_mve_origin(void) {
    traced = mve_origin(columns, rows, map, map_length, data, data_length, front, sizeof front, back, sizeof back,
                        8 * columns - 1, 8 * rows - 1);
}

void call_mve_salvage(void) {
    salvaged = mve_salvage(film, film_length, new_film, sizeof new_film, losses, LOSSES * MVE_LOSS_NUMBERS);
}

void call_mve_strip(void) {
    stripped = mve_strip(film, film_length, 0, new_film, sizeof new_film);
}

void call_mve_encode(void) {
    encoded = mve_encode(columns, rows, wanted, sizeof wanted, front, sizeof front, back, sizeof back, new_map,
                         sizeof new_map, new_body, sizeof new_body);
}

void call_mve_video1(void) {
    frame_refusal = mve_video1(columns, rows, data, data_length, back, sizeof back);
}
