/* What painted.c gives to the callers of callers.c, and what they leave. */
#ifndef CALLERS_H
#define CALLERS_H

#include "mve.h"

/* What is left of a film of 16 MiB, and of how many chunks left out there is a list. */
enum { NEW_FILM_BYTES = (1 << 24) + 8, LOSSES = 1 << 16 };

extern const uint8_t *film, *map, *data;
extern size_t film_length, map_length, data_length, columns, rows, allowed, place;
extern uint8_t palette[MVE_PALETTE_BYTES], front[MVE_PICTURE_BYTES], back[MVE_PICTURE_BYTES];
extern uint16_t last_words[MVE_PICTURE_WORDS], oldest_words[MVE_PICTURE_WORDS], new_words[MVE_PICTURE_WORDS];
extern struct mve_stepped answer;
extern struct mve_answer verdict;
extern struct mve_traced traced;
extern struct mve_salvaged salvaged;
extern struct mve_stripped stripped;
extern uint8_t new_film[NEW_FILM_BYTES];
extern size_t losses[LOSSES * MVE_LOSS_NUMBERS];
extern uint8_t wanted[MVE_PICTURE_BYTES], new_map[MVE_MAP_BYTES], new_body[MVE_BODY_BYTES];
extern struct mve_encoded encoded;
extern size_t kind, shown, frame_refusal;

void call_mve_open(void);
void call_mve_begin(void);
void call_mve_shown(void);
void call_mve_shown_words(void);
void call_mve_check(void);
void call_mve_check_strict(void);
void call_mve_draw(void);
void call_mve_draw_strict(void);
void call_mve_check_words(void);
void call_mve_check_words_strict(void);
void call_mve_draw_words(void);
void call_mve_draw_words_strict(void);
void call_mve_origin(void);
void call_mve_salvage(void);
void call_mve_strip(void);
void call_mve_encode(void);
void call_mve_video1(void);

#endif
