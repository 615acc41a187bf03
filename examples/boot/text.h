/* text.h - lines of text on the serial port */

#ifndef TEXT_H
#define TEXT_H

#include <stdint.h>

void text(const char *words);
void text_number(uint64_t number);
void text_hex(uint64_t number);

/* Words, a number, and the end of the line. */
void text_line(const char *words, uint64_t number);

#endif
