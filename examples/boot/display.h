/* display.h - the screen: 640x480 pixels of 8 bits, and room for a copy of each of the two pictures

A copy is written while the other one is shown; then they change places. The copies do not outlive a reset. */

#ifndef DISPLAY_H
#define DISPLAY_H

#include <stddef.h>
#include <stdint.h>

enum { DISPLAY_WIDTH = 640, DISPLAY_HEIGHT = 480 };

/* Sets the mode; the screen and both copies are black. */
void display_start(void);

/* Sends these rows of pixels of a picture, `first` up to but not `end`, to copy 0 or 1. The picture stands in the
   middle of the screen. Width and height are multiples of 8. */
void display_rows(size_t copy, const uint8_t *picture, size_t width, size_t height, size_t first, size_t end);

/* The copy is shown from now on, in these colours: 768 components, 0 to 63. */
void display_show(size_t copy, const uint8_t *palette);

/* A row of pixels of a copy as the display holds it: an address that is good until the next call. */
const volatile uint8_t *display_row(size_t copy, size_t width, size_t height, size_t row);

/* Component i of the colours as the display holds them, in rising order from 0 on. */
uint8_t display_component(size_t i);

#endif
