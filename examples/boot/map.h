/* map.h - where everything lies in memory: the one place to change addresses and sizes. For C and for the assembler. */

#ifndef MAP_H
#define MAP_H

#define PAGE 0x1000
#define LARGE_PAGE 0x200000 /* what one entry of a page directory maps */

/* The bytes of stack that the stage and the library have, all together. The page below them is not mapped. */
#ifndef STACK
#define STACK 1024
#endif
#define STACK_LOW 0x80000
#define STACK_TOP (STACK_LOW + STACK)

/* The 64 KiB of display memory that can be seen at a time. */
#define WINDOW 0xA0000
#define WINDOW_BYTES 0x10000

/* Code, constants and static variables: loaded anew by every reset, up to 2 MiB. */
#define PROGRAM 0x100000

/* What the machine puts there, only to be read: two words (the bytes of the film; microseconds to wait behind each
   picture), then the film. */
#define GIVEN 0x1000000
#define FILM (GIVEN + 16)
#define FILM_ROOM (KEPT - FILM)

/* Memory that a reset leaves alone. Nothing is loaded there. */
#define KEPT 0x2000000
#define KEPT_ROOM LARGE_PAGE

#endif
