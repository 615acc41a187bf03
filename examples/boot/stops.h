/* stops.h - for the test: a watchdog that counts instructions

Built with -DSTOPS=k, the machine resets itself: start number n is stopped after exactly k times n instructions, counted
from stops_start on. Not counted is what stores nothing in kept memory: reports, and what goes to the display. */

#ifndef STOPS_H
#define STOPS_H

#ifdef STOPS
void stops_start(void);
void stops_pause(void);
void stops_resume(void);
#else
static inline void stops_start(void) {
}
static inline void stops_pause(void) {
}
static inline void stops_resume(void) {
}
#endif

#endif
