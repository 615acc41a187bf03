/* report.h - for the test: every picture that is shown, written to a port as the display holds it */

#ifndef REPORT_H
#define REPORT_H

#include <stddef.h>

/* SENT: the film sent it now. AGAIN: it was shown before the reset and is shown again. */
enum report_kind { REPORT_SENT = 'S', REPORT_AGAIN = 'A' };

/* Writes the picture in a copy of the display, and its colours. `number` counts the pictures from 0. Does nothing where
   nobody listens. */
void report(enum report_kind kind, size_t number, size_t copy, size_t width, size_t height);

#endif
