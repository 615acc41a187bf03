/* faults.h - what the processor refuses is told, and ends the run */

#ifndef FAULTS_H
#define FAULTS_H

#include <stddef.h>
#include <stdint.h>

/* From here on a fault writes a line and halts. */
void faults_start(void);

/* Another entry for one of the processor's vectors. It is entered on the stack for faults. */
void faults_enter(size_t vector, uintptr_t entry);

/* The bytes of the stack that were used since the reset. */
size_t stack_used(void);

#endif
