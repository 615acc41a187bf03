/* pace.h - waiting between pictures */

#ifndef PACE_H
#define PACE_H

#include <stdint.h>

void pace_wait(uint64_t microseconds);

#endif
