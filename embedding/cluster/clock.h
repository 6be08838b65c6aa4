/* Milliseconds of a clock that only goes on. */
#ifndef CLOCK_H
#define CLOCK_H
#include <stdint.h>

uint64_t milliseconds_now(void);
#endif
