/* What lockfs says: to the system's log, or in the foreground on standard error, with the time. */
#ifndef SAY_H
#define SAY_H
#include <stdbool.h>

void say_open(const char *name, bool in_foreground);
void say(const char *format, ...);
#endif
