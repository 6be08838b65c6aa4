#define _GNU_SOURCE
#include "say.h"
#include <stdarg.h>
#include <stdio.h>
#include <syslog.h>
#include <time.h>

static const char *name;
static bool in_foreground;

void say_open(const char *group, bool is_in_foreground) {
    name = group, in_foreground = is_in_foreground;
    if (!in_foreground) openlog("lockfs", LOG_PID, LOG_DAEMON);
}

void say(const char *format, ...) {
    char text[1024];
    va_list words;
    va_start(words, format);
    vsnprintf(text, sizeof text, format, words);
    va_end(words);
    if (!in_foreground) {
        syslog(LOG_NOTICE, "%s", text);
        return;
    }
    struct timespec now;
    clock_gettime(CLOCK_REALTIME, &now);
    fprintf(stderr, "%lld.%03ld lockfs %s: %s\n", (long long)now.tv_sec, now.tv_nsec / 1000000, name, text);
}
