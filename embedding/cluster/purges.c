#include "purges.h"
#include "clock.h"
#include "settings.h"
#include <errno.h>
#include <signal.h>
#include <spawn.h>
#include <stdio.h>
#include <sys/wait.h>
#include <unistd.h>

enum { FENCE_POLL = 50, FENCE_RETRY = 5000, FENCE_WORDS = 4096 };
extern char **environ;

struct planned {
    uint16_t node;
    uint64_t due;
    pid_t fence; /* 0: it doesn't run */
};

static struct planned planned[MOST_NODES];
static unsigned count;
/* Fences that run for no plan any more. */
static pid_t left[MOST_NODES];
static unsigned left_count;
static const char *command;
static enum purge_need (*need)(uint16_t node);
static void (*purge)(uint16_t node);
static void (*say)(const char *format, ...);

void purges_open(const char *fence, enum purge_need (*asked)(uint16_t node), void (*given)(uint16_t node), void (*told)(const char *format, ...)) {
    command = fence, need = asked, purge = given, say = told;
}

/* (a fence that still runs goes on) */
void purges_clear(void) {
    for (unsigned at = 0; at < count; at++)
        if (planned[at].fence && left_count < MOST_NODES) left[left_count++] = planned[at].fence;
    count = 0;
}

static void bury_fences(void) {
    for (unsigned at = 0; at < left_count; at++)
        if (waitpid(left[at], NULL, WNOHANG) != 0) left[at--] = left[--left_count];
}

void purges_plan(uint16_t node, unsigned delay) {
    if (count < MOST_NODES) planned[count++] = (struct planned){node, milliseconds_now() + delay, 0};
}

void purges_done(uint16_t node) {
    for (unsigned at = 0; at < count; at++)
        if (planned[at].node == node) planned[at--] = planned[--count];
}

int purges_timeout(void) {
    uint64_t now = milliseconds_now(), least = UINT64_MAX;
    for (unsigned at = 0; at < count; at++) {
        uint64_t due = planned[at].fence ? now + FENCE_POLL : planned[at].due;
        if (due < least) least = due;
    }
    return least == UINT64_MAX ? -1 : least <= now ? 0 : (int)(least - now);
}

/* Runs the words by a shell, which may be ended by any signal, unlike this thread. Returns an error number. */
static int run(char *words, pid_t *child) {
    char *const line[] = {"sh", "-c", words, NULL};
    posix_spawnattr_t attributes;
    sigset_t none;
    sigemptyset(&none);
    int error = posix_spawnattr_init(&attributes);
    if (error) return error;
    posix_spawnattr_setsigmask(&attributes, &none);
    posix_spawnattr_setflags(&attributes, POSIX_SPAWN_SETSIGMASK);
    error = posix_spawn(child, "/bin/sh", NULL, &attributes, line, environ);
    posix_spawnattr_destroy(&attributes);
    return error;
}

static void start_fence(struct planned *plan) {
    char words[FENCE_WORDS];
    snprintf(words, sizeof words, "%s %u", command, plan->node);
    int error = run(words, &plan->fence);
    say("fences node %u: %s%s", plan->node, words, error ? ": can't be run" : "");
    if (error) plan->fence = 0, plan->due = milliseconds_now() + FENCE_RETRY;
}

/* Whether the fence has ended and done its work; where it ended otherwise it is run again later. */
static bool has_fenced(struct planned *plan) {
    int status = 0;
    pid_t ended = waitpid(plan->fence, &status, WNOHANG);
    if (ended == 0) return false;
    plan->fence = 0;
    if (ended > 0 && WIFEXITED(status) && WEXITSTATUS(status) == 0) return true;
    say("the fence of node %u failed (status %d): its locks stay", plan->node, status);
    plan->due = milliseconds_now() + FENCE_RETRY;
    return false;
}

/* What is to be done with the node now. */
static enum purge_need need_now(struct planned *plan) {
    if (plan->fence) return has_fenced(plan) ? PURGE_NOW : PURGE_LATER;
    if (milliseconds_now() < plan->due) return PURGE_LATER;
    enum purge_need needed = need(plan->node);
    if (needed == PURGE_LATER) plan->due = milliseconds_now() + FENCE_POLL;
    if (needed != PURGE_NOW || !command) return needed;
    start_fence(plan);
    return PURGE_LATER;
}

void purges_work(void) {
    bury_fences();
    for (unsigned at = 0; at < count; at++) {
        enum purge_need needed = need_now(&planned[at]);
        if (needed == PURGE_LATER) continue;
        uint16_t node = planned[at].node;
        planned[at--] = planned[--count];
        if (needed == PURGE_NOW) purge(node);
    }
}
