#define _GNU_SOURCE
#include "threads.h"
#include "say.h"
#include <errno.h>
#include <poll.h>
#include <pthread.h>
#include <string.h>
#include <sys/eventfd.h>
#include <unistd.h>

enum {
    TURN_PAUSE = 1000, /* milliseconds after which the group's thread looks at the latest */
    FRESH_PAUSE = 20   /* and where a beat is waited for */
};

static pthread_mutex_t turn;
static pthread_cond_t changed;
static int wake = -1;
static enum standing standing = STANDING_UNDECIDED;
static bool waits_for_beat;

bool threads_open(void) {
    pthread_mutexattr_t inherits;
    pthread_mutexattr_init(&inherits);
    pthread_mutexattr_setprotocol(&inherits, PTHREAD_PRIO_INHERIT);
    pthread_mutex_init(&turn, &inherits);
    pthread_cond_init(&changed, NULL);
    wake = eventfd(0, EFD_CLOEXEC | EFD_NONBLOCK);
    return wake >= 0;
}

void threads_close(void) { close(wake); }
void take_turn(void) { pthread_mutex_lock(&turn); }
void give_turn(void) { pthread_mutex_unlock(&turn); }
void wait_for_change(void) { pthread_cond_wait(&changed, &turn); }
void tell_change(void) { pthread_cond_broadcast(&changed); }

enum standing standing_now(void) { return standing; }
void set_standing(enum standing now) { standing = now; }

void wake_group_in_any_case(void) {
    uint64_t one = 1;
    if (write(wake, &one, sizeof one) < 0) say("can't wake the group's thread: %s", strerror(errno));
}

void wake_group(void) {
    if (waits_for_beat || replica_timeout() >= 0) wake_group_in_any_case();
}

void wait_for_beat(void) {
    bool was_waiting = waits_for_beat;
    waits_for_beat = true;
    if (!was_waiting) wake_group();
    wait_for_change();
}

void end_wait_for_beat(void) { waits_for_beat = false; }

void wait_for_group(void) {
    take_turn();
    struct pollfd waits[] = {{replica_descriptor(), POLLIN, 0}, {wake, POLLIN, 0}};
    int timeout = replica_timeout(), most = waits_for_beat ? FRESH_PAUSE : TURN_PAUSE;
    give_turn();
    poll(waits, 2, timeout < 0 || timeout > most ? most : timeout);
    uint64_t woken;
    if (waits[1].revents && read(wake, &woken, sizeof woken) < 0) say("can't read what wakes: %s", strerror(errno));
}
