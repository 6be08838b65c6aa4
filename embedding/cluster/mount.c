#define _GNU_SOURCE
#include "mount.h"
#include "askers.h"
#include "file_calls.h"
#include "listing.h"
#include "lock_calls.h"
#include "say.h"
#include "threads.h"
#include <pthread.h>
#include <sched.h>
#include <signal.h>

enum {
    PATIENCE = 5000,        /* milliseconds until a node whose lockfs says nothing is thrown out */
    DETECTION_MARGIN = 1000 /* by which the grace is longer than a node needs to see that it is cut off, where it isn't given */
};

static struct cluster_options options;
static struct settings settings;
static pthread_t group_thread;
static bool is_ending;

/* ---- What the replica calls */

static void lost(void) {
    unsigned files = lose_what_was_held();
    if (files) say("%u open files have lost their locks: EIO until they are closed, and nothing is changed by this mount until then", files);
}

static void stands(enum standing now) {
    enum standing before = standing_now();
    if (before == STANDING_IN_VIEW && now != STANDING_IN_VIEW) look_who_holds();
    if (now != before && now == STANDING_NO_VIEW) say("is without a view: who holds a lock gets EIO");
    if (now != before && now == STANDING_WITHDRAWN) say("gives EIO from now on");
    set_standing(now);
    tell_change();
    /* The others purge this node's locks as it goes. */
    if (now == STANDING_WITHDRAWN) wait_for_end_of_file_call();
}

/* ---- The group's thread */

static volatile sig_atomic_t is_described;
static void on_description(int number) { (void)number, is_described = 1; }

static void describe(void) {
    is_described = 0;
    replica_describe(stderr);
    describe_askers(stderr);
}

/* One turn: it waits for a message, a request or a timer, and does what there is to do. false: the node leaves. */
static bool serve_once(void) {
    wait_for_group();
    take_turn();
    bool stays = replica_work() && !is_ending;
    tell_change();
    if (is_described) describe();
    give_turn();
    return stays;
}

/* All nodes wait for each member's acknowledgement, so this thread goes first, as corosync does, where it may. */
static void go_first(void) {
    const struct sched_param least = {.sched_priority = sched_get_priority_min(SCHED_RR)};
    sched_setscheduler(0, SCHED_RR | SCHED_RESET_ON_FORK, &least);
}

static void *serve_group(void *unused) {
    go_first();
    while (serve_once()) {}
    return unused;
}

static void block_ends(int how) {
    sigset_t ends;
    sigemptyset(&ends);
    for (const int *number = (const int[]){SIGTERM, SIGINT, SIGHUP, 0}; *number; number++) sigaddset(&ends, *number);
    pthread_sigmask(how, &ends, NULL);
}

/* ---- The program */

bool cluster_prepare(const struct cluster_options *given) {
    options = *given;
    if (!read_settings(&settings)) return false;
    if (!options.grace) options.grace = settings.detection + DETECTION_MARGIN;
    if (options.grace > settings.detection) return true;
    fprintf(stderr, "lockfs: a grace of %u ms isn't longer than a node needs to see that it is cut off, %u ms (totem's token and consensus)\n", options.grace,
            settings.detection);
    return false;
}

void cluster_operations(struct fuse_lowlevel_ops *operations) {
    file_operations(operations, options.grace);
    lock_operations(operations);
    lockfs_ways = (struct lockfs_ways){file_opened, print_cluster_list};
}

static bool join(void) {
    const struct replica_options wanted = {.group = options.name, .grace = options.grace, .patience = PATIENCE, .fence = options.fence};
    const struct replica_calls calls = {{lock_answered, lost, may_ask_anew}, stands, say};
    struct sigaction description = {.sa_handler = on_description, .sa_flags = SA_RESTART};
    sigaction(SIGUSR1, &description, NULL);
    say_open(options.name, options.in_foreground);
    if (threads_open() && replica_open(&settings, &wanted, &calls)) return true;
    say("can't join the group %s", options.name);
    return false;
}

bool cluster_begin(void) {
    if (!join()) return false;
    /* (the thread of the file system is to be told of these) */
    block_ends(SIG_BLOCK);
    bool begun = !pthread_create(&group_thread, NULL, serve_group, NULL);
    block_ends(SIG_UNBLOCK);
    return begun;
}

void cluster_end(void) {
    take_turn();
    is_ending = true;
    wake_group_in_any_case();
    give_turn();
    pthread_join(group_thread, NULL);
    replica_close();
    clear_asks();
    clear_askers();
    threads_close();
}

static void on_end(int number) { (void)number, is_ending = true; }

bool cluster_witness(void) {
    struct sigaction end = {.sa_handler = on_end};
    sigaction(SIGTERM, &end, NULL);
    sigaction(SIGINT, &end, NULL);
    if (!join()) return false;
    go_first();
    while (serve_once()) {}
    bool was_asked = is_ending;
    replica_close();
    return was_asked;
}
