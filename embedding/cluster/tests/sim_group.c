/* A replica in a simulated cluster: what group.c, clock.c and corosync's part of settings.c are to it, and calls for whoever simulates
 * (replicas.py). Each process is a copy of the shared object that this is part of. */
#include "../clock.h"
#include "../group.h"
#include "../replica.h"
#include <stdarg.h>
#include <stdlib.h>
#include <string.h>

/* What the simulation is told. */
struct sim_calls {
    void (*sent)(uint32_t node, const uint8_t *bytes, size_t size);
    void (*left)(uint32_t node);
    void (*answered)(uint32_t node, uint32_t op, int error);
    void (*lost)(uint32_t node);
    int (*may_ask_anew)(uint32_t node, uint32_t op);
    void (*stands)(uint32_t node, uint32_t standing);
    void (*said)(uint32_t node, const char *text);
};

static struct sim_calls sim;
static struct settings settings;
static uint64_t now;
static const struct group_calls *group;

uint64_t milliseconds_now(void) { return now; }

bool votes_now(uint16_t self, uint32_t *votes, uint32_t *expected) {
    *votes = settings.nodes[place_of_node(&settings, self)].votes;
    *expected = settings.expected;
    return true;
}

int place_of_node(const struct settings *in, uint32_t node) {
    for (unsigned at = 0; at < in->count; at++)
        if (in->nodes[at].node == node) return (int)at;
    return -1;
}

uint64_t digest_of_settings(const struct settings *in) { return digest_on(EMPTY_DIGEST, in->nodes, in->count * sizeof *in->nodes); }
void throw_out(uint16_t node, const char *why) { (void)node, (void)why; }

bool group_join(const char *name, const struct group_calls *calls) { return (void)name, group = calls, true; }
void group_leave(void) { sim.left(settings.self); }
int group_descriptor(void) { return -1; }
bool group_dispatch(void) { return true; }
bool group_flush(void) { return false; }
void group_send(const struct bytes *message) { sim.sent(settings.self, message->at, message->size); }

static void answered(void *who, const struct call *call, int error, const struct dehokuna_blocker *blocker) {
    (void)who, (void)blocker;
    sim.answered(settings.self, call->op, error);
}
static void lost(void) { sim.lost(settings.self); }
static bool may_ask_anew(void *who, const struct call *call) { return (void)who, sim.may_ask_anew(settings.self, call->op); }
static void stands(enum standing standing) { sim.stands(settings.self, standing); }
static void say(const char *format, ...) {
    char text[256];
    va_list words;
    va_start(words, format);
    vsnprintf(text, sizeof text, format, words);
    va_end(words);
    sim.said(settings.self, text);
}

void sim_set_now(uint64_t time) { now = time; }

bool sim_open(uint32_t self, const uint32_t *votes, unsigned count, uint32_t expected, unsigned grace, const struct sim_calls *calls) {
    static const struct replica_options no_options;
    struct replica_options options = no_options;
    sim = *calls;
    settings = (struct settings){.self = (uint16_t)self, .count = count, .expected = expected};
    for (unsigned at = 0; at < count; at++) settings.nodes[at] = (struct configured_node){(uint16_t)(at + 1), votes[at]};
    options.group = "simulated", options.grace = grace, options.patience = 1000000;
    const struct replica_calls told = {{answered, lost, may_ask_anew}, stands, say};
    return replica_open(&settings, &options, &told);
}

void sim_delivered(uint32_t node, uint32_t process, const uint8_t *bytes, size_t size) { group->delivered((struct member){node, process}, bytes, size); }
void sim_members(const uint32_t *nodes, const uint32_t *processes, unsigned count) {
    struct member members[MOST_NODES];
    for (unsigned at = 0; at < count; at++) members[at] = (struct member){nodes[at], processes[at]};
    group->members_changed(members, count);
}
void sim_ring(uint64_t number, const uint32_t *nodes, unsigned count) { group->ring_changed((struct ring_id){number, 1}, nodes, count); }
bool sim_work(void) { return replica_work(); }
int sim_timeout(void) { return replica_timeout(); }

static void submit(enum op op, uint8_t mode) {
    const uint64_t number = number_of(settings.self, 1);
    const struct call call = {.op = (uint8_t)op, .mode = mode, .file = 1, .owner = number, .open_file = number, .last = 9};
    replica_submit(&call, &settings);
}

/* Asks for the one lock that there is, and waits for it; lets it go. */
void sim_lock(void) { submit(OP_WAIT, DEHOKUNA_WRITE); }
void sim_unlock(void) { submit(OP_SET, DEHOKUNA_UNLOCK); }
uint64_t sim_table(void) { return state_digest(); }
/* How many locks and waits there are. */
uint64_t sim_locks(void) {
    struct dehokuna_counts counts;
    dehokuna_counts(state_table(), 0, UINT64_MAX, &counts);
    return counts.runs + counts.flock_locks + counts.waits;
}
