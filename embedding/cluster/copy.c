#include "copy.h"
#include "hello.h"
#include "log.h"
#include "own.h"
#include "state.h"
#include <string.h>

static const struct settings *settings;
static bool is_here;
static struct cluster_view_number view;           /* that it is of */
static struct cluster_view_electorate electorate; /* that it began with */
static bool is_of_ring;                           /* its view began in the ring as it is */
static uint64_t base, vouched;                    /* how long the log was as the view began; how much of it an acknowledgement vouches for */
static bool is_unsettled;
static uint64_t last_delivered[MOST_NODES]; /* by place */
static bool is_awaited[MOST_NODES];         /* there is no state before the node's purge is in the log */
static uint64_t purged_at[MOST_NODES];      /* how long the log is with it; 0: it isn't there */

static int place_of(uint32_t node) { return place_of_node(settings, node); }

void copy_open(const struct settings *given) { settings = given; }

bool copy_is_here(void) { return is_here; }

bool copy_counts(void) {
    for (unsigned at = 0; at < settings->count; at++)
        if (copy_awaits((int)at)) return false;
    return is_here;
}

void copy_lose(void) { is_here = false; }

void copy_begin_with_none(struct cluster_view_electorate voters) {
    state_clear();
    log_clear();
    memset(last_delivered, 0, sizeof last_delivered);
    is_here = true;
    electorate = voters;
}

void copy_begin_view(struct cluster_view_number number) {
    view = number;
    is_of_ring = true;
    base = log_length();
    vouched = 0;
}

uint64_t copy_base(void) { return base; }

void copy_await(int place, bool now) { is_awaited[place] = now, purged_at[place] = 0; }
void copy_await_nobody(void) { memset(is_awaited, 0, sizeof is_awaited); }
bool copy_awaits(int place) { return is_awaited[place] && !purged_at[place]; }

/* ---- Entries as they stand in the log, be they applied or not */

static void note_entry(const uint8_t *entry, size_t size, uint64_t length) {
    struct ring_node nodes[MOST_NODES];
    switch (kind_of_entry(entry, size)) {
    case ENTRY_REQUEST: {
        uint64_t number = number_of_request(entry, size);
        last_delivered[place_of(node_of_number(number))] = number;
        break;
    }
    case ENTRY_PURGE:
        purged_at[place_of(node_of_purge(entry, size))] = length;
        break;
    case ENTRY_VIEW:
        for (unsigned count = nodes_of_view(entry, size, nodes, MOST_NODES), at = 0; at < count; at++)
            if (nodes[at].loses) last_delivered[place_of(nodes[at].node)] = 0;
        break;
    }
}

static void note_whole_log(void) {
    size_t size;
    for (unsigned at = 0; at < settings->count; at++) {
        last_delivered[at] = state_last((int)at);
        if (purged_at[at] > log_length()) purged_at[at] = 0;
    }
    for (uint64_t place = log_applied(); place < log_length(); place++) {
        const uint8_t *entry = log_entry(place, &size);
        note_entry(entry, size, place + 1);
    }
}

void copy_append(const struct bytes *entry) {
    log_append(entry->at, entry->size);
    note_entry(entry->at, entry->size, log_length());
}

uint64_t copy_last_delivered(int place) { return last_delivered[place]; }

void copy_vouch(uint64_t length) {
    if (length > vouched) vouched = length;
}

uint64_t copy_drop_unvouched(void) {
    uint64_t length = log_length();
    if (is_here && is_of_ring) {
        log_truncate(vouched > base ? vouched : base);
        note_whole_log();
    }
    is_of_ring = false;
    vouched = 0;
    return length - log_length();
}

/* ---- What is applied */

bool copy_apply(void) {
    size_t size;
    for (uint64_t committed = log_committed(settings, electorate.expected); log_applied() < committed;) {
        const uint8_t *entry = log_entry(log_applied(), &size);
        if (!state_apply(entry, size)) return false;
        log_advance();
        if (is_unsettled && log_applied() >= base) is_unsettled = false, own_settle();
    }
    return true;
}

void copy_settle_own(void) {
    is_unsettled = true;
    own_took(state_last(place_of(settings->self)));
}

/* ---- As bytes */

void copy_export(struct bytes *bytes) {
    put_electorate(bytes, electorate);
    log_export(bytes);
    state_export(bytes);
}

bool copy_import(struct reader *reader) {
    electorate = get_electorate(reader);
    if (!log_import(reader) || !state_import(reader)) return false;
    is_here = true;
    note_whole_log();
    return true;
}

struct cluster_view_state copy_told(void) {
    struct cluster_view_state told = {.view = view, .electorate = electorate};
    told.log = (struct cluster_view_mark){log_length(), log_digest()};
    told.applied = (struct cluster_view_mark){log_applied(), state_digest()};
    return told;
}
