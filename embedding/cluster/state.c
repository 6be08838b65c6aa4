#include "state.h"
#include "map.h"
#include <errno.h>
#include <stdlib.h>
#include <string.h>

/* What is known of a node's process. */
struct process {
    uint64_t last; /* the number of its last request */
    bool known;    /* it may have locks: it was a member, and wasn't purged since */
};

static const struct settings *settings;
static const struct state_calls *calls;
static struct dehokuna_server server;
static struct process processes[MOST_NODES]; /* by place */
/* Which generation of its inode each file is that has a lock or a wait; one that has neither any more may be left. */
static struct map generations;

static bool create_table(void) { return dehokuna_create(&server, DEHOKUNA_HELD | DEHOKUNA_ATOMIC); }

bool state_create(const struct settings *given, const struct state_calls *told) {
    settings = given, calls = told;
    return create_table();
}

void state_destroy(void) {
    dehokuna_destroy(&server);
    map_clear(&generations, NULL);
}

void state_clear(void) {
    state_destroy();
    memset(processes, 0, sizeof processes);
    if (!create_table()) abort();
}

const struct dehokuna_server *state_table(void) { return &server; }
uint64_t state_last(int place) { return processes[place].last; }
bool state_knows(int place) { return processes[place].known; }

/* ---- Entries */

void put_request_entry(struct bytes *bytes, const struct call *call) {
    put_number(bytes, ENTRY_REQUEST, 1);
    put_call(bytes, call);
}

void put_purge_entry(struct bytes *bytes, uint16_t node) {
    put_number(bytes, ENTRY_PURGE, 1);
    put_number(bytes, node, 2);
}

void put_view_entry(struct bytes *bytes, struct cluster_view_number view, const struct ring_node *nodes, unsigned count) {
    put_number(bytes, ENTRY_VIEW, 1);
    put_number(bytes, view.ring, 8);
    put_number(bytes, view.count, 8);
    put_number(bytes, count, 2);
    for (unsigned at = 0; at < count; at++) {
        put_number(bytes, nodes[at].node, 2);
        put_number(bytes, nodes[at].is_member, 1);
        put_number(bytes, nodes[at].loses, 1);
    }
}

enum entry_kind kind_of_entry(const uint8_t *bytes, size_t size) { return size ? (enum entry_kind)bytes[0] : 0; }

uint16_t node_of_purge(const uint8_t *bytes, size_t size) {
    struct reader reader = {bytes + 1, size - 1, false};
    return (uint16_t)get_number(&reader, 2);
}

uint64_t number_of_request(const uint8_t *bytes, size_t size) {
    struct reader reader = {bytes + 1, size - 1, false};
    return get_call(&reader).number;
}

unsigned nodes_of_view(const uint8_t *bytes, size_t size, struct ring_node *nodes, unsigned most) {
    struct reader reader = {bytes, size, false};
    get_part(&reader, 1 + 8 + 8);
    unsigned count = (unsigned)get_number(&reader, 2);
    for (unsigned at = 0; at < count && at < most; at++) {
        nodes[at].node = (uint16_t)get_number(&reader, 2);
        nodes[at].is_member = get_number(&reader, 1);
        nodes[at].loses = get_number(&reader, 1);
    }
    return reader.failed || count > most ? 0 : count;
}

/* ---- Generations */

static bool has_locks_or_waits(uint64_t file) {
    uint64_t found;
    return dehokuna_next_file(&server, file, &found) && found == file;
}

/* A generation as a value of the map, which none is NULL. */
static void *stored(uint64_t generation) { return (void *)(uintptr_t)(generation | UINT64_C(1) << 63); }

static void end_waits(uint64_t file) {
    struct dehokuna_waiting wait;
    for (uint64_t place = 0; dehokuna_wait_at(&server, file, place, &wait); place++) calls->ended(wait.ticket, ESTALE);
}

/* A generation that isn't known is 0, and may be any. */
static bool is_of_generation(const struct call *call) {
    const void *kept = map_get(&generations, call->file, 0);
    return !call->generation || kept == stored(0) || kept == stored(call->generation);
}

/* Where the file's number was another file's before, that one's locks and waits go. false: the request is of a file that is no more, since it
 * lets go, or looks. */
static bool is_of_file(const struct call *call) {
    if (!has_locks_or_waits(call->file)) {
        map_remove(&generations, call->file, 0);
        return true;
    }
    if (is_of_generation(call)) return true;
    if (!asks_for_lock(call)) return false;
    end_waits(call->file);
    dehokuna_forget_file(&server, call->file);
    map_remove(&generations, call->file, 0);
    return true;
}

static void keep_generation(const struct call *call) {
    if (!has_locks_or_waits(call->file)) map_remove(&generations, call->file, 0);
    else if (call->generation || !map_get(&generations, call->file, 0)) map_put(&generations, call->file, 0, stored(call->generation));
}

/* ---- Application */

static void tell_grants(void) {
    for (uint64_t ticket; dehokuna_next_grant(&server, &ticket);) calls->granted(ticket);
}

static void purge(int place) {
    uint16_t node = settings->nodes[place].node;
    dehokuna_forget_owners(&server, number_of(node, 0), number_of(node, LARGEST_COUNT));
    processes[place].known = false;
}

static bool note(const struct call *call) { return dehokuna_note(&server, call->file, call->owner, call->open_file); }

static uint32_t make_call(const struct call *call) {
    switch (call->op) {
    case OP_SET:
        if (asks_for_lock(call) && !note(call)) return DEHOKUNA_NO_MEMORY;
        return dehokuna_set(&server, call->file, call->owner, call->first, call->last, call->mode);
    case OP_WAIT:
        if (!note(call)) return DEHOKUNA_NO_MEMORY;
        return dehokuna_wait(&server, call->number, call->file, call->owner, call->first, call->last, call->mode, call->flags & FLAG_DETECT);
    case OP_FLUSH: dehokuna_flush(&server, call->file, call->owner); break;
    case OP_FLOCK: return dehokuna_flock(&server, call->file, call->owner, call->mode);
    case OP_FLOCK_WAIT: return dehokuna_flock_wait(&server, call->number, call->file, call->owner, call->mode);
    case OP_RELEASE: dehokuna_release(&server, call->file, call->open_file, call->flags & FLAG_HAS_OWNER, call->owner); break;
    case OP_CANCEL:
        if (dehokuna_cancel(&server, call->first)) calls->ended(call->first, EINTR);
        break;
    }
    return DEHOKUNA_DONE;
}

static bool apply_request(struct reader *reader) {
    struct call call = get_call(reader);
    int place = place_of_node(settings, node_of_number(call.number));
    if (reader->failed || place < 0) return false;
    processes[place].last = call.number;
    bool is_of_none = call.op == OP_CANCEL || call.op == OP_BEAT, counts = is_of_none || is_of_file(&call);
    uint32_t status = counts ? make_call(&call) : DEHOKUNA_DONE;
    if (status == DEHOKUNA_NO_MEMORY) return false;
    if (counts && !is_of_none && call.op != OP_GET) keep_generation(&call);
    calls->applied(&call, status);
    tell_grants();
    return true;
}

static bool apply_purge(struct reader *reader) {
    int place = place_of_node(settings, (uint32_t)get_number(reader, 2));
    if (reader->failed || place < 0) return false;
    purge(place);
    tell_grants();
    return true;
}

static bool apply_view(const uint8_t *bytes, size_t size) {
    struct ring_node nodes[MOST_NODES];
    unsigned count = nodes_of_view(bytes, size, nodes, MOST_NODES);
    for (unsigned at = 0; at < count; at++) {
        int place = place_of_node(settings, nodes[at].node);
        if (place < 0) return false;
        if (nodes[at].loses) purge(place), processes[place].last = 0;
        processes[place].known = nodes[at].is_member;
    }
    tell_grants();
    return count > 0;
}

bool state_apply(const uint8_t *bytes, size_t size) {
    struct reader reader = {bytes, size, false};
    switch (get_number(&reader, 1)) {
    case ENTRY_REQUEST: return apply_request(&reader);
    case ENTRY_PURGE: return apply_purge(&reader);
    case ENTRY_VIEW: return apply_view(bytes, size);
    default: return false;
    }
}

/* ---- The state as bytes: of each configured node what is known of its process, the table, and each of its files' generation */

static void put_processes(struct bytes *bytes) {
    for (unsigned at = 0; at < settings->count; at++) {
        put_number(bytes, processes[at].last, 8);
        put_number(bytes, processes[at].known, 1);
    }
}

static void put_generations(struct bytes *bytes) {
    uint64_t file;
    for (uint64_t from = 0; dehokuna_next_file(&server, from, &file); from = file + 1) {
        put_number(bytes, (uint64_t)(uintptr_t)map_get(&generations, file, 0), 8);
        if (file == UINT64_MAX) return;
    }
}

void state_export(struct bytes *bytes) {
    put_processes(bytes);
    size_t size = dehokuna_export_size(&server);
    uint8_t *table = room_for(size);
    put_number(bytes, dehokuna_export(&server, table, size), 8);
    put(bytes, table, size);
    free(table);
    put_generations(bytes);
}

static void get_processes(struct reader *reader) {
    for (unsigned at = 0; at < settings->count; at++) {
        processes[at].last = get_number(reader, 8);
        processes[at].known = get_number(reader, 1);
    }
}

/* Where it can't be made, the old table stays, for those who still look at it. */
static bool get_table(struct reader *reader) {
    struct dehokuna_server made = {0};
    struct dehokuna_fault fault;
    size_t size = get_number(reader, 8);
    const uint8_t *table = get_part(reader, size);
    if (!table || dehokuna_import(&made, table, size, &fault) != DEHOKUNA_DONE) return false;
    dehokuna_destroy(&server);
    server = made;
    return true;
}

static void get_generations(struct reader *reader) {
    uint64_t file;
    map_clear(&generations, NULL);
    for (uint64_t from = 0; dehokuna_next_file(&server, from, &file); from = file + 1) {
        map_put(&generations, file, 0, stored(get_number(reader, 8)));
        if (file == UINT64_MAX) return;
    }
}

bool state_import(struct reader *reader) {
    get_processes(reader);
    if (!get_table(reader)) return false;
    get_generations(reader);
    return !reader->failed;
}

uint64_t state_digest(void) {
    struct bytes bytes = {0};
    state_export(&bytes);
    uint64_t digest = digest_on(EMPTY_DIGEST, bytes.at, bytes.size);
    free_bytes(&bytes);
    return digest;
}
