/* The parts of lockfs on several nodes that stand alone, by themselves: maps, logs, entries of states, generations of inodes, and that a table that
 * took a state answers as the one that gave it. Prints TAP. */
#include "../log.h"
#include "../map.h"
#include "../state.h"
#include <stdio.h>
#include <stdlib.h>
#include <string.h>

static unsigned tests, failures;
static struct settings settings = {.self = 1, .count = 3, .expected = 3, .nodes = {{1, 1}, {2, 1}, {3, 1}}};
static uint64_t granted, ended, applied_status, applications;

static void ok(bool is_so, const char *what) {
    printf("%sok %u - %s\n", is_so ? "" : "not ", ++tests, what);
    failures += !is_so;
}

int place_of_node(const struct settings *in, uint32_t node) { return node >= 1 && node <= in->count ? (int)node - 1 : -1; }

static void applied(const struct call *call, uint32_t status) { (void)call, applied_status = status, applications++; }
static void was_granted(uint64_t ticket) { granted = ticket; }
static void has_ended(uint64_t ticket, int error) { ended = ticket << 8 | (unsigned)error; }
static const struct state_calls calls = {applied, was_granted, has_ended};

/* ---- Maps, beside an array */

static void try_maps(void) {
    enum { KEYS = 500, STEPS = 200000 };
    static char values[KEYS];
    bool has[KEYS] = {0}, is_right = true;
    struct map map = {0};
    srand(1);
    for (int step = 0; step < STEPS; step++) {
        unsigned key = (unsigned)rand() % KEYS;
        if (rand() % 2) map_put(&map, key, key % 7, &values[key]), has[key] = true;
        else map_remove(&map, key, key % 7), has[key] = false;
        unsigned other = (unsigned)rand() % KEYS;
        is_right = is_right && map_get(&map, other, other % 7) == (has[other] ? &values[other] : NULL);
    }
    ok(is_right, "a map has what was put there and not removed");
    map_clear(&map, NULL);
}

/* ---- Logs */

static void append(unsigned number) { log_append(&number, sizeof number); }

static void try_logs(void) {
    log_clear();
    for (unsigned number = 0; number < 3000; number++) append(number);
    uint64_t digest = log_digest();
    for (int count = 0; count < 1000; count++) log_advance();
    append(7);
    ok(log_length() == 3001 && log_applied() == 1000 && log_has(3000, digest) && !log_has(3001, digest), "a log has the digest of each length");
    struct bytes bytes = {0};
    log_export(&bytes);
    uint64_t whole = log_digest();
    log_truncate(3000);
    ok(log_length() == 3000 && log_digest() == digest, "what is cut off a log leaves what it was");
    struct reader reader = {bytes.at, bytes.size, false};
    ok(log_import(&reader) && log_length() == 3001 && log_digest() == whole && log_applied() == 1000, "a log that is handed over is the same");
    struct reader shorter = {bytes.at, bytes.size - 1, false};
    ok(!log_import(&shorter), "a log whose end is missing is refused");
    log_clear();
    for (unsigned number = 0; number < 10; number++) append(number);
    log_acknowledge(0, 9), log_acknowledge(1, 4);
    ok(log_committed(&settings, settings.expected) == 4, "what two of three acknowledged is committed");
    log_forget_acknowledgements(), log_acknowledge(2, 10);
    ok(log_committed(&settings, settings.expected) == 0, "what one of three acknowledged isn't");
    free_bytes(&bytes);
    log_clear();
}

/* ---- States */

static bool apply(struct bytes *entry) {
    bool is_applied = state_apply(entry->at, entry->size);
    free_bytes(entry);
    return is_applied;
}

static bool request(struct call call) {
    struct bytes entry = {0};
    put_request_entry(&entry, &call);
    return apply(&entry);
}

static struct call lock_of(uint16_t node, uint64_t number, uint64_t generation, enum op op) {
    const uint64_t own = number_of(node, 1);
    return (struct call){.op = (uint8_t)op, .mode = DEHOKUNA_WRITE, .number = number_of(node, number), .file = 5, .generation = generation, .owner = own,
                         .open_file = own, .last = 9};
}

static void try_generations(void) {
    state_clear();
    request(lock_of(1, 1, 77, OP_SET));
    request(lock_of(2, 1, 77, OP_WAIT));
    ok(applied_status == DEHOKUNA_WAITS, "a lock of the same file is in the way");
    request(lock_of(3, 1, 78, OP_SET));
    ok(applied_status == DEHOKUNA_DONE, "a lock of a file that had the inode number before isn't");
    ok(ended == (number_of(2, 1) << 8 | 116), "who waited for it is told ESTALE");
    struct call unlock = lock_of(1, 2, 77, OP_SET);
    unlock.mode = DEHOKUNA_UNLOCK;
    request(unlock);
    request(lock_of(2, 2, 78, OP_SET));
    ok(applied_status == DEHOKUNA_BLOCKED, "who lets go of the file of before leaves the locks of the new one");
    request(lock_of(2, 3, 0, OP_SET));
    ok(applied_status == DEHOKUNA_BLOCKED, "a generation that isn't known may be any");
    request(lock_of(1, 3, 79, OP_SET));
    ok(applied_status == DEHOKUNA_DONE, "and the one that was known still is");
    state_clear();
    request(lock_of(1, 1, 0, OP_SET));
    request(lock_of(2, 1, 77, OP_SET));
    ok(applied_status == DEHOKUNA_BLOCKED, "a lock of a generation that isn't known is in the way of any");
    request(unlock);
    request(lock_of(2, 2, 77, OP_SET));
    ok(applied_status == DEHOKUNA_DONE, "and goes by an unlock of any");
}

static void try_purges(void) {
    state_clear();
    request(lock_of(1, 1, 0, OP_SET));
    request(lock_of(2, 1, 0, OP_WAIT));
    struct bytes entry = {0};
    put_purge_entry(&entry, 1);
    granted = 0;
    ok(apply(&entry) && granted == number_of(2, 1), "a purge grants who waits");
    const struct ring_node nodes[] = {{1, true, true}, {2, false, true}, {3, true, false}};
    put_view_entry(&entry, (struct cluster_view_number){9, 1}, nodes, 3);
    ok(apply(&entry) && state_knows(0) && !state_knows(1) && state_last(1) == 0, "a view purges who has no process, or loses its locks");
    uint8_t wrong[] = {9, 1};
    ok(!state_apply(wrong, sizeof wrong), "an entry that is none is refused");
}

/* Random requests; what was told, as a digest. */
static uint64_t play(unsigned seed, unsigned from, unsigned count) {
    uint64_t told = 0;
    srand(seed);
    for (unsigned at = 0; at < count; at++) {
        uint16_t node = (uint16_t)(1 + rand() % 3);
        static const enum op ops[] = {OP_SET, OP_SET, OP_WAIT, OP_WAIT, OP_FLOCK, OP_FLOCK_WAIT, OP_FLUSH, OP_RELEASE, OP_CANCEL, OP_GET};
        struct call call = {.op = (uint8_t)ops[rand() % 10], .flags = FLAG_DETECT, .number = number_of(node, from + at)};
        call.generation = (uint64_t)(rand() % 40 ? 1 : rand() % 3);
        call.mode = (uint8_t)(call.op == OP_WAIT || call.op == OP_FLOCK_WAIT ? 1 + rand() % 2 : rand() % 3);
        call.file = (uint64_t)rand() % 4, call.owner = number_of(node, (uint64_t)rand() % 4), call.open_file = number_of(node, (uint64_t)rand() % 3);
        call.first = (uint64_t)rand() % 12, call.last = call.first + (uint64_t)rand() % 6;
        if (call.op == OP_CANCEL) call.first = number_of(node, (uint64_t)rand() % (from + at));
        granted = ended = 0;
        request(call);
        const uint64_t seen[] = {applied_status, granted, ended, state_last(0)};
        told = digest_on(told, seen, sizeof seen);
    }
    return told;
}

static void try_hand_overs(void) {
    unsigned differ = 0;
    for (unsigned seed = 1; seed <= 300; seed++) {
        state_clear();
        play(seed, 1, 150);
        struct bytes bytes = {0};
        state_export(&bytes);
        uint64_t told = play(seed + 1000, 151, 150), digest = state_digest();
        struct reader reader = {bytes.at, bytes.size, false};
        state_clear();
        bool is_taken = state_import(&reader);
        differ += !is_taken || play(seed + 1000, 151, 150) != told || state_digest() != digest;
        free_bytes(&bytes);
    }
    ok(!differ, "a table that took a state answers as the one that gave it, 300 times");
}

int main(void) {
    state_create(&settings, &calls);
    try_maps();
    try_logs();
    try_generations();
    try_purges();
    try_hand_overs();
    state_destroy();
    printf("1..%u\n", tests);
    return failures > 0;
}
