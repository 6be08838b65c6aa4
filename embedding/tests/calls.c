/* Calls each function of the library on its happy path, refuses each growth in turn, counts what memory is left where owners and files came
 * and went, and prints 'N passed, M failed'. Linked with --wrap of malloc, realloc and free, so that it can refuse and count. What is right
 * is told by the pages of fcntl(2), fcntl_locking(2) and flock(2). */
#include "dehokuna.h"
#include <stdio.h>
#include <stdlib.h>
#include <string.h>

static unsigned passed, failed;

static void check(bool holds, const char *what, int line) {
    if (holds) {
        passed++;
    } else {
        failed++;
        fprintf(stderr, "calls.c:%d: %s\n", line, what);
    }
}

#define CHECK(what) check(what, #what, __LINE__)

/* How many growths are taken before one is refused; below 0 none is. */
static long growths_left = -1;
static bool was_refused;

/* How many blocks of memory are taken and not given back. */
static long blocks;

void *__real_malloc(size_t size);
void *__real_realloc(void *block, size_t size);
void __real_free(void *block);
void *__wrap_malloc(size_t size);
void *__wrap_realloc(void *block, size_t size);
void __wrap_free(void *block);

static bool is_refused(void) {
    if (growths_left < 0 || growths_left-- > 0) return false;
    return was_refused = true;
}

void *__wrap_malloc(size_t size) {
    void *taken = is_refused() ? NULL : __real_malloc(size);
    blocks += taken != NULL;
    return taken;
}

void *__wrap_realloc(void *block, size_t size) {
    const bool is_new = block == NULL;
    void *taken = is_refused() ? NULL : __real_realloc(block, size);
    blocks += is_new && taken != NULL;
    return taken;
}

void __wrap_free(void *block) {
    blocks -= block != NULL;
    __real_free(block);
}

enum { FILE_A = 7, FILE_B = 8, ANN = 1, BOB = 2, CAT = 3 };

static uint64_t granted(struct dehokuna_server *server) {
    uint64_t ticket = 0;
    return dehokuna_next_grant(server, &ticket) ? ticket : 0;
}

static bool is_blocked_by(const struct dehokuna_server *server, uint64_t file, uint64_t owner, uint64_t byte, struct dehokuna_blocker right) {
    struct dehokuna_blocker told = {0};
    if (dehokuna_get(server, file, owner, byte, byte, DEHOKUNA_WRITE, &told) != DEHOKUNA_BLOCKED) return false;
    return told.owner == right.owner && told.first == right.first && told.last == right.last && told.mode == right.mode;
}

static bool is_free(const struct dehokuna_server *server, uint64_t file, uint64_t owner, uint64_t first, uint64_t last) {
    struct dehokuna_blocker told = {4, 4, 4, 4};
    return dehokuna_get(server, file, owner, first, last, DEHOKUNA_WRITE, &told) == DEHOKUNA_DONE && told.owner == 4 && told.first == 4
           && told.last == 4 && told.mode == 4;
}

static void byte_locks(struct dehokuna_server *server) {
    const uint64_t end = DEHOKUNA_LARGEST_OFFSET;
    CHECK(is_free(server, FILE_A, ANN, 0, end));
    CHECK(dehokuna_set(server, FILE_A, ANN, 10, 19, DEHOKUNA_WRITE) == DEHOKUNA_DONE);
    CHECK(is_free(server, FILE_A, ANN, 0, end) && is_free(server, FILE_B, BOB, 0, end));
    CHECK(dehokuna_set(server, FILE_A, BOB, 19, 30, DEHOKUNA_READ) == DEHOKUNA_BLOCKED);
    CHECK(is_free(server, FILE_A, ANN, 20, end));
    CHECK(is_blocked_by(server, FILE_A, BOB, 12, (struct dehokuna_blocker){ANN, 10, 19, DEHOKUNA_WRITE}));
    CHECK(dehokuna_set(server, FILE_A, ANN, 14, 15, DEHOKUNA_UNLOCK) == DEHOKUNA_DONE);
    CHECK(is_free(server, FILE_A, BOB, 14, 15));
    CHECK(dehokuna_set(server, FILE_A, ANN, 18, 19, DEHOKUNA_READ) == DEHOKUNA_DONE);
    CHECK(dehokuna_set(server, FILE_A, BOB, 18, end, DEHOKUNA_READ) == DEHOKUNA_DONE);
    CHECK(is_blocked_by(server, FILE_A, BOB, 17, (struct dehokuna_blocker){ANN, 16, 17, DEHOKUNA_WRITE}));
    CHECK(is_blocked_by(server, FILE_A, BOB, 18, (struct dehokuna_blocker){ANN, 18, 19, DEHOKUNA_READ}));
    CHECK(is_blocked_by(server, FILE_A, ANN, 18, (struct dehokuna_blocker){BOB, 18, end, DEHOKUNA_READ}));
    dehokuna_flush(server, FILE_A, ANN);
    CHECK(is_free(server, FILE_A, BOB, 0, end));
    CHECK(dehokuna_set(server, FILE_B, BOB, 0, 0, DEHOKUNA_WRITE) == DEHOKUNA_DONE);
    dehokuna_forget(server, BOB);
    CHECK(is_free(server, FILE_A, ANN, 0, end) && is_free(server, FILE_B, ANN, 0, end));
}

static void waits(struct dehokuna_server *server) {
    CHECK(dehokuna_set(server, FILE_A, ANN, 0, 9, DEHOKUNA_WRITE) == DEHOKUNA_DONE);
    CHECK(dehokuna_wait(server, 70, FILE_A, BOB, 5, 5, DEHOKUNA_READ, true) == DEHOKUNA_WAITS);
    CHECK(dehokuna_wait(server, 71, FILE_A, CAT, 0, 5, DEHOKUNA_READ, true) == DEHOKUNA_WAITS);
    CHECK(dehokuna_wait(server, 71, FILE_B, CAT, 0, 5, DEHOKUNA_READ, true) == DEHOKUNA_TICKET_TAKEN);
    CHECK(dehokuna_wait(server, 72, FILE_A, CAT, 6, 6, DEHOKUNA_READ, true) == DEHOKUNA_WAITS);
    CHECK(dehokuna_cancel(server, 72) && !dehokuna_cancel(server, 72) && !dehokuna_cancel(server, 99));
    CHECK(granted(server) == 0);
    CHECK(dehokuna_set(server, FILE_A, ANN, 0, 9, DEHOKUNA_UNLOCK) == DEHOKUNA_DONE);
    CHECK(!dehokuna_cancel(server, 70));
    CHECK(granted(server) == 70 && granted(server) == 71 && granted(server) == 0);
    CHECK(is_blocked_by(server, FILE_A, ANN, 5, (struct dehokuna_blocker){BOB, 5, 5, DEHOKUNA_READ}));
    CHECK(is_blocked_by(server, FILE_A, ANN, 4, (struct dehokuna_blocker){CAT, 0, 5, DEHOKUNA_READ}));
    CHECK(is_free(server, FILE_A, ANN, 6, 6));
    dehokuna_flush(server, FILE_A, BOB);
    dehokuna_flush(server, FILE_A, CAT);
}

static void deadlocks(struct dehokuna_server *server) {
    for (uint64_t owner = ANN; owner <= CAT; owner++)
        CHECK(dehokuna_set(server, owner, owner, owner, owner, DEHOKUNA_WRITE) == DEHOKUNA_DONE);
    CHECK(dehokuna_wait(server, 1, BOB, ANN, BOB, BOB, DEHOKUNA_WRITE, true) == DEHOKUNA_WAITS);
    CHECK(dehokuna_wait(server, 2, CAT, BOB, CAT, CAT, DEHOKUNA_WRITE, true) == DEHOKUNA_WAITS);
    CHECK(dehokuna_wait(server, 3, ANN, CAT, ANN, ANN, DEHOKUNA_WRITE, true) == DEHOKUNA_DEADLOCK);
    CHECK(dehokuna_wait(server, 3, ANN, CAT, ANN, ANN, DEHOKUNA_WRITE, false) == DEHOKUNA_WAITS);
    CHECK(dehokuna_cancel(server, 3));
    dehokuna_forget(server, CAT);
    CHECK(granted(server) == 2 && granted(server) == 0);
    dehokuna_forget(server, BOB);
    CHECK(granted(server) == 1);
    dehokuna_forget(server, ANN);
    CHECK(is_free(server, ANN, 9, 0, 9) && is_free(server, BOB, 9, 0, 9) && is_free(server, CAT, 9, 0, 9));
}

static void flock_locks(struct dehokuna_server *server) {
    CHECK(dehokuna_flock(server, FILE_A, ANN, DEHOKUNA_READ) == DEHOKUNA_DONE);
    CHECK(dehokuna_flock(server, FILE_A, BOB, DEHOKUNA_READ) == DEHOKUNA_DONE);
    CHECK(dehokuna_set(server, FILE_A, CAT, 0, 9, DEHOKUNA_WRITE) == DEHOKUNA_DONE);
    dehokuna_flush(server, FILE_A, CAT);
    CHECK(dehokuna_flock(server, FILE_A, ANN, DEHOKUNA_WRITE) == DEHOKUNA_BLOCKED);
    CHECK(dehokuna_flock(server, FILE_A, BOB, DEHOKUNA_WRITE) == DEHOKUNA_DONE);
    CHECK(dehokuna_flock_wait(server, 5, FILE_A, ANN, DEHOKUNA_READ) == DEHOKUNA_WAITS);
    CHECK(dehokuna_flock_wait(server, 5, FILE_B, ANN, DEHOKUNA_READ) == DEHOKUNA_TICKET_TAKEN);
    CHECK(dehokuna_flock_wait(server, 6, FILE_A, CAT, DEHOKUNA_WRITE) == DEHOKUNA_WAITS);
    dehokuna_flock_release(server, FILE_A, BOB);
    CHECK(granted(server) == 5 && granted(server) == 0);
    CHECK(dehokuna_flock(server, FILE_A, ANN, DEHOKUNA_UNLOCK) == DEHOKUNA_DONE);
    CHECK(granted(server) == 6);
    CHECK(dehokuna_flock(server, FILE_A, ANN, DEHOKUNA_READ) == DEHOKUNA_BLOCKED);
    CHECK(dehokuna_flock_wait(server, 7, FILE_A, CAT, DEHOKUNA_READ) == DEHOKUNA_DONE);
    CHECK(dehokuna_flock(server, FILE_A, ANN, DEHOKUNA_READ) == DEHOKUNA_DONE);
    dehokuna_flock_release(server, FILE_A, ANN);
    dehokuna_flock_release(server, FILE_A, CAT);
}

/* Two open files of FILE_A, 50 and 51: their owners, seen through one after the other, and their last closes. */
static void last_closes(struct dehokuna_server *server) {
    CHECK(dehokuna_note(server, FILE_A, ANN, 50) && dehokuna_note(server, FILE_A, BOB, 50) && dehokuna_note(server, FILE_A, CAT, 50));
    CHECK(dehokuna_note(server, FILE_B, ANN, 50) && dehokuna_note(server, FILE_A, CAT, 51));
    CHECK(dehokuna_set(server, FILE_A, ANN, 0, 0, DEHOKUNA_WRITE) == DEHOKUNA_DONE);
    CHECK(dehokuna_set(server, FILE_A, BOB, 1, 1, DEHOKUNA_WRITE) == DEHOKUNA_DONE);
    CHECK(dehokuna_set(server, FILE_A, CAT, 2, 2, DEHOKUNA_WRITE) == DEHOKUNA_DONE);
    CHECK(dehokuna_set(server, FILE_B, ANN, 3, 3, DEHOKUNA_WRITE) == DEHOKUNA_DONE);
    CHECK(dehokuna_flock(server, FILE_A, ANN, DEHOKUNA_WRITE) == DEHOKUNA_DONE);
    CHECK(dehokuna_wait(server, 80, FILE_A, 4, 0, 1, DEHOKUNA_READ, true) == DEHOKUNA_WAITS);
    dehokuna_flush(server, FILE_A, BOB);
    CHECK(dehokuna_set(server, FILE_A, BOB, 1, 1, DEHOKUNA_READ) == DEHOKUNA_DONE);
    dehokuna_release(server, FILE_A, 50, false, ANN);
    CHECK(granted(server) == 80 && granted(server) == 0);
    CHECK(is_blocked_by(server, FILE_A, 4, 1, (struct dehokuna_blocker){BOB, 1, 1, DEHOKUNA_READ}));
    CHECK(is_blocked_by(server, FILE_A, ANN, 2, (struct dehokuna_blocker){CAT, 2, 2, DEHOKUNA_WRITE}));
    CHECK(is_blocked_by(server, FILE_B, CAT, 3, (struct dehokuna_blocker){ANN, 3, 3, DEHOKUNA_WRITE}));
    CHECK(dehokuna_flock(server, FILE_A, BOB, DEHOKUNA_WRITE) == DEHOKUNA_BLOCKED);
    dehokuna_release(server, FILE_A, 51, true, ANN);
    CHECK(dehokuna_flock(server, FILE_A, BOB, DEHOKUNA_WRITE) == DEHOKUNA_DONE);
    CHECK(is_free(server, FILE_A, 4, 2, 9));
    dehokuna_release(server, FILE_B, 50, true, BOB);
    CHECK(is_free(server, FILE_B, CAT, 0, 9) && dehokuna_flock(server, FILE_A, CAT, DEHOKUNA_READ) == DEHOKUNA_BLOCKED);
    dehokuna_flock_release(server, FILE_A, BOB);
    dehokuna_flush(server, FILE_A, BOB);
    dehokuna_flush(server, FILE_A, 4);
}

static bool has_counts(const struct dehokuna_server *server, uint64_t first, uint64_t last, struct dehokuna_counts right) {
    struct dehokuna_counts told = {9, 9, 9};
    dehokuna_counts(server, first, last, &told);
    return told.runs == right.runs && told.flock_locks == right.flock_locks && told.waits == right.waits
           && dehokuna_has_locks(server, first, last) == (right.runs + right.flock_locks > 0);
}

/* Two clients, with owners 0x10000 to 0x1ffff and 0x20000 to 0x2ffff; the first one is gone, and then a file. */
static void clients(struct dehokuna_server *server) {
    const uint64_t one = 0x10000, end = 0x1ffff, other = 0x20000;
    CHECK(has_counts(server, 0, UINT64_MAX, (struct dehokuna_counts){0, 0, 0}));
    CHECK(dehokuna_set(server, FILE_A, one, 0, 9, DEHOKUNA_WRITE) == DEHOKUNA_DONE);
    CHECK(dehokuna_set(server, FILE_A, one, 4, 5, DEHOKUNA_READ) == DEHOKUNA_DONE);
    CHECK(dehokuna_set(server, FILE_B, end, 0, 9, DEHOKUNA_WRITE) == DEHOKUNA_DONE);
    CHECK(dehokuna_flock(server, FILE_A, one + 1, DEHOKUNA_WRITE) == DEHOKUNA_DONE);
    CHECK(dehokuna_note(server, FILE_A, one, 50) && dehokuna_note(server, FILE_A, other, 50));
    CHECK(dehokuna_wait(server, 90, FILE_B, other, 0, 0, DEHOKUNA_WRITE, true) == DEHOKUNA_WAITS);
    CHECK(dehokuna_flock_wait(server, 91, FILE_A, other, DEHOKUNA_READ) == DEHOKUNA_WAITS);
    CHECK(dehokuna_wait(server, 92, FILE_B, one + 2, 0, 0, DEHOKUNA_WRITE, true) == DEHOKUNA_WAITS);
    CHECK(dehokuna_flock_wait(server, 93, FILE_A, end, DEHOKUNA_WRITE) == DEHOKUNA_WAITS);
    CHECK(dehokuna_wait(server, 94, FILE_A, other, 9, 9, DEHOKUNA_WRITE, true) == DEHOKUNA_WAITS);
    CHECK(dehokuna_wait(server, 95, FILE_A, one + 3, 8, 9, DEHOKUNA_WRITE, true) == DEHOKUNA_WAITS);
    CHECK(has_counts(server, one, end, (struct dehokuna_counts){4, 1, 3}));
    CHECK(has_counts(server, one, one, (struct dehokuna_counts){3, 0, 0}));
    CHECK(has_counts(server, one + 1, end - 1, (struct dehokuna_counts){0, 1, 2}));
    CHECK(has_counts(server, other, UINT64_MAX, (struct dehokuna_counts){0, 0, 3}));
    CHECK(has_counts(server, end, one, (struct dehokuna_counts){0, 0, 0}));
    dehokuna_forget_owners(server, end, one);
    CHECK(has_counts(server, one, end, (struct dehokuna_counts){4, 1, 3}) && granted(server) == 0);
    dehokuna_forget_owners(server, one, end);
    CHECK(has_counts(server, one, end, (struct dehokuna_counts){0, 0, 0}));
    CHECK(granted(server) == 91 && granted(server) == 94 && granted(server) == 90 && granted(server) == 0);
    CHECK(has_counts(server, other, other, (struct dehokuna_counts){2, 1, 0}));
    dehokuna_release(server, FILE_A, 50, false, 0);
    CHECK(has_counts(server, other, other, (struct dehokuna_counts){1, 1, 0}));
    CHECK(dehokuna_wait(server, 90, FILE_B, ANN, 0, 0, DEHOKUNA_READ, true) == DEHOKUNA_WAITS);
    CHECK(dehokuna_flock(server, FILE_B, BOB, DEHOKUNA_WRITE) == DEHOKUNA_DONE);
    dehokuna_forget_file(server, FILE_B);
    CHECK(granted(server) == 0 && !dehokuna_cancel(server, 90));
    CHECK(has_counts(server, 0, UINT64_MAX, (struct dehokuna_counts){0, 1, 0}));
    CHECK(dehokuna_flock(server, FILE_A, ANN, DEHOKUNA_WRITE) == DEHOKUNA_BLOCKED);
    dehokuna_forget_owners(server, 0, UINT64_MAX);
    CHECK(has_counts(server, 0, UINT64_MAX, (struct dehokuna_counts){0, 0, 0}));
}

/* Many owners, files and waits: more than any table that might have been sized in advance. */
static void many(struct dehokuna_server *server) {
    enum { COUNT = 1000 };
    bool are_done = true, wait = true, are_granted = true;
    for (uint64_t number = 0; number < COUNT; number++) {
        are_done &= dehokuna_set(server, number, UINT64_MAX - number, 2 * number, 2 * number, DEHOKUNA_WRITE) == DEHOKUNA_DONE;
        are_done &= dehokuna_set(server, FILE_A, number, 2000 + 2 * number, 2000 + 2 * number, DEHOKUNA_READ) == DEHOKUNA_DONE;
    }
    CHECK(are_done);
    CHECK(is_blocked_by(server, 999, 0, 1998, (struct dehokuna_blocker){UINT64_MAX - 999, 1998, 1998, DEHOKUNA_WRITE}));
    CHECK(dehokuna_set(server, FILE_B, COUNT, 5000, 5000, DEHOKUNA_WRITE) == DEHOKUNA_DONE);
    for (uint64_t number = 0; number < COUNT; number++)
        wait &= dehokuna_wait(server, number, FILE_B, number, 5000, 5000, DEHOKUNA_READ, true) == DEHOKUNA_WAITS;
    CHECK(wait);
    dehokuna_flush(server, FILE_B, COUNT);
    for (uint64_t number = 0, ticket; number < COUNT; number++) are_granted &= dehokuna_next_grant(server, &ticket) && ticket == number;
    CHECK(are_granted);
    CHECK(granted(server) == 0);
}

static void policies(void) {
    struct dehokuna_server held = {0}, queue = {0};
    CHECK(dehokuna_create(&held, DEHOKUNA_HELD) && dehokuna_create(&queue, DEHOKUNA_QUEUE));
    struct dehokuna_server *servers[] = {&held, &queue};
    for (int at = 0; at < 2; at++) {
        CHECK(dehokuna_set(servers[at], FILE_A, ANN, 0, 9, DEHOKUNA_READ) == DEHOKUNA_DONE);
        CHECK(dehokuna_wait(servers[at], 1, FILE_A, BOB, 0, 9, DEHOKUNA_WRITE, true) == DEHOKUNA_WAITS);
    }
    CHECK(dehokuna_wait(&held, 2, FILE_A, CAT, 0, 9, DEHOKUNA_READ, true) == DEHOKUNA_DONE);
    CHECK(dehokuna_wait(&queue, 2, FILE_A, CAT, 0, 9, DEHOKUNA_READ, true) == DEHOKUNA_WAITS);
    CHECK(dehokuna_cancel(&queue, 1) && granted(&queue) == 2);
    dehokuna_destroy(&held);
    dehokuna_destroy(&queue);
    CHECK(!held.at && !queue.at);
}

/* A lock that becomes shared stays before a writer that waits where conversions are atomic, and is lost to him where they go step by step;
 * of two readers that ask to write the second one, or the first one, gets the lock. */
static void conversions(void) {
    for (uint32_t atomic = 0; atomic <= DEHOKUNA_ATOMIC; atomic += DEHOKUNA_ATOMIC) {
        struct dehokuna_server server = {0};
        CHECK(dehokuna_create(&server, DEHOKUNA_HELD | atomic));
        CHECK(dehokuna_flock(&server, FILE_A, ANN, DEHOKUNA_WRITE) == DEHOKUNA_DONE);
        CHECK(dehokuna_flock_wait(&server, 1, FILE_A, BOB, DEHOKUNA_WRITE) == DEHOKUNA_WAITS);
        CHECK(dehokuna_flock(&server, FILE_A, ANN, DEHOKUNA_READ) == (atomic ? DEHOKUNA_DONE : DEHOKUNA_BLOCKED));
        CHECK(granted(&server) == (atomic ? 0 : 1));
        CHECK(dehokuna_flock(&server, FILE_A, CAT, DEHOKUNA_READ) == (atomic ? DEHOKUNA_DONE : DEHOKUNA_BLOCKED));
        dehokuna_flock_release(&server, FILE_A, ANN);
        dehokuna_flock_release(&server, FILE_A, CAT);
        CHECK(granted(&server) == (atomic ? 1 : 0));
        dehokuna_flock_release(&server, FILE_A, BOB);
        CHECK(dehokuna_flock(&server, FILE_A, ANN, DEHOKUNA_READ) == DEHOKUNA_DONE);
        CHECK(dehokuna_flock(&server, FILE_A, BOB, DEHOKUNA_READ) == DEHOKUNA_DONE);
        CHECK(dehokuna_flock_wait(&server, 1, FILE_A, ANN, DEHOKUNA_WRITE) == DEHOKUNA_WAITS);
        CHECK(dehokuna_flock_wait(&server, 2, FILE_A, BOB, DEHOKUNA_WRITE) == (atomic ? DEHOKUNA_DONE : DEHOKUNA_WAITS));
        CHECK(granted(&server) == (atomic ? 0 : 1));
        dehokuna_destroy(&server);
    }
}

/* In a queue nobody stands behind a wait for what he has, in the same mode or a lesser one; for one byte more, or to write what he may
 * read, he does, and closes a cycle. The lock that an atomic conversion takes off counts. */
static void holders_in_a_queue(void) {
    struct dehokuna_server server = {0};
    CHECK(dehokuna_create(&server, DEHOKUNA_QUEUE | DEHOKUNA_ATOMIC));
    CHECK(dehokuna_set(&server, FILE_A, ANN, 0, 9, DEHOKUNA_READ) == DEHOKUNA_DONE);
    CHECK(dehokuna_set(&server, FILE_A, ANN, 20, 29, DEHOKUNA_WRITE) == DEHOKUNA_DONE);
    CHECK(dehokuna_wait(&server, 1, FILE_A, BOB, 0, DEHOKUNA_LARGEST_OFFSET, DEHOKUNA_WRITE, true) == DEHOKUNA_WAITS);
    CHECK(dehokuna_wait(&server, 2, FILE_A, ANN, 0, 9, DEHOKUNA_READ, true) == DEHOKUNA_DONE);
    CHECK(dehokuna_wait(&server, 2, FILE_A, ANN, 22, 23, DEHOKUNA_WRITE, true) == DEHOKUNA_DONE);
    CHECK(dehokuna_wait(&server, 2, FILE_A, ANN, 24, 29, DEHOKUNA_READ, true) == DEHOKUNA_DONE);
    CHECK(dehokuna_wait(&server, 2, FILE_A, ANN, 0, 10, DEHOKUNA_READ, true) == DEHOKUNA_DEADLOCK);
    CHECK(dehokuna_wait(&server, 2, FILE_A, ANN, 9, 20, DEHOKUNA_READ, true) == DEHOKUNA_DEADLOCK);
    CHECK(dehokuna_wait(&server, 2, FILE_A, ANN, 0, 9, DEHOKUNA_WRITE, true) == DEHOKUNA_DEADLOCK);
    CHECK(dehokuna_wait(&server, 2, FILE_A, ANN, 24, 29, DEHOKUNA_WRITE, true) == DEHOKUNA_DEADLOCK);
    CHECK(granted(&server) == 0);
    CHECK(dehokuna_flock(&server, FILE_A, ANN, DEHOKUNA_WRITE) == DEHOKUNA_DONE);
    CHECK(dehokuna_flock_wait(&server, 3, FILE_A, BOB, DEHOKUNA_WRITE) == DEHOKUNA_WAITS);
    CHECK(dehokuna_flock_wait(&server, 2, FILE_A, ANN, DEHOKUNA_READ) == DEHOKUNA_DONE && granted(&server) == 0);
    CHECK(dehokuna_flock_wait(&server, 2, FILE_A, ANN, DEHOKUNA_WRITE) == DEHOKUNA_WAITS && granted(&server) == 3);
    dehokuna_destroy(&server);
}

/* What names no range or no mode is refused before all else, and changes nothing; a last byte behind the largest is the largest. */
static void invalid_calls(void) {
    const uint64_t end = DEHOKUNA_LARGEST_OFFSET, ranges[][2] = {{1, 0}, {end + 1, end + 1}, {end + 1, UINT64_MAX}, {UINT64_MAX, 0}};
    const uint32_t modes[] = {3, 4, 256, UINT32_MAX};
    struct dehokuna_server server = {0};
    struct dehokuna_blocker told = {4, 4, 4, 4};
    CHECK(dehokuna_create(&server, DEHOKUNA_HELD));
    CHECK(dehokuna_set(&server, FILE_A, ANN, 10, 20, DEHOKUNA_WRITE) == DEHOKUNA_DONE);
    CHECK(dehokuna_set(&server, FILE_A, ANN, 40, 50, DEHOKUNA_READ) == DEHOKUNA_DONE);
    CHECK(dehokuna_flock(&server, FILE_A, ANN, DEHOKUNA_WRITE) == DEHOKUNA_DONE);
    CHECK(dehokuna_wait(&server, 1, FILE_A, BOB, 10, 10, DEHOKUNA_READ, true) == DEHOKUNA_WAITS);
    for (int at = 0; at < 4; at++) {
        const uint64_t first = ranges[at][0], last = ranges[at][1];
        for (uint32_t mode = DEHOKUNA_UNLOCK; mode <= DEHOKUNA_WRITE; mode++) {
            CHECK(dehokuna_set(&server, FILE_A, ANN, first, last, mode) == DEHOKUNA_INVALID);
            CHECK(dehokuna_wait(&server, 1, FILE_A, BOB, first, last, mode, true) == DEHOKUNA_INVALID);
            CHECK(dehokuna_get(&server, FILE_A, BOB, first, last, mode, &told) == DEHOKUNA_INVALID);
        }
        CHECK(dehokuna_set(&server, FILE_A, ANN, 10, 20, modes[at]) == DEHOKUNA_INVALID);
        CHECK(dehokuna_wait(&server, 1, FILE_A, BOB, 10, 20, modes[at], true) == DEHOKUNA_INVALID);
        CHECK(dehokuna_get(&server, FILE_A, BOB, 10, 20, modes[at], &told) == DEHOKUNA_INVALID);
        CHECK(dehokuna_flock(&server, FILE_A, ANN, modes[at]) == DEHOKUNA_INVALID);
        CHECK(dehokuna_flock_wait(&server, 1, FILE_A, BOB, modes[at]) == DEHOKUNA_INVALID);
    }
    CHECK(dehokuna_wait(&server, 1, FILE_A, BOB, 10, 20, DEHOKUNA_UNLOCK, true) == DEHOKUNA_INVALID);
    CHECK(dehokuna_get(&server, FILE_A, BOB, 10, 20, DEHOKUNA_UNLOCK, &told) == DEHOKUNA_INVALID);
    CHECK(dehokuna_flock_wait(&server, 1, FILE_A, BOB, DEHOKUNA_UNLOCK) == DEHOKUNA_INVALID);
    CHECK(told.owner == 4 && told.first == 4 && told.last == 4 && told.mode == 4);
    CHECK(granted(&server) == 0);
    CHECK(is_blocked_by(&server, FILE_A, CAT, 15, (struct dehokuna_blocker){ANN, 10, 20, DEHOKUNA_WRITE}));
    CHECK(is_blocked_by(&server, FILE_A, CAT, 45, (struct dehokuna_blocker){ANN, 40, 50, DEHOKUNA_READ}));
    CHECK(is_free(&server, FILE_A, CAT, 0, 9) && is_free(&server, FILE_A, CAT, 21, 39) && is_free(&server, FILE_A, CAT, 51, UINT64_MAX));
    CHECK(dehokuna_flock(&server, FILE_A, BOB, DEHOKUNA_READ) == DEHOKUNA_BLOCKED);
    CHECK(dehokuna_cancel(&server, 1));
    CHECK(dehokuna_set(&server, FILE_A, ANN, 15, UINT64_MAX, DEHOKUNA_WRITE) == DEHOKUNA_DONE);
    CHECK(is_blocked_by(&server, FILE_A, CAT, 30, (struct dehokuna_blocker){ANN, 10, end, DEHOKUNA_WRITE}));
    CHECK(dehokuna_get(&server, FILE_A, CAT, end, UINT64_MAX, DEHOKUNA_READ, &told) == DEHOKUNA_BLOCKED && told.last == end);
    CHECK(dehokuna_set(&server, FILE_A, ANN, 0, end + 1, DEHOKUNA_UNLOCK) == DEHOKUNA_DONE && is_free(&server, FILE_A, CAT, 0, end));
    dehokuna_destroy(&server);
    for (uint32_t policy = 2; policy < 40; policy++)
        CHECK(!dehokuna_create(&server, policy) && !dehokuna_create(&server, policy | DEHOKUNA_ATOMIC) && !server.at);
    CHECK(!dehokuna_create(&server, 2 * DEHOKUNA_ATOMIC) && !dehokuna_create(&server, 3 * DEHOKUNA_ATOMIC) && !server.at);
    CHECK(!dehokuna_create(&server, UINT32_MAX) && !server.at);
}

/* A server may be moved, and is read where it then is. */
static void moved(void) {
    struct dehokuna_server first = {0};
    CHECK(dehokuna_create(&first, DEHOKUNA_QUEUE) && dehokuna_set(&first, FILE_A, ANN, 0, 9, DEHOKUNA_WRITE) == DEHOKUNA_DONE);
    struct dehokuna_server then = first;
    memset(&first, 0xff, sizeof first);
    CHECK(is_blocked_by(&then, FILE_A, BOB, 5, (struct dehokuna_blocker){ANN, 0, 9, DEHOKUNA_WRITE}));
    CHECK(dehokuna_set(&then, FILE_A, BOB, 10, 10, DEHOKUNA_WRITE) == DEHOKUNA_DONE);
    dehokuna_destroy(&then);
    CHECK(!then.at);
}

/* One call of each kind that may grow, on a server where ANN holds bytes 0 to 9 of FILE_A, and a shared flock lock on it. */
enum { KINDS = 7 };
static uint32_t grow(struct dehokuna_server *server, int which) {
    switch (which) {
    case 0: return dehokuna_set(server, FILE_B, BOB, 0, 9, DEHOKUNA_WRITE);
    case 1: return dehokuna_set(server, FILE_A, ANN, 4, 5, DEHOKUNA_UNLOCK);
    case 2: return dehokuna_wait(server, 1, FILE_A, BOB, 0, 9, DEHOKUNA_READ, true);
    case 3: return dehokuna_flock(server, FILE_B, BOB, DEHOKUNA_READ);
    case 4: return dehokuna_note(server, FILE_A, ANN, 50) ? DEHOKUNA_DONE : DEHOKUNA_NO_MEMORY;
    case 5: return dehokuna_flock_wait(server, 1, FILE_A, ANN, DEHOKUNA_WRITE);
    default: return dehokuna_flock_wait(server, 1, FILE_A, BOB, DEHOKUNA_WRITE);
    }
}

/* Refuses the first growth of a call, then the second one and so on: each time it is told, and nothing has changed. */
static void refusals(void) {
    for (int which = 0; which < KINDS; which++) {
        for (long growths = 0; was_refused || growths == 0; growths++) {
            struct dehokuna_server server = {0};
            CHECK(dehokuna_create(&server, DEHOKUNA_HELD));
            CHECK(dehokuna_set(&server, FILE_A, ANN, 0, 9, DEHOKUNA_WRITE) == DEHOKUNA_DONE);
            CHECK(dehokuna_flock(&server, FILE_A, ANN, DEHOKUNA_READ) == DEHOKUNA_DONE);
            was_refused = false;
            growths_left = growths;
            uint32_t status = grow(&server, which);
            growths_left = -1;
            CHECK((status == DEHOKUNA_NO_MEMORY) == was_refused);
            if (was_refused) {
                dehokuna_release(&server, FILE_A, 50, false, 0);
                CHECK(is_blocked_by(&server, FILE_A, CAT, 4, (struct dehokuna_blocker){ANN, 0, 9, DEHOKUNA_WRITE}));
                CHECK(is_free(&server, FILE_B, CAT, 0, 9) && !dehokuna_cancel(&server, 1) && granted(&server) == 0);
                CHECK(dehokuna_flock(&server, FILE_A, CAT, DEHOKUNA_WRITE) == DEHOKUNA_BLOCKED);
                CHECK(dehokuna_flock(&server, FILE_A, CAT, DEHOKUNA_READ) == DEHOKUNA_DONE);
                CHECK(dehokuna_flock(&server, FILE_B, CAT, DEHOKUNA_WRITE) == DEHOKUNA_DONE);
            }
            dehokuna_destroy(&server);
        }
        was_refused = false;
    }
    struct dehokuna_server none = {0};
    growths_left = 0;
    CHECK(!dehokuna_create(&none, DEHOKUNA_HELD) && !none.at);
    growths_left = -1;
}

/* An unlock that splits no lock takes no memory, however full the lists are. */
static void unlocks_without_memory(void) {
    const uint64_t end = DEHOKUNA_LARGEST_OFFSET;
    struct dehokuna_server server = {0};
    CHECK(dehokuna_create(&server, DEHOKUNA_HELD));
    for (uint64_t first = 0; first < 640; first += 20) {
        CHECK(dehokuna_set(&server, FILE_A, ANN, first, first + 9, DEHOKUNA_WRITE) == DEHOKUNA_DONE);
    }
    was_refused = false;
    growths_left = 0;
    CHECK(dehokuna_set(&server, FILE_A, ANN, 0, 9, DEHOKUNA_UNLOCK) == DEHOKUNA_DONE);
    CHECK(dehokuna_set(&server, FILE_A, ANN, 20, 24, DEHOKUNA_UNLOCK) == DEHOKUNA_DONE);
    CHECK(dehokuna_set(&server, FILE_A, ANN, 45, 49, DEHOKUNA_UNLOCK) == DEHOKUNA_DONE);
    CHECK(dehokuna_set(&server, FILE_A, ANN, 61, 105, DEHOKUNA_UNLOCK) == DEHOKUNA_DONE);
    CHECK(dehokuna_set(&server, FILE_A, BOB, 0, end, DEHOKUNA_UNLOCK) == DEHOKUNA_DONE);
    CHECK(dehokuna_set(&server, FILE_B, ANN, 0, end, DEHOKUNA_UNLOCK) == DEHOKUNA_DONE);
    CHECK(!was_refused);
    growths_left = -1;
    CHECK(is_free(&server, FILE_A, BOB, 0, 24) && is_free(&server, FILE_A, BOB, 45, 59) && is_free(&server, FILE_A, BOB, 61, 105));
    CHECK(is_blocked_by(&server, FILE_A, BOB, 25, (struct dehokuna_blocker){ANN, 25, 29, DEHOKUNA_WRITE}));
    CHECK(is_blocked_by(&server, FILE_A, BOB, 40, (struct dehokuna_blocker){ANN, 40, 44, DEHOKUNA_WRITE}));
    CHECK(is_blocked_by(&server, FILE_A, BOB, 60, (struct dehokuna_blocker){ANN, 60, 60, DEHOKUNA_WRITE}));
    CHECK(is_blocked_by(&server, FILE_A, BOB, 106, (struct dehokuna_blocker){ANN, 106, 109, DEHOKUNA_WRITE}));
    dehokuna_destroy(&server);
}

/* What ends something takes no memory, however many owners have locks on the file and however many requests wait there. */
static void ends_without_memory(void) {
    enum { OWNERS = 200, HOLDER = 999, OPEN_FILE = 50 };
    struct dehokuna_server server = {0};
    struct dehokuna_blocker told;
    uint64_t ticket = 0;
    bool are_done = true, are_granted = true;
    CHECK(dehokuna_create(&server, DEHOKUNA_HELD));
    CHECK(dehokuna_set(&server, FILE_A, HOLDER, 5000, 5009, DEHOKUNA_WRITE) == DEHOKUNA_DONE);
    CHECK(dehokuna_flock(&server, FILE_A, HOLDER, DEHOKUNA_WRITE) == DEHOKUNA_DONE);
    for (uint64_t owner = 0; owner < OWNERS; owner++) {
        are_done &= dehokuna_note(&server, FILE_A, owner, OPEN_FILE + owner % 2);
        are_done &= dehokuna_set(&server, FILE_A, owner, 4 * owner, 4 * owner + 2, DEHOKUNA_WRITE) == DEHOKUNA_DONE;
        are_done &= dehokuna_wait(&server, owner, FILE_A, owner, 5000, 5000, DEHOKUNA_READ, owner % 3 == 0) == DEHOKUNA_WAITS;
        are_done &= dehokuna_flock_wait(&server, 1000 + owner, FILE_A, owner, DEHOKUNA_READ) == DEHOKUNA_WAITS;
    }
    CHECK(are_done);
    was_refused = false;
    growths_left = 0;
    CHECK(dehokuna_get(&server, FILE_A, HOLDER, 0, 9, DEHOKUNA_READ, &told) == DEHOKUNA_BLOCKED && told.owner == 0);
    CHECK(dehokuna_cancel(&server, 0) && dehokuna_cancel(&server, 1) && dehokuna_cancel(&server, 1000) && dehokuna_cancel(&server, 1001));
    dehokuna_flush(&server, FILE_A, 0);
    dehokuna_flush(&server, FILE_A, 2);
    dehokuna_forget(&server, 3);
    dehokuna_release(&server, FILE_A, OPEN_FILE, true, 4);
    CHECK(!dehokuna_next_grant(&server, &ticket));
    CHECK(dehokuna_flock(&server, FILE_A, HOLDER, DEHOKUNA_UNLOCK) == DEHOKUNA_DONE);
    CHECK(!was_refused);
    /* Grants of byte locks may ask for room in the index of a file with many owners; where it is refused, they do without the index. */
    dehokuna_flush(&server, FILE_A, HOLDER);
    was_refused = false;
    for (uint64_t owner = 2; owner < OWNERS; owner++) are_granted &= dehokuna_next_grant(&server, &ticket) && ticket == 1000 + owner;
    for (uint64_t owner = 2; owner < OWNERS; owner++)
        are_granted &= owner == 3 || (dehokuna_next_grant(&server, &ticket) && ticket == owner);
    CHECK(are_granted && !dehokuna_next_grant(&server, &ticket));
    dehokuna_flock_release(&server, FILE_A, 2);
    dehokuna_forget_owners(&server, 10, 19);
    CHECK(has_counts(&server, 10, 19, (struct dehokuna_counts){0, 0, 0}) && has_counts(&server, 21, 21, (struct dehokuna_counts){2, 1, 0}));
    for (uint64_t owner = 1; owner < OWNERS; owner += 2)
        are_done &= dehokuna_set(&server, FILE_A, owner, 0, DEHOKUNA_LARGEST_OFFSET, DEHOKUNA_UNLOCK) == DEHOKUNA_DONE;
    CHECK(are_done);
    CHECK(!was_refused);
    growths_left = -1;
    dehokuna_destroy(&server);
}

static bool is_next_lock(const struct dehokuna_server *server, uint64_t owner, uint64_t first, struct dehokuna_blocker right) {
    struct dehokuna_blocker told = {0};
    return dehokuna_next_lock(server, FILE_A, owner, first, &told) && told.owner == right.owner && told.first == right.first
           && told.last == right.last && told.mode == right.mode;
}

static bool is_next_flock(const struct dehokuna_server *server, uint64_t from, uint64_t owner, uint32_t mode) {
    struct dehokuna_flock_lock told = {0};
    return dehokuna_next_flock(server, FILE_A, from, &told) && told.owner == owner && told.mode == mode;
}

static bool is_next_wait(const struct dehokuna_server *server, struct dehokuna_owner_wait from, uint64_t last,
                         struct dehokuna_owner_wait right) {
    struct dehokuna_owner_wait told = {0};
    return dehokuna_next_wait(server, from.owner, from.file, from.ticket, last, &told) && told.owner == right.owner && told.file == right.file
           && told.ticket == right.ticket;
}

/* What is listed where there is nothing: false, and the last argument stays. */
static void lists_nothing(const struct dehokuna_server *server) {
    uint64_t file = 4;
    struct dehokuna_blocker lock = {4, 4, 4, 4};
    struct dehokuna_flock_lock flock = {4, 4};
    struct dehokuna_waiting waiting = {.ticket = 4, .behind = 4};
    struct dehokuna_owner_wait wait = {4, 4, 4};
    CHECK(!dehokuna_next_file(server, 0, &file) && file == 4);
    CHECK(!dehokuna_next_lock(server, FILE_A, 0, 0, &lock) && lock.owner == 4 && lock.first == 4 && lock.last == 4 && lock.mode == 4);
    CHECK(!dehokuna_next_flock(server, FILE_A, 0, &flock) && flock.owner == 4 && flock.mode == 4);
    CHECK(!dehokuna_wait_at(server, FILE_A, 0, &waiting) && waiting.ticket == 4 && waiting.behind == 4);
    CHECK(!dehokuna_next_wait(server, 0, 0, 0, UINT64_MAX, &wait) && wait.owner == 4 && wait.file == 4 && wait.ticket == 4);
}

/* Locks by owner and first byte, and flock locks by owner, each from a place on. */
static void lists_locks(const struct dehokuna_server *server) {
    const struct dehokuna_blocker first = {ANN, 0, 3, DEHOKUNA_WRITE}, second = {ANN, 6, 9, DEHOKUNA_WRITE};
    const struct dehokuna_blocker third = {CAT, 20, DEHOKUNA_LARGEST_OFFSET, DEHOKUNA_READ};
    struct dehokuna_blocker lock = {0};
    struct dehokuna_flock_lock flock = {0};
    CHECK(is_next_lock(server, 0, 0, first) && is_next_lock(server, ANN, 0, first));
    CHECK(is_next_lock(server, ANN, 1, second) && is_next_lock(server, ANN, 6, second));
    CHECK(is_next_lock(server, ANN, 7, third) && is_next_lock(server, BOB, 0, third) && is_next_lock(server, CAT, 20, third));
    CHECK(!dehokuna_next_lock(server, FILE_A, CAT, 21, &lock) && !dehokuna_next_lock(server, FILE_B, 0, 0, &lock));
    CHECK(is_next_flock(server, 0, BOB, DEHOKUNA_READ) && is_next_flock(server, BOB, BOB, DEHOKUNA_READ));
    CHECK(is_next_flock(server, BOB + 1, UINT64_MAX, DEHOKUNA_READ) && is_next_flock(server, UINT64_MAX, UINT64_MAX, DEHOKUNA_READ));
    CHECK(!dehokuna_next_flock(server, FILE_B, 0, &flock));
}

/* Waits in order of arrival, each with what is in its way: the first lock, the flock lock of the least owner, or the first earlier wait. */
static void lists_waits(const struct dehokuna_server *server) {
    struct dehokuna_waiting told = {0};
    CHECK(dehokuna_wait_at(server, FILE_A, 0, &told) && told.ticket == 70 && told.owner == BOB && told.first == 5 && told.last == 30);
    CHECK(told.mode == DEHOKUNA_WRITE && told.family == DEHOKUNA_BYTES && told.detect && told.obstacle == DEHOKUNA_BY_LOCK && told.behind == 0);
    CHECK(told.blocker.owner == ANN && told.blocker.first == 6 && told.blocker.last == 9 && told.blocker.mode == DEHOKUNA_WRITE);
    CHECK(dehokuna_wait_at(server, FILE_A, 1, &told) && told.ticket == 71 && told.owner == CAT && told.first == 10 && told.last == 11);
    CHECK(told.mode == DEHOKUNA_READ && !told.detect && told.obstacle == DEHOKUNA_BY_WAIT && told.behind == 70);
    CHECK(told.blocker.owner == 0 && told.blocker.first == 0 && told.blocker.last == 0 && told.blocker.mode == 0);
    CHECK(dehokuna_wait_at(server, FILE_A, 2, &told) && told.ticket == 72 && told.owner == CAT && told.family == DEHOKUNA_WHOLE);
    CHECK(told.mode == DEHOKUNA_WRITE && told.first == 0 && told.last == DEHOKUNA_LARGEST_OFFSET && told.obstacle == DEHOKUNA_BY_FLOCK);
    CHECK(told.blocker.owner == BOB && told.blocker.mode == DEHOKUNA_READ && told.blocker.last == DEHOKUNA_LARGEST_OFFSET);
    CHECK(!dehokuna_wait_at(server, FILE_A, 3, &told) && !dehokuna_wait_at(server, FILE_A, UINT64_MAX, &told));
    const struct dehokuna_owner_wait none = {0, 0, 0}, bob = {BOB, FILE_A, 70};
    const struct dehokuna_owner_wait one = {CAT, FILE_A, 71}, two = {CAT, FILE_A, 72}, away = {CAT, FILE_B, 7};
    struct dehokuna_owner_wait wait = {0};
    CHECK(is_next_wait(server, none, UINT64_MAX, bob) && is_next_wait(server, bob, BOB, bob));
    CHECK(is_next_wait(server, (struct dehokuna_owner_wait){BOB, FILE_A, 71}, CAT, one) && is_next_wait(server, one, CAT, one));
    CHECK(is_next_wait(server, (struct dehokuna_owner_wait){CAT, FILE_A, 72}, CAT, two));
    CHECK(is_next_wait(server, (struct dehokuna_owner_wait){CAT, FILE_A, 73}, CAT, away));
    CHECK(!dehokuna_next_wait(server, CAT, FILE_B, 8, UINT64_MAX, &wait) && !dehokuna_next_wait(server, BOB, FILE_A, 71, BOB, &wait));
}

/* Each listing, of a server in which all of it stands, and of one without. No memory is taken. */
static void listings(void) {
    struct dehokuna_server server = {0};
    uint64_t file = 0;
    CHECK(dehokuna_create(&server, DEHOKUNA_QUEUE));
    lists_nothing(&server);
    CHECK(dehokuna_set(&server, FILE_A, ANN, 0, 9, DEHOKUNA_WRITE) == DEHOKUNA_DONE);
    CHECK(dehokuna_set(&server, FILE_A, ANN, 4, 5, DEHOKUNA_UNLOCK) == DEHOKUNA_DONE);
    CHECK(dehokuna_set(&server, FILE_A, CAT, 20, DEHOKUNA_LARGEST_OFFSET, DEHOKUNA_READ) == DEHOKUNA_DONE);
    CHECK(dehokuna_flock(&server, FILE_A, UINT64_MAX, DEHOKUNA_READ) == DEHOKUNA_DONE);
    CHECK(dehokuna_flock(&server, FILE_A, BOB, DEHOKUNA_READ) == DEHOKUNA_DONE);
    CHECK(dehokuna_wait(&server, 70, FILE_A, BOB, 5, 30, DEHOKUNA_WRITE, true) == DEHOKUNA_WAITS);
    CHECK(dehokuna_wait(&server, 71, FILE_A, CAT, 10, 11, DEHOKUNA_READ, false) == DEHOKUNA_WAITS);
    CHECK(dehokuna_flock_wait(&server, 72, FILE_A, CAT, DEHOKUNA_WRITE) == DEHOKUNA_WAITS);
    CHECK(dehokuna_flock(&server, FILE_B, ANN, DEHOKUNA_WRITE) == DEHOKUNA_DONE);
    CHECK(dehokuna_flock_wait(&server, 7, FILE_B, CAT, DEHOKUNA_WRITE) == DEHOKUNA_WAITS);
    growths_left = 0;
    CHECK(dehokuna_next_file(&server, 0, &file) && file == FILE_A && dehokuna_next_file(&server, FILE_A, &file) && file == FILE_A);
    CHECK(dehokuna_next_file(&server, FILE_A + 1, &file) && file == FILE_B && !dehokuna_next_file(&server, FILE_B + 1, &file));
    lists_waits(&server);
    dehokuna_flock_release(&server, FILE_B, ANN);
    dehokuna_flock_release(&server, FILE_B, CAT);
    lists_locks(&server);
    CHECK(!was_refused);
    growths_left = -1;
    dehokuna_destroy(&server);
}

/* The owner that stays while others come and go, and the byte of each file that it keeps; and how many come in each way. */
#define KEEPER UINT64_MAX
enum { KEPT = 0, COMERS = 1000, OPEN_FILE = 50 };

static bool keep(struct dehokuna_server *server, uint64_t file) {
    return dehokuna_set(server, file, KEEPER, KEPT, KEPT, DEHOKUNA_WRITE) == DEHOKUNA_DONE
           && dehokuna_flock(server, file, KEEPER, DEHOKUNA_READ) == DEHOKUNA_DONE;
}

/* In each way an owner sets byte locks on the file that the keeper keeps, and is rid of them: the ways in which an owner comes. */
enum { SET_WAYS = 6 };
static bool comes_for_bytes(struct dehokuna_server *server, uint64_t file, uint64_t owner, int way) {
    const uint64_t end = DEHOKUNA_LARGEST_OFFSET;
    bool is_right = dehokuna_set(server, file, owner, KEPT, 9, DEHOKUNA_READ) == DEHOKUNA_BLOCKED;
    is_right &= dehokuna_note(server, file, owner, OPEN_FILE);
    is_right &= dehokuna_set(server, file, owner, 10, 19, DEHOKUNA_WRITE) == DEHOKUNA_DONE;
    is_right &= dehokuna_set(server, file, owner, 12, 13, DEHOKUNA_READ) == DEHOKUNA_DONE;
    switch (way) {
    case 0: dehokuna_flush(server, file, owner); break;
    case 1: dehokuna_forget(server, owner); break;
    case 2: dehokuna_release(server, file, OPEN_FILE, false, 0); break;
    case 3:
        is_right &= dehokuna_set(server, file, owner, 0, 15, DEHOKUNA_UNLOCK) == DEHOKUNA_DONE;
        is_right &= dehokuna_set(server, file, owner, 16, end, DEHOKUNA_UNLOCK) == DEHOKUNA_DONE;
        dehokuna_release(server, file, OPEN_FILE, false, 0);
        break;
    case 4: dehokuna_forget_owners(server, owner, owner); break;
    default:
        is_right &= dehokuna_set(server, file, owner, 0, end, DEHOKUNA_UNLOCK) == DEHOKUNA_DONE;
        is_right &= dehokuna_note(server, file, owner, OPEN_FILE + 1);
        dehokuna_release(server, file, OPEN_FILE + 1, true, owner);
    }
    return is_right;
}

/* In each way an owner waits for the byte that the keeper keeps, and is rid of the wait or of the lock. */
enum { WAIT_WAYS = 5 };
static bool waits_for_bytes(struct dehokuna_server *server, uint64_t file, uint64_t owner, int way) {
    const uint64_t ticket = owner;
    bool is_right = dehokuna_wait(server, ticket, file, owner, KEPT, 9, DEHOKUNA_WRITE, way != 3) == DEHOKUNA_WAITS;
    is_right &= dehokuna_wait(server, ticket, file, owner, KEPT, 9, DEHOKUNA_WRITE, true) == DEHOKUNA_TICKET_TAKEN;
    switch (way) {
    case 0:
        is_right &= dehokuna_cancel(server, ticket);
        dehokuna_flush(server, file, owner);
        return is_right;
    case 1:
        is_right &= dehokuna_set(server, file, owner, 10, 19, DEHOKUNA_WRITE) == DEHOKUNA_DONE;
        dehokuna_forget(server, owner);
        return is_right;
    case 2:
        dehokuna_flush(server, file, KEEPER);
        is_right &= granted(server) == ticket;
        dehokuna_flush(server, file, owner);
        break;
    case 4:
        is_right &= dehokuna_set(server, file, owner, 10, 19, DEHOKUNA_WRITE) == DEHOKUNA_DONE;
        dehokuna_forget_owners(server, owner, owner);
        return is_right;
    default:
        dehokuna_flush(server, file, KEEPER);
        is_right &= granted(server) == ticket;
        is_right &= dehokuna_set(server, file, owner, KEPT, 9, DEHOKUNA_UNLOCK) == DEHOKUNA_DONE;
    }
    return is_right && keep(server, file);
}

/* In each way an owner asks for a flock lock beside that of the keeper, and is rid of the lock or the wait. */
enum { FLOCK_WAYS = 10 };
static bool comes_for_flock(struct dehokuna_server *server, uint64_t file, uint64_t owner, int way) {
    const uint64_t ticket = owner;
    const uint32_t done = DEHOKUNA_DONE, blocked = DEHOKUNA_BLOCKED, waits = DEHOKUNA_WAITS;
    if (way == 0) return dehokuna_flock(server, file, owner, DEHOKUNA_WRITE) == blocked;
    if (way == 1) return dehokuna_flock_wait(server, ticket, file, owner, DEHOKUNA_WRITE) == waits && dehokuna_cancel(server, ticket);
    bool is_right = dehokuna_flock_wait(server, ticket, file, owner, DEHOKUNA_READ) == done;
    switch (way) {
    case 2: return is_right && dehokuna_flock(server, file, owner, DEHOKUNA_UNLOCK) == done;
    case 3: dehokuna_flock_release(server, file, owner); return is_right;
    case 4: dehokuna_release(server, file, OPEN_FILE, true, owner); return is_right;
    case 5: return is_right && dehokuna_flock(server, file, owner, DEHOKUNA_WRITE) == blocked;
    }
    is_right &= dehokuna_flock_wait(server, ticket, file, owner, DEHOKUNA_WRITE) == waits;
    if (way == 6) return is_right && dehokuna_cancel(server, ticket);
    if (way == 7) {
        is_right &= dehokuna_flock(server, file, owner, DEHOKUNA_WRITE) == blocked;
        return is_right && dehokuna_cancel(server, ticket);
    }
    if (way == 8) {
        dehokuna_forget_owners(server, owner, owner);
        return is_right;
    }
    dehokuna_flock_release(server, file, KEEPER);
    is_right &= granted(server) == ticket;
    dehokuna_flock_release(server, file, owner);
    return is_right && keep(server, file);
}

/* Owners come in each way to the file, each of another number from this one on. */
static bool all_come(struct dehokuna_server *server, uint64_t file, uint64_t owner) {
    bool is_right = true;
    for (int way = 0; way < SET_WAYS; way++) is_right &= comes_for_bytes(server, file, owner++, way);
    for (int way = 0; way < WAIT_WAYS; way++) is_right &= waits_for_bytes(server, file, owner++, way);
    for (int way = 0; way < FLOCK_WAYS; way++) is_right &= comes_for_flock(server, file, owner++, way);
    return is_right;
}

enum { WAYS = SET_WAYS + WAIT_WAYS + FLOCK_WAYS };

/* How many blocks a server has taken in the end, where so many owners came in each way to one file that is kept. */
static long taken_beside_a_keeper(uint64_t owners) {
    const long before = blocks;
    struct dehokuna_server server = {0};
    CHECK(dehokuna_create(&server, DEHOKUNA_HELD) && keep(&server, FILE_A));
    bool is_right = true;
    for (uint64_t owner = 0; owner < owners; owner++) is_right &= all_come(&server, FILE_A, owner * WAYS);
    CHECK(is_right);
    const long taken = blocks - before;
    dehokuna_destroy(&server);
    return taken;
}

/* The same of so many files, which the keeper leaves too. */
static long taken_after_files(uint64_t files) {
    const long before = blocks;
    struct dehokuna_server server = {0};
    CHECK(dehokuna_create(&server, DEHOKUNA_HELD));
    bool is_right = true;
    for (uint64_t file = 0; file < files; file++) {
        is_right &= keep(&server, file) && all_come(&server, file, file * WAYS);
        dehokuna_flush(&server, file, KEEPER);
        dehokuna_flock_release(&server, file, KEEPER);
    }
    CHECK(is_right);
    const long taken = blocks - before;
    dehokuna_destroy(&server);
    return taken;
}

/* The same of so many files that are gone with a lock, a wait and a note of each kind. */
static long taken_after_gone_files(uint64_t files) {
    const long before = blocks;
    struct dehokuna_server server = {0};
    CHECK(dehokuna_create(&server, DEHOKUNA_HELD));
    bool is_right = true;
    for (uint64_t file = 0; file < files; file++) {
        is_right &= keep(&server, file) && dehokuna_note(&server, file, ANN, OPEN_FILE);
        is_right &= dehokuna_wait(&server, 2 * file, file, ANN, KEPT, 9, DEHOKUNA_READ, true) == DEHOKUNA_WAITS;
        is_right &= dehokuna_flock_wait(&server, 2 * file + 1, file, ANN, DEHOKUNA_WRITE) == DEHOKUNA_WAITS;
        dehokuna_forget_file(&server, file);
    }
    CHECK(is_right && granted(&server) == 0);
    const long taken = blocks - before;
    dehokuna_destroy(&server);
    return taken;
}

/* A call of each kind that may grow, by an owner that has nothing. */
enum { GROWING_WAYS = 6 };
static uint32_t grows_for(struct dehokuna_server *server, uint64_t file, uint64_t owner, int way) {
    switch (way) {
    case 0: return dehokuna_set(server, file, owner, 10, 19, DEHOKUNA_WRITE);
    case 1: return dehokuna_wait(server, owner, file, owner, KEPT, 9, DEHOKUNA_WRITE, true);
    case 2: return dehokuna_wait(server, owner, file, owner, KEPT, 9, DEHOKUNA_READ, false);
    case 3: return dehokuna_flock(server, file, owner, DEHOKUNA_READ);
    case 4: return dehokuna_flock_wait(server, owner, file, owner, DEHOKUNA_WRITE);
    default: return dehokuna_note(server, file, owner, OPEN_FILE) ? DEHOKUNA_DONE : DEHOKUNA_NO_MEMORY;
    }
}

/* How many blocks a server has taken in the end, where so many owners were refused this growth of a call in this way, on the file that is
 * kept or each on one of its own; and, by was_refused, whether there was such a growth. */
static long taken_by_refusals(int way, bool is_kept, long growths, uint64_t owners) {
    const long before = blocks;
    bool is_right = true, any_refused = false;
    struct dehokuna_server server = {0};
    CHECK(dehokuna_create(&server, DEHOKUNA_HELD) && keep(&server, FILE_A));
    for (uint64_t owner = 0; owner < owners; owner++) {
        const uint64_t file = is_kept ? FILE_A : 1000 + owner;
        was_refused = false;
        growths_left = growths;
        const uint32_t status = grows_for(&server, file, owner, way);
        growths_left = -1;
        is_right &= (status == DEHOKUNA_NO_MEMORY) == was_refused;
        any_refused |= was_refused;
        if (!was_refused) { /* what isn't refused is taken back */
            dehokuna_cancel(&server, owner);
            dehokuna_forget(&server, owner);
            dehokuna_flock_release(&server, file, owner);
        }
        dehokuna_flush(&server, file, owner); /* the empty list that a wait for bytes keeps until then */
    }
    CHECK(is_right);
    const long taken = blocks - before;
    dehokuna_destroy(&server);
    was_refused = any_refused;
    return taken;
}

/* A call that is refused leaves no entry of its owner, its ticket or its file, whichever of its growths is refused. */
static void nothing_is_left_of_a_refusal(void) {
    enum { USED_ONCE = 5, SOME = 2 };
    for (int way = 0; way < GROWING_WAYS; way++) {
        long growths = 0;
        for (bool any_refused = true; any_refused; growths++) {
            any_refused = false;
            for (int is_kept = 0; is_kept < 2; is_kept++) {
                const long few = taken_by_refusals(way, is_kept, growths, SOME);
                CHECK(taken_by_refusals(way, is_kept, growths, COMERS) <= few + USED_ONCE);
                any_refused |= was_refused;
            }
        }
        CHECK(growths > 1);
    }
    was_refused = false;
}

/* Files and owners that hold nothing take no memory, however many come and go: all that they leave is what one of each leaves, a block
 * of each map and list that was used once, and a few of the tree of a file's waits; and a file that had a second owner keeps two
 * more. */
static void nothing_is_left(void) {
    enum { ONE = 1, USED_ONCE = 9, OF_SECOND_OWNER = 2 };
    const long before = blocks, kept = taken_beside_a_keeper(0), made = taken_after_files(0);
    const long of_owner = taken_beside_a_keeper(ONE), of_file = taken_after_files(ONE), of_gone_file = taken_after_gone_files(ONE);
    CHECK(of_owner <= kept + USED_ONCE + OF_SECOND_OWNER);
    CHECK(of_file <= made + USED_ONCE);
    CHECK(of_gone_file <= made + USED_ONCE);
    CHECK(taken_beside_a_keeper(COMERS) <= of_owner);
    CHECK(taken_after_files(COMERS) <= of_file);
    CHECK(taken_after_gone_files(COMERS) <= of_gone_file);
    CHECK(blocks == before);
}

/* The export of a situation, word by word, each as eight bytes, the lowest first (docs/EMBEDDING.md, "The state as bytes"). */
static void exports(void) {
    static const uint64_t words[] = {1, 1, 0,                                  /* the version, the queue policy, and the conversion */
                                     2,                                        /* files */
                                     FILE_A, 1, ANN, 4, 9, DEHOKUNA_WRITE,     /* a byte lock of Ann */
                                     0, 1, 70, BOB, 0, 5, 5, DEHOKUNA_READ, 1, /* no flock lock, and Bob, who waits for a byte of it */
                                     FILE_B, 0, 1, CAT, DEHOKUNA_WRITE, 0,     /* a flock lock of Cat */
                                     1, 71,                                    /* a grant that wasn't fetched */
                                     0,                                        /* nobody is crossed */
                                     1, FILE_A, ANN, 12};                      /* a note */
    enum { WORDS = sizeof words / sizeof *words, SIZE = 8 * WORDS };
    uint8_t right[SIZE], out[SIZE + 1];
    for (size_t place = 0; place < SIZE; place++) right[place] = (uint8_t)(words[place / 8] >> 8 * (place % 8));
    struct dehokuna_server server = {0};
    CHECK(dehokuna_create(&server, DEHOKUNA_QUEUE));
    CHECK(dehokuna_export_size(&server) == 8 * 7);
    CHECK(dehokuna_flock(&server, FILE_B, BOB, DEHOKUNA_READ) == DEHOKUNA_DONE);
    CHECK(dehokuna_flock_wait(&server, 71, FILE_B, CAT, DEHOKUNA_WRITE) == DEHOKUNA_WAITS);
    CHECK(dehokuna_set(&server, FILE_A, ANN, 4, 9, DEHOKUNA_WRITE) == DEHOKUNA_DONE);
    CHECK(dehokuna_wait(&server, 70, FILE_A, BOB, 5, 5, DEHOKUNA_READ, true) == DEHOKUNA_WAITS);
    CHECK(dehokuna_note(&server, FILE_A, ANN, 12));
    dehokuna_flock_release(&server, FILE_B, BOB);
    const long before = blocks;
    CHECK(dehokuna_export_size(&server) == SIZE);
    memset(out, 0xee, sizeof out);
    CHECK(dehokuna_export(&server, out, SIZE - 1) == SIZE);
    CHECK(out[0] == 0xee && out[SIZE - 1] == 0xee);
    CHECK(dehokuna_export(&server, out, SIZE + 1) == SIZE);
    CHECK(memcmp(out, right, SIZE) == 0 && out[SIZE] == 0xee);
    CHECK(blocks == before);
    dehokuna_destroy(&server);
}

/* Words as bytes, each as eight, the lowest first; how many bytes these are. */
static size_t bytes_of(const uint64_t *words, size_t count, uint8_t *out) {
    for (size_t place = 0; place < 8 * count; place++) out[place] = (uint8_t)(words[place / 8] >> 8 * (place % 8));
    return 8 * count;
}

/* Bytes are refused, for what is wrong with this word of theirs, and no server is made; memory for it is given back. */
static bool is_refused_for(const uint64_t *words, size_t count, uint32_t flaw, size_t word) {
    static uint8_t bytes[400];
    const long before = blocks;
    struct dehokuna_server server = {0};
    struct dehokuna_fault fault = {99, 99};
    if (dehokuna_import(&server, bytes, bytes_of(words, count, bytes), &fault) != DEHOKUNA_INVALID) return false;
    return !server.at && fault.flaw == flaw && fault.offset == 8 * word && blocks == before;
}

#define REFUSED_FOR(flaw, word, ...) \
    CHECK(is_refused_for((const uint64_t[]){__VA_ARGS__}, sizeof(uint64_t[]){__VA_ARGS__} / sizeof(uint64_t), flaw, word))

/* The server that the bytes make has them as its export. */
static bool is_imported(struct dehokuna_server *server, const uint8_t *bytes, size_t size, uint8_t *out) {
    struct dehokuna_fault fault = {99, 99};
    if (dehokuna_import(server, bytes, size, &fault) != DEHOKUNA_DONE || fault.flaw != 99 || fault.offset != 99) return false;
    return dehokuna_export_size(server) == size && dehokuna_export(server, out, size) == size && memcmp(out, bytes, size) == 0;
}

/* A state with everything in it: on file 7 Bob waits for a byte of Ann and was given a lock since, so he is crossed, and Cat for the flock lock
 * of Ann; a grant wasn't fetched, and Ann is noted. */
static const uint64_t everything[] = {1, 0, 1, 2,
                                      FILE_A, 2, ANN, 4, 9, 2, BOB, 20, 29, 1, 1, ANN, 2, 2, 70, BOB, 0, 5, 5, 1, 1,
                                      71, CAT, 1, 0, DEHOKUNA_LARGEST_OFFSET, 1, 0,
                                      FILE_B, 1, CAT, 0, 0, 1, 0, 0,
                                      1, 72, 1, BOB, 1, FILE_A, ANN, 12};
enum { EVERYTHING = sizeof everything / sizeof *everything };

/* Every beginning of it is refused, and so is all but what is an export again with any of its bits another one. */
static void imports(void) {
    uint8_t bytes[8 * EVERYTHING], out[8 * EVERYTHING];
    const size_t size = bytes_of(everything, EVERYTHING, bytes);
    const long before = blocks;
    struct dehokuna_server server = {0};
    CHECK(is_imported(&server, bytes, size, out));
    dehokuna_flush(&server, FILE_A, ANN);
    dehokuna_flock_release(&server, FILE_A, ANN);
    CHECK(granted(&server) == 72 && granted(&server) == 70 && granted(&server) == 71 && granted(&server) == 0);
    dehokuna_destroy(&server);
    CHECK(blocks == before);
    unsigned cut = 0, wrong = 0, taken = 0;
    struct dehokuna_fault fault;
    for (size_t length = 0; length < size; length++) {
        cut += dehokuna_import(&server, bytes, length, &fault) == DEHOKUNA_INVALID && fault.flaw == DEHOKUNA_FORM && fault.offset <= length;
    }
    CHECK(cut == size);
    for (size_t bit = 0; bit < 8 * size; bit++) {
        bytes[bit / 8] ^= (uint8_t)(1 << bit % 8);
        if (is_imported(&server, bytes, size, out)) {
            taken++;
            dehokuna_destroy(&server);
        } else if (server.at || dehokuna_import(&server, bytes, size, &fault) != DEHOKUNA_INVALID) {
            wrong++;
        }
        bytes[bit / 8] ^= (uint8_t)(1 << bit % 8);
    }
    CHECK(wrong == 0 && taken > 64);
    CHECK(blocks == before);
}

/* Each kind of flaw, at its word (docs/EMBEDDING.md, "The state as bytes"). */
static void flaws(void) {
    REFUSED_FOR(DEHOKUNA_FORM, 0, 2, 0, 0, 0, 0, 0, 0);
    REFUSED_FOR(DEHOKUNA_FORM, 3, 1, 0, 0, UINT64_MAX, 0, 0, 0);
    REFUSED_FOR(DEHOKUNA_FORM, 7, 1, 0, 0, 0, 0, 0, 0, 0);
    REFUSED_FOR(DEHOKUNA_ORDER, 10, 1, 0, 0, 1, FILE_A, 2, BOB, 0, 9, 1, ANN, 0, 9, 1, 0, 0, 0, 0, 0);
    REFUSED_FOR(DEHOKUNA_ORDER, 12, 1, 0, 0, 2, FILE_B, 1, ANN, 0, 9, 1, 0, 0, FILE_A, 1, ANN, 0, 9, 1, 0, 0, 0, 0, 0);
    REFUSED_FOR(DEHOKUNA_CONFLICT, 10, 1, 0, 0, 1, FILE_A, 2, ANN, 0, 9, 2, BOB, 9, 9, 1, 0, 0, 0, 0, 0);
    REFUSED_FOR(DEHOKUNA_TICKET, 20, 1, 0, 0, 1, FILE_A, 1, ANN, 0, 9, 2, 0, 1, 70, BOB, 0, 0, 0, 1, 0, 1, 70, 0, 0);
    REFUSED_FOR(DEHOKUNA_UNBLOCKED, 12, 1, 0, 0, 1, FILE_A, 1, ANN, 0, 9, 1, 0, 1, 70, BOB, 0, 0, 0, 1, 0, 0, 0, 0);
    REFUSED_FOR(DEHOKUNA_CYCLE, 27, 1, 0, 0, 2, FILE_A, 1, ANN, 0, 9, 2, 0, 1, 70, BOB, 0, 0, 0, 1, 1, FILE_B, 1, BOB, 0, 9, 2, 0, 1, 71, ANN, 0,
                0, 0, 1, 1, 0, 0, 0);
    REFUSED_FOR(DEHOKUNA_CROSSED, 6, 1, 0, 0, 0, 0, 1, ANN, 0);
}

/* Each growth of an import in turn is refused: no server is made, and nothing is left. */
static void imports_without_memory(void) {
    uint8_t bytes[8 * EVERYTHING], out[8 * EVERYTHING];
    const size_t size = bytes_of(everything, EVERYTHING, bytes);
    const long before = blocks;
    struct dehokuna_server server = {0};
    struct dehokuna_fault fault = {99, 99};
    unsigned refused = 0;
    for (long growths = 0;; growths++) {
        growths_left = growths;
        was_refused = false;
        const uint32_t told = dehokuna_import(&server, bytes, size, &fault);
        growths_left = -1;
        if (!was_refused) {
            CHECK(told == DEHOKUNA_DONE);
            break;
        }
        if (told != DEHOKUNA_NO_MEMORY || server.at || fault.flaw != 99 || blocks != before) break;
        refused++;
    }
    CHECK(refused > 10 && server.at);
    CHECK(dehokuna_export(&server, out, size) == size && memcmp(out, bytes, size) == 0);
    dehokuna_destroy(&server);
    CHECK(blocks == before);
}

int main(void) {
    struct dehokuna_server server = {0};
    CHECK(dehokuna_create(&server, DEHOKUNA_HELD) && server.at);
    byte_locks(&server);
    waits(&server);
    deadlocks(&server);
    flock_locks(&server);
    last_closes(&server);
    clients(&server);
    many(&server);
    dehokuna_destroy(&server);
    CHECK(!server.at);
    policies();
    conversions();
    holders_in_a_queue();
    invalid_calls();
    exports();
    imports();
    flaws();
    imports_without_memory();
    moved();
    listings();
    refusals();
    unlocks_without_memory();
    ends_without_memory();
    nothing_is_left();
    nothing_is_left_of_a_refusal();
    printf("%u passed, %u failed\n", passed, failed);
    return failed ? 1 : 0;
}
