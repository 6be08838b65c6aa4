/* How long calls of the library take, and what memory, at growing sizes: files, each locked by one of a tenth as many owners, and as
 * many waits as owners, each of an owner for the next, so that a last one closes a cycle through all; then a flush of each file, which
 * grants the waits. Prints a line for each size and policy. Each size has a process of its own, so that its memory is its own. And then what
 * single calls take beside so many runs, owners, waits or files, and how that grows; and what memory one of so many takes. */
#include "dehokuna.h"
#include <malloc.h>
#include <stdio.h>
#include <stdlib.h>
#include <string.h>
#include <sys/resource.h>
#include <sys/wait.h>
#include <time.h>
#include <unistd.h>

enum { FILES_OF_AN_OWNER = 10, SMALLEST = 1000, LARGEST = 100000, TIMES = 10 };

static void demand(bool holds, const char *what) {
    if (!holds) {
        fprintf(stderr, "bench: not so: %s\n", what);
        exit(1);
    }
}

#define DEMAND(what) demand(what, #what)

/* Processor time of this process, in seconds. */
static double now(void) {
    struct timespec time;
    DEMAND(clock_gettime(CLOCK_PROCESS_CPUTIME_ID, &time) == 0);
    return (double)time.tv_sec + (double)time.tv_nsec / 1e9;
}

/* Each file is locked by one of the owners. */
static void set_all(struct dehokuna_server *server, uint64_t files, uint64_t owners) {
    for (uint64_t file = 0; file < files; file++) {
        DEMAND(dehokuna_set(server, file, file % owners, 0, 9, DEHOKUNA_WRITE) == DEHOKUNA_DONE);
    }
}

/* Each owner but the last waits for the lock of the next one. */
static void wait_all(struct dehokuna_server *server, uint64_t owners) {
    for (uint64_t owner = 0; owner + 1 < owners; owner++) {
        DEMAND(dehokuna_wait(server, owner, owner + 1, owner, 5, 5, DEHOKUNA_READ, true) == DEHOKUNA_WAITS);
    }
}

/* The last one's wait for the first would close the cycle: the search goes over all owners. */
static void close_cycle(struct dehokuna_server *server, uint64_t owners) {
    DEMAND(dehokuna_wait(server, owners - 1, 0, owners - 1, 5, 5, DEHOKUNA_READ, true) == DEHOKUNA_DEADLOCK);
}

/* Each file is flushed by its owner, and the waits are granted. */
static void flush_all(struct dehokuna_server *server, uint64_t files, uint64_t owners) {
    for (uint64_t file = 0; file < files; file++) dehokuna_flush(server, file, file % owners);
    uint64_t ticket = 0;
    for (uint64_t granted = 0; granted + 1 < owners; granted++) DEMAND(dehokuna_next_grant(server, &ticket));
    DEMAND(!dehokuna_next_grant(server, &ticket));
}

static void measure(uint64_t files, uint32_t policy) {
    const uint64_t owners = files / FILES_OF_AN_OWNER;
    struct dehokuna_server server = {0};
    DEMAND(dehokuna_create(&server, policy));
    double times[5] = {now()};
    set_all(&server, files, owners);
    times[1] = now();
    wait_all(&server, owners);
    times[2] = now();
    close_cycle(&server, owners);
    times[3] = now();
    flush_all(&server, files, owners);
    times[4] = now();
    struct rusage used;
    DEMAND(getrusage(RUSAGE_SELF, &used) == 0);
    dehokuna_destroy(&server);
    printf("| %s | %llu | %llu | %.0f | %.0f | %.2f | %.0f | %.0f |\n", policy == DEHOKUNA_QUEUE ? "queue" : "held",
           (unsigned long long)files, (unsigned long long)owners, (times[1] - times[0]) / (double)files * 1e9,
           (times[2] - times[1]) / (double)(owners - 1) * 1e9, (times[3] - times[2]) * 1e3, (times[4] - times[3]) / (double)files * 1e9,
           (double)used.ru_maxrss / 1024);
}

static void measure_apart(uint64_t files, uint32_t policy) {
    fflush(stdout);
    pid_t child = fork();
    DEMAND(child >= 0);
    if (child == 0) {
        measure(files, policy);
        exit(0);
    }
    int status = 0;
    DEMAND(waitpid(child, &status, 0) == child);
    DEMAND(WIFEXITED(status) && WEXITSTATUS(status) == 0);
}

/* A row of the second table: n things are made, and then calls are timed, for so many seconds at most. */
enum { FILE_A = 7, HOLDER = 1 << 30, SECONDS = 4, GLANCE = 16 };

struct timing {
    double began, took;
    uint64_t calls;
};

static struct timing begin(void) { return (struct timing){.began = now()}; }

/* Whether one more call is to be timed. */
static bool goes_on(struct timing *timing, uint64_t wanted) {
    const bool is_late = timing->calls % GLANCE == 0 && now() - timing->began > SECONDS;
    if (timing->calls < wanted && !is_late) {
        timing->calls++;
        return true;
    }
    timing->took = now() - timing->began;
    return false;
}

static struct dehokuna_server made(void) {
    struct dehokuna_server server = {0};
    DEMAND(dehokuna_create(&server, DEHOKUNA_HELD));
    return server;
}

static void set(struct dehokuna_server *server, uint64_t owner, uint64_t first, uint64_t last, uint32_t mode) {
    DEMAND(dehokuna_set(server, FILE_A, owner, first, last, mode) == DEHOKUNA_DONE);
}

static void wait_for(struct dehokuna_server *server, uint64_t ticket, uint64_t owner, uint64_t first, uint32_t mode) {
    DEMAND(dehokuna_wait(server, ticket, FILE_A, owner, first, first, mode, false) == DEHOKUNA_WAITS);
}

/* The numbers below n in an order that looks drawn: n is a power of ten, to which the factor is prime; as they rise, and as they fall. */
static uint64_t shuffled(uint64_t k, uint64_t n) { return (k * 7919 + 13) % n; }
static uint64_t rising(uint64_t k, uint64_t n) { return k % n; }
static uint64_t falling(uint64_t k, uint64_t n) { return n - 1 - k; }

static void own_each(struct dehokuna_server *server, uint64_t n, uint32_t mode) {
    for (uint64_t owner = 0; owner < n; owner++) set(server, owner, 4 * owner, 4 * owner + 1, mode);
}

static struct timing sets_rising(uint64_t n) {
    struct dehokuna_server server = made();
    struct timing timing = begin();
    while (goes_on(&timing, n)) set(&server, 1, 4 * timing.calls, 4 * timing.calls + 1, DEHOKUNA_WRITE);
    return timing;
}

static struct timing sets_drawn(uint64_t n) {
    struct dehokuna_server server = made();
    struct timing timing = begin();
    while (goes_on(&timing, n)) set(&server, 1, 4 * shuffled(timing.calls, n), 4 * shuffled(timing.calls, n) + 1, DEHOKUNA_WRITE);
    return timing;
}

/* In each four bytes of one lock, the second is given another mode. */
static struct timing set_each_second(struct dehokuna_server *server, uint64_t n, uint32_t mode) {
    struct timing timing = begin();
    while (goes_on(&timing, n)) set(server, 1, 4 * shuffled(timing.calls, n) + 1, 4 * shuffled(timing.calls, n) + 1, mode);
    return timing;
}

static struct timing splits(uint64_t n) {
    struct dehokuna_server server = made();
    set(&server, 1, 0, 4 * n, DEHOKUNA_WRITE);
    return set_each_second(&server, n, DEHOKUNA_UNLOCK);
}

static struct dehokuna_server with_splits(uint64_t n) {
    struct dehokuna_server server = made();
    set(&server, 1, 0, 4 * n, DEHOKUNA_WRITE);
    set_each_second(&server, n, DEHOKUNA_UNLOCK);
    return server;
}

static struct timing merges(uint64_t n) {
    struct dehokuna_server server = with_splits(n);
    return set_each_second(&server, n, DEHOKUNA_WRITE);
}

/* One call goes through all n runs. */
static struct timing merge_of_all(uint64_t n) {
    struct dehokuna_server server = with_splits(n);
    struct timing timing = begin();
    set(&server, 1, 0, 4 * n, DEHOKUNA_WRITE);
    timing.took = now() - timing.began;
    timing.calls = n;
    return timing;
}

static struct timing owners_set(uint64_t n) {
    struct dehokuna_server server = made();
    struct timing timing = begin();
    while (goes_on(&timing, n)) set(&server, timing.calls, 4 * timing.calls, 4 * timing.calls + 1, DEHOKUNA_WRITE);
    return timing;
}

static struct timing gets_blocked(uint64_t n) {
    struct dehokuna_server server = made();
    struct dehokuna_blocker told;
    own_each(&server, n, DEHOKUNA_WRITE);
    struct timing timing = begin();
    while (goes_on(&timing, n))
        DEMAND(dehokuna_get(&server, FILE_A, HOLDER, 4 * shuffled(timing.calls, n), DEHOKUNA_LARGEST_OFFSET, DEHOKUNA_WRITE, &told) == DEHOKUNA_BLOCKED);
    return timing;
}

static struct timing gets_free(uint64_t n) {
    struct dehokuna_server server = made();
    struct dehokuna_blocker told;
    own_each(&server, n, DEHOKUNA_WRITE);
    struct timing timing = begin();
    while (goes_on(&timing, n)) {
        const uint64_t byte = 4 * shuffled(timing.calls, n) + 2;
        DEMAND(dehokuna_get(&server, FILE_A, HOLDER, byte, byte + 1, DEHOKUNA_WRITE, &told) == DEHOKUNA_DONE);
    }
    return timing;
}

static struct timing relocks(uint64_t n) {
    struct dehokuna_server server = made();
    own_each(&server, n, DEHOKUNA_WRITE);
    struct timing timing = begin();
    while (goes_on(&timing, n)) set(&server, timing.calls % n, 4 * (timing.calls % n), 4 * (timing.calls % n) + 1, DEHOKUNA_WRITE);
    return timing;
}

static struct timing upgrades(uint64_t n) {
    struct dehokuna_server server = made();
    own_each(&server, n, DEHOKUNA_READ);
    struct timing timing = begin();
    while (goes_on(&timing, n)) set(&server, timing.calls % n, 4 * (timing.calls % n), 4 * (timing.calls % n) + 1, DEHOKUNA_WRITE);
    return timing;
}

static struct timing readers_overlap(uint64_t n) {
    struct dehokuna_server server = made();
    struct timing timing = begin();
    while (goes_on(&timing, n)) set(&server, timing.calls, timing.calls, timing.calls + n, DEHOKUNA_READ);
    return timing;
}

static struct timing writer_among_readers(uint64_t n) {
    struct dehokuna_server server = made();
    for (uint64_t owner = 0; owner < n; owner++) set(&server, owner, owner, owner + n, DEHOKUNA_READ);
    struct timing timing = begin();
    while (goes_on(&timing, n))
        DEMAND(dehokuna_set(&server, FILE_A, shuffled(timing.calls, n), n, n, DEHOKUNA_WRITE) == DEHOKUNA_BLOCKED);
    return timing;
}

static struct timing flushes(uint64_t n) {
    struct dehokuna_server server = made();
    own_each(&server, n, DEHOKUNA_WRITE);
    struct timing timing = begin();
    while (goes_on(&timing, n)) dehokuna_flush(&server, FILE_A, shuffled(timing.calls, n));
    return timing;
}

/* All wait to write one byte, by owner numbers in some order; who is granted unlocks. */
static struct timing convoy(uint64_t n, uint64_t (*number)(uint64_t k, uint64_t n)) {
    struct dehokuna_server server = made();
    uint64_t ticket = HOLDER;
    set(&server, HOLDER, 0, 0, DEHOKUNA_WRITE);
    for (uint64_t k = 0; k < n; k++) wait_for(&server, number(k, n), number(k, n), 0, DEHOKUNA_WRITE);
    struct timing timing = begin();
    while (goes_on(&timing, n)) {
        set(&server, ticket, 0, 0, DEHOKUNA_UNLOCK);
        DEMAND(dehokuna_next_grant(&server, &ticket));
    }
    return timing;
}

static struct timing convoy_rising(uint64_t n) { return convoy(n, rising); }
static struct timing convoy_falling(uint64_t n) { return convoy(n, falling); }
static struct timing convoy_drawn(uint64_t n) { return convoy(n, shuffled); }

/* One unlock grants all, each of whom waits for a byte of its own, or all to read one. */
static struct timing grants(uint64_t n, uint64_t apart, uint32_t mode) {
    struct dehokuna_server server = made();
    uint64_t ticket = 0;
    set(&server, HOLDER, 0, apart * n, DEHOKUNA_WRITE);
    for (uint64_t owner = 0; owner < n; owner++) wait_for(&server, owner, owner, apart * owner, mode);
    struct timing timing = begin();
    set(&server, HOLDER, 0, apart * n, DEHOKUNA_UNLOCK);
    while (dehokuna_next_grant(&server, &ticket)) timing.calls++;
    timing.took = now() - timing.began;
    DEMAND(timing.calls == n);
    return timing;
}

static struct timing grants_of_writers(uint64_t n) { return grants(n, 2, DEHOKUNA_WRITE); }
static struct timing grants_of_readers(uint64_t n) { return grants(n, 0, DEHOKUNA_READ); }

/* A lock that n others wait for, one after another on bytes of their own. */
static struct dehokuna_server with_waits(uint64_t n) {
    struct dehokuna_server server = made();
    set(&server, HOLDER, 0, 4 * n, DEHOKUNA_WRITE);
    for (uint64_t owner = 0; owner < n; owner++) wait_for(&server, owner, owner, 4 * owner, DEHOKUNA_WRITE);
    return server;
}

static struct timing sets_beside_waits(uint64_t n) {
    struct dehokuna_server server = with_waits(n);
    struct timing timing = begin();
    while (goes_on(&timing, n)) set(&server, HOLDER + 1, 4 * n + 4 * timing.calls, 4 * n + 4 * timing.calls + 1, DEHOKUNA_WRITE);
    return timing;
}

static struct timing cancels(uint64_t n) {
    struct dehokuna_server server = with_waits(n);
    struct timing timing = begin();
    while (goes_on(&timing, n)) DEMAND(dehokuna_cancel(&server, timing.calls - 1));
    return timing;
}

/* Each waits, detected, for the lock of the next, on one file or on a file each. */
static struct timing chain(uint64_t n, bool is_apart) {
    struct dehokuna_server server = made();
    for (uint64_t owner = 0; owner <= n; owner++)
        DEMAND(dehokuna_set(&server, is_apart ? owner : FILE_A, owner, owner, owner, DEHOKUNA_WRITE) == DEHOKUNA_DONE);
    struct timing timing = begin();
    while (goes_on(&timing, n)) {
        const uint64_t owner = timing.calls - 1;
        DEMAND(dehokuna_wait(&server, owner, is_apart ? owner + 1 : FILE_A, owner, owner + 1, owner + 1, DEHOKUNA_READ, true) == DEHOKUNA_WAITS);
    }
    return timing;
}

static struct timing chain_on_one_file(uint64_t n) { return chain(n, false); }
static struct timing chain_on_many_files(uint64_t n) { return chain(n, true); }

static struct timing forgets(uint64_t n) {
    struct dehokuna_server server = made();
    for (uint64_t file = 0; file < n; file++) DEMAND(dehokuna_set(&server, file, file, 0, 9, DEHOKUNA_WRITE) == DEHOKUNA_DONE);
    struct timing timing = begin();
    while (goes_on(&timing, n)) dehokuna_forget(&server, timing.calls - 1);
    return timing;
}

/* Of each client two owners, which have locks on one file. */
static struct timing clients_gone(uint64_t n) {
    struct dehokuna_server server = made();
    for (uint64_t owner = 0; owner < 2 * n; owner++)
        DEMAND(dehokuna_set(&server, owner / 2, owner, 10 * owner, 10 * owner + 9, DEHOKUNA_WRITE) == DEHOKUNA_DONE);
    struct timing timing = begin();
    while (goes_on(&timing, n)) dehokuna_forget_owners(&server, 2 * timing.calls - 2, 2 * timing.calls - 1);
    return timing;
}

/* The bytes of one file on which n owners have locks, and one in a hundred of them waits, detected, for the lock of the next. */
static struct timing imports(uint64_t n) {
    struct dehokuna_server server = made(), copy = {0};
    struct dehokuna_fault fault;
    own_each(&server, n, DEHOKUNA_WRITE);
    for (uint64_t owner = 0; owner < n / 100; owner++)
        DEMAND(dehokuna_wait(&server, owner, FILE_A, owner, 4 * owner + 4, 4 * owner + 4, DEHOKUNA_READ, true) == DEHOKUNA_WAITS);
    const size_t size = dehokuna_export_size(&server);
    uint8_t *bytes = malloc(size);
    DEMAND(bytes != NULL && dehokuna_export(&server, bytes, size) == size);
    struct timing timing = begin();
    DEMAND(dehokuna_import(&copy, bytes, size, &fault) == DEHOKUNA_DONE);
    timing.took = now() - timing.began;
    timing.calls = n;
    return timing;
}

static const struct row {
    const char *name;
    struct timing (*measure)(uint64_t n);
} ROWS[] = {
    {"a set of one owner's n runs, rising", sets_rising},
    {"the same, in drawn order", sets_drawn},
    {"an unlock that splits, n times", splits},
    {"a lock that merges two runs again", merges},
    {"a lock that merges all n runs, a run", merge_of_all},
    {"a set of each of n owners", owners_set},
    {"a get that is blocked, among n owners", gets_blocked},
    {"a get that isn't", gets_free},
    {"a lock set again, among n owners", relocks},
    {"a read lock made a write lock", upgrades},
    {"a set of each of n readers that overlap", readers_overlap},
    {"a write lock that n such readers refuse", writer_among_readers},
    {"a flush of each of n owners", flushes},
    {"an unlock in a convoy of n writers of one byte, owners rising", convoy_rising},
    {"the same, owners falling", convoy_falling},
    {"the same, owners in drawn order", convoy_drawn},
    {"an unlock that grants n writers, a grant", grants_of_writers},
    {"an unlock that grants n readers of one byte, a grant", grants_of_readers},
    {"a set beside n waits for other bytes", sets_beside_waits},
    {"a cancel of each of n waits", cancels},
    {"a detected wait in a chain of n, on one file", chain_on_one_file},
    {"the same on a file each", chain_on_many_files},
    {"a forget of each of n owners, on a file each", forgets},
    {"by forget_owners, of two", clients_gone},
    {"an import of n locks on one file and n / 100 detected waits, a lock", imports},
};

/* Each size is measured in a process of its own, which hands over what a call took. */
static double a_call(const struct row *row, uint64_t n) {
    int ends[2];
    double took = 0;
    DEMAND(pipe(ends) == 0);
    fflush(stdout);
    const pid_t child = fork();
    DEMAND(child >= 0);
    if (child == 0) {
        const struct timing timing = row->measure(n);
        took = timing.took / (double)timing.calls;
        DEMAND(write(ends[1], &took, sizeof took) == sizeof took);
        _exit(0);
    }
    close(ends[1]);
    DEMAND(read(ends[0], &took, sizeof took) == sizeof took);
    close(ends[0]);
    DEMAND(waitpid(child, NULL, 0) == child);
    return took * 1e6;
}

/* A row of the third table: what one more of so many takes of malloc, by its own count of the blocks in use. */
static size_t taken(void) {
    const struct mallinfo2 blocks = mallinfo2();
    return blocks.uordblks + blocks.hblkhd;
}

static void leave(struct dehokuna_server *server) { (void)server; }

static void lock_files(struct dehokuna_server *server, uint64_t owner) {
    for (uint64_t file = 0; file < LARGEST; file++)
        DEMAND(dehokuna_set(server, file, owner, 10 * owner, 10 * owner + 9, DEHOKUNA_WRITE) == DEHOKUNA_DONE);
}

static void lock_each_file(struct dehokuna_server *server) { lock_files(server, 1); }
static void lock_each_again(struct dehokuna_server *server) { lock_files(server, 2); }

static void wait_on_each_file(struct dehokuna_server *server) {
    for (uint64_t file = 0; file < LARGEST; file++)
        DEMAND(dehokuna_wait(server, file, file, HOLDER + file, 10, 10, DEHOKUNA_WRITE, false) == DEHOKUNA_WAITS);
}

static void lock_of_each(struct dehokuna_server *server) { own_each(server, LARGEST, DEHOKUNA_WRITE); }

static void wait_for_each(struct dehokuna_server *server) {
    for (uint64_t owner = 0; owner < LARGEST; owner++) wait_for(server, owner, HOLDER + owner, 4 * owner, DEHOKUNA_WRITE);
}

static void lock_apart(struct dehokuna_server *server) {
    for (uint64_t run = 0; run < LARGEST; run++) set(server, 1, 4 * run, 4 * run + 1, DEHOKUNA_WRITE);
}

static const struct {
    const char *name;
    void (*prepare)(struct dehokuna_server *server), (*grow)(struct dehokuna_server *server);
} SHARES[] = {
    {"a file with a lock", leave, lock_each_file},
    {"a second owner's lock there", lock_each_file, lock_each_again},
    {"a first wait there", lock_each_file, wait_on_each_file},
    {"an owner with a lock, of n on one file", leave, lock_of_each},
    {"a wait there, of n", lock_of_each, wait_for_each},
    {"a run of one owner, of n", leave, lock_apart},
};

static void print_shares(void) {
    printf("\n| Of n = 100,000 | bytes |\n|---|---|\n");
    for (size_t k = 0; k < sizeof SHARES / sizeof *SHARES; k++) {
        struct dehokuna_server server = made();
        SHARES[k].prepare(&server);
        const size_t before = taken();
        SHARES[k].grow(&server);
        printf("| %s | %.0f |\n", SHARES[k].name, (double)(taken() - before) / LARGEST);
        dehokuna_destroy(&server);
    }
}

int main(void) {
    printf("| Policy | Files | Owners and waits | a set, ns | a wait, ns | a cycle through all, ms | a flush with its grants, ns | MiB |\n");
    printf("|---|---|---|---|---|---|---|---|\n");
    for (uint64_t files = SMALLEST; files <= LARGEST; files *= TIMES) {
        measure_apart(files, DEHOKUNA_HELD);
        measure_apart(files, DEHOKUNA_QUEUE);
    }
    printf("\n| A call, us | n = 1,000 | 10,000 | 100,000 | growth |\n|---|---|---|---|---|\n");
    for (size_t k = 0; k < sizeof ROWS / sizeof *ROWS; k++) {
        double took[3];
        uint64_t n = SMALLEST;
        for (int size = 0; size < 3; size++, n *= TIMES) took[size] = a_call(&ROWS[k], n);
        printf("| %s | %.2f | %.2f | %.2f | %.1f |\n", ROWS[k].name, took[0], took[1], took[2], took[2] / took[0]);
    }
    print_shares();
    return 0;
}
