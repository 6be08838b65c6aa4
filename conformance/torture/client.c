/* The clients of locktorture: processes that race for locks, and note in memory that outlives them what they asked and what they were
 * answered.
 *
 *   client LOG SLOTS RECORDS CLIENTS PATIENCE KINDS TIDY MADE_IN FOLDER..
 *
 * LOG is a file of zeros that is mapped by all, with room for so many processes and so many records of each; PATIENCE is in milliseconds,
 * KINDS `fcntl`, `flock` or `both`; TIDY of a hundred closes let go of the description's locks before; files are made in MADE_IN; and each
 * FOLDER is the same one, as a mount of its own has it. For each line `SEED REQUESTS` of standard input a round is run, on new files, and answered by a line: `quiet` where
 * all clients have ended, `stuck` where those that are left did nothing for so long (they are killed then).
 *
 * This process is the keeper: it starts clients, kills some, and waits for all of them, also for those that a client forks. */
#define _GNU_SOURCE
#include <errno.h>
#include <fcntl.h>
#include <sched.h>
#include <signal.h>
#include <stdatomic.h>
#include <stdbool.h>
#include <stdint.h>
#include <stdio.h>
#include <stdlib.h>
#include <string.h>
#include <sys/file.h>
#include <sys/mman.h>
#include <sys/prctl.h>
#include <sys/stat.h>
#include <sys/syscall.h>
#include <sys/time.h>
#include <sys/wait.h>
#include <time.h>
#include <unistd.h>

/* ---- The log, which torture/log.py reads: these numbers and layouts are its too */

enum { MOST_BETWEEN_LOOKS = 10000000 }; /* nanoseconds */
enum { FILES = 2, DESCRIPTORS = 8, LARGEST_DESCRIPTOR = 64 };
enum call { OPEN = 1, DUP, DUP2, CLOSE, FORK, SET, WAIT, GET, UNLOCK, FLOCK };
enum family { TRADITIONAL = 0, OPEN_FILE = 1 };

/* A call: `number` is the file of an open, the target of a dup2, the slot of a fork. An end of 0: it wasn't answered. */
struct record {
    uint64_t start, end, first, last, told_first, told_last;
    int32_t result, descriptor, number, told_pid; /* result: as the call has it, and below 0 an error number */
    uint8_t call, family, mode, at_once, told_mode, unused[3];
};

/* A process: the first `count` records are its own. Where it was forked, by that record of that slot, and else -1. Times of 0: never. */
struct slot {
    _Atomic uint32_t count;
    int32_t pid, parent;
    uint32_t forked_by;
    uint64_t exits_at, killed_at, waited_at;
    int32_t status, unused;
};

/* `ended_at`: what is noted later isn't of the round. */
struct log {
    uint64_t ended_at;
    uint32_t slots_there, records_there;
    _Atomic uint32_t slots;
    _Atomic int32_t live;
    _Atomic int64_t left; /* requests */
    _Atomic uint32_t may_go;
};

static struct log *noted;

static struct slot *slot_at(uint32_t index) {
    size_t size = sizeof(struct slot) + noted->records_there * sizeof(struct record);
    return (struct slot *)((char *)noted + 4096 + index * size);
}

static struct record *record_at(struct slot *slot, uint32_t index) { return (struct record *)(slot + 1) + index; }

static uint64_t now(void) {
    struct timespec time;
    clock_gettime(CLOCK_MONOTONIC, &time);
    return (uint64_t)time.tv_sec * 1000000000 + (uint64_t)time.tv_nsec;
}

/* ---- A client */

/* An open file description, as far as this process knows it. */
struct description {
    int file, descriptors;
    bool is_shared, may_hold_bytes, may_hold_flock;
};

struct client {
    uint32_t index;
    struct slot *slot;
    uint64_t chance;
    const char *folder;
    struct description *at[LARGEST_DESCRIPTOR]; /* by descriptor */
    int open[DESCRIPTORS], count;
    bool may_hold[FILES]; /* traditional locks */
};

static const char **folders, *made_in;
static int folder_count, client_count, tidy;
static bool by_fcntl, by_flock;

static uint64_t random_below(struct client *me, uint64_t bound) {
    me->chance ^= me->chance << 13;
    me->chance ^= me->chance >> 7;
    me->chance ^= me->chance << 17;
    return (me->chance >> 11) % bound;
}

static void path_of(char path[4096], const char *folder, int file) { snprintf(path, 4096, "%s/file%d", folder, file); }

static struct description *description_at(const struct client *me, int descriptor) { return me->at[descriptor]; }
static int any_descriptor(struct client *me) { return me->open[random_below(me, (uint64_t)me->count)]; }

/* Notes that the call begins, and returns where its answer goes; ends the process where its log is full. */
static struct record *begin(struct client *me, struct record what) {
    uint32_t at = atomic_load_explicit(&me->slot->count, memory_order_relaxed);
    if (at == noted->records_there) {
        me->slot->exits_at = now();
        _exit(0);
    }
    struct record *record = record_at(me->slot, at);
    *record = what;
    record->end = 0;
    record->start = now();
    atomic_store_explicit(&me->slot->count, at + 1, memory_order_release);
    return record;
}

static int end(struct record *record, int result) {
    int32_t told = result < 0 ? -errno : result;
    uint64_t time = now();
    record->result = told;
    atomic_thread_fence(memory_order_release);
    *(volatile uint64_t *)&record->end = time;
    return told;
}

static void add_descriptor(struct client *me, int descriptor, struct description *description) {
    me->at[descriptor] = description;
    me->open[me->count++] = descriptor;
    description->descriptors++;
}

/* A descriptor isn't open any more; the process's traditional locks on the file have gone with it. */
static void drop_descriptor(struct client *me, int descriptor) {
    struct description *description = me->at[descriptor];
    me->may_hold[description->file] = false;
    me->at[descriptor] = NULL;
    for (int place = 0; place < me->count; place++)
        if (me->open[place] == descriptor) me->open[place] = me->open[--me->count];
    if (--description->descriptors == 0) free(description);
}

static void open_one(struct client *me) {
    char path[4096];
    int file = (int)random_below(me, FILES);
    path_of(path, me->folder, file);
    struct description *description = calloc(1, sizeof *description);
    struct record *record = begin(me, (struct record){.call = OPEN, .number = file});
    int descriptor = end(record, open(path, O_RDWR | O_CLOEXEC));
    if (descriptor < 0 || descriptor >= LARGEST_DESCRIPTOR || !description) _exit(1);
    description->file = file;
    add_descriptor(me, descriptor, description);
}

static void dup_one(struct client *me) {
    int from = any_descriptor(me);
    struct record *record = begin(me, (struct record){.call = DUP, .descriptor = from});
    int made = end(record, dup(from));
    if (made < 0 || made >= LARGEST_DESCRIPTOR) _exit(1);
    add_descriptor(me, made, me->at[from]);
}

static void dup2_one(struct client *me) {
    int from = any_descriptor(me), to = any_descriptor(me);
    struct record *record = begin(me, (struct record){.call = DUP2, .descriptor = from, .number = to});
    if (end(record, dup2(from, to)) < 0) _exit(1);
    if (from == to) return;
    struct description *description = me->at[from];
    description->descriptors++;
    drop_descriptor(me, to);
    description->descriptors--;
    add_descriptor(me, to, description);
}

static void close_one(struct client *me, int descriptor) {
    struct record *record = begin(me, (struct record){.call = CLOSE, .descriptor = descriptor});
    /* (also where close tells an error the descriptor has gone) */
    end(record, close(descriptor));
    drop_descriptor(me, descriptor);
}

/* ---- Waits that end by a signal */

static void do_nothing(int number) { (void)number; }

/* Signals until `disarm`, the first after some 30 us to 2 ms: one that came before the wait began wouldn't end it. */
static void arm(struct client *me) {
    const suseconds_t first = (suseconds_t)(30 << random_below(me, 7));
    setitimer(ITIMER_REAL, &(struct itimerval){.it_value.tv_usec = first, .it_interval.tv_usec = 500}, NULL);
}

static void disarm(void) { setitimer(ITIMER_REAL, &(struct itimerval){0}, NULL); }

/* Nothing that this process alone could let go is in anyone's way. */
static bool holds_nothing(const struct client *me) {
    for (int file = 0; file < FILES; file++)
        if (me->may_hold[file]) return false;
    for (int place = 0; place < me->count; place++) {
        const struct description *description = description_at(me, me->open[place]);
        if (description->is_shared || description->may_hold_bytes || description->may_hold_flock) return false;
    }
    return true;
}

/* ---- Locks */

static void note_bytes(struct client *me, int descriptor, uint8_t family, bool may_hold) {
    struct description *description = description_at(me, descriptor);
    if (family == OPEN_FILE) description->may_hold_bytes = may_hold;
    else me->may_hold[description->file] = may_hold;
}

static int command_of(const struct record *what) {
    const bool of_file = what->family == OPEN_FILE;
    switch (what->call) {
    case WAIT: return of_file ? F_OFD_SETLKW : F_SETLKW;
    case GET: return of_file ? F_OFD_GETLK : F_GETLK;
    default: return of_file ? F_OFD_SETLK : F_SETLK;
    }
}

static uint64_t last_of(const struct flock *lock) { return lock->l_len == 0 ? INT64_MAX : (uint64_t)(lock->l_start + lock->l_len - 1); }

static int lock_bytes(struct client *me, struct record what) {
    const short type = what.call == UNLOCK ? F_UNLCK : what.mode == 'r' ? F_RDLCK : F_WRLCK;
    struct flock lock = {.l_type = type, .l_whence = SEEK_SET, .l_start = (off_t)what.first};
    lock.l_len = what.last == INT64_MAX ? 0 : (off_t)(what.last - what.first + 1);
    struct record *record = begin(me, what);
    int result = fcntl(what.descriptor, command_of(&what), &lock);
    if (what.call == GET && result == 0) {
        record->told_mode = lock.l_type == F_UNLCK ? 'u' : lock.l_type == F_RDLCK ? 'r' : 'w';
        record->told_first = (uint64_t)lock.l_start;
        record->told_last = last_of(&lock);
        record->told_pid = lock.l_pid;
    }
    return end(record, result);
}

static struct record bytes_of(struct client *me, enum call call) {
    struct record what = {.call = (uint8_t)call, .descriptor = any_descriptor(me), .family = (uint8_t)random_below(me, 2)};
    what.mode = random_below(me, 5) < 2 ? 'r' : 'w';
    what.first = random_below(me, 8);
    what.last = random_below(me, 12) ? what.first + random_below(me, 4) : INT64_MAX;
    return what;
}

static void set_bytes(struct client *me) {
    struct record what = bytes_of(me, SET);
    if (lock_bytes(me, what) == 0) note_bytes(me, what.descriptor, what.family, true);
}

static void get_bytes(struct client *me) { lock_bytes(me, bytes_of(me, GET)); }

static void unlock_bytes(struct client *me) {
    struct record what = bytes_of(me, UNLOCK);
    const bool all = random_below(me, 2);
    if (all) what.first = 0, what.last = INT64_MAX;
    if (lock_bytes(me, what) == 0 && all) note_bytes(me, what.descriptor, what.family, false);
}

static int set_flock(struct client *me, int descriptor, char mode, bool at_once) {
    const int operation = mode == 's' ? LOCK_SH : mode == 'x' ? LOCK_EX : LOCK_UN;
    struct record what = {.call = FLOCK, .descriptor = descriptor, .mode = (uint8_t)mode, .at_once = at_once};
    struct record *record = begin(me, what);
    int result = end(record, flock(descriptor, operation | (at_once ? LOCK_NB : 0)));
    if (result == 0) description_at(me, descriptor)->may_hold_flock = mode != 'u';
    return result;
}

static char any_mode(struct client *me) { return random_below(me, 2) ? 's' : 'x'; }
static void flock_at_once(struct client *me) { set_flock(me, any_descriptor(me), any_mode(me), true); }
static void unlock_flock(struct client *me) { set_flock(me, any_descriptor(me), 'u', false); }

/* By chance one of both kinds of lock, as far as both are asked for. */
static bool takes_flock(struct client *me) { return by_flock && (!by_fcntl || random_below(me, 3) == 0); }

/* Unlocks what the description may hold. */
static void let_go(struct client *me, int descriptor) {
    struct description *description = description_at(me, descriptor);
    const struct record all = {.call = UNLOCK, .descriptor = descriptor, .family = OPEN_FILE, .last = INT64_MAX};
    if (description->may_hold_bytes && lock_bytes(me, all) == 0) description->may_hold_bytes = false;
    if (description->may_hold_flock) set_flock(me, descriptor, 'u', false);
}

/* Closes, mostly with nothing held where closes are to be tidy. */
static void close_tidily(struct client *me, int descriptor) {
    if (random_below(me, 100) < (uint64_t)tidy) let_go(me, descriptor);
    close_one(me, descriptor);
}

/* A wait for any lock, until a signal comes where `by_alarm`, and else until it is granted. */
static void wait_for_one(struct client *me, bool by_alarm) {
    if (by_alarm) arm(me);
    if (takes_flock(me)) {
        set_flock(me, any_descriptor(me), any_mode(me), false);
    } else {
        struct record what = bytes_of(me, WAIT);
        if (lock_bytes(me, what) == 0) note_bytes(me, what.descriptor, what.family, true);
    }
    if (by_alarm) disarm();
}

/* Lets all go that the process holds, and waits for one lock without an alarm: as it is in nobody's way, it is let in some day. */
static void wait_patiently(struct client *me) {
    for (int place = me->count - 1; place >= 0; place--) {
        const int descriptor = me->open[place];
        const int file = description_at(me, descriptor)->file;
        const struct record all = {.call = UNLOCK, .descriptor = descriptor, .last = INT64_MAX};
        if (description_at(me, descriptor)->is_shared) {
            close_tidily(me, descriptor);
            continue;
        }
        if (me->may_hold[file] && lock_bytes(me, all) == 0) me->may_hold[file] = false;
        let_go(me, descriptor);
    }
    if (me->count == 0) open_one(me);
    if (holds_nothing(me)) wait_for_one(me, false);
}

static void wait_for_a_while(struct client *me) { wait_for_one(me, true); }

/* ---- Processes */

/* A slot for a new process; false where there is none, or there are as many as there may be. */
static bool take_slot(uint32_t *index, int32_t most) {
    if (atomic_fetch_add(&noted->live, 1) >= most) {
        atomic_fetch_sub(&noted->live, 1);
        return false;
    }
    *index = atomic_fetch_add(&noted->slots, 1);
    if (*index < noted->slots_there) return true;
    atomic_fetch_sub(&noted->slots, 1);
    atomic_fetch_sub(&noted->live, 1);
    return false;
}

/* Forks a child of the keeper, which waits for it. (All is 0 but the flags, so their places on other processors don't matter.) */
static pid_t fork_for_keeper(void) { return (pid_t)syscall(SYS_clone, CLONE_PARENT | SIGCHLD, 0, 0, 0, 0); }

static void become(struct client *me, uint32_t index, uint64_t seed) {
    prctl(PR_SET_PDEATHSIG, SIGKILL);
    me->index = index;
    me->slot = slot_at(index);
    me->slot->pid = getpid();
    me->chance = (seed + 1) * UINT64_C(0x9E3779B97F4A7C15) ^ ((uint64_t)index << 32) ^ 1;
    for (int turn = 0; turn < 8; turn++) random_below(me, 2);
}

static void ready_slot(uint32_t index, int32_t parent, uint32_t forked_by) {
    struct slot *slot = slot_at(index);
    *slot = (struct slot){.parent = parent, .forked_by = forked_by};
}

static void fork_one(struct client *me) {
    uint32_t index;
    if (!take_slot(&index, client_count)) return;
    const uint64_t seed = random_below(me, UINT64_MAX);
    ready_slot(index, (int32_t)me->index, atomic_load(&me->slot->count));
    for (int place = 0; place < me->count; place++) description_at(me, me->open[place])->is_shared = true;
    struct record *record = begin(me, (struct record){.call = FORK, .number = (int32_t)index});
    pid_t child = fork_for_keeper();
    if (child == 0) {
        become(me, index, seed);
        memset(me->may_hold, 0, sizeof me->may_hold);
        return;
    }
    end(record, child);
    if (child < 0) _exit(1);
}

/* Ends the process, by closes or by the end alone. */
static void leave(struct client *me) {
    const bool closes = random_below(me, 2) || random_below(me, 100) < (uint64_t)tidy;
    while (closes && me->count) close_tidily(me, any_descriptor(me));
    me->slot->exits_at = now();
    _exit(0);
}

static void act(struct client *me) {
    const uint64_t chance = random_below(me, 1000);
    if (me->count == 0 || (chance < 30 && me->count < DESCRIPTORS)) open_one(me);
    else if (chance < 50 && me->count < DESCRIPTORS) dup_one(me);
    else if (chance < 60) dup2_one(me);
    else if (chance < 110) close_tidily(me, any_descriptor(me));
    else if (chance < 130) fork_one(me);
    else if (chance < 132) leave(me);
    else if (chance < 160) wait_patiently(me);
    else if (chance < 330) wait_for_a_while(me);
    else if (takes_flock(me)) chance < 700 ? flock_at_once(me) : unlock_flock(me);
    else if (chance < 600) set_bytes(me);
    else if (chance < 700) get_bytes(me);
    else unlock_bytes(me);
}

static void serve(struct client *me) {
    while (!atomic_load(&noted->may_go)) sched_yield();
    while (atomic_fetch_sub(&noted->left, 1) > 0) {
        act(me);
        /* (where there are fewer processors than clients, these interleave all the same) */
        if (random_below(me, 4) == 0) sched_yield();
    }
    leave(me);
}

/* ---- The keeper */

struct round {
    uint64_t seed, moved, kill_within; /* the next kill comes within so many requests */
    int64_t next_kill;
    struct client chance;
};

/* Starts a client that nobody forked. */
static void start_one(struct round *round) {
    uint32_t index;
    if (!take_slot(&index, client_count)) return;
    ready_slot(index, -1, 0);
    pid_t child = fork();
    if (child < 0) exit(1);
    if (child > 0) return;
    struct client me = {.folder = folders[index % (uint32_t)folder_count]};
    become(&me, index, round->seed);
    serve(&me);
}

static uint32_t slots_taken(void) {
    const uint32_t slots = atomic_load(&noted->slots);
    return slots < noted->slots_there ? slots : noted->slots_there;
}

static bool is_alive(const struct slot *slot) { return slot->pid && !slot->waited_at; }

static struct slot *slot_of(pid_t pid) {
    for (uint32_t index = 0; index < slots_taken(); index++)
        if (slot_at(index)->pid == pid && is_alive(slot_at(index))) return slot_at(index);
    return NULL;
}

/* Waits for those that have ended; whether all have. */
static bool collect(void) {
    int status;
    pid_t pid;
    while ((pid = waitpid(-1, &status, WNOHANG)) > 0) {
        struct slot *slot = slot_of(pid);
        if (slot) slot->status = status, slot->waited_at = now();
        atomic_fetch_sub(&noted->live, 1);
    }
    return pid < 0;
}

static void kill_one(struct round *round) {
    struct slot *slot = slot_at((uint32_t)random_below(&round->chance, slots_taken()));
    if (!is_alive(slot) || slot->killed_at) return;
    slot->killed_at = now();
    kill(slot->pid, SIGKILL);
    round->next_kill -= 1 + (int64_t)random_below(&round->chance, round->kill_within);
}

/* Whether anything was noted since the last look. */
static bool moves(struct round *round) {
    uint64_t moved = 0;
    for (uint32_t index = 0; index < slots_taken(); index++) {
        struct slot *slot = slot_at(index);
        const uint32_t count = atomic_load(&slot->count);
        moved += 4 * (uint64_t)count + (slot->pid != 0) + (slot->waited_at != 0) + (count && record_at(slot, count - 1)->end);
    }
    const bool has_moved = moved != round->moved;
    round->moved = moved;
    return has_moved;
}

static void kill_all(void) {
    for (uint32_t index = 0; index < slots_taken(); index++) {
        struct slot *slot = slot_at(index);
        if (!is_alive(slot)) continue;
        if (!slot->killed_at) slot->killed_at = now();
        kill(slot->pid, SIGKILL);
    }
}

/* Kills whoever is left, and waits for them; they may stay in a file system that hangs. */
static void end_all(void) {
    while (!collect()) {
        kill_all();
        usleep(1000);
    }
}

/* Looks after the clients until all have ended (true), or nothing has moved for the patience. Of the time between two looks little counts: where
 * the machine stood still, the clients did too. */
static bool keep(struct round *round, uint64_t patience) {
    uint64_t looked_at = now(), still = 0;
    while (!collect()) {
        const int64_t left = atomic_load(&noted->left);
        if (left > 0 && left < round->next_kill) kill_one(round);
        if (left > 0 && atomic_load(&noted->live) < (client_count + 1) / 2) start_one(round);
        const uint64_t time = now(), passed = time - looked_at;
        looked_at = time;
        still = moves(round) ? 0 : still + (passed < MOST_BETWEEN_LOOKS ? passed : MOST_BETWEEN_LOOKS);
        if (still > patience) return false;
        usleep(200);
    }
    return true;
}

static void make_files(void) {
    char path[4096];
    for (int file = 0; file < FILES; file++) {
        path_of(path, made_in, file);
        unlink(path);
        int descriptor = open(path, O_RDWR | O_CREAT | O_EXCL | O_CLOEXEC, 0600);
        if (descriptor < 0) {
            perror(path);
            exit(1);
        }
        close(descriptor);
    }
}

/* The word for how the round went. */
static const char *run_round(uint64_t seed, int64_t requests, uint64_t patience) {
    struct round round = {.seed = seed, .kill_within = (uint64_t)requests + 1, .next_kill = requests - requests / 8};
    round.chance.chance = seed * 2 + 1;
    make_files();
    noted->ended_at = 0;
    atomic_store(&noted->slots, 0);
    atomic_store(&noted->live, 0);
    atomic_store(&noted->left, requests);
    atomic_store(&noted->may_go, 0);
    /* (who is killed as it takes a slot leaves it as the round before did) */
    for (uint32_t index = 0; index < noted->slots_there; index++) ready_slot(index, -1, 0);
    for (int started = 0; started < client_count - client_count / 4; started++) start_one(&round);
    atomic_store(&noted->may_go, 1);
    const bool is_quiet = keep(&round, patience);
    noted->ended_at = now();
    end_all();
    return is_quiet ? "quiet" : "stuck";
}

static bool map_log(const char *path, uint32_t slots, uint32_t records) {
    int descriptor = open(path, O_RDWR | O_CLOEXEC);
    struct stat described;
    if (descriptor < 0 || fstat(descriptor, &described) < 0) return false;
    noted = mmap(NULL, (size_t)described.st_size, PROT_READ | PROT_WRITE, MAP_SHARED, descriptor, 0);
    close(descriptor);
    if (noted == MAP_FAILED) return false;
    noted->slots_there = slots;
    noted->records_there = records;
    return true;
}

int main(int count, char **words) {
    if (count < 10 || !map_log(words[1], (uint32_t)atoi(words[2]), (uint32_t)atoi(words[3]))) {
        fprintf(stderr, "usage: client LOG SLOTS RECORDS CLIENTS PATIENCE KINDS TIDY MADE_IN FOLDER..\n");
        return 2;
    }
    client_count = atoi(words[4]);
    const uint64_t patience = strtoull(words[5], NULL, 10) * 1000000;
    by_fcntl = strcmp(words[6], "flock") != 0;
    by_flock = strcmp(words[6], "fcntl") != 0;
    tidy = atoi(words[7]);
    made_in = words[8];
    folders = (const char **)words + 9;
    folder_count = count - 9;
    prctl(PR_SET_PDEATHSIG, SIGKILL);
    sigaction(SIGALRM, &(struct sigaction){.sa_handler = do_nothing}, NULL);
    setvbuf(stdout, NULL, _IOLBF, 0);
    unsigned long long seed;
    long long requests;
    while (scanf("%llu %lld", &seed, &requests) == 2) printf("%s\n", run_round(seed, requests, patience));
    return 0;
}
