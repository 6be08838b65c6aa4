#include "listing.h"
#include "askers.h"
#include "threads.h"

static void print_who(FILE *out, uint64_t owner, pid_t pid) {
    if (pid) fprintf(out, "%u:%d", node_of_number(owner), (int)pid);
    else fprintf(out, "%u:-", node_of_number(owner));
}

static void print_line(FILE *out, const char *kind, uint64_t inode, const struct dehokuna_blocker *lock, bool is_flock, const char *star) {
    fprintf(out, "%s ", kind);
    print_who(out, lock->owner, pid_of(inode, lock->owner, is_flock));
    fprintf(out, " %s%s %llu ", lock->mode == DEHOKUNA_READ ? "READ" : "WRITE", star, (unsigned long long)lock->first);
    if (lock->last < DEHOKUNA_LARGEST_OFFSET) fprintf(out, "%llu ", (unsigned long long)lock->last);
    else fprintf(out, "- ");
}

static void end_line(FILE *out, uint64_t inode) {
    fprintf(out, " ");
    print_file_name(out, (ino_t)inode);
    fprintf(out, "\n");
}

static void print_locks(FILE *out, uint64_t file) {
    struct dehokuna_blocker lock = {0};
    struct dehokuna_flock_lock flock_lock = {0};
    for (uint64_t first = 0; dehokuna_next_lock(state_table(), file, lock.owner, first, &lock); first = lock.last + 1) {
        print_line(out, "FCNTL", file, &lock, false, "");
        fprintf(out, "-");
        end_line(out, file);
    }
    for (uint64_t from = 0; dehokuna_next_flock(state_table(), file, from, &flock_lock); from = flock_lock.owner + 1) {
        const struct dehokuna_blocker whole = {flock_lock.owner, 0, DEHOKUNA_LARGEST_OFFSET, flock_lock.mode};
        print_line(out, "FLOCK", file, &whole, true, "");
        fprintf(out, "-");
        end_line(out, file);
    }
}

static void print_waits(FILE *out, uint64_t file) {
    struct dehokuna_waiting wait;
    for (uint64_t place = 0; dehokuna_wait_at(state_table(), file, place, &wait); place++) {
        bool is_flock = wait.family == DEHOKUNA_WHOLE;
        const struct dehokuna_blocker wanted = {wait.owner, wait.first, wait.last, wait.mode};
        print_line(out, is_flock ? "FLOCK" : "FCNTL", file, &wanted, is_flock, "*");
        print_who(out, wait.blocker.owner, pid_of(file, wait.blocker.owner, is_flock));
        end_line(out, file);
    }
}

void print_cluster_list(FILE *out) {
    uint64_t file;
    take_turn();
    fprintf(out, "KIND NODE:PID MODE FIRST LAST BLOCKER FILE\n");
    for (uint64_t from = 0; dehokuna_next_file(state_table(), from, &file); from = file + 1) print_locks(out, file), print_waits(out, file);
    give_turn();
}
