/* Who asked for locks, on which open files, and who lost them. Whoever calls has the turn (threads.h). */
#ifndef ASKERS_H
#define ASKERS_H
#include <stdbool.h>
#include <stdint.h>
#include <stdio.h>
#include <sys/types.h>

/* An owner of locks, as the kernel numbers it and as all nodes do. */
struct owner {
    uint64_t kernels, number;
    unsigned uses;
};

/* Who asked for locks on a file, through which open file, and as which process: until its flush, or the open file's release. */
struct asker {
    struct owner *owner;
    struct open_file *open;
    pid_t pid;
    bool is_flock, holds, is_lost;
    struct asker *next;
};

/* By its descriptor. */
struct open_file {
    uint64_t number, inode, generation;
    struct asker *askers;
    uint64_t flock_owner; /* as the kernel numbers it */
    bool has_flock_owner, is_lost;
};

/* NULL: it isn't known. */
struct owner *find_owner(uint64_t kernels);
/* The owner, which then has a use more. */
struct owner *use_owner(uint64_t kernels);
/* One use less; NULL is nobody. */
void drop_owner(struct owner *owner);

/* NULL: there is none. An owner of flock locks never meets one of byte locks: it is an open file. */
struct asker *asker_of(uint64_t inode, const struct owner *owner, bool is_flock);
void remember(struct open_file *open, struct owner *owner, bool is_flock, pid_t pid);
void forget(struct asker *asker);
/* The process that asked last; 0: it isn't known here. */
pid_t pid_of(uint64_t inode, uint64_t owner, bool is_flock);
bool anyone_asked(void);

struct open_file *find_open_file(uint64_t descriptor);
void add_open_file(uint64_t descriptor, uint64_t inode, uint64_t generation);
void end_open_file(struct open_file *open, uint64_t descriptor);

/* Looks who holds a lock, as a view ends; and whether anyone did then who wasn't forgotten since. */
void look_who_holds(void);
bool anyone_holds(void);
/* Those who held a lock then have lost it. How many open files lost one that hadn't before. */
unsigned lose_what_was_held(void);
/* Whether an open file has lost a lock and isn't closed yet. */
bool any_is_lost(void);

void describe_askers(FILE *out);
void clear_askers(void);
#endif
