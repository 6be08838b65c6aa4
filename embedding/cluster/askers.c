#include "askers.h"
#include "bytes.h"
#include "map.h"
#include "replica.h"
#include <stdlib.h>

static unsigned holding, lost_files;
static struct map owners, askers, opened;

/* ---- Owners */

struct owner *find_owner(uint64_t kernels) { return map_get(&owners, kernels, 0); }

struct owner *use_owner(uint64_t kernels) {
    struct owner *owner = find_owner(kernels);
    if (!owner) {
        owner = room_for(sizeof *owner);
        *owner = (struct owner){kernels, replica_number(), 0};
        map_put(&owners, kernels, 0, owner);
    }
    owner->uses++;
    return owner;
}

void drop_owner(struct owner *owner) {
    if (!owner || --owner->uses) return;
    map_remove(&owners, owner->kernels, 0);
    free(owner);
}

/* ---- Askers */

static uint64_t key_of(uint64_t inode, bool is_flock) { return inode << 1 | is_flock; }

struct asker *asker_of(uint64_t inode, const struct owner *owner, bool is_flock) {
    return owner ? map_get(&askers, key_of(inode, is_flock), owner->number) : NULL;
}

static void unlink_asker(struct asker *asker) {
    struct asker **at = &asker->open->askers;
    while (*at != asker) at = &(*at)->next;
    *at = asker->next;
}

static void link_asker(struct asker *asker, struct open_file *open) {
    asker->open = open;
    asker->next = open->askers;
    open->askers = asker;
}

void remember(struct open_file *open, struct owner *owner, bool is_flock, pid_t pid) {
    struct asker *asker = asker_of(open->inode, owner, is_flock);
    if (asker) {
        unlink_asker(asker);
    } else {
        asker = room_for(sizeof *asker);
        asker->owner = owner;
        asker->is_flock = is_flock;
        owner->uses++;
        map_put(&askers, key_of(open->inode, is_flock), owner->number, asker);
    }
    asker->pid = pid;
    link_asker(asker, open);
}

void forget(struct asker *asker) {
    if (asker->holds) holding--;
    unlink_asker(asker);
    map_remove(&askers, key_of(asker->open->inode, asker->is_flock), asker->owner->number);
    drop_owner(asker->owner);
    free(asker);
}

pid_t pid_of(uint64_t inode, uint64_t owner, bool is_flock) {
    const struct asker *asker = map_get(&askers, key_of(inode, is_flock), owner);
    return asker ? asker->pid : 0;
}

bool anyone_asked(void) { return askers.count > 0; }

/* ---- Open files */

struct open_file *find_open_file(uint64_t descriptor) { return map_get(&opened, descriptor, 0); }

void add_open_file(uint64_t descriptor, uint64_t inode, uint64_t generation) {
    struct open_file *open = room_for(sizeof *open);
    *open = (struct open_file){.number = replica_number(), .inode = inode, .generation = generation};
    map_put(&opened, descriptor, 0, open);
}

void end_open_file(struct open_file *open, uint64_t descriptor) {
    while (open->askers) forget(open->askers);
    lost_files -= open->is_lost;
    map_remove(&opened, descriptor, 0);
    free(open);
}

/* ---- Who holds a lock */

static bool has_lock(const struct asker *asker) {
    uint64_t file = asker->open->inode, owner = asker->owner->number;
    struct dehokuna_blocker lock;
    struct dehokuna_flock_lock flock_lock;
    if (asker->is_flock) return dehokuna_next_flock(state_table(), file, owner, &flock_lock) && flock_lock.owner == owner;
    return dehokuna_next_lock(state_table(), file, owner, 0, &lock) && lock.owner == owner;
}

static void for_each_asker(void (*call)(struct asker *asker)) {
    for (size_t at = 0; at < askers.room; at++)
        if (askers.slots[at].value) call(askers.slots[at].value);
}

static void look_whether_holds(struct asker *asker) {
    asker->holds = !asker->is_lost && has_lock(asker);
    holding += asker->holds;
}

void look_who_holds(void) {
    holding = 0;
    for_each_asker(look_whether_holds);
}

bool anyone_holds(void) { return holding > 0; }

static void lose_if_holds(struct asker *asker) {
    if (!asker->holds) return;
    asker->holds = false;
    asker->is_lost = true;
    lost_files += !asker->open->is_lost;
    asker->open->is_lost = true;
}

unsigned lose_what_was_held(void) {
    unsigned before = lost_files;
    for_each_asker(lose_if_holds);
    holding = 0;
    return lost_files - before;
}

bool any_is_lost(void) { return lost_files > 0; }

/* ---- For who uses it */

void describe_askers(FILE *out) { fprintf(out, "owners %zu, open files %zu, of which %u have lost a lock\n", owners.count, opened.count, lost_files); }

void clear_askers(void) {
    map_clear(&askers, free);
    map_clear(&opened, free);
    map_clear(&owners, free);
}
