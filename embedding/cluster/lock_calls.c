#define _GNU_SOURCE
#include "lock_calls.h"
#include "askers.h"
#include "map.h"
#include "threads.h"
#include <errno.h>
#include <fcntl.h>
#include <stdlib.h>
#include <sys/file.h>

/* A request for a lock that is under way. */
struct ask {
    fuse_req_t fuse;
    uint64_t serial;
    struct owner *owner;
    struct open_file *open;
    struct request *request;
    pid_t pid;
    bool is_flock;
    struct asked asked;
};

static uint64_t serials;
static struct map asks;

static void free_ask(struct ask *ask) {
    map_remove(&asks, ask->serial, 0);
    drop_owner(ask->owner);
    free(ask);
}

static void answer_look(const struct ask *ask, const struct dehokuna_blocker *blocker) {
    struct flock told = blocker_told(blocker, blocker ? pid_of(ask->open->inode, blocker->owner, false) : 0);
    fuse_reply_lock(ask->fuse, &told);
}

void lock_answered(void *who, const struct call *call, int error, const struct dehokuna_blocker *blocker) {
    struct ask *ask = who;
    /* (a flush may have come while it waited) */
    if (!error && asks_for_lock(call)) remember(ask->open, ask->owner, ask->is_flock, ask->pid);
    if (error) log_refusal(&ask->asked, error);
    if (call->op == OP_GET && !error) answer_look(ask, blocker);
    else fuse_reply_err(ask->fuse, error);
    free_ask(ask);
}

bool may_ask_anew(void *who, const struct call *call) {
    const struct ask *ask = who;
    (void)call;
    if (standing_now() == STANDING_WITHDRAWN || ask->open->is_lost) return false;
    const struct asker *asker = asker_of(ask->open->inode, ask->owner, ask->is_flock);
    return !asker || !asker->is_lost;
}

static void interrupted(fuse_req_t request, void *serial) {
    (void)request;
    take_turn();
    struct ask *ask = map_get(&asks, (uintptr_t)serial, 0);
    if (ask) replica_interrupt(ask, ask->request);
    own_answer();
    give_turn();
}

/* Takes over a use of the owner. */
static void submit(fuse_req_t fuse, struct open_file *open, struct owner *owner, bool is_flock, pid_t pid, const struct asked *asked, struct call call) {
    struct ask *ask = room_for(sizeof *ask);
    *ask = (struct ask){.fuse = fuse, .serial = ++serials, .owner = owner, .open = open, .pid = pid, .is_flock = is_flock};
    if (asked) ask->asked = *asked;
    map_put(&asks, ask->serial, 0, ask);
    call.file = open->inode, call.generation = open->generation, call.open_file = open->number;
    if (owner) call.owner = owner->number;
    fuse_req_interrupt_func(fuse, interrupted, (void *)(uintptr_t)ask->serial);
    ask->request = replica_submit(&call, ask);
    /* (without a view a close is answered at once) */
    own_answer();
    wake_group();
}

/* The open file, whose turn it is; NULL: the request is answered, and it is nobody's turn. */
static struct open_file *begin_request(fuse_req_t request, const struct fuse_file_info *info, const struct asked *asked) {
    take_turn();
    struct open_file *open = find_open_file(info->fh);
    const struct asker *asker = open ? asker_of(open->inode, find_owner(info->lock_owner), false) : NULL;
    bool is_lost = !open || open->is_lost || (asker && asker->is_lost) || standing_now() == STANDING_WITHDRAWN;
    int error = is_lost ? EIO : fuse_req_interrupted(request) ? EINTR : 0;
    if (!error) return open;
    give_turn();
    log_refusal(asked, error);
    fuse_reply_err(request, error);
    return NULL;
}

static void cluster_setlk(fuse_req_t request, fuse_ino_t file, struct fuse_file_info *info, struct flock *lock, int may_wait) {
    struct asked asked = asked_for_bytes(request, file, may_wait ? "setlkw" : "setlk", lock);
    struct open_file *open = begin_request(request, info, &asked);
    if (!open) return;
    uint8_t mode = (uint8_t)mode_of(lock->l_type);
    if (mode == DEHOKUNA_UNLOCK && !asker_of(open->inode, find_owner(info->lock_owner), false)) {
        /* (it never asked for a lock: there is nothing to remove on any node) */
        fuse_reply_err(request, 0);
    } else {
        struct owner *owner = use_owner(info->lock_owner);
        if (mode != DEHOKUNA_UNLOCK) remember(open, owner, false, lock->l_pid);
        submit(request, open, owner, false, lock->l_pid, &asked,
               (struct call){.op = may_wait && mode != DEHOKUNA_UNLOCK ? OP_WAIT : OP_SET, .mode = mode, .flags = FLAG_DETECT,
                             .first = (uint64_t)lock->l_start, .last = last_of(lock)});
    }
    give_turn();
}

static void cluster_getlk(fuse_req_t request, fuse_ino_t file, struct fuse_file_info *info, struct flock *lock) {
    struct asked asked = asked_for_bytes(request, file, "getlk", lock);
    /* The kernel refuses this itself for F_GETLK, and hands it on for F_OFD_GETLK. */
    if (lock->l_type == F_UNLCK) {
        log_refusal(&asked, EINVAL);
        fuse_reply_err(request, EINVAL);
        return;
    }
    struct open_file *open = begin_request(request, info, &asked);
    if (!open) return;
    submit(request, open, use_owner(info->lock_owner), false, 0, &asked,
           (struct call){.op = OP_GET, .mode = (uint8_t)mode_of(lock->l_type), .first = (uint64_t)lock->l_start, .last = last_of(lock)});
    give_turn();
}

static void cluster_flock(fuse_req_t request, fuse_ino_t file, struct fuse_file_info *info, int operation) {
    struct asked asked = asked_by_flock(request, file, operation);
    struct open_file *open = begin_request(request, info, &asked);
    if (!open) return;
    uint8_t mode = (uint8_t)mode_of_flock(operation);
    struct owner *owner = use_owner(info->lock_owner);
    pid_t pid = fuse_req_ctx(request)->pid;
    if (mode != DEHOKUNA_UNLOCK) remember(open, owner, true, pid), open->flock_owner = info->lock_owner, open->has_flock_owner = true;
    submit(request, open, owner, true, pid, &asked,
           (struct call){.op = mode == DEHOKUNA_UNLOCK || operation & LOCK_NB ? OP_FLOCK : OP_FLOCK_WAIT, .mode = mode});
    give_turn();
}

/* ---- Closes */

/* A descriptor is closed: the record locks of its process on the file go. Where it never asked for one, nothing is sent. While there is no view
 * the process isn't kept: what it had goes with the next one. */
static void cluster_flush(fuse_req_t request, fuse_ino_t file, struct fuse_file_info *info) {
    (void)file;
    take_turn();
    struct open_file *open = find_open_file(info->fh);
    struct asker *asker = open ? asker_of(open->inode, find_owner(info->lock_owner), false) : NULL;
    bool is_sent = asker && !asker->is_lost && standing_now() != STANDING_WITHDRAWN;
    struct owner *owner = asker ? asker->owner : NULL;
    if (is_sent) owner->uses++;
    if (asker) forget(asker);
    if (is_sent) submit(request, open, owner, false, 0, NULL, (struct call){.op = OP_FLUSH});
    else fuse_reply_err(request, 0);
    give_turn();
}

static void (*plain_release)(fuse_req_t request, fuse_ino_t file, struct fuse_file_info *info);

/* What the owner has on the file goes. The table's note may be gone: a flush drops it, and a wait that stayed may have been granted since. */
static void flush_owner(const struct open_file *open, const struct owner *owner) {
    const struct call call = {.op = OP_FLUSH, .file = open->inode, .generation = open->generation, .open_file = open->number, .owner = owner->number};
    replica_submit(&call, NULL);
}

/* The last descriptor of an open file is closed. The kernel doesn't wait for the answer. */
static void cluster_release(fuse_req_t request, fuse_ino_t file, struct fuse_file_info *info) {
    take_turn();
    struct open_file *open = is_listing(file) ? NULL : find_open_file(info->fh);
    if (open && open->askers && !open->is_lost && standing_now() != STANDING_WITHDRAWN) {
        for (const struct asker *asker = open->askers; asker; asker = asker->next)
            if (!asker->is_flock && !asker->is_lost) flush_owner(open, asker->owner);
        struct owner *owner = open->has_flock_owner ? use_owner(open->flock_owner) : NULL;
        struct call call = {.op = OP_RELEASE, .flags = owner ? FLAG_HAS_OWNER : 0, .file = open->inode, .generation = open->generation,
                            .open_file = open->number, .owner = owner ? owner->number : 0};
        replica_submit(&call, NULL);
        wake_group();
        drop_owner(owner);
    }
    if (open) end_open_file(open, info->fh);
    give_turn();
    plain_release(request, file, info);
}

/* ---- For who uses it */

void lock_operations(struct fuse_lowlevel_ops *operations) {
    plain_release = operations->release;
    operations->setlk = cluster_setlk, operations->getlk = cluster_getlk, operations->flock = cluster_flock;
    operations->flush = cluster_flush, operations->release = cluster_release;
}

void clear_asks(void) { map_clear(&asks, free); }
