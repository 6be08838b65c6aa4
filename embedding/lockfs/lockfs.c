/* A file system that passes files through to a folder and has its locks answered by the library: fcntl record locks, open file
 * description locks and flock.
 *
 *   lockfs [-f] [--kernel-locks] [--log FILE] [-o allow_other] FOLDER MOUNTPOINT
 *   lockfs --cluster NAME [--grace MS] [--fence COMMAND] [-f] [--log FILE] [-o allow_other] FOLDER MOUNTPOINT
 *   lockfs --cluster NAME --witness [--grace MS] [--fence COMMAND]
 *   lockfs --list MOUNTPOINT
 *
 * It returns once MOUNTPOINT is mounted, and serves until `fusermount3 -u MOUNTPOINT` or a SIGTERM; with -f it stays in the foreground. With
 * --kernel-locks it answers no lock request, so the kernel's own locks hold on the mount: for measurements. With --log it adds a line to
 * FILE for each lock request that it refuses. With -o allow_other all users have the mount; what a user makes there is the user's where
 * lockfs is root's. With --list it prints the locks and waits of a mount, as a file of the mount reads that no folder of it lists. With --cluster
 * its locks hold on all nodes of a corosync cluster (docs/CLUSTER.md), where it is built for that.
 *
 * One thread reads requests and answers them. What a lock request comes to is the library's to say: nothing here compares locks, queues a
 * wait or looks for a deadlock. To the library a file is its node's number, an owner the number that the kernel gives it, a ticket the
 * address of what is kept of the request that waits, which no other has until it is answered. The kernel doesn't tell open file description
 * locks from record locks, so each wait for bytes is one that a deadlock is looked for with. */
#define _GNU_SOURCE
#include "lockfs.h"
#include "dehokuna.h"
#ifdef LOCKFS_CLUSTER
#include "../cluster/mount.h"
#endif
#include <dirent.h>
#include <errno.h>
#include <fcntl.h>
#include <grp.h>
#include <limits.h>
#include <search.h>
#include <stdio.h>
#include <stdlib.h>
#include <string.h>
#include <sys/file.h>
#include <sys/fsuid.h>
#include <sys/resource.h>
#include <sys/stat.h>
#include <sys/uio.h>
#include <time.h>
#include <unistd.h>

/* Who last asked for byte locks, or for a flock lock, as an owner, and through which open file: for the pid that F_GETLK and the list of
 * locks tell, until the owner's locks go by a flush or by the last close of the open file. An open file description is one owner of both. */
struct asker {
    uint64_t owner, open_file;
    uint32_t family;
    pid_t pid;
    struct asker *next;
};

/* A file that the kernel knows of, by its address. */
struct node {
    dev_t device;
    ino_t inode;
    int descriptor; /* O_PATH */
    uint64_t lookups;
    struct asker *askers;
};

struct lockfs_ways lockfs_ways;
static struct dehokuna_server server;
static struct node root;
static void *nodes; /* a tree of tsearch */

static struct node *node_of(fuse_ino_t number) { return number == FUSE_ROOT_ID ? &root : (struct node *)(uintptr_t)number; }

/* By which an O_PATH descriptor's file is opened or changed. */
struct path {
    char text[32];
};

static struct path path_of(fuse_ino_t file) {
    struct path path;
    snprintf(path.text, sizeof path.text, "/proc/self/fd/%d", node_of(file)->descriptor);
    return path;
}

/* ---- The log of refused requests */

static FILE *refusals; /* NULL: there is no log */

struct asked asked_for_bytes(fuse_req_t request, fuse_ino_t file, const char *call, const struct flock *lock) {
    struct asked asked = {.file = file, .thread = fuse_req_ctx(request)->pid};
    const char *mode = lock->l_type == F_UNLCK ? "u" : lock->l_type == F_RDLCK ? "r" : "w";
    snprintf(asked.words, sizeof asked.words, "%s %s %lld %lld", call, mode, (long long)lock->l_start, (long long)lock->l_len);
    return asked;
}

struct asked asked_by_flock(fuse_req_t request, fuse_ino_t file, int operation) {
    struct asked asked = {.file = file, .thread = fuse_req_ctx(request)->pid};
    int kind = operation & ~LOCK_NB;
    const char *mode = kind == LOCK_UN ? "un" : kind == LOCK_SH ? "sh" : "ex";
    snprintf(asked.words, sizeof asked.words, "flock %s%s", mode, operation & LOCK_NB ? " nb" : "");
    return asked;
}

static const char *name_of(int error) {
    switch (error) {
    case EAGAIN: return "EAGAIN";
    case EDEADLK: return "EDEADLK";
    case EINTR: return "EINTR";
    case EINVAL: return "EINVAL";
    case EIO: return "EIO";
    case ESTALE: return "ESTALE";
    default: return "ENOLCK";
    }
}

/* The file's name in the folder, in which what isn't printed is told as a question mark. */
struct name {
    char text[PATH_MAX + 1];
};

static struct name name_in_folder(fuse_ino_t file) {
    struct name name;
    struct path path = path_of(file);
    ssize_t size = readlink(path.text, name.text, sizeof name.text - 1);
    for (ssize_t at = 0; at < size; at++)
        if ((unsigned char)name.text[at] < ' ') name.text[at] = '?';
    name.text[size < 0 ? 0 : size] = '\0';
    return name;
}

/* A line: the second, the thread, what it asked for (start and length, 0 to the end), the error, and the file. */
static void tell_refusal(const struct asked *asked, int error) {
    struct timespec now;
    clock_gettime(CLOCK_REALTIME, &now);
    struct name name = name_in_folder(asked->file);
    fprintf(refusals, "%lld.%06ld %d %s: %s %s\n", (long long)now.tv_sec, now.tv_nsec / 1000, (int)asked->thread, asked->words,
            name_of(error), name.text);
    fflush(refusals);
}

void log_refusal(const struct asked *asked, int error) {
    if (refusals) tell_refusal(asked, error);
}

static void refuse(fuse_req_t request, const struct asked *asked, int error) {
    log_refusal(asked, error);
    fuse_reply_err(request, error);
}

/* ---- Locks */

static struct asker *asker_of(const struct node *node, uint64_t owner, uint32_t family) {
    struct asker *asker = node->askers;
    while (asker && (asker->owner != owner || asker->family != family)) asker = asker->next;
    return asker;
}

/* false: there is no memory. */
static bool remember(struct node *node, uint64_t owner, uint32_t family, uint64_t open_file, pid_t pid) {
    struct asker *asker = asker_of(node, owner, family);
    if (!asker) {
        asker = malloc(sizeof *asker);
        if (!asker) return false;
        asker->next = node->askers;
        node->askers = asker;
    }
    asker->owner = owner;
    asker->family = family;
    asker->open_file = open_file;
    asker->pid = pid;
    return true;
}

/* false: there is no memory. */
static bool note(fuse_ino_t file, uint64_t owner, uint64_t open_file, pid_t pid) {
    return remember(node_of(file), owner, DEHOKUNA_BYTES, open_file, pid) && dehokuna_note(&server, file, owner, open_file);
}

static pid_t pid_of(const struct node *node, uint64_t owner, uint32_t family) {
    const struct asker *asker = asker_of(node, owner, family);
    return asker ? asker->pid : 0;
}

static bool is_owner(const struct asker *asker, uint64_t owner) { return asker->owner == owner && asker->family == DEHOKUNA_BYTES; }
static bool came_through(const struct asker *asker, uint64_t open_file) { return asker->open_file == open_file; }
static bool is_any(const struct asker *asker, uint64_t unused) { return (void)asker, (void)unused, true; }

static void forget_askers(struct node *node, bool (*is_meant)(const struct asker *, uint64_t), uint64_t number) {
    for (struct asker **at = &node->askers; *at;) {
        struct asker *asker = *at;
        if (is_meant(asker, number)) {
            *at = asker->next;
            free(asker);
        } else {
            at = &asker->next;
        }
    }
}

/* A request that may wait: who asks for what through which open file. Its address is its ticket. */
struct waiting {
    fuse_req_t request;
    struct asked asked;
    uint64_t owner, open_file;
    uint32_t family;
    pid_t pid;
};

static uint64_t ticket_of(const struct waiting *waiting) { return (uintptr_t)waiting; }
static struct waiting *waiting_of(uint64_t ticket) { return (struct waiting *)(uintptr_t)ticket; }

static void end_wait(struct waiting *waiting, int error) {
    if (error) log_refusal(&waiting->asked, error);
    fuse_reply_err(waiting->request, error);
    free(waiting);
}

/* The lock is set, and noted again, as another thread's close may have sent a flush meanwhile. Where that closed the request's own descriptor, the
 * kernel answers by EBADF and tells nobody: then the lock goes with the open file (or stays, where there is no memory). */
static void grant(struct waiting *waiting) {
    if (waiting->family == DEHOKUNA_BYTES) note(waiting->asked.file, waiting->owner, waiting->open_file, waiting->pid);
    end_wait(waiting, 0);
}

static void answer_grants(void) {
    for (uint64_t ticket; dehokuna_next_grant(&server, &ticket);) grant(waiting_of(ticket));
}

/* A signal came while the request waited, or its process was killed. One that was granted is answered already. */
static void interrupted(fuse_req_t request, void *waiting) {
    (void)request;
    if (dehokuna_cancel(&server, ticket_of(waiting))) end_wait(waiting, EINTR);
    answer_grants();
}

static void let_wait(struct waiting *waiting) {
    /* Where the signal came before the request, libfuse would call `interrupted` inside the registration, and then use the request that
     * was answered. */
    if (fuse_req_interrupted(waiting->request)) interrupted(waiting->request, waiting);
    else fuse_req_interrupt_func(waiting->request, interrupted, waiting);
}

static int error_of(uint32_t status) {
    switch (status) {
    case DEHOKUNA_DONE: return 0;
    case DEHOKUNA_BLOCKED: return EAGAIN;
    case DEHOKUNA_DEADLOCK: return EDEADLK;
    default: return ENOLCK;
    }
}

static void answer(fuse_req_t request, const struct asked *asked, uint32_t status) {
    int error = error_of(status);
    if (error) refuse(request, asked, error);
    else fuse_reply_err(request, 0);
    answer_grants();
}

/* Answers a request that may wait, if it doesn't. */
static void answer_or_wait(struct waiting *waiting, uint32_t status) {
    if (status == DEHOKUNA_WAITS) let_wait(waiting);
    else end_wait(waiting, error_of(status));
    answer_grants();
}

static void answer_close(fuse_req_t request) {
    fuse_reply_err(request, 0);
    answer_grants();
}

uint64_t last_of(const struct flock *lock) {
    return lock->l_len == 0 ? DEHOKUNA_LARGEST_OFFSET : (uint64_t)lock->l_start + (uint64_t)lock->l_len - 1;
}

uint32_t mode_of(short type) {
    return type == F_UNLCK ? DEHOKUNA_UNLOCK : type == F_RDLCK ? DEHOKUNA_READ : DEHOKUNA_WRITE;
}

uint32_t mode_of_flock(int operation) {
    int kind = operation & ~LOCK_NB;
    return kind == LOCK_UN ? DEHOKUNA_UNLOCK : kind == LOCK_SH ? DEHOKUNA_READ : DEHOKUNA_WRITE;
}

struct flock blocker_told(const struct dehokuna_blocker *blocker, pid_t pid) {
    struct flock told = {.l_type = F_UNLCK, .l_whence = SEEK_SET};
    if (!blocker) return told;
    told.l_type = blocker->mode == DEHOKUNA_READ ? F_RDLCK : F_WRLCK;
    told.l_start = (off_t)blocker->first;
    told.l_len = blocker->last == DEHOKUNA_LARGEST_OFFSET ? 0 : (off_t)(blocker->last - blocker->first + 1);
    told.l_pid = pid;
    return told;
}

/* What is kept of a request that may wait; where there is no memory it is refused. */
static struct waiting *keep(fuse_req_t request, const struct asked *asked, const struct fuse_file_info *info, uint32_t family, pid_t pid) {
    struct waiting *kept = malloc(sizeof *kept);
    if (kept) *kept = (struct waiting){request, *asked, info->lock_owner, info->fh, family, pid};
    else refuse(request, asked, ENOLCK);
    return kept;
}

static void lockfs_setlk(fuse_req_t request, fuse_ino_t file, struct fuse_file_info *info, struct flock *lock, int may_wait) {
    uint32_t mode = mode_of(lock->l_type);
    uint64_t owner = info->lock_owner, first = (uint64_t)lock->l_start, last = last_of(lock);
    struct asked asked = asked_for_bytes(request, file, may_wait ? "setlkw" : "setlk", lock);
    if (mode != DEHOKUNA_UNLOCK && !note(file, owner, info->fh, lock->l_pid)) {
        refuse(request, &asked, ENOLCK);
    } else if (!may_wait || mode == DEHOKUNA_UNLOCK) {
        answer(request, &asked, dehokuna_set(&server, file, owner, first, last, mode));
    } else {
        struct waiting *kept = keep(request, &asked, info, DEHOKUNA_BYTES, lock->l_pid);
        if (kept) answer_or_wait(kept, dehokuna_wait(&server, ticket_of(kept), file, owner, first, last, mode, true));
    }
}

static void lockfs_getlk(fuse_req_t request, fuse_ino_t file, struct fuse_file_info *info, struct flock *lock) {
    /* The kernel refuses this itself for F_GETLK, and hands it on for F_OFD_GETLK. */
    if (lock->l_type == F_UNLCK) {
        struct asked asked = asked_for_bytes(request, file, "getlk", lock);
        refuse(request, &asked, EINVAL);
        return;
    }
    struct dehokuna_blocker blocker;
    struct flock told = blocker_told(NULL, 0);
    uint64_t first = (uint64_t)lock->l_start;
    if (dehokuna_get(&server, file, info->lock_owner, first, last_of(lock), mode_of(lock->l_type), &blocker))
        told = blocker_told(&blocker, pid_of(node_of(file), blocker.owner, DEHOKUNA_BYTES));
    fuse_reply_lock(request, &told);
}

/* The kernel gives an open file the owner number of an earlier one, maybe before it tells that this was closed: whoever asks by a number through
 * another open file than before has nothing of that one's lock. */
static void end_earlier(fuse_ino_t file, const struct fuse_file_info *info) {
    const struct asker *asker = asker_of(node_of(file), info->lock_owner, DEHOKUNA_WHOLE);
    if (asker && asker->open_file != info->fh) dehokuna_flock_release(&server, file, info->lock_owner);
}

static void lockfs_flock(fuse_req_t request, fuse_ino_t file, struct fuse_file_info *info, int operation) {
    uint32_t mode = mode_of_flock(operation);
    uint64_t owner = info->lock_owner;
    struct asked asked = asked_by_flock(request, file, operation);
    end_earlier(file, info);
    if (mode != DEHOKUNA_UNLOCK && !remember(node_of(file), owner, DEHOKUNA_WHOLE, info->fh, asked.thread)) {
        refuse(request, &asked, ENOLCK);
        answer_grants();
    } else if (mode == DEHOKUNA_UNLOCK || operation & LOCK_NB) {
        answer(request, &asked, dehokuna_flock(&server, file, owner, mode));
    } else {
        struct waiting *kept = keep(request, &asked, info, DEHOKUNA_WHOLE, asked.thread);
        if (kept) answer_or_wait(kept, dehokuna_flock_wait(&server, ticket_of(kept), file, owner, mode));
        else answer_grants();
    }
}

/* ---- The list of locks */

/* The file of the mount that reads as all locks and waits, as they stand when it is opened. */
#define LISTING_NAME ".lockfs-locks"
static struct node listing = {.descriptor = -1};

/* The list as it was when it was opened. */
struct list {
    char *text;
    size_t size;
};

/* A lock, or a wait with the pid of who is in its way. */
struct line {
    const char *kind;
    uint32_t mode;
    uint64_t first, last;
    pid_t pid, blocker;
    bool waits;
};

bool is_listing(fuse_ino_t file) { return node_of(file) == &listing; }

/* The file's name, below the folder where it is there. */
static void print_name(FILE *out, fuse_ino_t file) {
    struct name name = name_in_folder(file), folder = name_in_folder(FUSE_ROOT_ID);
    size_t size = strlen(folder.text);
    bool is_below = !strncmp(name.text, folder.text, size) && name.text[size] == '/';
    fputs(is_below ? name.text + size + 1 : name.text, out);
}

/* The kind, the pid, the mode (of a wait with a star), the first and the last byte, whose wait is in whose way, and the file; what isn't
 * known is a hyphen, as the last byte of a lock to the end. */
static void print_line(FILE *out, fuse_ino_t file, const struct line *line) {
    char pid[24] = "-", blocker[24] = "-", last[24] = "-";
    if (line->pid) snprintf(pid, sizeof pid, "%d", (int)line->pid);
    if (line->blocker) snprintf(blocker, sizeof blocker, "%d", (int)line->blocker);
    if (line->last < DEHOKUNA_LARGEST_OFFSET) snprintf(last, sizeof last, "%llu", (unsigned long long)line->last);
    fprintf(out, "%s %s %s%s %llu %s %s ", line->kind, pid, line->mode == DEHOKUNA_READ ? "READ" : "WRITE", line->waits ? "*" : "",
            (unsigned long long)line->first, last, blocker);
    print_name(out, file);
    fprintf(out, "\n");
}

static void print_locks(FILE *out, fuse_ino_t file) {
    struct dehokuna_blocker lock = {0};
    struct dehokuna_flock_lock flock = {0};
    for (uint64_t first = 0; dehokuna_next_lock(&server, file, lock.owner, first, &lock); first = lock.last + 1)
        print_line(out, file, &(struct line){"FCNTL", lock.mode, lock.first, lock.last, pid_of(node_of(file), lock.owner, DEHOKUNA_BYTES), 0, false});
    for (uint64_t from = 0; dehokuna_next_flock(&server, file, from, &flock); from = flock.owner + 1) {
        const struct line line = {"FLOCK", flock.mode, 0, DEHOKUNA_LARGEST_OFFSET, pid_of(node_of(file), flock.owner, DEHOKUNA_WHOLE), 0, false};
        print_line(out, file, &line);
        if (flock.owner == UINT64_MAX) return;
    }
}

/* The thread that sent the request that waits. */
static pid_t pid_of_request(uint64_t ticket) { return waiting_of(ticket)->asked.thread; }

static void print_waits(FILE *out, fuse_ino_t file) {
    struct dehokuna_waiting wait;
    for (uint64_t place = 0; dehokuna_wait_at(&server, file, place, &wait); place++) {
        const bool by_wait = wait.obstacle == DEHOKUNA_BY_WAIT;
        const pid_t blocker = by_wait ? pid_of_request(wait.behind) : pid_of(node_of(file), wait.blocker.owner, wait.family);
        const char *kind = wait.family == DEHOKUNA_BYTES ? "FCNTL" : "FLOCK";
        print_line(out, file, &(struct line){kind, wait.mode, wait.first, wait.last, pid_of_request(wait.ticket), blocker, true});
    }
}

static void print_all(FILE *out) {
    uint64_t file;
    fprintf(out, "KIND PID MODE FIRST LAST BLOCKER FILE\n");
    for (uint64_t from = 0; dehokuna_next_file(&server, from, &file); from = file + 1) print_locks(out, file), print_waits(out, file);
}

/* NULL: there is no memory. */
static struct list *make_list(void) {
    struct list *list = malloc(sizeof *list);
    FILE *out = list ? open_memstream(&list->text, &list->size) : NULL;
    if (!out) {
        free(list);
        return NULL;
    }
    if (lockfs_ways.print_list) lockfs_ways.print_list(out);
    else print_all(out);
    if (!fclose(out)) return list;
    free(list->text);
    free(list);
    return NULL;
}

static struct stat listing_described(void) {
    const struct stat described = {.st_ino = (ino_t)(uintptr_t)&listing, .st_mode = S_IFREG | 0444, .st_nlink = 1};
    return described;
}

static void look_up_listing(fuse_req_t request) {
    const struct fuse_entry_param entry = {.ino = (uintptr_t)&listing, .attr = listing_described()};
    fuse_reply_entry(request, &entry);
}

static void open_listing(fuse_req_t request, struct fuse_file_info *info) {
    struct list *list = (info->flags & O_ACCMODE) == O_RDONLY ? make_list() : NULL;
    info->fh = (uintptr_t)list;
    info->direct_io = 1;
    if (list) fuse_reply_open(request, info);
    else fuse_reply_err(request, (info->flags & O_ACCMODE) == O_RDONLY ? ENOMEM : EACCES);
}

static void read_listing(fuse_req_t request, size_t size, off_t from, const struct fuse_file_info *info) {
    const struct list *list = (const struct list *)(uintptr_t)info->fh;
    const size_t start = (size_t)from < list->size ? (size_t)from : list->size;
    fuse_reply_buf(request, list->text + start, size < list->size - start ? size : list->size - start);
}

static void free_list(const struct fuse_file_info *info) {
    struct list *list = (struct list *)(uintptr_t)info->fh;
    free(list->text);
    free(list);
}

/* ---- Closes */

/* A descriptor is closed: the record locks of its process on the file go. A wait of another thread stays. */
static void lockfs_flush(fuse_req_t request, fuse_ino_t file, struct fuse_file_info *info) {
    forget_askers(node_of(file), is_owner, info->lock_owner);
    dehokuna_flush(&server, file, info->lock_owner);
    answer_close(request);
}

/* The last descriptor of an open file is closed: its flock lock goes, and its open file description locks. The kernel sends no unlock
 * for these, and doesn't name their owners here; the library knows who came through the open file and wasn't named by a flush since,
 * as each process was by its own close. The number of the flock lock's owner may be another open file's already (`end_earlier`). */
static void lockfs_release(fuse_req_t request, fuse_ino_t file, struct fuse_file_info *info) {
    const struct asker *asker = asker_of(node_of(file), info->lock_owner, DEHOKUNA_WHOLE);
    const bool is_its = info->flock_release && asker && came_through(asker, info->fh);
    dehokuna_release(&server, file, info->fh, is_its, info->lock_owner);
    forget_askers(node_of(file), came_through, info->fh);
    if (is_listing(file)) free_list(info);
    else close((int)info->fh);
    answer_close(request);
}

/* ---- Files */

static int compare_nodes(const void *left, const void *right) {
    const struct node *one = left, *other = right;
    if (one->device != other->device) return one->device < other->device ? -1 : 1;
    return one->inode == other->inode ? 0 : one->inode < other->inode ? -1 : 1;
}

/* The node of a file that was opened by O_PATH and is described; takes the descriptor. NULL where there is no memory. */
static struct node *node_for(int descriptor, const struct stat *described) {
    struct node key = {.device = described->st_dev, .inode = described->st_ino}, **known = tfind(&key, &nodes, compare_nodes);
    struct node *node = known ? *known : malloc(sizeof *node);
    if (known || !node) {
        close(descriptor);
        return node;
    }
    key.descriptor = descriptor;
    *node = key;
    if (tsearch(node, &nodes, compare_nodes)) return node;
    close(descriptor);
    free(node);
    return NULL;
}

ino_t inode_of_file(fuse_ino_t file) { return node_of(file)->inode; }
int descriptor_of_file(fuse_ino_t file) { return node_of(file)->descriptor; }

void print_file_name(FILE *out, ino_t inode) {
    struct node key = {.device = root.device, .inode = inode}, **known = tfind(&key, &nodes, compare_nodes);
    if (inode == root.inode) fputs(".", out);
    else if (known) print_name(out, (uintptr_t)*known);
    else fprintf(out, "inode:%llu", (unsigned long long)inode);
}

/* Fills the entry in, and counts it as a look-up; otherwise the error. */
static int look_up(fuse_ino_t parent, const char *name, struct fuse_entry_param *entry) {
    memset(entry, 0, sizeof *entry);
    int descriptor = openat(node_of(parent)->descriptor, name, O_PATH | O_NOFOLLOW | O_CLOEXEC);
    if (descriptor < 0) return errno;
    if (fstatat(descriptor, "", &entry->attr, AT_EMPTY_PATH) < 0) {
        int error = errno;
        close(descriptor);
        return error;
    }
    struct node *node = node_for(descriptor, &entry->attr);
    if (!node) return ENOMEM;
    node->lookups++;
    entry->ino = (uintptr_t)node;
    return 0;
}

static void lockfs_lookup(fuse_req_t request, fuse_ino_t parent, const char *name) {
    if (node_of(parent) == &root && !strcmp(name, LISTING_NAME)) {
        look_up_listing(request);
        return;
    }
    struct fuse_entry_param entry;
    int error = look_up(parent, name, &entry);
    if (error) fuse_reply_err(request, error);
    else fuse_reply_entry(request, &entry);
}

static void lockfs_forget(fuse_req_t request, fuse_ino_t file, uint64_t lookups) {
    struct node *node = node_of(file);
    if (node != &root && node != &listing && (node->lookups -= lookups) == 0) {
        tdelete(node, &nodes, compare_nodes);
        /* (another file may get its number) */
        dehokuna_forget_file(&server, file);
        forget_askers(node, is_any, 0);
        close(node->descriptor);
        free(node);
    }
    fuse_reply_none(request);
}

/* Answers by the error number where the call failed. */
static void answer_call(fuse_req_t request, int result) { fuse_reply_err(request, result < 0 ? errno : 0); }

static void lockfs_getattr(fuse_req_t request, fuse_ino_t file, struct fuse_file_info *info) {
    (void)info;
    struct stat described = listing_described();
    if (is_listing(file)) fuse_reply_attr(request, &described, 0);
    else if (fstatat(node_of(file)->descriptor, "", &described, AT_EMPTY_PATH) < 0) fuse_reply_err(request, errno);
    else fuse_reply_attr(request, &described, 0);
}

static int set_owner(fuse_ino_t file, const struct stat *wanted, int which) {
    uid_t user = which & FUSE_SET_ATTR_UID ? wanted->st_uid : (uid_t)-1;
    gid_t group = which & FUSE_SET_ATTR_GID ? wanted->st_gid : (gid_t)-1;
    return fchownat(node_of(file)->descriptor, "", user, group, AT_EMPTY_PATH);
}

static int set_times(const char *path, const struct stat *wanted, int which) {
    const struct timespec now = {0, UTIME_NOW};
    struct timespec times[2] = {{0, UTIME_OMIT}, {0, UTIME_OMIT}};
    if (which & FUSE_SET_ATTR_ATIME) times[0] = which & FUSE_SET_ATTR_ATIME_NOW ? now : wanted->st_atim;
    if (which & FUSE_SET_ATTR_MTIME) times[1] = which & FUSE_SET_ATTR_MTIME_NOW ? now : wanted->st_mtim;
    return utimensat(AT_FDCWD, path, times, 0);
}

static int set_attributes(fuse_ino_t file, const struct stat *wanted, int which, const struct fuse_file_info *info) {
    struct path path = path_of(file);
    if (which & FUSE_SET_ATTR_MODE && chmod(path.text, wanted->st_mode) < 0) return -1;
    if (which & (FUSE_SET_ATTR_UID | FUSE_SET_ATTR_GID) && set_owner(file, wanted, which) < 0) return -1;
    if (which & FUSE_SET_ATTR_SIZE) {
        int result = info ? ftruncate((int)info->fh, wanted->st_size) : truncate(path.text, wanted->st_size);
        if (result < 0) return -1;
    }
    if (which & (FUSE_SET_ATTR_ATIME | FUSE_SET_ATTR_MTIME)) return set_times(path.text, wanted, which);
    return 0;
}

static void lockfs_setattr(fuse_req_t request, fuse_ino_t file, struct stat *wanted, int which, struct fuse_file_info *info) {
    if (set_attributes(file, wanted, which, info) < 0) fuse_reply_err(request, errno);
    else lockfs_getattr(request, file, info);
}

/* An open file begins; on one machine the kernel may keep what it has of the file. */
static void begin_open(int descriptor, fuse_ino_t file, struct fuse_file_info *info) {
    info->fh = (uint64_t)descriptor;
    if (lockfs_ways.opened) lockfs_ways.opened(file, info);
    else info->keep_cache = 1;
}

/* The kernel has followed links; what is appended is each write's to say, since F_SETFL changes that. */
static int open_flags(const struct fuse_file_info *info) { return (info->flags & ~(O_NOFOLLOW | O_APPEND)) | O_CLOEXEC; }

static void lockfs_open(fuse_req_t request, fuse_ino_t file, struct fuse_file_info *info) {
    if (is_listing(file)) {
        open_listing(request, info);
        return;
    }
    struct path path = path_of(file);
    int descriptor = open(path.text, open_flags(info));
    if (descriptor < 0) {
        fuse_reply_err(request, errno);
        return;
    }
    begin_open(descriptor, file, info);
    fuse_reply_open(request, info);
}

/* Takes the caller's place, where lockfs is root's, as far as what is made next is the caller's and obeys the folder's rules for him. */
static void act_as(fuse_req_t request) {
    static gid_t groups[NGROUPS_MAX];
    const struct fuse_ctx *caller = fuse_req_ctx(request);
    if (geteuid() != 0) return;
    int count = fuse_req_getgroups(request, NGROUPS_MAX, groups);
    setgroups(count < 0 ? 0 : (size_t)count, groups);
    setfsgid(caller->gid);
    setfsuid(caller->uid);
}

/* Is root again, who needs no other groups. */
static void act_as_root(void) {
    if (geteuid() != 0) return;
    int error = errno;
    setfsuid(0);
    setfsgid(getegid());
    setgroups(0, NULL);
    errno = error;
}

static void lockfs_create(fuse_req_t request, fuse_ino_t parent, const char *name, mode_t mode, struct fuse_file_info *info) {
    struct fuse_entry_param entry;
    act_as(request);
    int descriptor = openat(node_of(parent)->descriptor, name, open_flags(info) | O_CREAT, mode);
    act_as_root();
    if (descriptor < 0) {
        fuse_reply_err(request, errno);
        return;
    }
    int error = look_up(parent, name, &entry);
    if (error) {
        close(descriptor);
        fuse_reply_err(request, error);
        return;
    }
    begin_open(descriptor, entry.ino, info);
    fuse_reply_create(request, &entry, info);
}

static void lockfs_read(fuse_req_t request, fuse_ino_t file, size_t size, off_t from, struct fuse_file_info *info) {
    if (is_listing(file)) {
        read_listing(request, size, from, info);
        return;
    }
    struct fuse_bufvec buffer = FUSE_BUFVEC_INIT(size);
    buffer.buf[0].flags = FUSE_BUF_IS_FD | FUSE_BUF_FD_SEEK;
    buffer.buf[0].fd = (int)info->fh;
    buffer.buf[0].pos = from;
    fuse_reply_data(request, &buffer, FUSE_BUF_SPLICE_MOVE);
}

static void lockfs_write(fuse_req_t request, fuse_ino_t file, const char *bytes, size_t size, off_t to, struct fuse_file_info *info) {
    (void)file;
    const struct iovec part = {(void *)bytes, size};
    /* (where the file ends the kernel may not know: others write to the folder, too) */
    ssize_t written = pwritev2((int)info->fh, &part, 1, to, info->flags & O_APPEND ? RWF_APPEND : 0);
    if (written < 0) fuse_reply_err(request, errno);
    else fuse_reply_write(request, (size_t)written);
}

static void lockfs_fsync(fuse_req_t request, fuse_ino_t file, int data_alone, struct fuse_file_info *info) {
    (void)file;
    answer_call(request, data_alone ? fdatasync((int)info->fh) : fsync((int)info->fh));
}

static void lockfs_unlink(fuse_req_t request, fuse_ino_t parent, const char *name) {
    answer_call(request, unlinkat(node_of(parent)->descriptor, name, 0));
}

static void lockfs_rmdir(fuse_req_t request, fuse_ino_t parent, const char *name) {
    answer_call(request, unlinkat(node_of(parent)->descriptor, name, AT_REMOVEDIR));
}

/* Answers by what was made, or by the error number where it wasn't. */
static void answer_made(fuse_req_t request, fuse_ino_t parent, const char *name, int result) {
    if (result < 0) fuse_reply_err(request, errno);
    else lockfs_lookup(request, parent, name);
}

static void lockfs_mkdir(fuse_req_t request, fuse_ino_t parent, const char *name, mode_t mode) {
    act_as(request);
    int result = mkdirat(node_of(parent)->descriptor, name, mode);
    act_as_root();
    answer_made(request, parent, name, result);
}

/* (what mkfifo(3) asks for as well) */
static void lockfs_mknod(fuse_req_t request, fuse_ino_t parent, const char *name, mode_t mode, dev_t device) {
    act_as(request);
    int result = mknodat(node_of(parent)->descriptor, name, mode, device);
    act_as_root();
    answer_made(request, parent, name, result);
}

static void lockfs_symlink(fuse_req_t request, const char *target, fuse_ino_t parent, const char *name) {
    act_as(request);
    int result = symlinkat(target, node_of(parent)->descriptor, name);
    act_as_root();
    answer_made(request, parent, name, result);
}

static void lockfs_link(fuse_req_t request, fuse_ino_t file, fuse_ino_t parent, const char *name) {
    struct path path = path_of(file);
    answer_made(request, parent, name, linkat(AT_FDCWD, path.text, node_of(parent)->descriptor, name, AT_SYMLINK_FOLLOW));
}

static void lockfs_readlink(fuse_req_t request, fuse_ino_t file) {
    char target[4097];
    ssize_t size = readlinkat(node_of(file)->descriptor, "", target, sizeof target - 1);
    if (size < 0) {
        fuse_reply_err(request, errno);
        return;
    }
    target[size] = '\0';
    fuse_reply_readlink(request, target);
}

static void lockfs_rename(fuse_req_t request, fuse_ino_t from, const char *old, fuse_ino_t to, const char *new, unsigned flags) {
    answer_call(request, renameat2(node_of(from)->descriptor, old, node_of(to)->descriptor, new, flags));
}

static DIR *folder_of(const struct fuse_file_info *info) { return (DIR *)(uintptr_t)info->fh; }

static void lockfs_opendir(fuse_req_t request, fuse_ino_t file, struct fuse_file_info *info) {
    int descriptor = openat(node_of(file)->descriptor, ".", O_RDONLY | O_CLOEXEC);
    DIR *folder = descriptor < 0 ? NULL : fdopendir(descriptor);
    info->fh = (uintptr_t)folder;
    if (folder) {
        fuse_reply_open(request, info);
        return;
    }
    int error = errno;
    if (descriptor >= 0) close(descriptor);
    fuse_reply_err(request, error);
}

static void lockfs_readdir(fuse_req_t request, fuse_ino_t file, size_t size, off_t from, struct fuse_file_info *info) {
    (void)file;
    char *buffer = malloc(size);
    if (!buffer) {
        fuse_reply_err(request, ENOMEM);
        return;
    }
    size_t used = 0;
    struct dirent *found;
    seekdir(folder_of(info), from);
    while (errno = 0, found = readdir(folder_of(info))) {
        struct stat described = {.st_ino = found->d_ino, .st_mode = (mode_t)found->d_type << 12};
        size_t more = fuse_add_direntry(request, buffer + used, size - used, found->d_name, &described, found->d_off);
        if (more > size - used) break;
        used += more;
    }
    /* (what was read before an error is told first) */
    int error = !found && used == 0 ? errno : 0;
    if (error) fuse_reply_err(request, error);
    else fuse_reply_buf(request, buffer, used);
    free(buffer);
}

static void lockfs_fsyncdir(fuse_req_t request, fuse_ino_t file, int data_alone, struct fuse_file_info *info) {
    (void)file, (void)data_alone;
    answer_call(request, fsync(dirfd(folder_of(info))));
}

static void lockfs_releasedir(fuse_req_t request, fuse_ino_t file, struct fuse_file_info *info) {
    (void)file;
    answer_call(request, closedir(folder_of(info)));
}

static void lockfs_statfs(fuse_req_t request, fuse_ino_t file) {
    struct statvfs described;
    if (fstatvfs(node_of(file)->descriptor, &described) < 0) fuse_reply_err(request, errno);
    else fuse_reply_statfs(request, &described);
}

/* ---- The program */

static struct fuse_lowlevel_ops operations = {
    .lookup = lockfs_lookup, .forget = lockfs_forget, .getattr = lockfs_getattr, .setattr = lockfs_setattr,
    .open = lockfs_open, .create = lockfs_create, .read = lockfs_read, .write = lockfs_write, .fsync = lockfs_fsync,
    .unlink = lockfs_unlink, .mkdir = lockfs_mkdir, .mknod = lockfs_mknod, .rmdir = lockfs_rmdir, .rename = lockfs_rename, .symlink = lockfs_symlink,
    .link = lockfs_link, .readlink = lockfs_readlink, .opendir = lockfs_opendir, .readdir = lockfs_readdir,
    .fsyncdir = lockfs_fsyncdir, .releasedir = lockfs_releasedir, .statfs = lockfs_statfs,
    .flush = lockfs_flush, .release = lockfs_release,
    .getlk = lockfs_getlk, .setlk = lockfs_setlk, .flock = lockfs_flock,
};

/* What the command line says. */
struct command {
    bool in_foreground, by_kernel, for_all_users, is_witness;
    const char *log, *cluster, *grace, *fence, *folder, *mountpoint;
};

/* Reads a word that stands alone. */
static bool read_switch(const char *word, struct command *command) {
    if (!strcmp(word, "-f")) command->in_foreground = true;
    else if (!strcmp(word, "--kernel-locks")) command->by_kernel = true;
    else if (!strcmp(word, "--witness")) command->is_witness = true;
    else return false;
    return true;
}

/* Reads a word and what it asks for. */
static bool read_option(const char *word, const char *value, struct command *command) {
    if (!strcmp(word, "--log")) command->log = value;
    else if (!strcmp(word, "--cluster")) command->cluster = value;
    else if (!strcmp(word, "--grace")) command->grace = value;
    else if (!strcmp(word, "--fence")) command->fence = value;
    else if (!strcmp(word, "-o") && !strcmp(value, "allow_other")) command->for_all_users = true;
    else return false;
    return true;
}

/* Whether what is asked for goes together. */
static bool is_sound(const struct command *command) {
    char *end = "";
    if (command->grace && (strtoul(command->grace, &end, 10) == 0 || strtoul(command->grace, NULL, 10) > INT_MAX)) return false;
    if (*end || (command->cluster ? command->by_kernel : command->is_witness || command->grace || command->fence)) return false;
    return command->is_witness ? !command->folder && !command->log && !command->for_all_users : command->mountpoint != NULL;
}

static bool read_command(int count, char **words, struct command *command) {
    for (int at = 1; at < count; at++) {
        if (read_switch(words[at], command)) continue;
        if (at + 1 < count && read_option(words[at], words[at + 1], command)) at++;
        else if (words[at][0] == '-' || command->mountpoint) return false;
        else if (command->folder) command->mountpoint = words[at];
        else command->folder = words[at];
    }
    return is_sound(command);
}

/* ---- Several nodes */

#ifdef LOCKFS_CLUSTER
static bool prepare_cluster(const struct command *command, char **words) {
    (void)words;
    const struct cluster_options options = {.name = command->cluster, .grace = command->grace ? (unsigned)strtoul(command->grace, NULL, 10) : 0,
                                            .fence = command->fence, .in_foreground = command->in_foreground || command->is_witness};
    if (!cluster_prepare(&options)) return false;
    cluster_operations(&operations);
    return true;
}
#else
#define CLUSTER_PROGRAM "lockfs-cluster"
static bool cluster_begin(void) { return false; }
static void cluster_end(void) {}
static bool cluster_witness(void) { return false; }

/* Becomes the program beside this one that is built with corosync's libraries, which this one does without. */
static bool prepare_cluster(const struct command *command, char **words) {
    (void)command;
    char path[PATH_MAX];
    ssize_t size = readlink("/proc/self/exe", path, sizeof path - sizeof CLUSTER_PROGRAM);
    while (size > 0 && path[size - 1] != '/') size--;
    strcpy(path + (size < 0 ? 0 : size), CLUSTER_PROGRAM);
    execv(path, words);
    fprintf(stderr, "lockfs: --cluster: %s: %s (package dehokuna-cluster; it is built where corosync's libraries are)\n", path, strerror(errno));
    return false;
}
#endif

/* Prints the list of a mount; false where it has none. */
static bool print_list(const char *mountpoint) {
    char name[PATH_MAX];
    int size = snprintf(name, sizeof name, "%s/%s", mountpoint, LISTING_NAME);
    FILE *list = size < (int)sizeof name ? fopen(name, "re") : NULL;
    if (!list) {
        perror(mountpoint);
        return false;
    }
    char part[4096];
    for (size_t read; (read = fread(part, 1, sizeof part, list)) > 0;) fwrite(part, 1, read, stdout);
    bool is_whole = !ferror(list) && !fflush(stdout) && !ferror(stdout);
    fclose(list);
    return is_whole;
}

static bool serve(struct fuse_session *session, const struct command *command) {
    /* (absolute, since fuse_daemonize changes the working folder) */
    char *mountpoint = realpath(command->mountpoint, NULL);
    if (!mountpoint) perror(command->mountpoint);
    bool served = false;
    if (mountpoint && !fuse_set_signal_handlers(session)) {
        if (!fuse_session_mount(session, mountpoint)) {
            bool is_begun = !fuse_daemonize(command->in_foreground) && (!command->cluster || cluster_begin());
            /* (a signal that ended it is told by its number, an error by one below 0) */
            served = is_begun && fuse_session_loop(session) >= 0;
            fuse_session_unmount(session);
            if (is_begun && command->cluster) cluster_end();
        }
        fuse_remove_signal_handlers(session);
    }
    free(mountpoint);
    return served;
}

/* Nobody waits for an answer any more. */
static void free_waits(void) {
    struct dehokuna_waiting wait;
    uint64_t file;
    for (uint64_t from = 0; dehokuna_next_file(&server, from, &file); from = file + 1)
        for (uint64_t place = 0; dehokuna_wait_at(&server, file, place, &wait); place++) {
            fuse_reply_none(waiting_of(wait.ticket)->request);
            free(waiting_of(wait.ticket));
        }
}

static bool run(const char *name, const struct command *command) {
    char *words[] = {(char *)name, "-o", "default_permissions,fsname=lockfs,subtype=lockfs", "-o", "allow_other", NULL};
    struct fuse_args arguments = FUSE_ARGS_INIT(command->for_all_users ? 5 : 3, words);
    struct fuse_session *session = fuse_session_new(&arguments, &operations, sizeof operations, NULL);
    bool served = session && serve(session, command);
    free_waits();
    if (session) fuse_session_destroy(session);
    fuse_opt_free_args(&arguments);
    return served;
}

static void forget_node(void *node) {
    forget_askers(node, is_any, 0);
    close(((struct node *)node)->descriptor);
    free(node);
}

static int usage(void) {
    fprintf(stderr, "usage: lockfs [-f] [--kernel-locks] [--log FILE] [-o allow_other] FOLDER MOUNTPOINT\n"
                    "       lockfs --cluster NAME [--grace MS] [--fence COMMAND] [-f] [--log FILE] [-o allow_other] FOLDER MOUNTPOINT\n"
                    "       lockfs --cluster NAME --witness [--grace MS] [--fence COMMAND]\n"
                    "       lockfs --list MOUNTPOINT\n");
    return 2;
}

/* Whether the folder, the log and the table are there; else it is told what isn't. */
static bool prepare(const struct command *command) {
    struct stat described;
    root.descriptor = open(command->folder, O_PATH | O_DIRECTORY | O_CLOEXEC);
    if (root.descriptor < 0 || fstatat(root.descriptor, "", &described, AT_EMPTY_PATH)) {
        perror(command->folder);
        return false;
    }
    root.device = described.st_dev, root.inode = described.st_ino;
    refusals = command->log ? fopen(command->log, "ae") : NULL;
    if (command->log && !refusals) {
        perror(command->log);
        return false;
    }
    if (dehokuna_create(&server, DEHOKUNA_HELD | DEHOKUNA_ATOMIC)) return true;
    fprintf(stderr, "lockfs: no memory\n");
    return false;
}

int main(int count, char **words) {
    struct command command = {0};
    if (count == 3 && !strcmp(words[1], "--list")) return print_list(words[2]) ? 0 : 1;
    if (!read_command(count, words, &command)) return usage();
    if (command.cluster && !prepare_cluster(&command, words)) return 1;
    if (command.is_witness) return cluster_witness() ? 0 : 1;
    if (!prepare(&command)) return 1;
    if (command.by_kernel) operations.getlk = NULL, operations.setlk = NULL, operations.flock = NULL;
    struct rlimit files;
    if (!getrlimit(RLIMIT_NOFILE, &files)) files.rlim_cur = files.rlim_max, setrlimit(RLIMIT_NOFILE, &files);
    umask(0);
    bool served = run(words[0], &command);
    tdestroy(nodes, forget_node);
    dehokuna_destroy(&server);
    if (refusals) fclose(refusals);
    close(root.descriptor);
    return served ? 0 : 1;
}
