#define _GNU_SOURCE
#include "file_calls.h"
#include "askers.h"
#include "clock.h"
#include "threads.h"
#include <errno.h>
#include <fcntl.h>
#include <linux/magic.h>
#include <sys/vfs.h>

enum {
    FRESH = 600, /* who holds a lock reads and writes only where members with a majority were seen within so many milliseconds, or half the grace */
    GFS2_MAGIC = 0x01161970
};

static unsigned grace;
static bool is_in_file; /* the thread of the file system reads or writes */

/* Whether this node was in the view a moment ago; a node that hung, or whose corosync hangs, doesn't know what came meanwhile. */
static bool is_fresh(void) {
    uint64_t age = milliseconds_now() - replica_seen(), most = grace / 2 < FRESH ? grace / 2 : FRESH;
    if (age > most / 2) replica_beat();
    return age < most;
}

/* Whether the view is needed: something is held by the open file or its process, or it is a change and anyone holds something. */
static bool needs_view(const struct open_file *open, const struct fuse_file_info *info, bool is_change) {
    if (standing_now() == STANDING_IN_VIEW) {
        if (is_change || !open) return anyone_asked();
        return open->askers || asker_of(open->inode, find_owner(info->lock_owner), false);
    }
    if (is_change && anyone_holds()) return true;
    for (const struct asker *asker = open ? open->askers : NULL; asker; asker = asker->next)
        if (asker->holds) return true;
    const struct asker *asker = open ? asker_of(open->inode, find_owner(info->lock_owner), false) : NULL;
    return asker && asker->holds;
}

static bool is_refused(const struct open_file *open, const struct fuse_file_info *info, bool is_change) {
    if (standing_now() == STANDING_WITHDRAWN || (is_change && any_is_lost()) || (open && open->is_lost)) return true;
    const struct asker *asker = open ? asker_of(open->inode, find_owner(info->lock_owner), false) : NULL;
    return (asker && asker->is_lost) || (standing_now() == STANDING_NO_VIEW && needs_view(open, info, is_change));
}

/* Whether the file may be read, or something be changed; until `end_file` this node then doesn't withdraw. Where that can't be said yet, as the ring
 * has changed, it waits. false: it is answered, EIO. */
static bool begin_file(fuse_req_t request, const struct fuse_file_info *info, bool is_change) {
    take_turn();
    struct open_file *open = info ? find_open_file(info->fh) : NULL;
    bool refused;
    while (!(refused = is_refused(open, info, is_change)) && needs_view(open, info, is_change) && (standing_now() != STANDING_IN_VIEW || !is_fresh()))
        wait_for_beat();
    end_wait_for_beat();
    is_in_file = !refused;
    give_turn();
    if (refused) fuse_reply_err(request, EIO);
    return !refused;
}

static void end_file(void) {
    take_turn();
    is_in_file = false;
    if (standing_now() == STANDING_WITHDRAWN) tell_change();
    give_turn();
}

/* The operations of one machine, which these ask before. */
static struct fuse_lowlevel_ops plain;
enum { READS = false, CHANGES = true };
#define ASK(request, info, is_change, call) \
    do { \
        if (!begin_file(request, info, is_change)) return; \
        call; \
        end_file(); \
    } while (0)

static void cluster_read(fuse_req_t request, fuse_ino_t file, size_t size, off_t from, struct fuse_file_info *info) {
    if (is_listing(file)) plain.read(request, file, size, from, info);
    else ASK(request, info, READS, plain.read(request, file, size, from, info));
}
static void cluster_write(fuse_req_t request, fuse_ino_t file, const char *bytes, size_t size, off_t to, struct fuse_file_info *info) {
    ASK(request, info, CHANGES, plain.write(request, file, bytes, size, to, info));
}
static void cluster_fsync(fuse_req_t request, fuse_ino_t file, int data_alone, struct fuse_file_info *info) {
    ASK(request, info, READS, plain.fsync(request, file, data_alone, info));
}
static void cluster_setattr(fuse_req_t request, fuse_ino_t file, struct stat *wanted, int which, struct fuse_file_info *info) {
    ASK(request, info, CHANGES, plain.setattr(request, file, wanted, which, info));
}
static void cluster_open(fuse_req_t request, fuse_ino_t file, struct fuse_file_info *info) {
    if (info->flags & O_TRUNC) ASK(request, NULL, CHANGES, plain.open(request, file, info));
    else plain.open(request, file, info);
}
static void cluster_create(fuse_req_t request, fuse_ino_t parent, const char *name, mode_t mode, struct fuse_file_info *info) {
    ASK(request, NULL, CHANGES, plain.create(request, parent, name, mode, info));
}
static void cluster_unlink(fuse_req_t request, fuse_ino_t parent, const char *name) { ASK(request, NULL, CHANGES, plain.unlink(request, parent, name)); }
static void cluster_rmdir(fuse_req_t request, fuse_ino_t parent, const char *name) { ASK(request, NULL, CHANGES, plain.rmdir(request, parent, name)); }
static void cluster_mkdir(fuse_req_t request, fuse_ino_t parent, const char *name, mode_t mode) {
    ASK(request, NULL, CHANGES, plain.mkdir(request, parent, name, mode));
}
static void cluster_mknod(fuse_req_t request, fuse_ino_t parent, const char *name, mode_t mode, dev_t device) {
    ASK(request, NULL, CHANGES, plain.mknod(request, parent, name, mode, device));
}
static void cluster_symlink(fuse_req_t request, const char *target, fuse_ino_t parent, const char *name) {
    ASK(request, NULL, CHANGES, plain.symlink(request, target, parent, name));
}
static void cluster_link(fuse_req_t request, fuse_ino_t file, fuse_ino_t parent, const char *name) {
    ASK(request, NULL, CHANGES, plain.link(request, file, parent, name));
}
static void cluster_rename(fuse_req_t request, fuse_ino_t from, const char *old, fuse_ino_t to, const char *new, unsigned flags) {
    ASK(request, NULL, CHANGES, plain.rename(request, from, old, to, new, flags));
}

/* ---- Open files */

static bool has_handles(int descriptor) {
    struct statfs described;
    if (fstatfs(descriptor, &described)) return false;
    switch ((unsigned long)described.f_type) {
    case EXT4_SUPER_MAGIC: case XFS_SUPER_MAGIC: case BTRFS_SUPER_MAGIC: case TMPFS_MAGIC: case OCFS2_SUPER_MAGIC: case GFS2_MAGIC: return true;
    default: return false;
    }
}

/* What tells a file from one that had its inode number before: a digest of the file's handle, of file systems whose handles are the same on all
 * nodes; else 0. */
static uint64_t generation_of(int descriptor) {
    union {
        struct file_handle handle;
        char room[sizeof(struct file_handle) + MAX_HANDLE_SZ];
    } known = {.handle.handle_bytes = MAX_HANDLE_SZ};
    int mount;
    if (!has_handles(descriptor) || name_to_handle_at(descriptor, "", &known.handle, &mount, AT_EMPTY_PATH)) return 0;
    return digest_on(EMPTY_DIGEST, known.handle.f_handle, known.handle.handle_bytes);
}

/* Files are read and written around the page cache, so that a node sees what another one wrote under a lock. */
void file_opened(fuse_ino_t file, struct fuse_file_info *info) {
    uint64_t generation = generation_of(descriptor_of_file(file));
    take_turn();
    add_open_file(info->fh, inode_of_file(file), generation);
    give_turn();
    info->direct_io = 1;
}

/* ---- For who uses it */

void file_operations(struct fuse_lowlevel_ops *operations, unsigned given_grace) {
    plain = *operations, grace = given_grace;
    operations->read = cluster_read, operations->write = cluster_write, operations->fsync = cluster_fsync;
    operations->setattr = cluster_setattr, operations->open = cluster_open, operations->create = cluster_create;
    operations->unlink = cluster_unlink, operations->rmdir = cluster_rmdir, operations->mkdir = cluster_mkdir, operations->mknod = cluster_mknod;
    operations->symlink = cluster_symlink, operations->link = cluster_link, operations->rename = cluster_rename;
}

void wait_for_end_of_file_call(void) {
    while (is_in_file) wait_for_change();
}
