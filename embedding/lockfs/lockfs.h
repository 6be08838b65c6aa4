/* What of lockfs its part for several nodes uses (embedding/cluster), and what that offers. */
#ifndef LOCKFS_H
#define LOCKFS_H
#define FUSE_USE_VERSION 35
#include "dehokuna.h"
#include <fcntl.h>
#include <fuse_lowlevel.h>
#include <stdbool.h>
#include <stdio.h>
#include <sys/types.h>

/* A request for a lock, as the log tells it. */
struct asked {
    fuse_ino_t file;
    pid_t thread;
    char words[64];
};

struct asked asked_for_bytes(fuse_req_t request, fuse_ino_t file, const char *call, const struct flock *lock);
struct asked asked_by_flock(fuse_req_t request, fuse_ino_t file, int operation);
/* Adds the refusal to the log, where there is one. */
void log_refusal(const struct asked *asked, int error);

/* What the kernel's words of a lock are to the library: the last byte, the mode of a byte lock and of flock(2), and the lock that blocks (NULL: none
 * does), whose owner's process is `pid`. */
uint64_t last_of(const struct flock *lock);
uint32_t mode_of(short type);
uint32_t mode_of_flock(int operation);
struct flock blocker_told(const struct dehokuna_blocker *blocker, pid_t pid);

/* The file's inode, and a descriptor of it by O_PATH. */
ino_t inode_of_file(fuse_ino_t file);
int descriptor_of_file(fuse_ino_t file);
/* Prints the file's name below the folder; a file that the kernel knows not here is told by its inode. */
void print_file_name(FILE *out, ino_t inode);
bool is_listing(fuse_ino_t file);

/* What lockfs does otherwise on several nodes; all NULL on one. */
struct lockfs_ways {
    /* An open file begins, whose descriptor is `info->fh`; it may say how the kernel is to cache it. */
    void (*opened)(fuse_ino_t file, struct fuse_file_info *info);
    /* Prints the list of locks and waits. */
    void (*print_list)(FILE *out);
};
extern struct lockfs_ways lockfs_ways;
#endif
