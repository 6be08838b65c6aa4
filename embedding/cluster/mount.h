/* lockfs on several nodes: its locks are those of a cluster's table (replica.h), and who lost a lock is told EIO.
 *
 * A file is its inode's number, the same on all nodes, so the folder is one file system. The kernel's numbers of owners are 64 bits of this
 * node's choice, so each is given a number with the node in it as long as it has asked for a lock. */
#ifndef MOUNT_H
#define MOUNT_H
#include "../lockfs/lockfs.h"

struct cluster_options {
    const char *name;      /* of the group; NULL: one machine */
    unsigned grace;        /* milliseconds; 0: by corosync's times */
    const char *fence;     /* NULL: none */
    bool in_foreground;
};

/* Reads the cluster's settings; false: it is told what is wrong, as a grace that is too short. To be called before the program becomes a daemon,
 * and `cluster_begin` behind it. */
bool cluster_prepare(const struct cluster_options *options);
/* Puts the cluster's operations in the place of those that lock, read or change something. */
void cluster_operations(struct fuse_lowlevel_ops *operations);
/* Joins the group. false: it can't. */
bool cluster_begin(void);
/* Leaves the group; the locks of this node go at once. */
void cluster_end(void);
/* Is a member until a SIGTERM or SIGINT comes. false: it had to withdraw. */
bool cluster_witness(void);
#endif
