/* The file system's operations that read or change something: who holds a lock does so only where this node's view is known to stand, and who lost
 * one is told EIO. */
#ifndef FILE_CALLS_H
#define FILE_CALLS_H
#include "../lockfs/lockfs.h"

/* Puts these in the place of the operations of one machine, which they ask before; the grace is in milliseconds. */
void file_operations(struct fuse_lowlevel_ops *operations, unsigned grace);
/* An open file begins (lockfs.h). */
void file_opened(fuse_ino_t file, struct fuse_file_info *info);
/* Waits, with the turn, until the file system's thread reads and writes no more. */
void wait_for_end_of_file_call(void);
#endif
