/* The file system's requests for locks, as calls on the cluster's table; and closes, which let go. */
#ifndef LOCK_CALLS_H
#define LOCK_CALLS_H
#include "../lockfs/lockfs.h"
#include "requests.h"

/* Puts these in the place of the operations of one machine. */
void lock_operations(struct fuse_lowlevel_ops *operations);
/* For the replica (own.h): a request is over; and whether one may be asked anew. */
void lock_answered(void *who, const struct call *call, int error, const struct dehokuna_blocker *blocker);
bool may_ask_anew(void *who, const struct call *call);
void clear_asks(void);
#endif
