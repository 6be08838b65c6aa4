/* A call on the lock table as it is sent and kept: which one, for whom, on what. */
#ifndef REQUESTS_H
#define REQUESTS_H
#include "bytes.h"
#include <stdbool.h>
#include <stdint.h>

enum op { OP_GET = 1, OP_SET, OP_WAIT, OP_CANCEL, OP_FLUSH, OP_FLOCK, OP_FLOCK_WAIT, OP_RELEASE, OP_BEAT };
enum { FLAG_DETECT = 1, FLAG_HAS_OWNER = 2 };

/* Numbers of requests, owners and open files have their node in the upper 16 bits. A request's number is above those that its process gave
 * before, and is the ticket of its wait. For OP_CANCEL `first` is the ticket of the wait that ends. OP_BEAT changes nothing: its application shows that
 * members with a majority were there after it was sent. */
struct call {
    uint8_t op, mode, flags;
    uint64_t number, file, generation, owner, first, last, open_file;
};

enum { NODE_SHIFT = 48 };
#define LARGEST_COUNT ((UINT64_C(1) << NODE_SHIFT) - 1)
static inline uint16_t node_of_number(uint64_t number) { return (uint16_t)(number >> NODE_SHIFT); }
static inline uint64_t number_of(uint16_t node, uint64_t count) { return (uint64_t)node << NODE_SHIFT | (count & LARGEST_COUNT); }

void put_call(struct bytes *bytes, const struct call *call);
struct call get_call(struct reader *reader);
/* Whether it is asked for a lock; else it is looked, cancelled, or something is let go. */
bool asks_for_lock(const struct call *call);
/* Whether something is let go, which never fails. */
bool lets_go(const struct call *call);
#endif
