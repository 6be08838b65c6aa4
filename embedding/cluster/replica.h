/* A lock table that is one on all nodes of a corosync cluster. docs/CLUSTER.md has its rules; in short:
 *
 * - A call is a message of a process group. Each member keeps what it is delivered in a log, and acknowledges it. What members with a majority of
 *   the expected votes acknowledged is applied to the table, and then told to whoever asked. An unlock is told as it is delivered.
 * - At each change of the ring or the group all members say HELLO, and when all have, they decide alike (cluster_view.h): a view, which goes
 *   on from a state that a majority has, or begins with none; or none at all.
 * - When the ring changes, what no acknowledgement of it vouches for is dropped, and sent again by who sent it.
 * - A node that went is purged by an ordered message: with the view where its process ended, and after a grace where it fell silent.
 *
 * One thread makes all of these calls. */
#ifndef REPLICA_H
#define REPLICA_H
#include "own.h"
#include "settings.h"
#include <stdio.h>

enum standing {
    STANDING_UNDECIDED, /* a ring or a group has changed, and there isn't a view yet */
    STANDING_NO_VIEW,   /* who holds a lock may neither read nor write */
    STANDING_IN_VIEW,
    STANDING_WITHDRAWN  /* for good: this node isn't in the group any more */
};

struct replica_options {
    const char *group;
    unsigned grace;    /* milliseconds until the locks of a node that fell silent go */
    unsigned patience; /* milliseconds until a node whose process says no HELLO is thrown out of the ring */
    const char *fence; /* NULL: none */
};

struct replica_calls {
    struct own_calls own;
    void (*stands)(enum standing standing);
    void (*say)(const char *format, ...);
};

/* false: it is told what is wrong. */
bool replica_open(const struct settings *settings, const struct replica_options *options, const struct replica_calls *calls);
/* Leaves the group: the locks of this node go at once. */
void replica_close(void);
/* A descriptor to poll for input, and the milliseconds until `replica_work` is to be called at the latest, or -1. */
int replica_descriptor(void);
int replica_timeout(void);
/* Does what there is to do. false: this node has withdrawn. */
bool replica_work(void);
struct request *replica_submit(const struct call *call, void *who);
/* A signal came while the request stood. */
void replica_interrupt(void *who, struct request *request);
/* A number for an owner or an open file that no other one of the cluster has. */
uint64_t replica_number(void);
/* The clock's milliseconds (clock.h) after which members with a majority were in the view with this node: a request was sent then that they
 * acknowledged. */
uint64_t replica_seen(void);
/* Sends a request so that it is seen anew. */
void replica_beat(void);
/* For people, a line. */
void replica_describe(FILE *out);
#endif
