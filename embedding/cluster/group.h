/* The process group: who is in it, and messages that all members are delivered in one order. Corosync's CPG does all of this. */
#ifndef GROUP_H
#define GROUP_H
#include "bytes.h"
#include "settings.h"

struct member {
    uint32_t node, process;
};

struct ring_id {
    uint64_t number;
    uint32_t node; /* its representative */
};

struct group_calls {
    void (*delivered)(struct member sender, const uint8_t *bytes, size_t size);
    /* The members as they are now, by node. */
    void (*members_changed)(const struct member *members, unsigned count);
    /* What was delivered before is all that is delivered of the ring before. */
    void (*ring_changed)(struct ring_id ring, const uint32_t *nodes, unsigned count);
};

/* false: there is no corosync, or it doesn't let us in. */
bool group_join(const char *name, const struct group_calls *calls);
/* The others see that this process is gone. */
void group_leave(void);
int group_descriptor(void);
/* Calls what there is to call, until nothing is left. false: corosync is gone, or this process isn't in the group any more. */
bool group_dispatch(void);
/* Sends a message to all, behind what was sent before. What corosync doesn't take now is kept. */
void group_send(const struct bytes *message);
/* Sends what was kept, as far as corosync takes it; whether something still is. */
bool group_flush(void);
#endif
