/* Who is in the ring and in the group, as corosync tells. */
#ifndef MEMBERSHIP_H
#define MEMBERSHIP_H
#include "group.h"

struct membership {
    struct ring_id ring;
    bool has_ring;
    uint32_t nodes[MOST_NODES]; /* of the ring */
    unsigned node_count;
    struct member members[MOST_NODES]; /* of the group, by node */
    unsigned count;
};

void change_ring(struct membership *there, struct ring_id ring, const uint32_t *nodes, unsigned count);
void change_members(struct membership *there, const struct member *members, unsigned count);
bool is_in_ring(const struct membership *there, uint32_t node);
bool is_member(const struct membership *there, struct member member);
bool is_member_node(const struct membership *there, uint32_t node);
/* Two members are of the node. */
bool is_there_twice(const struct membership *there, uint32_t node);
/* How many members are of lower nodes than this one, which is a member. */
unsigned rank_of_member(const struct membership *there, uint32_t node);
/* Whether the members' nodes have a majority of the expected votes, as far as this node knows. */
bool has_majority(const struct membership *there, const struct settings *settings);
/* A digest of the members. */
uint64_t digest_of_members(const struct membership *there);
#endif
