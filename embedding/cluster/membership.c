#include "membership.h"
#include <string.h>

void change_ring(struct membership *there, struct ring_id ring, const uint32_t *nodes, unsigned count) {
    there->ring = ring, there->has_ring = true;
    there->node_count = count < MOST_NODES ? count : MOST_NODES;
    memcpy(there->nodes, nodes, there->node_count * sizeof *nodes);
}

void change_members(struct membership *there, const struct member *members, unsigned count) {
    memcpy(there->members, members, count * sizeof *members);
    there->count = count;
}

bool is_in_ring(const struct membership *there, uint32_t node) {
    for (unsigned at = 0; at < there->node_count; at++)
        if (there->nodes[at] == node) return true;
    return false;
}

bool is_member(const struct membership *there, struct member member) {
    for (unsigned at = 0; at < there->count; at++)
        if (there->members[at].node == member.node && there->members[at].process == member.process) return true;
    return false;
}

bool is_member_node(const struct membership *there, uint32_t node) {
    for (unsigned at = 0; at < there->count; at++)
        if (there->members[at].node == node) return true;
    return false;
}

bool is_there_twice(const struct membership *there, uint32_t node) {
    for (unsigned at = 1; at < there->count; at++)
        if (there->members[at].node == there->members[at - 1].node && there->members[at].node == node) return true;
    return false;
}

unsigned rank_of_member(const struct membership *there, uint32_t node) {
    unsigned rank = 0;
    while (rank < there->count && there->members[rank].node != node) rank++;
    return rank;
}

bool has_majority(const struct membership *there, const struct settings *settings) {
    uint64_t votes = 0;
    for (unsigned at = 0; at < settings->count; at++)
        if (is_member_node(there, settings->nodes[at].node)) votes += settings->nodes[at].votes;
    return 2 * votes > settings->expected;
}

uint64_t digest_of_members(const struct membership *there) {
    struct bytes listed = {0};
    for (unsigned at = 0; at < there->count; at++) {
        put_number(&listed, there->members[at].node, 4);
        put_number(&listed, there->members[at].process, 4);
    }
    uint64_t digest = digest_on(EMPTY_DIGEST, listed.at, listed.size);
    free_bytes(&listed);
    return digest;
}
