#include "decision.h"
#include "state.h"

struct decision decide_round(const struct round *round, const struct membership *there) {
    struct decision decision = {0};
    uint16_t giver = 0;
    decision.outcome = cluster_view_decide(there->ring.number, round->hellos, there->count, decision.parts, there->count, &decision.view, &giver);
    return decision;
}

bool has_view(const struct decision *decision) { return decision->outcome <= CLUSTER_VIEW_BEGINS; }

enum cluster_view_part part_of(const struct decision *decision, const struct membership *there, uint16_t node) {
    return decision->parts[rank_of_member(there, node)];
}

bool is_state_given(const struct decision *decision, const struct membership *there) {
    for (unsigned at = 0; at < there->count; at++)
        if (decision->parts[at] == CLUSTER_VIEW_TAKES || decision->parts[at] == CLUSTER_VIEW_CATCHES_UP) return true;
    return false;
}

static unsigned nodes_of_ring(const struct decision *decision, const struct membership *there, const struct settings *settings, struct ring_node *nodes) {
    unsigned count = 0;
    for (unsigned at = 0; at < settings->count; at++) {
        uint16_t node = settings->nodes[at].node;
        if (!is_in_ring(there, node)) continue;
        bool is_there = is_member_node(there, node);
        enum cluster_view_part part = is_there ? part_of(decision, there, node) : CLUSTER_VIEW_TAKES;
        nodes[count++] = (struct ring_node){node, is_there, part == CLUSTER_VIEW_TAKES || part == CLUSTER_VIEW_BEGINS_ANEW};
    }
    return count;
}

void put_entry_of_view(struct bytes *entry, const struct decision *decision, const struct membership *there, const struct settings *settings) {
    struct ring_node nodes[MOST_NODES];
    put_view_entry(entry, decision->view, nodes, nodes_of_ring(decision, there, settings, nodes));
}

const char *outcome_told(const struct decision *decision) {
    static const char *const told[] = {
        [CLUSTER_VIEW_GOES_ON] = "the view goes on",
        [CLUSTER_VIEW_BEGINS] = "the view begins with no locks",
        [CLUSTER_VIEW_NODE_TWICE] = "a node is there twice",
        [CLUSTER_VIEW_VERSIONS_DIFFER] = "versions of lockfs differ",
        [CLUSTER_VIEW_VOTES_DIFFER] = "votes, expected votes or nodes differ among the members, or from those that the state began with",
        [CLUSTER_VIEW_TOO_FEW_VOTES] = "the members have no majority of the expected votes",
        [CLUSTER_VIEW_RING_NOT_RISEN] = "a member knows a later ring",
        [CLUSTER_VIEW_DIVERGED] = "tables differ"};
    return told[decision->outcome];
}

const char *part_told(enum cluster_view_part part) {
    static const char *const told[] = {
        [CLUSTER_VIEW_SUSPENDED] = "is suspended",
        [CLUSTER_VIEW_WITHDRAWS] = "withdraws",
        [CLUSTER_VIEW_BEGINS_ANEW] = "begins with no locks",
        [CLUSTER_VIEW_TAKES] = "loses its locks and takes the state",
        [CLUSTER_VIEW_CATCHES_UP] = "takes the rest of the state",
        [CLUSTER_VIEW_HAS_ALL] = "goes on",
        [CLUSTER_VIEW_GIVES] = "goes on"};
    return told[part];
}
