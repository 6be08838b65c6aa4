/* cluster_view.h: what the members of a ring decide from what each of them said as the ring or the group changed. */
#ifndef CLUSTER_VIEW_H
#define CLUSTER_VIEW_H
#include <stdbool.h>
#include <stddef.h>
#include <stdint.h>

/* The number of a view: the ring's, and a count within the ring. Compared in this order. All zero: none. */
struct cluster_view_number { uint64_t ring, count; };

/* How long a log is, or how much of it was applied, and a digest: of the log; of the table's export there. */
struct cluster_view_mark { uint64_t length, digest; };

/* The votes of all nodes: how many are expected, and a digest of the votes of each node of the configuration. */
struct cluster_view_electorate { uint64_t digest; uint32_t expected; };

/* A state that a member has. */
struct cluster_view_state {
    struct cluster_view_number view;             /* the view that it is of */
    struct cluster_view_mark log;                /* all of the log, after what is dropped was dropped */
    struct cluster_view_mark applied;            /* what the table has of it, and the digest of `dehokuna_export` there */
    struct cluster_view_electorate electorate;   /* the votes that the state has, from where it began */
};

/* What a member says as the ring or the group changes. */
struct cluster_view_hello {
    struct cluster_view_state state;             /* all zero where it has none */
    struct cluster_view_number known;            /* the latest view that this process decided, with a state or without; 0, 0 at its start */
    struct cluster_view_electorate electorate;   /* as its configuration has them now */
    uint32_t votes;                              /* of this node */
    uint32_t table_version, protocol_version;
    uint16_t node;
    bool has_state;
};

/* What the ring comes to. 3 and above: there is no view, and why. */
enum cluster_view_outcome {
    CLUSTER_VIEW_GOES_ON = 0,         /* the view goes on from the giver's state */
    CLUSTER_VIEW_BEGINS = 1,          /* the view begins with none: all lose their locks, and each node that is away is waited for */
    CLUSTER_VIEW_NODE_TWICE = 3,      /* two HELLOs of one node, or more than 65,536 of them */
    CLUSTER_VIEW_VERSIONS_DIFFER = 4, /* versions of the table or of the protocol differ */
    CLUSTER_VIEW_VOTES_DIFFER = 5,    /* expected votes or the digest of the votes differ, among HELLOs or from a state */
    CLUSTER_VIEW_TOO_FEW_VOTES = 6,   /* the members have no majority of the expected votes */
    CLUSTER_VIEW_RING_NOT_RISEN = 7,  /* a HELLO knows of a view of a later ring, or of the last that this ring can count */
    CLUSTER_VIEW_DIVERGED = 8         /* tables or logs differ that can't: those whose part is CLUSTER_VIEW_WITHDRAWS leave the group */
};

/* What a member does. */
enum cluster_view_part {
    CLUSTER_VIEW_SUSPENDED = 0,  /* no view: it keeps what it has, and its holders get EIO as long as there is none */
    CLUSTER_VIEW_WITHDRAWS = 1,  /* its table differs from others', and no majority of those who applied as many has it: it leaves the group */
    CLUSTER_VIEW_BEGINS_ANEW = 2,/* it loses its locks and begins with none */
    CLUSTER_VIEW_TAKES = 3,      /* it loses its locks and takes the giver's state; until that has come it has none */
    CLUSTER_VIEW_CATCHES_UP = 4, /* it keeps its locks, and takes the end of the log that it lacks (or the whole state); until that has come
                                    its HELLO tells what it has now, with its old view, and it acknowledges nothing */
    CLUSTER_VIEW_HAS_ALL = 5,    /* it has the state to go on from */
    CLUSTER_VIEW_GIVES = 6       /* the same, and it gives it to who takes: the least node of those */
};

/* Decides. `parts` has one byte for each HELLO, enum cluster_view_part. `view` and `giver` are written where there is a view (the giver of
 * one that begins is 0). Same HELLOs, in whatever order: same outcome, view and giver, and the same part for each node. */
uint32_t cluster_view_decide(uint64_t ring, const struct cluster_view_hello *hellos, size_t count, uint8_t *parts, size_t parts_count,
                             struct cluster_view_number *view, uint16_t *giver);

/* A node of the configuration, and whether it is in the ring (of Totem, whether or not a lockfs runs there). */
struct cluster_view_seat { uint16_t node; bool in_ring; };

enum cluster_view_presence {
    CLUSTER_VIEW_MEMBER = 0,   /* it said HELLO */
    CLUSTER_VIEW_DEAD = 1,     /* in the ring, no process in the group: its mount is dead, and it is purged at once as the view begins */
    CLUSTER_VIEW_AWAY = 2,     /* not in the ring: it is purged after the grace (and the fence) */
    CLUSTER_VIEW_AWAITED = 3   /* the same, and the view has no state before that purge was delivered */
};

/* Tells of each node what it is to the view; `begins`: the outcome was CLUSTER_VIEW_BEGINS. */
void cluster_view_presences(const struct cluster_view_hello *hellos, size_t count, const struct cluster_view_seat *seats, size_t seats_count,
                            bool begins, uint8_t *presences, size_t presences_count);
#endif
