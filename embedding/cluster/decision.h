/* What the HELLOs of a round come to (cluster_view.h): for each member, and for each node of the ring. */
#ifndef DECISION_H
#define DECISION_H
#include "round.h"

struct decision {
    uint32_t outcome;
    struct cluster_view_number view;
    uint8_t parts[MOST_NODES]; /* by the members' order */
};

/* All members have said HELLO, so all decide alike. */
struct decision decide_round(const struct round *round, const struct membership *there);
bool has_view(const struct decision *decision);
enum cluster_view_part part_of(const struct decision *decision, const struct membership *there, uint16_t node);
/* Whether some member is given the state. */
bool is_state_given(const struct decision *decision, const struct membership *there);
/* The view's first entry. */
void put_entry_of_view(struct bytes *entry, const struct decision *decision, const struct membership *there, const struct settings *settings);
/* For people: why there is no view, or what a member does in it. */
const char *outcome_told(const struct decision *decision);
const char *part_told(enum cluster_view_part part);
#endif
