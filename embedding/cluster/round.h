/* A round of HELLOs: at each change of the ring or of the group all members say one, and when all have, they decide. */
#ifndef ROUND_H
#define ROUND_H
#include "hello.h"
#include "membership.h"

struct round {
    bool is_new; /* this node's HELLO isn't said yet */
    struct cluster_view_hello hellos[MOST_NODES]; /* by the members' order */
    bool has_hello[MOST_NODES];
    uint64_t patient_until; /* the clock's milliseconds; 0: nobody is waited for */
};

void begin_round(struct round *round, unsigned patience);
/* What this node says beside its state: `known` is the last view that it knows. false: votequorum doesn't tell its votes now. */
bool make_hello(struct cluster_view_hello *hello, const struct settings *settings, struct cluster_view_number known);
void send_hello(const struct cluster_view_hello *hello, const struct membership *there);
/* false: it is of another round, and passed over. */
bool hear_hello(struct round *round, const struct membership *there, struct member sender, struct reader *reader);
bool has_all_hellos(const struct round *round, const struct membership *there);
#endif
