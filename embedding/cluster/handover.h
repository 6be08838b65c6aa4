/* The state on its way from the member that gives it to those that take it: in parts, and with what is delivered meanwhile. */
#ifndef HANDOVER_H
#define HANDOVER_H
#include "bytes.h"
#include "cluster_view.h"
#include "group.h"

/* A message that was delivered while the state was on its way. */
struct heard {
    struct heard *next;
    struct member sender;
    size_t size;
    uint8_t bytes[];
};

/* What a part of the state makes of what came before. */
enum handed_over { HANDED_OVER_IN_PART, HANDED_OVER_WHOLE, HANDED_OVER_WITH_A_HOLE };

/* Sends the state to the members of the view. */
void handover_give(const struct bytes *state, struct cluster_view_number view);
/* The state is on its way to this node; or not, and what came of it is forgotten. */
void handover_begin(void);
void handover_end(void);
bool handover_is_under_way(void);
enum handed_over handover_hear(struct reader *part);
/* What came of the state, to be freed by who takes it; it isn't under way any more. */
struct bytes handover_take(void);
/* Keeps a message for later, and gives the first one that was kept, to be freed; NULL: there is none. */
void handover_keep(struct member sender, const uint8_t *bytes, size_t size);
struct heard *handover_next(void);
#endif
