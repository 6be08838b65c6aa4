/* Messages of the group, and what a member says as the ring or the group changes, as bytes. */
#ifndef HELLO_H
#define HELLO_H
#include "bytes.h"
#include "cluster_view.h"

enum { PROTOCOL_VERSION = 1 };
enum message_kind { MESSAGE_HELLO = 1, MESSAGE_REQUEST, MESSAGE_PURGE, MESSAGE_ACKNOWLEDGEMENT, MESSAGE_STATE };

/* The round of HELLOs that one is of: the ring, and a digest of the group's members. */
struct round_id {
    uint64_t ring, members;
    uint32_t ring_node;
};

void put_head(struct bytes *bytes, enum message_kind kind, struct cluster_view_number view);
/* false: it is a message of another protocol. */
bool get_head(struct reader *reader, enum message_kind *kind, struct cluster_view_number *view);
void put_hello(struct bytes *bytes, const struct round_id *round, const struct cluster_view_hello *hello);
bool get_hello(struct reader *reader, struct round_id *round, struct cluster_view_hello *hello);
void put_view_number(struct bytes *bytes, struct cluster_view_number view);
struct cluster_view_number get_view_number(struct reader *reader);
void put_electorate(struct bytes *bytes, struct cluster_view_electorate electorate);
struct cluster_view_electorate get_electorate(struct reader *reader);
#endif
