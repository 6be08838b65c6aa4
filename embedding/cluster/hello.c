#include "hello.h"

void put_view_number(struct bytes *bytes, struct cluster_view_number view) {
    put_number(bytes, view.ring, 8);
    put_number(bytes, view.count, 8);
}

struct cluster_view_number get_view_number(struct reader *reader) {
    uint64_t ring = get_number(reader, 8), count = get_number(reader, 8);
    return (struct cluster_view_number){ring, count};
}

void put_electorate(struct bytes *bytes, struct cluster_view_electorate electorate) {
    put_number(bytes, electorate.digest, 8);
    put_number(bytes, electorate.expected, 4);
}

struct cluster_view_electorate get_electorate(struct reader *reader) {
    uint64_t digest = get_number(reader, 8);
    return (struct cluster_view_electorate){digest, (uint32_t)get_number(reader, 4)};
}

static void put_mark(struct bytes *bytes, struct cluster_view_mark mark) {
    put_number(bytes, mark.length, 8);
    put_number(bytes, mark.digest, 8);
}

static struct cluster_view_mark get_mark(struct reader *reader) {
    uint64_t length = get_number(reader, 8), digest = get_number(reader, 8);
    return (struct cluster_view_mark){length, digest};
}

/* The version stands apart, and is read by each version. */
void put_head(struct bytes *bytes, enum message_kind kind, struct cluster_view_number view) {
    put_number(bytes, kind, 1);
    put_view_number(bytes, view);
}

bool get_head(struct reader *reader, enum message_kind *kind, struct cluster_view_number *view) {
    *kind = (enum message_kind)get_number(reader, 1);
    *view = get_view_number(reader);
    return !reader->failed;
}

void put_hello(struct bytes *bytes, const struct round_id *round, const struct cluster_view_hello *hello) {
    put_number(bytes, round->ring, 8);
    put_number(bytes, round->members, 8);
    put_number(bytes, round->ring_node, 4);
    put_view_number(bytes, hello->state.view);
    put_mark(bytes, hello->state.log);
    put_mark(bytes, hello->state.applied);
    put_electorate(bytes, hello->state.electorate);
    put_view_number(bytes, hello->known);
    put_electorate(bytes, hello->electorate);
    put_number(bytes, hello->votes, 4);
    put_number(bytes, hello->table_version, 4);
    put_number(bytes, hello->protocol_version, 4);
    put_number(bytes, hello->node, 2);
    put_number(bytes, hello->has_state, 1);
}

bool get_hello(struct reader *reader, struct round_id *round, struct cluster_view_hello *hello) {
    *hello = (struct cluster_view_hello){0};
    round->ring = get_number(reader, 8);
    round->members = get_number(reader, 8);
    round->ring_node = (uint32_t)get_number(reader, 4);
    hello->state.view = get_view_number(reader);
    hello->state.log = get_mark(reader);
    hello->state.applied = get_mark(reader);
    hello->state.electorate = get_electorate(reader);
    hello->known = get_view_number(reader);
    hello->electorate = get_electorate(reader);
    hello->votes = (uint32_t)get_number(reader, 4);
    hello->table_version = (uint32_t)get_number(reader, 4);
    hello->protocol_version = (uint32_t)get_number(reader, 4);
    hello->node = (uint16_t)get_number(reader, 2);
    hello->has_state = get_number(reader, 1);
    return !reader->failed;
}
