#include "round.h"
#include "clock.h"
#include "dehokuna.h"
#include <string.h>

void begin_round(struct round *round, unsigned patience) {
    round->is_new = true;
    memset(round->has_hello, 0, sizeof round->has_hello);
    round->patient_until = milliseconds_now() + patience;
}

static struct round_id id_of_round(const struct membership *there) {
    return (struct round_id){there->ring.number, digest_of_members(there), there->ring.node};
}

static uint32_t version_of_table(void) {
    return (uint32_t)digest_on(EMPTY_DIGEST, DEHOKUNA_VERSION, sizeof DEHOKUNA_VERSION);
}

bool make_hello(struct cluster_view_hello *hello, const struct settings *settings, struct cluster_view_number known) {
    *hello = (struct cluster_view_hello){
        .known = known, .table_version = version_of_table(), .protocol_version = PROTOCOL_VERSION, .node = settings->self};
    if (!votes_now(settings->self, &hello->votes, &hello->electorate.expected)) return false;
    /* (votes that aren't the configured ones are nobody's) */
    bool as_configured = hello->votes == settings->nodes[place_of_node(settings, settings->self)].votes;
    hello->electorate.digest = as_configured ? digest_of_settings(settings) : 0;
    return true;
}

void send_hello(const struct cluster_view_hello *hello, const struct membership *there) {
    struct round_id round = id_of_round(there);
    struct bytes message = {0};
    put_head(&message, MESSAGE_HELLO, hello->known);
    put_hello(&message, &round, hello);
    group_send(&message);
    free_bytes(&message);
}

bool hear_hello(struct round *round, const struct membership *there, struct member sender, struct reader *reader) {
    struct round_id said, now = id_of_round(there);
    struct cluster_view_hello hello;
    if (!get_hello(reader, &said, &hello) || hello.node != sender.node) return false;
    if (said.ring != now.ring || said.ring_node != now.ring_node || said.members != now.members) return false;
    for (unsigned at = 0; at < there->count; at++)
        if (there->members[at].node == sender.node && there->members[at].process == sender.process) round->hellos[at] = hello, round->has_hello[at] = true;
    return true;
}

bool has_all_hellos(const struct round *round, const struct membership *there) {
    for (unsigned at = 0; at < there->count; at++)
        if (!round->has_hello[at]) return false;
    return there->count > 0;
}
