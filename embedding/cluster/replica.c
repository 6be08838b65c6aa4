#include "replica.h"
#include "clock.h"
#include "copy.h"
#include "decision.h"
#include "handover.h"
#include "log.h"
#include "purges.h"
#include <stdlib.h>

enum {
    /* The members' timers are apart by so many milliseconds, so that one fence is run and one purge is sent. */
    RANK_PAUSE = 200,
    FLUSH_PAUSE = 1,
    /* So long an acknowledgement that nobody waits for is put off: mostly one that somebody waits for comes first, and says it too. */
    LATE_PAUSE = 10
};

static const struct settings *settings;
static struct replica_options options;
static struct replica_calls calls;
static uint64_t numbers;

static struct membership there;
static struct round this_round;
static uint64_t seen_at; /* after this members with a majority were in the view with this node */
static bool is_beating;  /* it is asked whether they still are */

/* ---- The view, whose state is in copy.c, or on its way (handover.c) */
static enum standing standing = STANDING_UNDECIDED;
static struct cluster_view_number view; /* the last one that was decided */
static uint64_t acknowledged;           /* how much of the log this node acknowledged in this view */
static uint64_t urgent;                 /* how much of it somebody waits for */
static uint64_t late_at;                /* when the rest is to be acknowledged; 0: there is none */

static void stand(enum standing now) {
    if (standing == STANDING_WITHDRAWN) return;
    standing = now;
    calls.stands(now);
}

static void withdraw(const char *why) {
    if (standing == STANDING_WITHDRAWN) return;
    calls.say("withdraws: %s", why);
    stand(STANDING_WITHDRAWN);
    own_lose();
    group_leave();
}

static int place_of(uint32_t node) { return place_of_node(settings, node); }
static bool is_in_view(void) { return standing == STANDING_IN_VIEW && !handover_is_under_way(); }

/* ---- Sending */

static void send_and_free(struct bytes *message) {
    group_send(message);
    free_bytes(message);
}

static void send_call(const struct call *call) {
    struct bytes message = {0};
    put_head(&message, MESSAGE_REQUEST, view);
    put_call(&message, call);
    send_and_free(&message);
}

static void send_own_anew(void) { own_send_from(copy_last_delivered(place_of(settings->self)), send_call); }

static void send_purge(uint16_t node) {
    struct bytes message = {0};
    put_head(&message, MESSAGE_PURGE, view);
    put_number(&message, node, 2);
    send_and_free(&message);
}

static void send_acknowledgement(void) {
    struct bytes message = {0};
    acknowledged = log_length(), late_at = 0;
    put_head(&message, MESSAGE_ACKNOWLEDGEMENT, view);
    put_number(&message, acknowledged, 8);
    put_number(&message, log_digest(), 8);
    send_and_free(&message);
}

/* ---- Messages of a view */

/* Whether nobody waits for what the last entry, a request, comes to: something is let go that nobody wants. */
static bool is_for_nobody(const struct call *call) {
    struct dehokuna_waiting wait;
    return lets_go(call) && log_applied() >= urgent && !dehokuna_wait_at(state_table(), call->file, 0, &wait);
}

static void hear_request(struct member sender, struct reader *reader) {
    struct call call = get_call(reader);
    int place = place_of(sender.node);
    if (reader->failed || place < 0 || node_of_number(call.number) != sender.node || call.number <= copy_last_delivered(place)) return;
    struct bytes entry = {0};
    put_request_entry(&entry, &call);
    copy_append(&entry);
    free_bytes(&entry);
    if (!is_for_nobody(&call)) urgent = log_length();
    else if (!late_at) late_at = milliseconds_now() + LATE_PAUSE;
    if (sender.node == settings->self) own_delivered(call.number);
}

static void hear_purge(struct reader *reader) {
    uint16_t node = (uint16_t)get_number(reader, 2);
    if (reader->failed || place_of(node) < 0 || is_member_node(&there, node)) return;
    struct bytes entry = {0};
    put_purge_entry(&entry, node);
    copy_append(&entry);
    free_bytes(&entry);
    urgent = log_length();
    purges_done(node);
    calls.say("node %u is purged", node);
}

static void hear_acknowledgement(struct member sender, struct reader *reader) {
    uint64_t length = get_number(reader, 8), digest = get_number(reader, 8);
    if (reader->failed || !log_has(length, digest)) return;
    log_acknowledge(place_of(sender.node), length);
    copy_vouch(length);
    if (!copy_apply()) withdraw("no memory for what the others may have done");
}

static void hear_in_view(struct member sender, enum message_kind kind, struct reader *reader) {
    switch (kind) {
    case MESSAGE_REQUEST: hear_request(sender, reader); break;
    case MESSAGE_PURGE: hear_purge(reader); break;
    case MESSAGE_ACKNOWLEDGEMENT: hear_acknowledgement(sender, reader); break;
    default: break;
    }
}

/* ---- How a view begins */

static void begin_with_copy(void) {
    copy_begin_view(view);
    acknowledged = late_at = 0;
    urgent = copy_base();
}

static void give_state(void) {
    struct bytes state = {0};
    copy_export(&state);
    handover_give(&state, view);
    calls.say("gives the state: %zu bytes", state.size);
    free_bytes(&state);
#ifdef TEST_HOOKS
    if (getenv("LOCKFS_DIES_GIVING")) _Exit(3);
#endif
}

static void hear_kept(void) {
    for (struct heard *heard; standing == STANDING_IN_VIEW && (heard = handover_next());) {
        struct reader reader = {heard->bytes, heard->size, false};
        enum message_kind kind;
        struct cluster_view_number of;
        if (get_head(&reader, &kind, &of)) hear_in_view(heard->sender, kind, &reader);
        free(heard);
    }
}

static void take_state(void) {
    struct bytes taken = handover_take();
    struct reader reader = {taken.at, taken.size, false};
    bool kept_locks = copy_is_here(), is_taken = copy_import(&reader);
    if (is_taken) calls.say("took the state: %zu bytes, %llu entries", taken.size, (unsigned long long)log_length());
    free_bytes(&taken);
    if (!is_taken) {
        withdraw("the state that was handed over can't be taken");
        return;
    }
    begin_with_copy();
    if (kept_locks) copy_settle_own();
    send_own_anew();
    hear_kept();
}

static void hear_part(struct reader *reader) {
    enum handed_over came = handover_hear(reader);
    if (came == HANDED_OVER_WITH_A_HOLE) withdraw("a part of the state is missing");
    if (came == HANDED_OVER_WHOLE) take_state();
}

static void plan_purges(bool begins) {
    struct cluster_view_seat seats[MOST_NODES];
    uint8_t presences[MOST_NODES] = {0};
    for (unsigned at = 0; at < settings->count; at++) {
        uint16_t node = settings->nodes[at].node;
        seats[at] = (struct cluster_view_seat){node, is_in_ring(&there, node)};
    }
    cluster_view_presences(this_round.hellos, there.count, seats, settings->count, begins, presences, settings->count);
    purges_clear();
    for (unsigned at = 0; at < settings->count; at++) {
        bool awaited = presences[at] == CLUSTER_VIEW_AWAITED;
        if (awaited || presences[at] == CLUSTER_VIEW_AWAY)
            purges_plan(seats[at].node, options.grace + RANK_PAUSE * rank_of_member(&there, settings->self));
        if (begins) copy_await((int)at, awaited);
        if (awaited) calls.say("waits for the purge of node %u", seats[at].node);
    }
}

static void append_view(const struct decision *decision) {
    struct bytes entry = {0};
    put_entry_of_view(&entry, decision, &there, settings);
    copy_append(&entry);
    free_bytes(&entry);
}

static void begin_view(const struct decision *decision) {
    enum cluster_view_part part = part_of(decision, &there, settings->self);
    log_forget_acknowledgements();
    if (part == CLUSTER_VIEW_TAKES || part == CLUSTER_VIEW_BEGINS_ANEW) {
        copy_lose();
        own_lose();
    }
    if (part == CLUSTER_VIEW_BEGINS_ANEW) copy_begin_with_none(this_round.hellos[0].electorate);
    else copy_await_nobody(); /* (what its purges vouch for is cut no more) */
    if (part == CLUSTER_VIEW_TAKES || part == CLUSTER_VIEW_CATCHES_UP) {
        handover_begin();
    } else {
        append_view(decision);
        begin_with_copy();
        if (part == CLUSTER_VIEW_GIVES && is_state_given(decision, &there)) give_state();
        send_own_anew();
    }
    stand(STANDING_IN_VIEW);
}

static void decide(void) {
    const struct decision decision = decide_round(&this_round, &there);
    enum cluster_view_part part = part_of(&decision, &there, settings->self);
    this_round.patient_until = 0;
    if (!has_view(&decision)) {
        calls.say("no view: %s", outcome_told(&decision));
        stand(STANDING_NO_VIEW);
        if (part == CLUSTER_VIEW_WITHDRAWS) withdraw("its table differs from the others'");
        return;
    }
    view = decision.view;
    seen_at = 0, is_beating = false;
    calls.say("view %llu.%llu of %u members: %s", (unsigned long long)view.ring, (unsigned long long)view.count, there.count, part_told(part));
    plan_purges(decision.outcome == CLUSTER_VIEW_BEGINS);
    begin_view(&decision);
}

/* ---- HELLOs */

static void say_hello(void) {
    struct cluster_view_hello hello;
    if (!make_hello(&hello, settings, view)) return;
    this_round.is_new = false;
    hello.has_state = copy_counts();
    if (hello.has_state) hello.state = copy_told();
    send_hello(&hello, &there);
}

/* A member that says no HELLO, since its lockfs hangs, holds up all others; so its node leaves the ring, and its lockfs withdraws as soon as
 * it runs again. */
static void throw_out_the_silent(void) {
    this_round.patient_until = 0;
    for (unsigned at = 0; at < there.count && has_majority(&there, settings) && !this_round.is_new; at++) {
        if (this_round.has_hello[at]) continue;
        calls.say("throws node %u out, whose lockfs says nothing", there.members[at].node);
        throw_out((uint16_t)there.members[at].node, "dehokuna: its lockfs says nothing");
    }
}

/* ---- What the group calls */

static void delivered(struct member sender, const uint8_t *bytes, size_t size) {
    struct reader reader = {bytes, size, false};
    enum message_kind kind;
    struct cluster_view_number of;
    if (standing == STANDING_WITHDRAWN || !get_head(&reader, &kind, &of) || !is_member(&there, sender)) return;
    if (kind == MESSAGE_HELLO) {
        bool is_of_round = hear_hello(&this_round, &there, sender, &reader);
        if (is_of_round && standing != STANDING_IN_VIEW && has_all_hellos(&this_round, &there)) decide();
        return;
    }
    if (standing != STANDING_IN_VIEW || of.ring != view.ring || of.count != view.count) return;
    if (kind == MESSAGE_STATE) hear_part(&reader);
    else if (handover_is_under_way()) handover_keep(sender, bytes, size);
    else hear_in_view(sender, kind, &reader);
}

/* There is no view until all have said HELLO anew. */
static void end_view(void) {
    handover_end();
    purges_clear();
    late_at = 0;
    begin_round(&this_round, options.patience);
    stand(has_majority(&there, settings) ? STANDING_UNDECIDED : STANDING_NO_VIEW);
    own_leave_all();
}

static void members_changed(const struct member *members, unsigned count) {
    bool joins = !there.count;
    change_members(&there, members, count);
    if (joins && is_there_twice(&there, settings->self)) withdraw("another lockfs of this node is in the group");
    else end_view();
}

static void ring_changed(struct ring_id ring, const uint32_t *nodes, unsigned count) {
    uint64_t length = log_length(), dropped = copy_drop_unvouched();
    if (dropped) calls.say("drops %llu of %llu entries", (unsigned long long)dropped, (unsigned long long)length);
    change_ring(&there, ring, nodes, count);
    end_view();
}

/* ---- For who uses it */

static enum purge_need need_of_purge(uint16_t node) {
    int place = place_of(node);
    if (!is_in_view()) return PURGE_LATER;
    return copy_awaits(place) || state_knows(place) ? PURGE_NOW : PURGE_NEVER;
}

static void applied(const struct call *call, uint32_t status) {
    uint64_t sent_at = own_applied(call, status);
    if (sent_at > seen_at) seen_at = sent_at;
    if (sent_at && call->op == OP_BEAT) is_beating = false;
}

bool replica_open(const struct settings *given, const struct replica_options *wanted, const struct replica_calls *told) {
    static const struct state_calls table_calls = {applied, own_granted, own_ended};
    static const struct group_calls from_group = {delivered, members_changed, ring_changed};
    settings = given, options = *wanted, calls = *told;
    copy_open(settings);
    own_open(settings->self, &calls.own);
    purges_open(options.fence, need_of_purge, send_purge, calls.say);
    if (!state_create(settings, &table_calls)) return false;
    return group_join(options.group, &from_group);
}

void replica_close(void) {
    if (standing != STANDING_WITHDRAWN) group_leave();
    state_destroy();
}

int replica_descriptor(void) { return group_descriptor(); }

static int until(uint64_t time) {
    uint64_t now = milliseconds_now();
    return time <= now ? 0 : (int)(time - now);
}

/* Of two timeouts, of which -1 is none. */
static int sooner(int one, int other) { return one < 0 ? other : other < 0 || one < other ? one : other; }

int replica_timeout(void) {
    if (group_flush() || (this_round.is_new && there.has_ring)) return FLUSH_PAUSE;
    int purge = purges_timeout(), silent = this_round.patient_until ? until(this_round.patient_until) : -1;
    /* (what waits for purges is acknowledged behind them) */
    int late = late_at && is_in_view() && copy_counts() ? until(late_at) : -1;
    return sooner(purge, sooner(silent, late));
}

static bool is_acknowledgement_due(void) {
    if (!is_in_view() || !copy_counts() || acknowledged == log_length()) return false;
    return acknowledged < urgent || !late_at || until(late_at) == 0;
}

bool replica_work(void) {
    if (standing == STANDING_WITHDRAWN) return false;
    if (!group_dispatch()) withdraw("corosync is gone, or has thrown this node out");
    if (standing == STANDING_WITHDRAWN) {
        own_answer();
        return false;
    }
    if (this_round.is_new && there.has_ring && is_member_node(&there, settings->self)) say_hello();
    if (is_acknowledgement_due()) send_acknowledgement();
    if (this_round.patient_until && until(this_round.patient_until) == 0) throw_out_the_silent();
    if (standing == STANDING_IN_VIEW) purges_work();
    own_answer();
    return standing != STANDING_WITHDRAWN;
}

struct request *replica_submit(const struct call *call, void *who) {
    struct request *request = own_submit(call, who);
    if (is_in_view()) own_send(request, send_call);
    else own_leave(request);
    return request;
}

void replica_interrupt(void *who, struct request *request) {
    struct call cancel;
    if (own_interrupt(who, request, &cancel)) replica_submit(&cancel, NULL);
    if (!is_in_view()) own_leave(request);
}

uint64_t replica_seen(void) { return seen_at; }

void replica_beat(void) {
    if (standing != STANDING_IN_VIEW || is_beating) return;
    const struct call beat = {.op = OP_BEAT};
    replica_submit(&beat, NULL);
    is_beating = true;
}

uint64_t replica_number(void) { return number_of(settings->self, ++numbers); }

void replica_describe(FILE *out) {
    static const char *const told[] = {"undecided", "no view", "in view", "withdrawn"};
    fprintf(out, "node %u, view %llu.%llu, %s%s, members", settings->self, (unsigned long long)view.ring, (unsigned long long)view.count, told[standing],
            handover_is_under_way() ? " (taking the state)" : standing == STANDING_IN_VIEW && !copy_counts() ? " (waiting for purges)" : "");
    for (unsigned at = 0; at < there.count; at++) fprintf(out, " %u", there.members[at].node);
    fprintf(out, ", applied %llu of %llu, log %016llx, table %016llx\n", (unsigned long long)log_applied(), (unsigned long long)log_length(),
            (unsigned long long)log_digest(), (unsigned long long)state_digest());
}
