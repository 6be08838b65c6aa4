#include "own.h"
#include "clock.h"
#include "map.h"
#include <errno.h>
#include <stdlib.h>

struct request {
    struct call call;
    void *who;
    int error;                        /* of the answer */
    bool blocks;                      /* for OP_GET */
    struct dehokuna_blocker blocker;
    uint64_t sent_at;                 /* 0: no other node can know of it */
    bool is_interrupted;
    bool is_decided, is_answered;     /* there is an answer; it was given */
    bool is_applied;                  /* (a wait that is granted later was applied before) */
    bool is_unsettled;                /* it was applied elsewhere, and what it came to isn't known here */
    struct request *next, *previous;  /* by number */
    struct request *next_answer;
};

static uint16_t self;
static const struct own_calls *calls;
static uint64_t count;
static struct request list = {.next = &list, .previous = &list};
static struct request *answers, **answers_end = &answers;
static struct map by_number;

void own_open(uint16_t node, const struct own_calls *given) { self = node, calls = given; }

static struct request *request_of(uint64_t number) { return map_get(&by_number, number, 0); }

static void link_last(struct request *request) {
    request->next = &list;
    request->previous = list.previous;
    list.previous->next = request;
    list.previous = request;
    map_put(&by_number, request->call.number, 0, request);
}

static void unlink_request(struct request *request) {
    request->next->previous = request->previous;
    request->previous->next = request->next;
    map_remove(&by_number, request->call.number, 0);
}

struct request *own_submit(const struct call *call, void *who) {
    struct request *request = room_for(sizeof *request);
    *request = (struct request){.call = *call, .who = who};
    request->call.number = number_of(self, ++count);
    link_last(request);
    return request;
}

static void end_if_over(struct request *request) {
    if (!request->is_answered || !request->is_applied) return;
    unlink_request(request);
    free(request);
}

static void decide_answer(struct request *request, int error) {
    if (request->is_decided) return;
    request->is_decided = true;
    request->error = error;
    *answers_end = request;
    answers_end = &request->next_answer;
}

void own_answer(void) {
    while (answers) {
        struct request *request = answers;
        if (!(answers = request->next_answer)) answers_end = &answers;
        if (request->who) calls->answered(request->who, &request->call, request->error, request->blocks ? &request->blocker : NULL);
        request->is_answered = true;
        end_if_over(request);
    }
}

bool own_interrupt(void *who, struct request *request, struct call *cancel) {
    if (request->who != who || request->is_decided || request->is_interrupted) return false;
    request->is_interrupted = true;
    if (!request->sent_at) {
        request->is_applied = true; /* (nowhere) */
        decide_answer(request, EINTR);
        return false;
    }
    *cancel = (struct call){.op = OP_CANCEL, .first = request->call.number};
    return request->call.op == OP_WAIT || request->call.op == OP_FLOCK_WAIT;
}

void own_leave(struct request *request) {
    if (request->call.op == OP_FLUSH) decide_answer(request, 0);
    else if (request->is_interrupted && lets_go(&request->call)) decide_answer(request, EINTR);
}

void own_leave_all(void) {
    for (struct request *request = list.next; request != &list; request = request->next) own_leave(request);
}

void own_send(struct request *request, void (*send)(const struct call *call)) {
    request->sent_at = milliseconds_now();
    send(&request->call);
}

void own_send_from(uint64_t number, void (*send)(const struct call *call)) {
    for (struct request *request = list.next; request != &list; request = request->next) {
        if (request->call.number > number && !request->is_applied) own_send(request, send);
    }
}

void own_delivered(uint64_t number) {
    struct request *request = request_of(number);
    if (request && lets_go(&request->call)) decide_answer(request, 0);
}

static int error_of(uint32_t status) {
    switch (status) {
    case DEHOKUNA_DONE: return 0;
    case DEHOKUNA_BLOCKED: return EAGAIN;
    case DEHOKUNA_DEADLOCK: return EDEADLK;
    case DEHOKUNA_INVALID: return EINVAL;
    default: return ENOLCK;
    }
}

static void look_for_blocker(struct request *request) {
    const struct call *call = &request->call;
    request->blocks = dehokuna_get(state_table(), call->file, call->owner, call->first, call->last, call->mode, &request->blocker) == DEHOKUNA_BLOCKED;
}

uint64_t own_applied(const struct call *call, uint32_t status) {
    struct request *request = request_of(call->number);
    if (!request) return 0;
    uint64_t sent_at = request->sent_at;
    request->is_applied = true;
    if (call->op == OP_GET) look_for_blocker(request);
    if (status != DEHOKUNA_WAITS) decide_answer(request, error_of(status));
    end_if_over(request);
    return sent_at;
}

void own_granted(uint64_t ticket) { own_ended(ticket, 0); }

void own_ended(uint64_t ticket, int error) {
    struct request *request = node_of_number(ticket) == self ? request_of(ticket) : NULL;
    if (request) decide_answer(request, error);
}

/* ---- Locks that are lost */

/* The request is asked anew, under a new number, or over. What lets go is done. */
static void lose(struct request *request) {
    if (request->is_decided) {
        if (asks_for_lock(&request->call) && !request->error) request->error = EIO;
        request->is_applied = true;
    } else if (lets_go(&request->call) || !request->who) {
        request->is_applied = true;
        decide_answer(request, 0);
    } else if (request->is_interrupted || !calls->may_ask_anew(request->who, &request->call)) {
        request->is_applied = true;
        decide_answer(request, request->is_interrupted ? EINTR : EIO);
    } else {
        unlink_request(request);
        request->call.number = number_of(self, ++count);
        request->sent_at = 0;
        request->is_applied = request->is_unsettled = false;
        link_last(request);
    }
}

void own_lose(void) {
    calls->lost();
    struct request *last = list.previous;
    for (struct request *request = list.next, *next; last != &list; request = next) {
        bool is_last = request == last;
        next = request->next;
        bool was_answered = request->is_answered;
        lose(request);
        if (was_answered) end_if_over(request);
        if (is_last) return;
    }
}

/* ---- Requests that were applied elsewhere */

void own_took(uint64_t number) {
    for (struct request *request = list.next, *next; request != &list && request->call.number <= number; request = next) {
        next = request->next;
        request->is_applied = true;
        request->is_unsettled = !request->is_decided;
        end_if_over(request);
    }
}

static bool still_waits(const struct call *call) {
    struct dehokuna_owner_wait wait;
    return dehokuna_next_wait(state_table(), call->owner, call->file, call->number, call->owner, &wait) && wait.owner == call->owner &&
           wait.file == call->file && wait.ticket == call->number;
}

static bool has_flock(const struct call *call) {
    struct dehokuna_flock_lock lock;
    return dehokuna_next_flock(state_table(), call->file, call->owner, &lock) && lock.owner == call->owner && lock.mode == call->mode;
}

/* Whether one lock of the owner has all of the range. */
static bool has_range(const struct call *call) {
    struct dehokuna_blocker lock;
    for (uint64_t first = 0; dehokuna_next_lock(state_table(), call->file, call->owner, first, &lock) && lock.owner == call->owner; first = lock.last + 1)
        if (lock.first <= call->first && lock.last >= call->last && lock.mode == call->mode) return true;
    return false;
}

static void settle(struct request *request) {
    const struct call *call = &request->call;
    bool is_flock = call->op == OP_FLOCK || call->op == OP_FLOCK_WAIT, may_wait = call->op == OP_WAIT || call->op == OP_FLOCK_WAIT;
    if (may_wait && still_waits(call)) return;
    if (call->op == OP_GET) look_for_blocker(request);
    bool is_done = !asks_for_lock(call) || (is_flock ? has_flock(call) : has_range(call));
    decide_answer(request, is_done ? 0 : !may_wait ? EAGAIN : request->is_interrupted ? EINTR : EDEADLK);
}

void own_settle(void) {
    for (struct request *request = list.next; request != &list; request = request->next) {
        if (!request->is_unsettled) continue;
        request->is_unsettled = false;
        if (!request->is_decided) settle(request);
    }
}
