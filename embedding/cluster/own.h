/* This node's requests, from when they are submitted until they are answered and all that they change is applied: in the order of their numbers,
 * in which they are sent, and sent again in the next view where the log doesn't have them. */
#ifndef OWN_H
#define OWN_H
#include "requests.h"
#include "state.h"

struct own_calls {
    /* The request is over: an error number, or 0; for OP_GET whether something blocks, and what. */
    void (*answered)(void *who, const struct call *call, int error, const struct dehokuna_blocker *blocker);
    /* The locks of this node are gone: whoever held one is to be told EIO from now on. */
    void (*lost)(void);
    /* Whether who asked may ask anew after that: nothing was held. */
    bool (*may_ask_anew)(void *who, const struct call *call);
};

struct request;

void own_open(uint16_t node, const struct own_calls *calls);
/* Takes the call up under a new number. */
struct request *own_submit(const struct call *call, void *who);
/* A signal came. The request is over where no other node can know of it; otherwise where the result is true `cancel` is the call to submit. */
bool own_interrupt(void *who_of_request, struct request *request, struct call *cancel);
/* There is no view: a close doesn't wait for the next one, nor an unlock in which a signal came, which is told EINTR. They go on unseen. */
void own_leave(struct request *request);
void own_leave_all(void);
void own_send(struct request *request, void (*send)(const struct call *call));
/* Calls `send` with each request above this number. */
void own_send_from(uint64_t number, void (*send)(const struct call *call));
/* A request is in the log. */
void own_delivered(uint64_t number);
/* What the table said. The clock's milliseconds at which the request was sent last; 0: it isn't this node's. */
uint64_t own_applied(const struct call *call, uint32_t status);
void own_granted(uint64_t ticket);
void own_ended(uint64_t ticket, int error);
/* All locks of this node are lost. */
void own_lose(void);
/* A state came in which the requests up to this number are applied: what they came to is looked up by `own_settle`, once it is told. */
void own_took(uint64_t number);
void own_settle(void);
/* Gives the answers that there are. */
void own_answer(void);
#endif
