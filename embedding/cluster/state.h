/* The lock table as a replica has it: the library's, and beside it what is known of each node's process. Members that applied the same entries to
 * the same state have the same state (the library's theorem `replicas_agree`), and its bytes are the same. */
#ifndef STATE_H
#define STATE_H
#include "cluster_view.h"
#include "dehokuna.h"
#include "requests.h"
#include "settings.h"

/* A node of the ring as its view begins. */
struct ring_node {
    uint16_t node;
    bool is_member; /* its process is in the group */
    bool loses;     /* its locks go: there is no such process, or it has another state, or none */
};

/* What is told as an entry is applied. */
struct state_calls {
    /* A request, with a status of dehokuna.h. */
    void (*applied)(const struct call *call, uint32_t status);
    void (*granted)(uint64_t ticket);
    /* The wait is no more: by a cancel (EINTR), or since its file is another one now (ESTALE). */
    void (*ended)(uint64_t ticket, int error);
};

bool state_create(const struct settings *settings, const struct state_calls *calls);
void state_destroy(void);
/* No lock, no wait, and nothing known of any process. */
void state_clear(void);

/* Entries of the log. They say all that an application depends on. */
enum entry_kind { ENTRY_REQUEST = 1, ENTRY_PURGE, ENTRY_VIEW };
void put_request_entry(struct bytes *bytes, const struct call *call);
void put_purge_entry(struct bytes *bytes, uint16_t node);
void put_view_entry(struct bytes *bytes, struct cluster_view_number view, const struct ring_node *nodes, unsigned count);
enum entry_kind kind_of_entry(const uint8_t *bytes, size_t size);
/* The node that the entry purges; the number that its request has. */
uint16_t node_of_purge(const uint8_t *bytes, size_t size);
uint64_t number_of_request(const uint8_t *bytes, size_t size);
/* The nodes of a view's entry, at most `most`. */
unsigned nodes_of_view(const uint8_t *bytes, size_t size, struct ring_node *nodes, unsigned most);

/* false: want of memory or an entry that is none, so the table isn't the others' any more. */
bool state_apply(const uint8_t *bytes, size_t size);
/* The number of the last request of the node's process that was applied; 0: none. */
uint64_t state_last(int place);
/* Whether the node's process may have locks. */
bool state_knows(int place);

void state_export(struct bytes *bytes);
bool state_import(struct reader *reader);
uint64_t state_digest(void);
/* For looks at the table. */
const struct dehokuna_server *state_table(void);
#endif
