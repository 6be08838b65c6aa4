#include "group.h"
#include <corosync/cpg.h>
#include <stdlib.h>
#include <string.h>
#include <unistd.h>

/* A message that corosync didn't take yet. */
struct kept {
    struct kept *next;
    size_t size;
    uint8_t bytes[];
};

enum { JOIN_TRIES = 50, JOIN_PAUSE = 100000 /* microseconds */ };

static cpg_handle_t handle;
static const struct group_calls *calls;
static struct kept *outbox, **outbox_end = &outbox;
static bool is_gone;

static bool try_to_send(const void *bytes, size_t size) {
    struct iovec part = {(void *)bytes, size};
    cs_error_t told = cpg_mcast_joined(handle, CPG_TYPE_AGREED, &part, 1);
    if (told != CS_OK && told != CS_ERR_TRY_AGAIN) is_gone = true;
    return told == CS_OK;
}

bool group_flush(void) {
    while (outbox && try_to_send(outbox->bytes, outbox->size)) {
        struct kept *sent = outbox;
        outbox = sent->next;
        free(sent);
    }
    if (!outbox) outbox_end = &outbox;
    return outbox;
}

void group_send(const struct bytes *message) {
    if (!group_flush() && try_to_send(message->at, message->size)) return;
    struct kept *kept = room_for(sizeof *kept + message->size);
    kept->size = message->size;
    memcpy(kept->bytes, message->at, message->size);
    *outbox_end = kept;
    outbox_end = &kept->next;
}

/* ---- What corosync calls */

static void deliver(cpg_handle_t from, const struct cpg_name *group, uint32_t node, uint32_t process, void *bytes, size_t size) {
    (void)from, (void)group;
    calls->delivered((struct member){node, process}, bytes, size);
}

static int by_node(const void *one, const void *other) {
    uint32_t left = ((const struct member *)one)->node, right = ((const struct member *)other)->node;
    return left < right ? -1 : left > right;
}

static void change(cpg_handle_t from, const struct cpg_name *group, const struct cpg_address *list, size_t size, const struct cpg_address *left,
                   size_t lefts, const struct cpg_address *joined, size_t joins) {
    (void)from, (void)group, (void)joined, (void)joins;
    struct member members[MOST_NODES];
    unsigned count = 0;
    for (; count < size && count < MOST_NODES; count++) members[count] = (struct member){list[count].nodeid, list[count].pid};
    uint32_t self;
    for (size_t at = 0; at < lefts; at++)
        if (cpg_local_get(handle, &self) == CS_OK && left[at].nodeid == self && left[at].pid == (uint32_t)getpid()) is_gone = true;
    qsort(members, count, sizeof *members, by_node);
    calls->members_changed(members, count);
}

static void change_ring(cpg_handle_t from, struct cpg_ring_id ring, uint32_t count, const uint32_t *nodes) {
    (void)from;
    calls->ring_changed((struct ring_id){ring.seq, ring.nodeid}, nodes, count);
}

bool group_join(const char *name, const struct group_calls *given) {
    cpg_model_v1_data_t model = {CPG_MODEL_V1, deliver, change, change_ring, CPG_MODEL_V1_DELIVER_INITIAL_TOTEM_CONF};
    struct cpg_name group = {.length = (uint32_t)strlen(name)};
    calls = given;
    if (group.length >= CPG_MAX_NAME_LENGTH) return false;
    memcpy(group.value, name, group.length);
    if (cpg_model_initialize(&handle, CPG_MODEL_V1, (cpg_model_data_t *)&model, NULL) != CS_OK) return false;
    cs_error_t told;
    for (int tries = 0; (told = cpg_join(handle, &group)) == CS_ERR_TRY_AGAIN && tries < JOIN_TRIES; tries++) usleep(JOIN_PAUSE);
    return told == CS_OK;
}

void group_leave(void) { cpg_finalize(handle); }

int group_descriptor(void) {
    int descriptor = -1;
    cpg_fd_get(handle, &descriptor);
    return descriptor;
}

bool group_dispatch(void) {
    cs_error_t told = cpg_dispatch(handle, CS_DISPATCH_ALL);
    group_flush();
    return !is_gone && (told == CS_OK || told == CS_ERR_TRY_AGAIN);
}
