#include "handover.h"
#include "hello.h"
#include <stdlib.h>
#include <string.h>

enum { PART = 512 * 1024 };

static bool is_under_way;
static struct bytes taken;
static struct heard *kept, **kept_end = &kept;

static void send_part(const struct bytes *state, size_t from, struct cluster_view_number view) {
    size_t size = state->size - from < PART ? state->size - from : PART;
    struct bytes message = {0};
    put_head(&message, MESSAGE_STATE, view);
    put_number(&message, from, 8);
    put_number(&message, state->size, 8);
    put(&message, state->at + from, size);
    group_send(&message);
    free_bytes(&message);
}

void handover_give(const struct bytes *state, struct cluster_view_number view) {
    for (size_t from = 0; from < state->size; from += PART) send_part(state, from, view);
}

void handover_begin(void) { is_under_way = true; }

void handover_end(void) {
    is_under_way = false;
    for (struct heard *heard; (heard = handover_next());) free(heard);
    free_bytes(&taken);
}

bool handover_is_under_way(void) { return is_under_way; }

enum handed_over handover_hear(struct reader *part) {
    uint64_t from = get_number(part, 8), size = get_number(part, 8);
    if (!is_under_way || part->failed) return HANDED_OVER_IN_PART;
    if (from != taken.size) return HANDED_OVER_WITH_A_HOLE;
    put(&taken, part->at, part->left);
    return taken.size == size ? HANDED_OVER_WHOLE : HANDED_OVER_IN_PART;
}

struct bytes handover_take(void) {
    struct bytes whole = taken;
    taken = (struct bytes){0};
    is_under_way = false;
    return whole;
}

void handover_keep(struct member sender, const uint8_t *bytes, size_t size) {
    struct heard *heard = room_for(sizeof *heard + size);
    *heard = (struct heard){.sender = sender, .size = size};
    memcpy(heard->bytes, bytes, size);
    *kept_end = heard;
    kept_end = &heard->next;
}

struct heard *handover_next(void) {
    struct heard *first = kept;
    if (first && !(kept = first->next)) kept_end = &kept;
    return first;
}
