#include "requests.h"
#include "dehokuna.h"

void put_call(struct bytes *bytes, const struct call *call) {
    put_number(bytes, call->op, 1);
    put_number(bytes, call->mode, 1);
    put_number(bytes, call->flags, 1);
    const uint64_t numbers[] = {call->number, call->file, call->generation, call->owner, call->first, call->last, call->open_file};
    for (unsigned at = 0; at < sizeof numbers / sizeof *numbers; at++) put_number(bytes, numbers[at], 8);
}

struct call get_call(struct reader *reader) {
    struct call call = {0};
    call.op = (uint8_t)get_number(reader, 1);
    call.mode = (uint8_t)get_number(reader, 1);
    call.flags = (uint8_t)get_number(reader, 1);
    uint64_t *const numbers[] = {&call.number, &call.file, &call.generation, &call.owner, &call.first, &call.last, &call.open_file};
    for (unsigned at = 0; at < sizeof numbers / sizeof *numbers; at++) *numbers[at] = get_number(reader, 8);
    return call;
}

bool asks_for_lock(const struct call *call) {
    switch (call->op) {
    case OP_SET: case OP_FLOCK: return call->mode != DEHOKUNA_UNLOCK;
    case OP_WAIT: case OP_FLOCK_WAIT: return true;
    default: return false;
    }
}

bool lets_go(const struct call *call) {
    switch (call->op) {
    case OP_SET: case OP_FLOCK: return call->mode == DEHOKUNA_UNLOCK;
    case OP_FLUSH: case OP_RELEASE: return true;
    default: return false;
    }
}
