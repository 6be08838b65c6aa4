#include "log.h"
#include <stdlib.h>
#include <string.h>

struct entry {
    uint64_t digest; /* of the log up to it, and with it */
    size_t size;
    uint8_t bytes[];
};

static struct entry **entries; /* a ring of them, `room` a power of two */
static size_t room, head, count;
static uint64_t applied, applied_digest = EMPTY_DIGEST;
static uint64_t acknowledged[MOST_NODES];

static struct entry *at_place(uint64_t place) { return entries[(head + (place - applied)) & (room - 1)]; }

static void drop_last(void) {
    count--;
    free(entries[(head + count) & (room - 1)]);
}

void log_clear(void) {
    while (count) drop_last();
    applied = 0, applied_digest = EMPTY_DIGEST;
    log_forget_acknowledgements();
}

static void grow(void) {
    size_t grown = room ? room * 2 : 256;
    struct entry **moved = room_for(grown * sizeof *moved);
    for (size_t at = 0; at < count; at++) moved[at] = entries[(head + at) & (room - 1)];
    free(entries);
    entries = moved, room = grown, head = 0;
}

void log_append(const void *bytes, size_t size) {
    if (count == room) grow();
    struct entry *entry = room_for(sizeof *entry + size);
    memcpy(entry->bytes, bytes, size);
    entry->size = size;
    entry->digest = digest_on(log_digest(), bytes, size);
    entries[(head + count++) & (room - 1)] = entry;
}

uint64_t log_length(void) { return applied + count; }
uint64_t log_applied(void) { return applied; }
uint64_t log_digest(void) { return count ? at_place(applied + count - 1)->digest : applied_digest; }

const uint8_t *log_entry(uint64_t place, size_t *size) {
    struct entry *entry = at_place(place);
    *size = entry->size;
    return entry->bytes;
}

void log_advance(void) {
    struct entry *entry = at_place(applied);
    applied_digest = entry->digest;
    applied++, count--;
    head = (head + 1) & (room - 1);
    free(entry);
}

void log_truncate(uint64_t length) {
    while (log_length() > length && count) drop_last();
}

bool log_has(uint64_t length, uint64_t digest) {
    if (length < applied || length > log_length()) return false;
    return digest == (length == applied ? applied_digest : at_place(length - 1)->digest);
}

void log_export(struct bytes *bytes) {
    put_number(bytes, applied, 8);
    put_number(bytes, applied_digest, 8);
    put_number(bytes, count, 8);
    for (uint64_t place = applied; place < log_length(); place++) {
        const struct entry *entry = at_place(place);
        put_number(bytes, entry->size, 4);
        put(bytes, entry->bytes, entry->size);
    }
}

bool log_import(struct reader *reader) {
    log_clear();
    applied = get_number(reader, 8);
    applied_digest = get_number(reader, 8);
    for (uint64_t left = get_number(reader, 8); left > 0 && !reader->failed; left--) {
        size_t size = get_number(reader, 4);
        const uint8_t *bytes = get_part(reader, size);
        if (bytes) log_append(bytes, size);
    }
    return !reader->failed;
}

void log_forget_acknowledgements(void) { memset(acknowledged, 0, sizeof acknowledged); }

void log_acknowledge(int place, uint64_t length) {
    if (acknowledged[place] < length) acknowledged[place] = length;
}

/* The votes of those who acknowledged at least so much. */
static uint64_t votes_for(const struct settings *settings, uint64_t length) {
    uint64_t votes = 0;
    for (unsigned at = 0; at < settings->count; at++)
        if (acknowledged[at] >= length) votes += settings->nodes[at].votes;
    return votes;
}

uint64_t log_committed(const struct settings *settings, uint32_t expected) {
    uint64_t committed = 0;
    for (unsigned at = 0; at < settings->count; at++)
        if (acknowledged[at] > committed && 2 * votes_for(settings, acknowledged[at]) > expected) committed = acknowledged[at];
    return committed;
}
