#include "bytes.h"
#include <stdio.h>
#include <stdlib.h>
#include <string.h>

void *room_for(size_t size) {
    void *room = calloc(1, size ? size : 1);
    if (room) return room;
    fprintf(stderr, "lockfs: no memory: this node leaves\n");
    abort();
}

void put(struct bytes *bytes, const void *from, size_t size) {
    if (bytes->room - bytes->size < size) {
        size_t room = (bytes->size + size) * 2;
        uint8_t *grown = realloc(bytes->at, room);
        if (!grown) abort();
        bytes->at = grown, bytes->room = room;
    }
    if (size) memcpy(bytes->at + bytes->size, from, size);
    bytes->size += size;
}

void put_number(struct bytes *bytes, uint64_t number, unsigned width) {
    uint8_t digits[8];
    for (unsigned at = 0; at < width; at++) digits[at] = (uint8_t)(number >> 8 * at);
    put(bytes, digits, width);
}

void free_bytes(struct bytes *bytes) {
    free(bytes->at);
    *bytes = (struct bytes){0};
}

const uint8_t *get_part(struct reader *reader, size_t size) {
    if (reader->failed || reader->left < size) {
        reader->failed = true;
        return NULL;
    }
    const uint8_t *part = reader->at;
    reader->at += size, reader->left -= size;
    return part;
}

uint64_t get_number(struct reader *reader, unsigned width) {
    const uint8_t *digits = get_part(reader, width);
    uint64_t number = 0;
    for (unsigned at = 0; digits && at < width; at++) number |= (uint64_t)digits[at] << 8 * at;
    return number;
}

uint64_t digest_on(uint64_t digest, const void *bytes, size_t size) {
    for (size_t at = 0; at < size; at++) digest = (digest ^ ((const uint8_t *)bytes)[at]) * UINT64_C(1099511628211);
    return digest;
}
