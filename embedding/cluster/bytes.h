/* Bytes that grow, numbers in them (little-endian), and a digest of them. Where there is no memory the program ends: a replica that can't do
 * what the others do has to go. */
#ifndef BYTES_H
#define BYTES_H
#include <stdbool.h>
#include <stddef.h>
#include <stdint.h>

struct bytes {
    uint8_t *at;
    size_t size, room;
};

void *room_for(size_t size);
void put(struct bytes *bytes, const void *from, size_t size);
/* The number's `width` least bytes, the least first. */
void put_number(struct bytes *bytes, uint64_t number, unsigned width);
void free_bytes(struct bytes *bytes);

/* What is read of bytes that came from elsewhere; who reads beyond the end reads zeros, and `failed` is set. */
struct reader {
    const uint8_t *at;
    size_t left;
    bool failed;
};

uint64_t get_number(struct reader *reader, unsigned width);
/* A part of so many bytes, which stay the reader's; NULL where there are fewer. */
const uint8_t *get_part(struct reader *reader, size_t size);

/* FNV-1a of 64 bits, which goes on from an earlier digest. */
#define EMPTY_DIGEST UINT64_C(14695981039346656037)
uint64_t digest_on(uint64_t digest, const void *bytes, size_t size);
#endif
