/* A map from pairs of numbers to pointers: open addressing, linear probing, and room for twice what there is. */
#ifndef MAP_H
#define MAP_H
#include <stdbool.h>
#include <stddef.h>
#include <stdint.h>

struct slot {
    uint64_t key, other;
    void *value; /* NULL: none */
};

struct map {
    struct slot *slots;
    size_t room, count;
};

/* NULL: none. */
void *map_get(const struct map *map, uint64_t key, uint64_t other);
void map_put(struct map *map, uint64_t key, uint64_t other, void *value);
void map_remove(struct map *map, uint64_t key, uint64_t other);
/* Removes all; `end`, where it isn't NULL, is called with each value. */
void map_clear(struct map *map, void (*end)(void *value));
#endif
