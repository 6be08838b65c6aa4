#include "map.h"
#include "bytes.h"
#include <stdlib.h>

static size_t place_of(const struct map *map, uint64_t key, uint64_t other) {
    uint64_t mixed = (key ^ other * UINT64_C(0xff51afd7ed558ccd)) * UINT64_C(0x9e3779b97f4a7c15);
    size_t at = (size_t)(mixed >> 20) & (map->room - 1);
    while (map->slots[at].value && (map->slots[at].key != key || map->slots[at].other != other)) at = (at + 1) & (map->room - 1);
    return at;
}

void *map_get(const struct map *map, uint64_t key, uint64_t other) {
    return map->room ? map->slots[place_of(map, key, other)].value : NULL;
}

static void map_grow(struct map *map) {
    struct map grown = {.room = map->room ? map->room * 2 : 64, .count = map->count};
    grown.slots = room_for(grown.room * sizeof *grown.slots);
    for (size_t at = 0; at < map->room; at++) {
        const struct slot *slot = &map->slots[at];
        if (slot->value) grown.slots[place_of(&grown, slot->key, slot->other)] = *slot;
    }
    free(map->slots);
    *map = grown;
}

void map_put(struct map *map, uint64_t key, uint64_t other, void *value) {
    if ((map->count + 1) * 2 > map->room) map_grow(map);
    struct slot *slot = &map->slots[place_of(map, key, other)];
    if (!slot->value) map->count++;
    *slot = (struct slot){key, other, value};
}

void map_remove(struct map *map, uint64_t key, uint64_t other) {
    if (!map_get(map, key, other)) return;
    size_t hole = place_of(map, key, other);
    map->slots[hole].value = NULL;
    map->count--;
    /* What was put behind the hole is put anew, up to the next hole. */
    for (size_t at = (hole + 1) & (map->room - 1); map->slots[at].value; at = (at + 1) & (map->room - 1)) {
        struct slot moved = map->slots[at];
        map->slots[at].value = NULL;
        map->slots[place_of(map, moved.key, moved.other)] = moved;
    }
}

void map_clear(struct map *map, void (*end)(void *value)) {
    for (size_t at = 0; at < map->room; at++)
        if (map->slots[at].value && end) end(map->slots[at].value);
    free(map->slots);
    *map = (struct map){0};
}
