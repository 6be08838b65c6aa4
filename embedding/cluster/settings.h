/* What corosync's configuration says, as far as the lock table depends on it. */
#ifndef SETTINGS_H
#define SETTINGS_H
#include <stdbool.h>
#include <stdint.h>

enum { MOST_NODES = 128 };

struct configured_node {
    uint16_t node;
    uint32_t votes;
};

struct settings {
    uint16_t self;
    unsigned count;
    struct configured_node nodes[MOST_NODES]; /* by number */
    uint32_t expected;                        /* the votes that there are to be, of which a view has a majority */
    unsigned detection;                       /* milliseconds until a node sees that it is cut off: totem's token and consensus */
};

/* false: it is told on standard error what is wrong: no corosync, no nodelist, a node above 65,535, or more votes than are expected. */
bool read_settings(struct settings *settings);
/* This node's votes and the expected ones as votequorum has them now. false: it doesn't tell. */
bool votes_now(uint16_t self, uint32_t *votes, uint32_t *expected);
/* The place of the node among the configured ones, or -1. */
int place_of_node(const struct settings *settings, uint32_t node);
/* A digest of the configured nodes and their votes, which all members of a view have alike. */
uint64_t digest_of_settings(const struct settings *settings);
/* Ends corosync on a node, which thereby leaves the ring. */
void throw_out(uint16_t node, const char *why);
#endif
