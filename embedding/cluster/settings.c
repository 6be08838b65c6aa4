#include "settings.h"
#include "bytes.h"
#include <corosync/cfg.h>
#include <corosync/cmap.h>
#include <corosync/votequorum.h>
#include <stdio.h>
#include <stdlib.h>
#include <string.h>
#include <unistd.h>

static votequorum_handle_t votequorum;
static bool has_votequorum;

static bool refuse(const char *why) {
    fprintf(stderr, "lockfs: %s\n", why);
    return false;
}

static int by_node(const void *one, const void *other) {
    return (int)((const struct configured_node *)one)->node - (int)((const struct configured_node *)other)->node;
}

static bool add_node(cmap_handle_t cmap, unsigned at, struct settings *settings) {
    char name[64];
    uint32_t node, votes = 1;
    snprintf(name, sizeof name, "nodelist.node.%u.nodeid", at);
    if (cmap_get_uint32(cmap, name, &node) != CS_OK) return refuse("a node of corosync.conf's nodelist has no nodeid");
    if (node > UINT16_MAX) return refuse("a nodeid of corosync.conf is above 65535");
    snprintf(name, sizeof name, "nodelist.node.%u.quorum_votes", at);
    cmap_get_uint32(cmap, name, &votes);
    settings->nodes[settings->count++] = (struct configured_node){(uint16_t)node, votes};
    return true;
}

static bool read_nodes(cmap_handle_t cmap, struct settings *settings) {
    for (unsigned at = 0; at < MOST_NODES; at++) {
        char name[64], *address = NULL;
        snprintf(name, sizeof name, "nodelist.node.%u.ring0_addr", at);
        if (cmap_get_string(cmap, name, &address) != CS_OK) break;
        free(address);
        if (!add_node(cmap, at, settings)) return false;
    }
    qsort(settings->nodes, settings->count, sizeof *settings->nodes, by_node);
    return settings->count > 0 || refuse("corosync.conf has no nodelist");
}

static bool read_times(cmap_handle_t cmap, struct settings *settings) {
    uint32_t token, consensus;
    if (cmap_get_uint32(cmap, "runtime.config.totem.token", &token) != CS_OK || cmap_get_uint32(cmap, "runtime.config.totem.consensus", &consensus) != CS_OK)
        return refuse("corosync doesn't tell its token and consensus times");
    settings->detection = token + consensus;
    return true;
}

static bool read_self(cmap_handle_t cmap, struct settings *settings) {
    uint32_t self, votes, total = 0;
    if (cmap_get_uint32(cmap, "runtime.votequorum.this_node_id", &self) != CS_OK || place_of_node(settings, self) < 0)
        return refuse("this node isn't in corosync's nodelist, or corosync has no votequorum");
    settings->self = (uint16_t)self;
    if (!votes_now(settings->self, &votes, &settings->expected)) return refuse("corosync's votequorum doesn't answer");
    for (unsigned at = 0; at < settings->count; at++) total += settings->nodes[at].votes;
    return total <= settings->expected || refuse("corosync expects fewer votes than its nodes have");
}

bool read_settings(struct settings *settings) {
    cmap_handle_t cmap;
    *settings = (struct settings){0};
    if (cmap_initialize(&cmap) != CS_OK) return refuse("there is no corosync to join");
    bool read = read_nodes(cmap, settings) && read_times(cmap, settings) && read_self(cmap, settings);
    cmap_finalize(cmap);
    /* (a child doesn't share the connexion) */
    if (has_votequorum) votequorum_finalize(votequorum), has_votequorum = false;
    return read;
}

bool votes_now(uint16_t self, uint32_t *votes, uint32_t *expected) {
    votequorum_callbacks_t none = {0};
    struct votequorum_info info;
    if (!has_votequorum && votequorum_initialize(&votequorum, &none) != CS_OK) return false;
    has_votequorum = true;
    cs_error_t told;
    for (int tries = 0; (told = votequorum_getinfo(votequorum, self, &info)) == CS_ERR_TRY_AGAIN && tries < 50; tries++) usleep(2000);
    if (told != CS_OK) return false;
    *votes = info.node_votes;
    *expected = info.highest_expected;
    return true;
}

int place_of_node(const struct settings *settings, uint32_t node) {
    const struct configured_node key = {.node = (uint16_t)node};
    const struct configured_node *found = bsearch(&key, settings->nodes, settings->count, sizeof key, by_node);
    return found && node <= UINT16_MAX ? (int)(found - settings->nodes) : -1;
}

uint64_t digest_of_settings(const struct settings *settings) {
    struct bytes bytes = {0};
    for (unsigned at = 0; at < settings->count; at++) {
        put_number(&bytes, settings->nodes[at].node, 2);
        put_number(&bytes, settings->nodes[at].votes, 4);
    }
    uint64_t digest = digest_on(EMPTY_DIGEST, bytes.at, bytes.size);
    free_bytes(&bytes);
    return digest;
}

void throw_out(uint16_t node, const char *why) {
    corosync_cfg_handle_t cfg;
    if (corosync_cfg_initialize(&cfg, NULL) != CS_OK) return;
    corosync_cfg_kill_node(cfg, node, why);
    corosync_cfg_finalize(cfg);
}
