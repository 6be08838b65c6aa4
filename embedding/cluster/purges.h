/* When the nodes that are away are purged: a time after the view began, and once the fence, where there is one, has done its work. */
#ifndef PURGES_H
#define PURGES_H
#include <stdbool.h>
#include <stdint.h>

enum purge_need { PURGE_NEVER, PURGE_LATER, PURGE_NOW };

/* The command that ends a node, which is called with the node's number behind it, or NULL; whether a node is still to be purged as its time
 * comes; and what purges it. */
void purges_open(const char *fence, enum purge_need (*need)(uint16_t node), void (*purge)(uint16_t node), void (*say)(const char *format, ...));
/* Forgets what was planned. */
void purges_clear(void);
/* The node is to be purged after so many milliseconds. */
void purges_plan(uint16_t node, unsigned delay);
/* The node was purged. */
void purges_done(uint16_t node);
/* Milliseconds until `purges_work` is to be called, or -1. */
int purges_timeout(void);
/* Runs the fences that are due; calls `purge` for each node that may be purged now. */
void purges_work(void);
#endif
