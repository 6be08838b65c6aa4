/* The list of all nodes' locks and waits. */
#ifndef LISTING_H
#define LISTING_H
#include "../lockfs/lockfs.h"

/* As lockfs' list of one machine, but a pid has its node before it, and is known for this node's processes alone. */
void print_cluster_list(FILE *out);
#endif
