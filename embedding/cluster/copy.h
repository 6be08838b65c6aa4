/* This node's copy of the state: a log (log.h), the table that comes of what of it is applied (state.h), of which view both are, and what follows of
 * the log's entries as they stand there, be they applied or not. */
#ifndef COPY_H
#define COPY_H
#include "bytes.h"
#include "cluster_view.h"
#include "settings.h"

void copy_open(const struct settings *settings);
/* Whether there is one; else it is on its way, or there is none. */
bool copy_is_here(void);
/* Whether it counts: it is here, and each node that was to be purged first was. */
bool copy_counts(void);
/* It counts no more, and isn't told. */
void copy_lose(void);
/* No locks, for these voters. */
void copy_begin_with_none(struct cluster_view_electorate electorate);
/* A view has begun in this ring with what is here. */
void copy_begin_view(struct cluster_view_number view);
/* How long the log was then. */
uint64_t copy_base(void);

/* Whether the copy counts only once the node at the place is purged, which it wasn't yet; nobody is waited for any more. */
void copy_await(int place, bool is_awaited);
void copy_await_nobody(void);
bool copy_awaits(int place);

void copy_append(const struct bytes *entry);
/* The number of the last request in the log of the node at this place. */
uint64_t copy_last_delivered(int place);
/* An acknowledgement vouches for so much of the log. */
void copy_vouch(uint64_t length);
/* The ring has changed: what no acknowledgement of it vouches for was perhaps delivered to nobody else, and is dropped. How many entries that is. */
uint64_t copy_drop_unvouched(void);
/* Applies what members with a majority acknowledged. false: there is no memory for what the others may have done. */
bool copy_apply(void);

/* As bytes, and back. false: they can't be taken. */
void copy_export(struct bytes *bytes);
bool copy_import(struct reader *reader);
/* What this node's requests came to that are applied there isn't known here; they are settled (own.h) once all is applied with which the view began. */
void copy_settle_own(void);
/* As a HELLO tells it. */
struct cluster_view_state copy_told(void);
#endif
