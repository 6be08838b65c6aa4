/* The log of a view: what this member was delivered, in order. Entries that are applied are forgotten but for how many they were and the digest
 * of all up to them; those behind are kept as they are. Lengths count entries from the beginning of the state. */
#ifndef LOG_H
#define LOG_H
#include "bytes.h"
#include "settings.h"

/* No entries, and none were applied. */
void log_clear(void);
void log_append(const void *entry, size_t size);
uint64_t log_length(void);
uint64_t log_digest(void);
uint64_t log_applied(void);
/* The entry at this place, from `log_applied` to `log_length`. */
const uint8_t *log_entry(uint64_t place, size_t *size);
/* The first entry that isn't applied now is. */
void log_advance(void);
/* Drops what is behind this length, which isn't below `log_applied`. */
void log_truncate(uint64_t length);
/* Whether the log of this length has this digest; false where it is below what is applied, or beyond the end. */
bool log_has(uint64_t length, uint64_t digest);

/* As bytes, and back. */
void log_export(struct bytes *bytes);
bool log_import(struct reader *reader);

/* Who acknowledged how much, by place of the node. */
void log_forget_acknowledgements(void);
void log_acknowledge(int place, uint64_t length);
/* How much is acknowledged by nodes that have a majority of the expected votes. */
uint64_t log_committed(const struct settings *settings, uint32_t expected);
#endif
