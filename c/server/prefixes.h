/* What `stats detail` counts: gets, hits, stores and deletions, by what stands in keys before their first delimiter. */
#ifndef PREFIXES_H
#define PREFIXES_H

#include <stdatomic.h>
#include <stdbool.h>
#include "connection.h"

enum prefix_event { PREFIX_GET, PREFIX_HIT, PREFIX_SET, PREFIX_DELETE, PREFIX_EVENT_COUNT };

extern _Atomic bool prefixes_are_counted;

void prefixes_note(const struct key *key, enum prefix_event event);
static inline void prefixes_count(const struct key *key, enum prefix_event event) {
  if (atomic_load_explicit(&prefixes_are_counted, memory_order_relaxed)) prefixes_note(key, event);
}

static inline void prefixes_count_get(const struct key *key, bool is_hit) {
  if (!atomic_load_explicit(&prefixes_are_counted, memory_order_relaxed)) return;
  prefixes_note(key, PREFIX_GET);
  if (is_hit) prefixes_note(key, PREFIX_HIT);
}

/* Forgets all of them. */
void prefixes_forget(void);

/* One step of a walk that tells of each. */
bool prefixes_tell(struct connection *connection);

#endif
