/* The table that tells a key's item. It is in stripes, each with a lock and buckets of its own, which grow by
 * themselves: so nothing stops all threads at once. A named item is linked in bump: whoever ends one takes it out of
 * the table before. */
#ifndef TABLE_H
#define TABLE_H

#include <stdbool.h>
#include <stdint.h>
#include "item.h"

/* false: no memory. */
bool table_make(void);
void table_free(void);

/* A key with its hash. */
struct key table_key(const char *at, size_t bytes);

void table_lock(uint32_t hash);
void table_unlock(uint32_t hash);

/* Begin to bring into the processor's cache what a look-up of a key reads: its stripe, then its bucket, then its item.
 * Each is called for all keys of a request before the next one is, so that memory is waited for once, and not for each
 * key. They change nothing, and may be left out. Without the stripe's lock. */
void table_fetch_stripe(uint32_t hash);
void table_fetch_bucket(uint32_t hash);
void table_fetch_item(uint32_t hash);

/* Under the stripe's lock: where the key's item is named, or where the next one would be. */
struct item **table_find(const struct key *key);

/* Under the stripe's lock: names an item whose key has none. */
void table_name(struct item *item);

/* Under the stripe's lock: takes out the item that is named there. */
void table_take_out(struct item **at);

/* Takes an item out, if it is named. Takes the stripe's lock. */
bool table_forget(struct item *item);

struct table_measure {
  uint64_t items;
  uint64_t buckets;
};
struct table_measure table_measure(void);

#endif
