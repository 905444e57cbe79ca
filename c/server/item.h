/* Items: a key, a value, and what the server knows of them. An item's row is one block of memory, which has its key,
 * and its value where that is small. A large value lies out of line, in a block of its own, which goes back to the
 * system by itself. Row and value stay until bump tells that the item's chunk came free: until then somebody may hold
 * it. */
#ifndef ITEM_H
#define ITEM_H

#include <stdatomic.h>
#include <stdbool.h>
#include <stddef.h>
#include <stdint.h>

enum { KEY_MOST = 250, CLASSES_MOST = 64, ROW_VALUE_MOST = 4096 };

struct item {
  struct item *next;        /* in its bucket; under the stripe's lock, as named, is_stale and has_winner */
  char *value;              /* in the row, or out of line; \r\n stands behind it */
  _Atomic uint64_t unique;  /* the number for cas; changed under the stripe's lock */
  _Atomic uint32_t expires; /* a tick */
  uint32_t hash;
  uint32_t chunk; /* the item of bump's, once it is linked */
  uint32_t generation;
  uint32_t born; /* a tick */
  uint32_t flags;
  uint32_t bytes;  /* of the value */
  uint32_t charge; /* what it takes of the memory, with its value */
  uint16_t shelf;
  uint8_t key_bytes;
  uint8_t named;   /* 0: it isn't in the table; else 1 more than the round of `stats sizes` in which it came there */
  bool is_stale;   /* a client is to store it anew */
  bool has_winner; /* one was told so */
  bool has_binary_key;
  char key[];
};

/* Whether its value lies out of line. */
static inline bool item_is_apart(const struct item *item) { return item->value != item->key + item->key_bytes; }

/* An item by what bump knows of it, which stays right where the row itself may be gone. Generation 0: none. */
struct item_name {
  uint32_t chunk;
  uint32_t generation;
  uint16_t shelf;
};

static inline struct item_name item_name(const struct item *item) {
  return (struct item_name){ item->chunk, item->generation, item->shelf };
}

/* A key as a command gives it. */
struct key {
  const char *at;
  size_t bytes;
  uint32_t hash;
};

/* The classes, by the settings: numbered from 1 to class_count(), and 0 is none. */
void classes_make(void);
uint32_t class_count(void);
uint32_t class_size(uint32_t class);

/* What its size speaks for evicting an item of it. */
double class_weight(uint32_t class);

/* An item's bytes as memcached reckons them, and the class of so many; 0: that is too large for an item. */
size_t item_reckoned(size_t key_bytes, uint32_t flags, size_t bytes);
uint32_t class_for(size_t reckoned);

/* A new item, which is charged from now on, and not in bump nor in the table. Its value is to be filled in, but for the
 * \r\n behind. NULL: no memory. It is never asked for one that is too large. */
struct item *item_new(const struct key *key, uint32_t flags, uint32_t expires, size_t bytes);

/* Gives back an item's memory: of one that was never linked, or whose chunk came free. */
void item_free(struct item *item);

/* An item whose value is still to come, with its \r\n: it has memory for so much of it, and isn't charged yet. One of
 * up to ROW_VALUE_MOST bytes has memory for all of it. NULL: no memory. */
struct item *item_begin(const struct key *key, uint32_t flags, uint32_t expires, size_t bytes, size_t room);

/* Charges such an item for so much of its value, and no more: so who says that much will come, and sends little, takes
 * little from the others. All that are under way have an eighth of the memory together. false: it is used up. */
bool item_may_begin(struct item *item, size_t room);

/* The same for more of its value: for that all have a sixteenth of the memory together, and one of them as much as it
 * needs. false: it is to wait until others end. */
bool item_may_grow(struct item *item, size_t room);

/* Whether that sixteenth has so much left; and whether one that waits may go on by now. */
bool items_have_share(uint64_t bytes);
bool items_may_grow(void);

/* Memory for more of its value, which it is charged for already. false: there is none. */
bool item_grow(struct item *item, size_t room);

/* All of its value came: it is charged as item_new's are. */
void item_complete(struct item *item);

/* Gives back one that isn't complete. */
void item_drop(struct item *item);

/* The bytes that those are charged whose values are still to come. */
uint64_t items_under_way(void);

/* The next number for cas; 0 where items have none. */
uint64_t unique_next(void);

/* Whether the item is there for clients no more. */
static inline bool item_is_expired(const struct item *item, uint32_t now) {
  uint32_t expires = atomic_load_explicit(&item->expires, memory_order_relaxed);
  return expires != 0 && expires <= now;
}

/* Set once anything was ever flushed, or is to be. */
extern _Atomic bool items_were_flushed;
bool item_is_flushed_by(const struct item *item, uint32_t now);
static inline bool item_is_flushed(const struct item *item, uint32_t now) {
  return atomic_load_explicit(&items_were_flushed, memory_order_relaxed) && item_is_flushed_by(item, now);
}

/* Flushes all items that are stored before this tick, and those that were stored before this call where it is now. One
 * that is to come takes the place of another one that is to come. */
void items_flush(uint32_t tick, uint32_t now);
uint32_t items_flushed_until(void);

#endif
