/* What the protocols do with a key: look its item up and hold it, store one, end one, change it. */
#ifndef CACHE_H
#define CACHE_H

#include "item.h"
#include "thread.h"

/* An item that is held by this thread, so that its row and its value stay until it is released. */
struct held {
  struct item *item; /* NULL: the key has none */
  bool is_full;      /* it has one, with as many references as there may be */
};

/* A hold of the key's item. A thread has one hold at a time. */
struct held cache_hold(struct thread *thread, const struct key *key, uint32_t now);

/* The same, and keeps the stripe's lock, whatever is answered: table_unlock(key->hash) lets it go. */
struct held cache_hold_locked(struct thread *thread, const struct key *key, uint32_t now);

/* Of the item that is held: a hit, which is counted by its list; one that leaves no marks is counted alone, and one
 * that isn't counted is so by whoever hits it. */
enum hit { HIT_WHOLE, HIT_UNMARKED, HIT_UNCOUNTED };
void cache_hit(struct thread *thread, struct item *item, uint32_t now, enum hit hit);
bool cache_was_hit(struct thread *thread, struct item *item);
uint32_t cache_time(struct thread *thread, struct item *item);
void cache_release(struct thread *thread, struct item *item);

/* Keeps the item that is held, beside the hold, so that its value can be sent from where it lies; by the number it is
 * let go. false: it ended meanwhile, or as much is kept already as may be. */
bool cache_keep(struct thread *thread, struct item *item, uint32_t *number);
void cache_let_go(struct thread *thread, struct item *item, uint32_t number);

/* The bytes of the items that are kept. */
uint64_t cache_kept(void);

enum store_how { STORE_SET, STORE_ADD, STORE_REPLACE, STORE_CAS, STORE_APPEND, STORE_PREPEND, STORE_SWAP };

enum store_answer { STORE_DONE, STORE_NOT, STORE_EXISTS, STORE_NOT_FOUND, STORE_NO_MEMORY, STORE_AGAIN };

/* On what an item is stored. */
struct store_terms {
  enum store_how how;
  uint64_t unique;           /* STORE_CAS: what the key's item has; APPEND and PREPEND: the same, unless it is 0 */
  bool may_be_stale;         /* STORE_CAS: where it is smaller, the item is stored as a stale one */
  struct item_name expected; /* STORE_SWAP: the item that it is for; else STORE_AGAIN */
};

/* Room in memory for a new item: where there is none it is freed, and the answer is NULL. */
struct item *cache_new_item(struct thread *thread, const struct key *key, uint32_t flags, uint32_t expires,
                            size_t bytes);

/* The same of an item whose value is still to come, with memory for so much of it. */
struct item *cache_begin_item(struct thread *thread, const struct key *key, uint32_t flags, uint32_t expires,
                              size_t bytes, size_t room);

/* Whether room for more of its value is made later, in another turn: since others that were charged have none yet. */
bool cache_waits_for_room(struct thread *thread, const struct item *item);

/* Memory for more of its value; or it waits for other values that are under way. */
enum grow_answer { GROW_DONE, GROW_LATER, GROW_NO_MEMORY };
enum grow_answer cache_grow_item(struct thread *thread, struct item *item, size_t room);

/* Its value is all there, and it is an item as any other from now on. false: there is no room for it as that. */
bool cache_complete_item(struct thread *thread, struct item *item);

/* Stores an item under its key, in place of the one that the key has. The item is the cache's from then on, or gone.
 * `unique` is its number for cas, where it is stored. */
enum store_answer cache_store(struct thread *thread, struct item *item, const struct store_terms *terms,
                              uint64_t *unique);

enum end_answer { END_DONE, END_MADE_STALE, END_NOT_FOUND, END_EXISTS };

/* How a key's item is ended. */
struct end_terms {
  bool has_unique; /* only where it has this number for cas; else END_EXISTS */
  uint64_t unique;
  bool invalidates; /* it stays, as a stale one */
  bool has_expiry;  /* which then has another time to expire */
  uint32_t expires;
  const char *command; /* by which a client ends it: it is counted, and watchers are told; NULL: no client does */
};

/* Ends the key's item. */
enum end_answer cache_end(struct thread *thread, const struct key *key, const struct end_terms *terms);

enum delta_answer { DELTA_DONE, DELTA_NOT_FOUND, DELTA_NO_NUMBER, DELTA_NO_MEMORY, DELTA_EXISTS };

/* What is done to a number that is a value. */
struct delta {
  bool goes_up;
  uint64_t by;
  bool has_unique; /* only where the item has this number for cas */
  uint64_t unique;
  bool has_expiry; /* with another time to expire */
  uint32_t expires;
};

struct delta_done {
  uint64_t number;
  uint64_t unique;
  uint32_t expired_before; /* the time to expire that it had */
  uint32_t bytes;          /* of its value, which is written anew */
  uint16_t shelf;          /* where it stood before */
};

/* A value that changes is a new item, as somebody may be reading the old one's. */
enum delta_answer cache_add(struct thread *thread, const struct key *key, const struct delta *delta,
                            struct delta_done *done);

#endif
