/* Shelves: where items stand in bump. A shelf is a store of bump's with one class of chunks, with a mutex for its book,
 * a worker for each thread that serves, and the lanes, which the maintainer has. A class of sizes begins with a small
 * shelf, and gets further ones, larger and larger, as its items come; among these a key's hash chooses. Where its items
 * went, its last shelf gets no further ones, and is closed once it is empty.
 *
 * An item's label in bump is the address of its row. So whatever call tells that a chunk came free, tells which memory
 * goes back. A row may be read under its shelf's lock while its chunk is linked, under its stripe's lock while it is
 * named, and by whoever holds it.
 *
 * Locks are taken in this order: that of a class's number of shelves, a shelf's, a stripe's. Never two of a kind. */
#ifndef SHELF_H
#define SHELF_H

#include <pthread.h>
#include <stdalign.h>
#include <stdatomic.h>
#include <stdbool.h>
#include <stdint.h>
#include "bump.h"
#include "counters.h"
#include "item.h"

/* What the maintainer found in all chunks of a shelf, as it looked for expired items: since when, and how many. Before
 * it does so again it rests. */
struct crawled {
  uint32_t begins; /* a tick; 0: it rests */
  uint64_t examined, reclaimed;
  uint32_t rests, rests_since; /* seconds, and a tick */
};

/* What `stats items` tells, by its names. */
struct shelf_counts {
  uint64_t evicted, evicted_nonzero, evicted_time, evicted_unfetched, evicted_active, outofmemory, reclaimed;
  uint64_t expired_unfetched, crawler_reclaimed, crawler_items_checked, lrutail_reflocked;
  uint64_t moves_to_cold, moves_to_warm, moves_within_lru, direct_reclaims;
};

/* What a thread counts of a shelf, by the names that `stats slabs` and `stats items` tell it by. Those of hits are in
 * the order of bump's lists. */
#define SHELF_EVENTS(X)                                                                                                \
  X(hits_to_hot) X(hits_to_warm) X(hits_to_cold) X(hits_to_temp) X(cmd_set) X(delete_hits) X(incr_hits) X(decr_hits)   \
  X(cas_hits) X(cas_badval) X(touch_hits)

#define SHELF_EVENT_AS_NAME(name) SHELF_##name,
enum shelf_event { SHELF_EVENTS(SHELF_EVENT_AS_NAME) SHELF_EVENT_COUNT };

/* An item that a thread keeps, so that connections may send its value from where it lies: as many as are counted. */
struct kept {
  struct item *item;
  uint32_t count; /* 0: none; then the hold of this number is free */
};

/* So many items of a shelf a thread may keep. */
enum { KEPT_MOST = 256 };

/* A thread's part of a shelf. Its counts of bumps are bump's own, told again by the thread when they changed. */
struct shelf_reader {
  alignas(64) bump_worker worker;
  _Atomic uint64_t of[SHELF_EVENT_COUNT];
  _Atomic uint64_t attempted, accepted, full, busy, refs;
  bump_counts before; /* of those, what workers counted until the shelf was closed last */
  struct kept *kept;   /* NULL: it never kept any */
  uint32_t kept_until; /* from here on none was ever kept */
};

struct shelf_lane {
  bump_lane lane;
  _Atomic uint64_t applied; /* bump's own count, told again by the maintainer */
  uint64_t before, moves;   /* bumps that were applied, and items brought to WARM, until the shelf was closed last */
};

struct shelf {
  alignas(64) _Atomic bool is_open; /* set when all below is there */
  _Atomic bool was_open;            /* ever: then it has counts */
  _Atomic bool is_nearly_full;      /* or was, within the last second */
  bool is_leaving;                  /* it isn't open any more, and isn't closed yet */
  uint32_t number;
  uint32_t class;
  uint32_t chunks;
  uint64_t before; /* the chunks of the class's shelves before it */
  struct shelf_reader *reader;
  struct shelf_lane *lane;
  alignas(64) pthread_mutex_t lock; /* of the book, and of what stands below it: a get needs none of it */
  _Atomic uint32_t waiting;         /* for the lock */
  bump_book book;
  uint32_t used;      /* chunks from this one on were never linked */
  uint32_t crawled_to; /* up to here, in this round of the maintainer's */
  struct crawled crawled;
  uint64_t requested; /* bytes of items that aren't given back, as memcached reckons them */
  struct shelf_counts counts;
  uint64_t forgotten[SHELF_EVENT_COUNT]; /* what was counted when `stats reset` was asked for last */
  uint64_t forgotten_moves;              /* and of what bump counts, how many items bumps brought to WARM, to stay */
  _Atomic uint64_t charged; /* the same as they are charged */
  _Atomic uint32_t age;     /* of the item that would be evicted next, when the maintainer looked last */
};

/* All shelves, by the settings and the classes; none is open. false: no memory. */
bool shelves_make(void);
void shelves_free(void);
uint32_t shelf_count(void);

/* The number of a class's first shelf. Behind its last one comes the next class's first. And the number behind those of
 * its shelves that are open, which are the first ones: most never are, so who looks at all looks at these. */
uint32_t shelf_first(uint32_t class);
uint32_t shelf_behind_open(uint32_t class);

extern struct shelf *shelves;
static inline struct shelf *shelf_at(uint32_t number) {
  return &shelves[number];
}

/* What the items of a class are charged. */
uint64_t shelf_class_charged(uint32_t class);

/* Where a key's item of a class is to stand: one that gets new items, or the first one. */
uint16_t shelf_number(uint32_t class, uint32_t hash);

/* Has an item's shelf open, where it is to be linked. Its own may have been closed since it was chosen, if its value
 * came in parts: then it gets another one. false: no memory. */
bool shelf_choose(struct item *item);

/* Opens the next shelf of each class whose last one is nearly full; and closes shelves that aren't needed any more: it
 * looks for them once a second. What a thread does within one of its turns goes on meanwhile. The maintainer's. */
void shelves_tend(bool is_another_tick);

/* Locks the shelf where an item is to be linked: its own where that has a free chunk, or else another one of its class
 * which has one, and which is its own from then on. Where none has one, its own is locked, for one to be evicted. */
struct shelf *shelf_lock_for(struct item *item);

static inline bool shelf_is_open(const struct shelf *shelf) { return atomic_load(&shelf->is_open); }
static inline bool shelf_was_open(const struct shelf *shelf) { return atomic_load(&shelf->was_open); }

/* Counts an event for a thread. By this thread. */
static inline void reader_count_event(struct shelf_reader *reader, enum shelf_event event) {
  _Atomic uint64_t *of = &reader->of[event];
  atomic_store_explicit(of, atomic_load_explicit(of, memory_order_relaxed) + 1, memory_order_relaxed);
}

static inline void shelf_count_event(uint32_t number, uint32_t thread, enum shelf_event event) {
  reader_count_event(&shelf_at(number)->reader[thread], event);
}

/* Takes a shelf's lock, and gives it back. */
static inline void shelf_lock(struct shelf *shelf) {
  if (pthread_mutex_trylock(&shelf->lock) == 0) return;
  atomic_fetch_add_explicit(&shelf->waiting, 1, memory_order_relaxed);
  pthread_mutex_lock(&shelf->lock);
  atomic_fetch_sub_explicit(&shelf->waiting, 1, memory_order_relaxed);
}

static inline void shelf_unlock(struct shelf *shelf) { pthread_mutex_unlock(&shelf->lock); }

/* Rests while others wait for the lock: for who takes it again and again, since a mutex is nobody's in turn. */
void shelf_make_way(const struct shelf *shelf);

/* How often it was counted, by all threads. */
uint64_t shelf_counted(const struct shelf *shelf, enum shelf_event event);

/* The calls below are made under the shelf's lock. */

/* Whether its book is there. */
static inline bool shelf_has_book(const struct shelf *shelf) { return shelf_is_open(shelf) || shelf->is_leaving; }

/* How many items a thread's bumps, and all threads', ever brought to WARM. */
uint64_t shelf_moves_of(struct shelf *shelf, uint32_t thread);
uint64_t shelf_moves(struct shelf *shelf);

/* The class may need its next shelf soon: it is looked whether it does. */
void shelf_note_full(struct shelf *shelf);

/* The item in a chunk that is linked or dying. */
struct item *shelf_item(struct shelf *shelf, uint32_t chunk);

/* Links an item, which nobody knows of yet. false: no chunk is free; the item stays the caller's. */
bool shelf_link(struct shelf *shelf, struct item *item, bool temporary, uint32_t now);

/* Moves what is in HOT and WARM to COLD's front: all of it, where that is little. For the mode in which all items are
 * in one list, as bump links items in HOT, and brings to WARM those that are hit. */
void shelf_flatten(struct shelf *shelf);

/* Ends an item that is no longer in the table; or does nothing where another thread did meanwhile. */
void shelf_end(struct shelf *shelf, struct item_name name);

/* Gives back what ended items had that somebody held, and that nobody holds any more. */
void shelf_reap(struct shelf *shelf);

/* Gives back what the chunks had that a call told as free. */
void shelf_give_back(struct shelf *shelf, const uint32_t *chunks, uint32_t count);

/* Takes the shelf's lock, and ends an item that is no longer in the table. */
void shelf_end_item(struct item_name name);

/* Lets a thread's counts of a shelf be seen. By this thread. */
void shelf_tell_counts(struct shelf_reader *reader);

/* What was left of a shelf when it was given back. */
struct shelf_rest {
  uint64_t items;     /* that were linked until then */
  uint64_t applied;   /* bumps, since its workers were closed */
  uint64_t unsettled; /* workers */
  uint64_t held;      /* chunks that somebody still held */
  uint64_t charged;   /* bytes of the items that weren't freed one by one */
};

/* About how much memory a shelf's store takes. */
uint64_t shelf_bytes(const struct shelf *shelf);

/* Makes the store of a shelf that isn't open, and its parts. false: no memory. And gives it back, once no thread uses
 * it, and it is empty. */
bool shelf_make(struct shelf *shelf);
struct shelf_rest shelf_unmake(struct shelf *shelf);

/* What was left of all that were closed until now, at the process's end. */
struct shelf_rest shelves_rest(void);

/* Ends an open shelf, once no thread uses it: closes each worker, applies its bumps, and gives back what was held.
 * Where the settings say so it frees each item and the store, too; else the process's end does, at once. */
struct shelf_rest shelf_close(struct shelf *shelf);

#endif
