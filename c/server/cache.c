#define _GNU_SOURCE
#include "cache.h"
#include <ctype.h>
#include <stdlib.h>
#include <string.h>
#include "aging.h"
#include "clock.h"
#include "table.h"
#include "watchers.h"
#include "words.h"

enum { THE_HOLD = 0, LINK_TRIES = 50, NUMBER_MOST = 63 };

/* In one list an item is brought to the front at most once in so many seconds, as in memcached. */
enum { FLAT_PAUSE = 60 };

/* The part of -m that may be kept: so the rest can be evicted. */
enum { KEPT_PART = 2 };

static _Atomic uint64_t kept_bytes;

static struct shelf_reader *reader_of(const struct thread *thread, const struct item *item) {
  return &shelf_at(item->shelf)->reader[thread->number];
}

static bool is_gone(const struct item *item, uint32_t now) {
  return item_is_expired(item, now) || item_is_flushed(item, now);
}

static void count_gone(struct counters *counters, const struct item *item, uint32_t now) {
  count(counters, item_is_flushed(item, now) ? COUNT_get_flushed : COUNT_get_expired, 1);
}

/* Takes a hold of a named item, under its stripe's lock. A named item is linked, so it isn't told as stale. */
static struct held take(struct thread *thread, struct item *item) {
  enum bump_get_answer got;
  do {
    got = bump_get(&reader_of(thread, item)->worker, THE_HOLD, item->chunk, item->generation);
    if (got == BUMP_GET_BUSY) count(&thread->counters, COUNT_get_busy, 1);
  } while (got == BUMP_GET_BUSY);
  if (got == BUMP_GET_HELD) return (struct held){ item, false };
  count(&thread->counters, got == BUMP_GET_REFS_FULL ? COUNT_get_refs_full : COUNT_get_stale, 1);
  return (struct held){ NULL, got == BUMP_GET_REFS_FULL };
}

struct held cache_hold_locked(struct thread *thread, const struct key *key, uint32_t now) {
  for (;;) {
    table_lock(key->hash);
    struct item **at = table_find(key), *item = *at;
    if (item == NULL || !is_gone(item, now)) watchers_tell_fetch(thread, key, item);
    if (item == NULL) return (struct held){ NULL, false };
    if (!is_gone(item, now)) return take(thread, item);
    count_gone(&thread->counters, item, now);
    struct item_name name = item_name(item);
    table_take_out(at);
    table_unlock(key->hash);
    shelf_end_item(name); /* takes a shelf's lock, which comes before a stripe's: so the key is looked up again */
  }
}

struct held cache_hold(struct thread *thread, const struct key *key, uint32_t now) {
  struct held held = cache_hold_locked(thread, key, now);
  table_unlock(key->hash);
  return held;
}

static bool is_flat(void) { return atomic_load_explicit(&settings.is_flat, memory_order_relaxed); }

/* Leaves a hit's mark. In one list also the first hit brings an item to the front, which to bump is the second one. */
static enum bump_touch_answer leave_mark(struct shelf_reader *reader, bool is_fetched, uint32_t now) {
  if (!is_flat()) return bump_touch(&reader->worker, THE_HOLD, now).answer;
  enum bump_touch_answer first = is_fetched ? BUMP_TOUCH_ALREADY : bump_touch(&reader->worker, THE_HOLD, now).answer;
  uint32_t time = (uint32_t)bump_time(&reader->worker, THE_HOLD).time;
  return clock_since(time, now) > FLAT_PAUSE ? bump_touch(&reader->worker, THE_HOLD, now).answer : first;
}

void cache_hit(struct thread *thread, struct item *item, uint32_t now, enum hit hit) {
  struct shelf_reader *reader = reader_of(thread, item);
  bump_marks_of marks = bump_marks(&reader->worker, THE_HOLD);
  if (hit != HIT_UNCOUNTED) reader_count_event(reader, (enum shelf_event)(SHELF_hits_to_hot + marks.segment));
  if (hit == HIT_UNMARKED || (marks.fetched && marks.active)) return; /* most hits: no locked step is needed */
  enum bump_touch_answer touched = leave_mark(reader, marks.fetched, now);
  if (touched >= BUMP_TOUCH_QUEUED && touched <= BUMP_TOUCH_DROPPED_REFS_FULL) shelf_tell_counts(reader);
}

bool cache_was_hit(struct thread *thread, struct item *item) {
  return bump_marks(&reader_of(thread, item)->worker, THE_HOLD).fetched;
}

uint32_t cache_time(struct thread *thread, struct item *item) {
  return (uint32_t)bump_time(&reader_of(thread, item)->worker, THE_HOLD).time;
}

void cache_release(struct thread *thread, struct item *item) {
  bump_release(&reader_of(thread, item)->worker, THE_HOLD);
}

uint64_t cache_kept(void) { return atomic_load_explicit(&kept_bytes, memory_order_relaxed); }

/* The place of an item that the thread keeps, or else one that is free; NULL: none is. */
static struct kept *place_to_keep(struct shelf_reader *reader, const struct item *item) {
  struct kept *free_one = NULL;
  if (reader->kept == NULL) reader->kept = calloc(KEPT_MOST, sizeof *reader->kept);
  if (reader->kept == NULL) return NULL;
  for (uint32_t number = 0; number < reader->kept_until; number++) {
    struct kept *kept = &reader->kept[number];
    if (kept->count > 0 && kept->item == item) return kept;
    if (kept->count == 0 && free_one == NULL) free_one = kept;
  }
  if (free_one == NULL && reader->kept_until < KEPT_MOST) free_one = &reader->kept[reader->kept_until++];
  return free_one;
}

/* By a hold of its own. */
static bool begin_to_keep(struct shelf_reader *reader, struct item *item, uint32_t hold) {
  uint64_t most = atomic_load_explicit(&settings.memory, memory_order_relaxed) / KEPT_PART;
  if (atomic_fetch_add_explicit(&kept_bytes, item->charge, memory_order_relaxed) + item->charge <= most &&
      bump_get(&reader->worker, hold, item->chunk, item->generation) == BUMP_GET_HELD)
    return true;
  atomic_fetch_sub_explicit(&kept_bytes, item->charge, memory_order_relaxed);
  return false;
}

bool cache_keep(struct thread *thread, struct item *item, uint32_t *number) {
  struct shelf_reader *reader = reader_of(thread, item);
  struct kept *kept = place_to_keep(reader, item);
  if (kept == NULL) return false;
  *number = (uint32_t)(kept - reader->kept);
  if (kept->count == 0 && !begin_to_keep(reader, item, THE_HOLD + 1 + *number)) return false;
  kept->item = item;
  kept->count++;
  return true;
}

void cache_let_go(struct thread *thread, struct item *item, uint32_t number) {
  struct shelf_reader *reader = reader_of(thread, item);
  if (--reader->kept[number].count > 0) return;
  while (reader->kept_until > 0 && reader->kept[reader->kept_until - 1].count == 0) reader->kept_until--;
  atomic_fetch_sub_explicit(&kept_bytes, item->charge, memory_order_relaxed);
  bump_release(&reader->worker, THE_HOLD + 1 + number);
}

static bool lacks_memory(struct shelf *shelf) {
  shelf_lock(shelf);
  shelf->counts.outofmemory++;
  shelf_unlock(shelf);
  return false;
}

/* Room in memory for what an item is charged. */
static bool has_room(struct thread *thread, const struct item *item) {
  struct shelf *shelf = shelf_at(item->shelf);
  return room_make(&thread->counters, shelf, thread->now) || lacks_memory(shelf);
}

/* An open shelf, for an item that may be linked next. */
static bool has_shelf(struct item *item) { return shelf_choose(item) || lacks_memory(shelf_at(item->shelf)); }

struct item *cache_new_item(struct thread *thread, const struct key *key, uint32_t flags, uint32_t expires,
                            size_t bytes) {
  struct item *item = item_new(key, flags, expires, bytes);
  if (item == NULL) {
    count(&thread->counters, COUNT_malloc_fails, 1);
    return NULL;
  }
  if (has_shelf(item) && has_room(thread, item)) return item;
  item_free(item);
  return NULL;
}

struct item *cache_begin_item(struct thread *thread, const struct key *key, uint32_t flags, uint32_t expires,
                              size_t bytes, size_t room) {
  struct item *item = item_begin(key, flags, expires, bytes, room);
  if (item == NULL) {
    count(&thread->counters, COUNT_malloc_fails, 1);
    return NULL;
  }
  if (item_may_begin(item, room) && has_room(thread, item)) return item;
  item_drop(item);
  return NULL;
}

bool cache_waits_for_room(struct thread *thread, const struct item *item) {
  return room_is_owed() && room_make(&thread->counters, shelf_at(item->shelf), thread->now) && room_is_owed();
}

enum grow_answer cache_grow_item(struct thread *thread, struct item *item, size_t room) {
  if (!item_may_grow(item, room)) return GROW_LATER;
  if (!has_room(thread, item)) return GROW_NO_MEMORY;
  if (item_grow(item, room)) return GROW_DONE;
  count(&thread->counters, COUNT_malloc_fails, 1);
  return GROW_NO_MEMORY;
}

bool cache_complete_item(struct thread *thread, struct item *item) {
  item_complete(item);
  return has_shelf(item) && has_room(thread, item);
}

/* Whether a new item may take the place of the key's, NULL for none. Under the stripe's lock. */
static enum store_answer judge(struct thread *thread, const struct store_terms *terms, struct item *item,
                               struct item *old) {
  struct counters *counters = &thread->counters;
  switch (terms->how) {
    case STORE_ADD: return old != NULL ? STORE_NOT : STORE_DONE;
    case STORE_REPLACE: return old != NULL ? STORE_DONE : STORE_NOT;
    case STORE_SWAP:
      return old != NULL && old->shelf == terms->expected.shelf && old->chunk == terms->expected.chunk &&
                     old->generation == terms->expected.generation
                 ? STORE_DONE
                 : STORE_AGAIN;
    case STORE_CAS: break;
    default: return STORE_DONE;
  }
  if (old == NULL) return count(counters, COUNT_cas_misses, 1), STORE_NOT_FOUND;
  uint64_t unique = atomic_load_explicit(&old->unique, memory_order_relaxed);
  if (unique == terms->unique) {
    count(counters, COUNT_cas_hits, 1);
    shelf_count_event(old->shelf, thread->number, SHELF_cas_hits);
    return STORE_DONE;
  }
  if (!terms->may_be_stale || terms->unique >= unique) {
    count(counters, COUNT_cas_badval, 1);
    shelf_count_event(old->shelf, thread->number, SHELF_cas_badval);
    return STORE_EXISTS;
  }
  atomic_store(&item->expires, atomic_load(&old->expires)); /* as long as the one that it can't replace rightly */
  item->is_stale = true;
  item->has_winner = old->has_winner;
  return STORE_DONE;
}

/* Links an item. Where its shelf has no free chunk, others there are ended. Under the shelf's lock. */
static bool link_item(struct counters *counters, struct shelf *shelf, struct item *item, uint32_t now) {
  int most = atomic_load(&settings.temporary_ttl);
  uint32_t expires = atomic_load_explicit(&item->expires, memory_order_relaxed);
  bool temporary = most >= 0 && expires != 0 && expires - now <= (uint32_t)most && !is_flat();
  for (int tries = 0; tries < LINK_TRIES; tries++) {
    if (shelf_link(shelf, item, temporary, now)) return true;
    shelf_reap(shelf);
    if (bump_size(&shelf->book, BUMP_PLACE_UNUSED) > 0) continue;
    if (!settings.evicts || !shelf_evict(shelf, counters, now)) break;
  }
  return false;
}

/* What became of the key in the table. */
struct named {
  enum store_answer answer;
  struct item_name old; /* taken out of the table: to be ended */
};

/* Names a linked item as the key's, if it may be. Takes the stripe's lock. */
static struct named name_item(struct thread *thread, struct item *item, const struct store_terms *terms, uint32_t now,
                              uint64_t *unique) {
  const struct key key = { item->key, item->key_bytes, item->hash };
  struct named named = { STORE_DONE, { 0 } };
  table_lock(key.hash);
  struct item **at = table_find(&key), *old = *at;
  bool gone = old != NULL && is_gone(old, now);
  if (terms->how != STORE_SWAP) watchers_tell_fetch(thread, &key, gone ? NULL : old);
  named.answer = judge(thread, terms, item, gone ? NULL : old);
  if (gone) count_gone(&thread->counters, old, now);
  if (old != NULL && (gone || named.answer == STORE_DONE)) {
    named.old = item_name(old);
    table_take_out(at);
    if (gone) count(&thread->counters, COUNT_reclaimed, 1);
  }
  if (named.answer == STORE_DONE) {
    *unique = unique_next();
    atomic_store_explicit(&item->unique, *unique, memory_order_relaxed);
    table_name(item);
    count(&thread->counters, COUNT_total_items, 1);
  }
  table_unlock(key.hash);
  return named;
}

enum store_answer cache_store(struct thread *thread, struct item *item, const struct store_terms *terms,
                              uint64_t *unique) {
  uint32_t now = clock_now(); /* so that it isn't born before a flush that came before it */
  struct shelf *shelf = shelf_lock_for(item);
  if (!link_item(&thread->counters, shelf, item, now)) {
    shelf->counts.outofmemory++;
    shelf_unlock(shelf);
    item_free(item);
    return STORE_NO_MEMORY;
  }
  struct item_name linked = item_name(item);
  struct named named = name_item(thread, item, terms, now, unique);
  if (named.answer != STORE_DONE) shelf_end(shelf, linked);
  bool ends_here = named.old.generation != 0 && named.old.shelf == linked.shelf;
  if (ends_here) shelf_end(shelf, named.old);
  shelf_unlock(shelf);
  if (named.old.generation != 0 && !ends_here) shelf_end_item(named.old);
  return named.answer;
}

/* What becomes of an item that is there. Under the stripe's lock. */
static enum end_answer judge_end(struct item *item, const struct end_terms *terms) {
  if (terms->has_unique && atomic_load(&item->unique) != terms->unique) return END_EXISTS;
  if (!terms->invalidates) return END_DONE;
  if (terms->has_expiry) atomic_store(&item->expires, terms->expires);
  item->is_stale = true;
  item->has_winner = false;
  atomic_store(&item->unique, unique_next());
  return END_MADE_STALE;
}

enum end_answer cache_end(struct thread *thread, const struct key *key, const struct end_terms *terms) {
  uint32_t now = thread->now;
  struct item_name old = { 0 };
  enum end_answer answer = END_NOT_FOUND;
  table_lock(key->hash);
  struct item **at = table_find(key), *item = *at;
  bool gone = item != NULL && is_gone(item, now);
  if (gone) count_gone(&thread->counters, item, now);
  watchers_tell_fetch(thread, key, gone ? NULL : item);
  if (item != NULL && !gone) answer = judge_end(item, terms);
  if (answer == END_DONE && terms->command != NULL) {
    shelf_count_event(item->shelf, thread->number, SHELF_delete_hits);
    watchers_tell_end(thread, item, terms->command);
  }
  if (gone || answer == END_DONE) {
    old = item_name(item);
    table_take_out(at);
  }
  table_unlock(key->hash);
  if (old.generation != 0) shelf_end_item(old);
  return answer;
}

/* The number that a value begins with, behind any blanks and any noughts. */
static bool number_of(const struct item *item, uint64_t *number) {
  char text[NUMBER_MOST + 1];
  const char *at = item->value, *end = at + item->bytes;
  while (at < end && isspace((unsigned char)*at)) at++;
  while (end - at > 1 && at[0] == '0' && isdigit((unsigned char)at[1])) at++;
  size_t bytes = (size_t)(end - at) < NUMBER_MOST ? (size_t)(end - at) : NUMBER_MOST;
  memcpy(text, at, bytes);
  text[bytes] = 0;
  return number_u64(text, number);
}

/* The item that takes the place of the one that is held; NULL: no memory. A value that gets shorter keeps its length,
 * with blanks behind, as memcached's does. */
static struct item *changed(struct thread *thread, const struct key *key, const struct item *old, uint64_t number,
                            uint32_t expires) {
  char text[20];
  size_t digits = (size_t)(put_u64(text, number) - text);
  size_t bytes = digits > old->bytes ? digits : old->bytes;
  struct item *item = cache_new_item(thread, key, old->flags, expires, bytes);
  if (item == NULL) return NULL;
  memset(item->value, ' ', bytes);
  memcpy(item->value, text, digits);
  item->has_binary_key = old->has_binary_key;
  return item;
}

/* One try: STORE_AGAIN where another thread stored the key meanwhile. */
static enum store_answer try_add(struct thread *thread, const struct key *key, const struct delta *delta,
                                 struct delta_done *done, enum delta_answer *answer) {
  struct held held = cache_hold(thread, key, thread->now);
  *answer = DELTA_NOT_FOUND;
  if (held.item == NULL) return STORE_DONE;
  struct item *old = held.item, *item = NULL;
  uint64_t number;
  done->expired_before = atomic_load(&old->expires);
  done->shelf = old->shelf;
  done->bytes = old->bytes;
  if (old->bytes > 0 && delta->has_unique && atomic_load(&old->unique) != delta->unique) {
    *answer = DELTA_EXISTS;
  } else if (!number_of(old, &number)) {
    *answer = DELTA_NO_NUMBER;
  } else {
    done->number = delta->goes_up ? number + delta->by : number < delta->by ? 0 : number - delta->by;
    item = changed(thread, key, old, done->number, delta->has_expiry ? delta->expires : done->expired_before);
    *answer = item != NULL ? DELTA_DONE : DELTA_NO_MEMORY;
  }
  const struct store_terms terms = { .how = STORE_SWAP, .expected = item_name(old) };
  cache_release(thread, old);
  return item != NULL ? cache_store(thread, item, &terms, &done->unique) : STORE_DONE;
}

enum delta_answer cache_add(struct thread *thread, const struct key *key, const struct delta *delta,
                            struct delta_done *done) {
  enum store_answer stored;
  enum delta_answer answer;
  do stored = try_add(thread, key, delta, done, &answer);
  while (stored == STORE_AGAIN);
  if (stored == STORE_NO_MEMORY) answer = DELTA_NO_MEMORY;
  if (answer == DELTA_DONE) {
    count(&thread->counters, delta->goes_up ? COUNT_incr_hits : COUNT_decr_hits, 1);
    shelf_count_event(done->shelf, thread->number, delta->goes_up ? SHELF_incr_hits : SHELF_decr_hits);
  }
  return answer;
}
