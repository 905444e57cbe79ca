#define _GNU_SOURCE
#include "keys.h"
#include <string.h>
#include "clock.h"
#include "shelf.h"
#include "watchers.h"
#include "words.h"

struct item *key_fetch(struct thread *thread, const struct key *key, uint32_t now, const uint32_t *expires) {
  struct held held = cache_hold(thread, key, now);
  struct item *item = held.item;
  count(&thread->counters, expires != NULL ? COUNT_cmd_touch : COUNT_cmd_get, 1);
  if (item == NULL) {
    count(&thread->counters, expires != NULL ? COUNT_touch_misses : COUNT_get_misses, 1);
    return NULL;
  }
  if (expires != NULL) {
    atomic_store(&item->expires, *expires);
    shelf_count_event(item->shelf, thread->number, SHELF_touch_hits);
  }
  cache_hit(thread, item, now, expires != NULL ? HIT_UNCOUNTED : HIT_WHOLE);
  count(&thread->counters, expires != NULL ? COUNT_touch_hits : COUNT_get_hits, 1);
  return item;
}

bool key_touch(struct thread *thread, const struct key *key, uint32_t expires) {
  struct item *item = key_fetch(thread, key, thread->now, &expires);
  if (item != NULL) cache_release(thread, item);
  return item != NULL;
}

enum end_answer key_end(struct thread *thread, const struct key *key, const struct end_terms *terms) {
  enum end_answer answer = cache_end(thread, key, terms);
  if (answer == END_DONE) count(&thread->counters, COUNT_delete_hits, 1);
  if (answer == END_NOT_FOUND) count(&thread->counters, COUNT_delete_misses, 1);
  return answer;
}

/* Stores the number that the key begins with, where it has no item. */
static enum store_answer begin_number(struct thread *thread, const struct key *key, const struct beginning *beginning,
                                      struct reckoned *to) {
  char digits[20];
  size_t bytes = (size_t)(put_u64(digits, beginning->number) - digits);
  struct item *item = cache_new_item(thread, key, 0, beginning->expires, bytes);
  if (item == NULL) return STORE_NO_MEMORY;
  memcpy(item->value, digits, bytes);
  item->has_binary_key = beginning->has_binary_key;
  const struct watched_store told = { .key = *key,
                                      .how = STORE_ADD,
                                      .class = shelf_at(item->shelf)->class,
                                      .expires = beginning->expires,
                                      .bytes = (uint32_t)bytes };
  to->done = (struct delta_done){ .number = beginning->number, .expired_before = TICK_NEVER };
  to->is_new = true;
  enum store_answer answer = cache_store(thread, item, &(struct store_terms){ .how = STORE_ADD }, &to->done.unique);
  if (answer == STORE_DONE) watchers_tell_store(thread, &told, "stored");
  return answer;
}

struct reckoned key_reckon(struct thread *thread, const struct key *key, const struct delta *delta,
                           const struct beginning *beginning) {
  for (;;) {
    struct reckoned reckoned = { 0 };
    reckoned.answer = cache_add(thread, key, delta, &reckoned.done);
    if (reckoned.answer != DELTA_NOT_FOUND) return reckoned;
    if (!beginning->begins) {
      count(&thread->counters, delta->goes_up ? COUNT_incr_misses : COUNT_decr_misses, 1);
      return reckoned;
    }
    enum store_answer stored = begin_number(thread, key, beginning, &reckoned);
    if (stored == STORE_NOT) continue; /* another thread began it meanwhile */
    reckoned.answer = stored == STORE_DONE ? DELTA_DONE : DELTA_NO_MEMORY;
    return reckoned;
  }
}
