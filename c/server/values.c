#define _GNU_SOURCE
#include "values.h"
#include <string.h>
#include "aging.h"
#include "clock.h"
#include "shelf.h"
#include "watchers.h"

/* For a value that is under way: the room that it has at least, for how many seconds it waits for others, and for how
 * many nothing may come of it while others wait. */
enum { ROOM_LEAST = ROW_VALUE_MOST + 2, WAIT_MOST = 5, STALL_MOST = 2 };

/* The tick at which a value waited for others last. */
static _Atomic uint32_t waited;

/* The key's value with another one behind it or before it, as a new item; NULL: no memory, or too large for an item. */
static struct item *joined(struct connection *connection, const struct key *key, const struct item *old,
                           const struct item *more, bool behind) {
  uint32_t expires = atomic_load(&old->expires);
  size_t bytes = (size_t)old->bytes + more->bytes;
  if (class_for(item_reckoned(key->bytes, old->flags, bytes)) == 0) return NULL;
  struct item *item = cache_new_item(connection->thread, key, old->flags, expires, bytes);
  if (item == NULL) return NULL;
  connection->work -= (int32_t)bytes;
  const struct item *first = behind ? old : more, *second = behind ? more : old;
  memcpy(item->value, first->value, first->bytes);
  memcpy(item->value + first->bytes, second->value, second->bytes);
  item->has_binary_key = old->has_binary_key;
  return item;
}

/* One try to append or prepend: STORE_AGAIN where another thread stored the key meanwhile. */
static enum store_answer try_join(struct connection *connection, const struct item *more,
                                  const struct store_terms *terms, uint64_t *unique) {
  struct thread *thread = connection->thread;
  const struct key key = { more->key, more->key_bytes, more->hash };
  struct held held = cache_hold(thread, &key, thread->now);
  if (held.item == NULL) return STORE_NOT;
  if (terms->unique != 0 && atomic_load(&held.item->unique) != terms->unique) {
    cache_release(thread, held.item);
    return STORE_EXISTS;
  }
  const struct store_terms swap = { .how = STORE_SWAP, .expected = item_name(held.item) };
  struct item *item = joined(connection, &key, held.item, more, terms->how == STORE_APPEND);
  cache_release(thread, held.item);
  return item != NULL ? cache_store(thread, item, &swap, unique) : STORE_NOT;
}

static enum store_answer store(struct connection *connection, struct item *item, uint64_t *unique) {
  struct thread *thread = connection->thread;
  const struct store_terms *terms = &connection->storing.terms;
  if (terms->how != STORE_APPEND && terms->how != STORE_PREPEND) return cache_store(thread, item, terms, unique);
  enum store_answer answer;
  do answer = try_join(connection, item, terms, unique);
  while (answer == STORE_AGAIN);
  item_free(item);
  return answer;
}

/* The same; and whoever watches is told of it. The item may be gone behind the store: so what is told stands before. */
static enum store_answer store_watched(struct connection *connection, struct item *item, uint64_t *unique) {
  static const char *const STATUSES[] = { "stored", "not_stored", "exists", "not_found", "no_memory", "not_stored" };
  if (!is_watched(WATCHED_MUTATIONS)) return store(connection, item, unique);
  char text[KEY_MOST];
  memcpy(text, item->key, item->key_bytes);
  const struct watched_store told = { .key = { text, item->key_bytes, item->hash },
                                      .how = connection->storing.terms.how,
                                      .class = shelf_at(item->shelf)->class,
                                      .expires = atomic_load(&item->expires),
                                      .bytes = item->bytes };
  enum store_answer answer = store(connection, item, unique);
  watchers_tell_store(connection->thread, &told, STATUSES[answer]);
  return answer;
}

void value_skip(struct connection *connection, uint64_t bytes) {
  connection->state = SKIPS_BYTES;
  connection->skip = bytes;
}

/* Tells that a value isn't stored, and skips what is left of it. */
static void refuse(struct connection *connection, const struct key *key, enum refusal refusal, uint64_t left) {
  const struct storing *storing = &connection->storing;
  bool is_large = refusal == REFUSED_TOO_LARGE;
  count(connection_counters(connection), is_large ? COUNT_store_too_large : COUNT_store_no_memory, 1);
  if (is_watched(WATCHED_MUTATIONS)) {
    const struct watched_store store = { .key = *key, .how = storing->terms.how };
    watchers_tell_store(connection->thread, &store, is_large ? "too_large" : "no_memory");
  }
  storing->speaker->tell_refused(connection, refusal);
  if (storing->outdates) cache_end(connection->thread, key, &(struct end_terms){ 0 });
  value_skip(connection, left);
}

void value_give_up(struct connection *connection) {
  const struct storing *storing = &connection->storing;
  const struct item *item = storing->item;
  const struct key key = { item->key, item->key_bytes, item->hash };
  refuse(connection, &key, REFUSED_NO_MEMORY, item->bytes + storing->speaker->behind - storing->received);
  connection_drop_value(connection);
}

static bool complete(struct connection *connection) {
  struct storing *storing = &connection->storing;
  if (!storing->is_under_way) return true;
  storing->is_under_way = false;
  return cache_complete_item(connection->thread, storing->item);
}

/* Whether the value ends as its protocol's values do. In memory \r\n stands behind each. */
static bool has_right_end(const struct storing *storing) {
  char *behind = storing->item->value + storing->item->bytes;
  if (storing->speaker->behind == 0) memcpy(behind, "\r\n", 2);
  return memcmp(behind, "\r\n", 2) == 0;
}

void value_end(struct connection *connection) {
  struct storing *storing = &connection->storing;
  struct item *item = storing->item;
  uint64_t unique = 0;
  if (!complete(connection)) {
    value_give_up(connection);
    return;
  }
  bool is_right = has_right_end(storing);
  storing->item = NULL;
  connection->state = READS_LINE;
  count(connection_counters(connection), COUNT_cmd_set, 1);
  shelf_count_event(item->shelf, connection->thread->number, SHELF_cmd_set);
  if (is_right) {
    enum store_answer answer = store_watched(connection, item, &unique);
    storing->speaker->tell_stored(connection, answer, unique);
  } else {
    item_free(item);
    storing->speaker->tell_refused(connection, REFUSED_BAD_END);
  }
}

/* Memory for what came of a value and for as much again: so it is at most twice what its client sent, or ROOM_LEAST.
 * What waits in the socket came, too: so most values have their memory at once, and aren't copied to get more. But for
 * those that have to wait for room. */
static size_t room_for(const struct connection *connection, size_t all, size_t came) {
  if (came * 2 < all && !room_is_owed()) came += connection_waiting(connection);
  size_t room = came * 2 > ROOM_LEAST ? came * 2 : ROOM_LEAST;
  return room < all ? room : all;
}

/* One that is all there already, as most are, is never under way. */
void value_begin(struct connection *connection, const struct key *key, uint32_t flags, uint32_t expires, size_t bytes) {
  struct storing *storing = &connection->storing;
  struct thread *thread = connection->thread;
  size_t all = bytes + 2, comes = bytes + storing->speaker->behind, came = buffer_size(&connection->in);
  bool fits = class_for(item_reckoned(key->bytes, flags, bytes)) != 0;
  storing->received = 0;
  storing->is_under_way = came < comes;
  storing->waits = false;
  storing->waits_since = 0;
  storing->room = storing->is_under_way ? room_for(connection, all, came) : all;
  bool is_short = storing->is_under_way && !items_have_share(storing->room);
  if (is_short && storing->room > ROOM_LEAST) storing->room = ROOM_LEAST;
  if (!fits) storing->item = NULL;
  else if (!storing->is_under_way) storing->item = cache_new_item(thread, key, flags, expires, bytes);
  else storing->item = cache_begin_item(thread, key, flags, expires, bytes, storing->room);
  if (storing->item != NULL) connection->state = READS_VALUE;
  else refuse(connection, key, fits ? REFUSED_NO_MEMORY : REFUSED_TOO_LARGE, comes);
}

/* The value waits for others, which have the share of those that are under way; for long it is refused. */
static bool waits(struct connection *connection) {
  struct storing *storing = &connection->storing;
  uint32_t now = connection->thread->now;
  if (storing->waits_since == 0) storing->waits_since = now;
  storing->waits = clock_since(storing->waits_since, now) <= WAIT_MOST;
  if (!storing->waits) return false;
  connection->work = 0;
  if (atomic_load_explicit(&waited, memory_order_relaxed) != now) atomic_store(&waited, now);
  return true;
}

bool values_wait(uint32_t now) { return clock_since(atomic_load(&waited), now) <= 1; }

bool value_is_stalled(const struct connection *connection, uint32_t now) {
  const struct storing *storing = &connection->storing;
  return connection->state == READS_VALUE && storing->is_under_way && storing->room > ROOM_LEAST && !storing->waits &&
         !connection->is_yielded && clock_since(connection->active, now) > STALL_MOST;
}

void value_grow(struct connection *connection) {
  struct storing *storing = &connection->storing;
  storing->waits = false;
  if (cache_waits_for_room(connection->thread, storing->item)) {
    connection->work = 0;
    return;
  }
  size_t all = (size_t)storing->item->bytes + 2;
  size_t room = room_for(connection, all, storing->received + buffer_size(&connection->in));
  enum grow_answer answer = cache_grow_item(connection->thread, storing->item, room);
  if (answer == GROW_DONE) {
    storing->room = room;
    storing->waits_since = 0;
  } else if (answer == GROW_NO_MEMORY || !waits(connection)) {
    value_give_up(connection);
  }
}
