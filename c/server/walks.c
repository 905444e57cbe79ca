/* Walks over items, for commands that tell of many or look at all. Each turn does a part, and others are served
 * between: so items may come, move and go meanwhile. */
#define _GNU_SOURCE
#include <inttypes.h>
#include <pthread.h>
#include <string.h>
#include "aging.h"
#include "clock.h"
#include "protocol.h"

/* LISTED_MOST: memcached tells two megabytes at most. */
enum { CRAWLED_WITH_LOCK = 25, DUMPED_WITH_LOCK = 50, LISTED_MOST = 20000 };

/* The open shelf that a walk has come to, of a class that it is about; NULL: it is over. */
static struct shelf *walked_shelf(struct walk *walk) {
  for (; walk->number < shelf_count(); walk->number++) {
    struct shelf *shelf = shelf_at(walk->number);
    if (shelf_is_open(shelf) && (walk->classes >> shelf->class & 1) != 0) return shelf;
  }
  return NULL;
}

static void leave_shelf(struct walk *walk) {
  walk->number++;
  walk->chunk = walk->part = walk->count = 0;
}

/* --------------------------------------------------------------------------------------------------- crawling */

static bool step_crawl(struct connection *connection) {
  struct walk *walk = &connection->walk;
  struct counters *counters = connection_counters(connection);
  struct shelf *shelf = walked_shelf(walk);
  if (shelf == NULL) return true;
  uint64_t before = counted(counters, COUNT_crawler_reclaimed);
  walk->chunk = shelf_crawl(shelf, counters, walk->chunk, CRAWLED_WITH_LOCK, clock_now());
  uint64_t ended = counted(counters, COUNT_crawler_reclaimed) - before;
  connection->work -= CRAWLED_WITH_LOCK * WORK_LOOKED + (int32_t)ended * WORK_ENDED;
  if (walk->chunk == BUMP_NONE) leave_shelf(walk);
  return false;
}

void walk_crawling(struct connection *connection, uint64_t classes) {
  connection_walk(connection, step_crawl, "OK");
  connection->walk.classes = classes;
}

/* --------------------------------------------------------------------------------------------------- metadump */

static void dump_item(struct connection *connection, uint32_t class, const bump_seen *seen) {
  const struct item *item = (const struct item *)(uintptr_t)seen->label;
  uint32_t expires = atomic_load(&item->expires);
  char name[KEY_MOST * 3], *end = put_encoded(name, item->key, item->key_bytes);
  connection_put(connection, "key=", 4);
  connection_put(connection, name, (size_t)(end - name));
  connection_print(connection, " exp=%" PRId64 " la=%" PRId64 " cas=%" PRIu64 " fetch=%s cls=%" PRIu32 " size=%zu\n",
                   expires != 0 ? clock_unix(expires) : -1, clock_unix((uint32_t)seen->time),
                   atomic_load(&item->unique), seen->fetched ? "yes" : "no", class,
                   item_reckoned(item->key_bytes, item->flags, item->bytes));
  connection->work -= WORK_TOLD;
}

/* A line for each linked item among some chunks; and from where to go on. */
static bool step_dump(struct connection *connection) {
  struct walk *walk = &connection->walk;
  struct shelf *shelf = walked_shelf(walk);
  if (shelf == NULL) return true;
  shelf_lock(shelf);
  for (int i = 0; i < DUMPED_WITH_LOCK && walk->chunk < shelf->used; i++, walk->chunk++) {
    bump_seen seen = bump_see(&shelf->book, walk->chunk);
    if (seen.linked) dump_item(connection, shelf->class, &seen);
    connection->work -= WORK_LOOKED;
  }
  bool is_more = walk->chunk < shelf->used;
  shelf_unlock(shelf);
  if (!is_more) leave_shelf(walk);
  return false;
}

void walk_dumping(struct connection *connection, uint64_t classes) {
  connection_walk(connection, step_dump, "END");
  connection->walk.classes = classes;
}

/* -------------------------------------------------------------------------------------------------- cachedump */

/* Binary keys are left out, as they may have ends of lines. */
static void list_item(struct connection *connection, const struct item *item) {
  uint32_t expires = atomic_load(&item->expires);
  connection->work -= WORK_TOLD;
  if (item->has_binary_key) return;
  connection_print(connection, "ITEM %.*s [%" PRIu32 " b; %" PRId64 " s]\r\n", (int)item->key_bytes, item->key,
                   item->bytes, expires != 0 ? clock_unix(expires) : 0);
}

/* The place in a list behind what was told of it last; BUMP_NONE: the list is over. Some of what was told may have
 * moved meanwhile: the last one that is still there tells. Where none is, they were at its end, as that is what goes.
 */
static uint32_t place_again(const struct walk *walk, struct shelf *shelf, uint32_t list) {
  for (uint32_t i = 1; i <= walk->count && i <= WALK_KEPT; i++) {
    const struct item_name *told = &walk->last[(walk->count - i) % WALK_KEPT];
    bump_seen seen = bump_see(&shelf->book, told->chunk);
    if (!seen.linked || seen.generation != told->generation || seen.segment != list) continue;
    bump_walked walked = bump_walk(&shelf->book, list, seen.chunk);
    return walked.count > 1 ? walked.chunks[1] : BUMP_NONE;
  }
  return BUMP_NONE;
}

/* Some items of a list, front first. Whether there may be more. Under the shelf's lock. */
static bool list_some(struct connection *connection, struct shelf *shelf, uint32_t list) {
  struct walk *walk = &connection->walk;
  uint32_t from = walk->count > 0 ? place_again(walk, shelf, list) : BUMP_NONE;
  if (walk->count > 0 && from == BUMP_NONE) return false;
  bump_walked walked = bump_walk(&shelf->book, list, from);
  for (uint32_t i = 0; i < walked.count && walk->left > 0; i++, walk->left--) {
    const struct item *item = shelf_item(shelf, walked.chunks[i]);
    walk->last[walk->count++ % WALK_KEPT] = item_name(item);
    list_item(connection, item);
  }
  return walked.next != BUMP_NONE;
}

static bool step_list(struct connection *connection) {
  static const uint32_t LISTS[] = { BUMP_PLACE_COLD, BUMP_PLACE_HOT, BUMP_PLACE_WARM, BUMP_PLACE_TEMP };
  struct walk *walk = &connection->walk;
  struct shelf *shelf = walked_shelf(walk);
  if (shelf == NULL || walk->left == 0) return true;
  shelf_lock(shelf);
  bool is_more = list_some(connection, shelf, LISTS[walk->part]);
  shelf_unlock(shelf);
  connection->work -= WORK_KEY;
  if (is_more) return false;
  walk->count = 0;
  if (++walk->part == sizeof LISTS / sizeof *LISTS) leave_shelf(walk);
  return false;
}

void walk_listing(struct connection *connection, uint32_t class, uint32_t most) {
  connection_walk(connection, step_list, "END");
  connection->walk.classes = UINT64_C(1) << class; /* there is no class 0 */
  connection->walk.left = most == 0 || most > LISTED_MOST ? LISTED_MOST : most;
}
