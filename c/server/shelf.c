#define _GNU_SOURCE
#include "shelf.h"
#include <stdlib.h>
#include <string.h>
#include <time.h>
#include "clock.h"
#include "memory.h"
#include "network.h"
#include "table.h"

/* A ring has room for what comes between two rounds of the maintainer. */
enum {
  RING = 1024,
  REFS_MOST = 65535,
  RESTS_MOST = 10,
  FLATTENED_MOST = 2 * BUMP_MOST_CHUNKS,
  CHUNK_BYTES = 48,
  PLACE_BYTES = 16 /* of a ring */
};

/* Values that lie apart are sent from there, and so kept: by holds of their own. */
static uint32_t holds_of(const struct shelf *shelf) {
  return 1 + (class_size(shelf->class) > ROW_VALUE_MOST ? KEPT_MOST : 0);
}

uint64_t shelf_bytes(const struct shelf *shelf) {
  uint64_t worker = RING * PLACE_BYTES + (uint64_t)holds_of(shelf) * PLACE_BYTES;
  return (uint64_t)shelf->chunks * CHUNK_BYTES + (uint64_t)settings.threads * worker;
}

/* Takes all parts out of the store that was opened. No number that isn't there can come: they are those configured. */
static bool take_parts(struct shelf *shelf, bump_store *store) {
  bool all = bump_take_book(store, 0, &shelf->book);
  for (uint32_t thread = 0; thread < (uint32_t)settings.threads; thread++) {
    all &= bump_take_worker(store, thread, &shelf->reader[thread].worker);
    all &= bump_take_lane(store, thread, &shelf->lane[thread].lane);
  }
  return all;
}

/* What threads have of a shelf stays when it is closed, since they count in it. */
static bool make_readers(struct shelf *shelf) {
  size_t workers = (size_t)settings.threads;
  if (shelf->reader != NULL) return true;
  struct shelf_reader *reader = aligned_alloc(alignof(struct shelf_reader), workers * sizeof *reader);
  struct shelf_lane *lane = calloc(workers, sizeof *lane);
  if (reader == NULL || lane == NULL) {
    free(reader);
    free(lane);
    return false;
  }
  memset(reader, 0, workers * sizeof *reader);
  shelf->reader = reader;
  shelf->lane = lane;
  memory_take(MEMORY_shelves, workers * (sizeof *reader + sizeof *lane));
  return true;
}

bool shelf_make(struct shelf *shelf) {
  bump_store store = { 0 };
  const bump_config config = { .store = shelf->number + 1,
                               .workers = (uint32_t)settings.threads,
                               .capacity = RING,
                               .refs_limit = REFS_MOST,
                               .first_generation = 1,
                               .holds = holds_of(shelf),
                               .words = 0 };
  const bump_class_config class = { shelf->chunks, 0, 0 }; /* each pull brings a limit of its own */
  if (!make_readers(shelf) || bump_open(&store, &config, &class, 1) != BUMP_OPEN_DONE) return false;
  bool all = take_parts(shelf, &store);
  bump_close(store);
  memory_take(MEMORY_shelves, shelf_bytes(shelf));
  return all;
}

void shelf_make_way(const struct shelf *shelf) {
  static const struct timespec WAY = { 0, 20000 };
  for (int i = 0; i < RESTS_MOST && atomic_load_explicit(&shelf->waiting, memory_order_relaxed) > 0; i++)
    nanosleep(&WAY, NULL);
}

static struct item *item_of(uint64_t label) { return (struct item *)(uintptr_t)label; }

struct item *shelf_item(struct shelf *shelf, uint32_t chunk) {
  return item_of(bump_see(&shelf->book, chunk).label);
}

static void give_back(struct shelf *shelf, struct item *item) {
  shelf->requested -= item_reckoned(item->key_bytes, item->flags, item->bytes);
  atomic_fetch_sub_explicit(&shelf->charged, item->charge, memory_order_relaxed);
  item_free(item);
}

void shelf_give_back(struct shelf *shelf, const uint32_t *chunks, uint32_t count) {
  for (uint32_t i = 0; i < count; i++) give_back(shelf, shelf_item(shelf, chunks[i]));
}

bool shelf_link(struct shelf *shelf, struct item *item, bool temporary, uint32_t now) {
  uint64_t label = (uintptr_t)item;
  bump_linked linked = temporary ? bump_link_temp(&shelf->book, label, now) : bump_link(&shelf->book, label, now);
  if (linked.answer != BUMP_LINK_DONE) return false;
  if (atomic_load_explicit(&settings.is_flat, memory_order_relaxed)) shelf_flatten(shelf);
  item->chunk = linked.chunk;
  item->generation = linked.generation;
  item->born = now;
  if (shelf->used <= linked.chunk) shelf->used = linked.chunk + 1;
  shelf->requested += item_reckoned(item->key_bytes, item->flags, item->bytes);
  atomic_fetch_add_explicit(&shelf->charged, item->charge, memory_order_relaxed);
  if (!atomic_load_explicit(&shelf->is_nearly_full, memory_order_relaxed)) shelf_note_full(shelf);
  return true;
}

/* What comes here stood at the front last: so each list is emptied from its end on. An item that was hit meanwhile is
 * brought to WARM's front once more. */
void shelf_flatten(struct shelf *shelf) {
  static const uint32_t TAILS[] = { BUMP_TAIL_HOT, BUMP_TAIL_WARM };
  for (int i = 0; i < 2; i++)
    for (int pulls = 0; pulls < FLATTENED_MOST && bump_size(&shelf->book, TAILS[i]) > 0; pulls++)
      bump_pull(&shelf->book, TAILS[i], 0);
}

void shelf_end(struct shelf *shelf, struct item_name name) {
  bump_unlinked ended = bump_unlink(&shelf->book, name.chunk, name.generation);
  if (ended.answer == BUMP_UNLINK_FREED) give_back(shelf, item_of(ended.label));
}

void shelf_end_item(struct item_name name) {
  struct shelf *shelf = shelf_at(name.shelf);
  shelf_lock(shelf);
  shelf_end(shelf, name);
  shelf_unlock(shelf);
}

void shelf_reap(struct shelf *shelf) {
  if (bump_size(&shelf->book, BUMP_PLACE_DYING) == 0) return;
  bump_freed freed;
  do {
    freed = bump_sweep_told(&shelf->book);
    shelf_give_back(shelf, freed.chunks, freed.count);
  } while (freed.count == BUMP_MOST_CHUNKS);
}

uint64_t shelf_counted(const struct shelf *shelf, enum shelf_event event) {
  uint64_t sum = 0;
  for (uint32_t thread = 0; thread < (uint32_t)settings.threads; thread++)
    sum += atomic_load_explicit(&shelf->reader[thread].of[event], memory_order_relaxed);
  return sum;
}

uint64_t shelf_moves_of(struct shelf *shelf, uint32_t thread) {
  return shelf->lane[thread].moves + (shelf_has_book(shelf) ? bump_moves(&shelf->book, thread) : 0);
}

uint64_t shelf_moves(struct shelf *shelf) {
  uint64_t sum = 0;
  for (uint32_t thread = 0; thread < (uint32_t)settings.threads; thread++) sum += shelf_moves_of(shelf, thread);
  return sum;
}

static void tell(_Atomic uint64_t *at, uint64_t number) { atomic_store_explicit(at, number, memory_order_relaxed); }

static void tell_counts(struct shelf_reader *reader, bump_counts counts) {
  const bump_counts *before = &reader->before;
  tell(&reader->attempted, before->attempted + counts.attempted);
  tell(&reader->accepted, before->accepted + counts.accepted);
  tell(&reader->full, before->full + counts.full);
  tell(&reader->busy, before->busy + counts.busy);
  tell(&reader->refs, before->refs + counts.refs);
}

void shelf_tell_counts(struct shelf_reader *reader) {
  tell_counts(reader, bump_worker_counts(&reader->worker));
}

/* Closes a worker and applies what it left. */
static void settle(struct shelf *shelf, uint32_t thread, struct shelf_rest *rest) {
  bump_lane *lane = &shelf->lane[thread].lane;
  bump_worker back = { 0 };
  if (bump_worker_close(lane, shelf->reader[thread].worker, &back) != BUMP_CLOSE_DONE) {
    bump_worker_free(back);
    rest->unsettled++;
    return;
  }
  for (bump_ran_told ran; bump_lane_class(lane) != BUMP_NONE; rest->applied += ran.applied) {
    ran = bump_apply_run_told(&shelf->book, lane, clock_now(), BUMP_MOST_CHUNKS);
    shelf_give_back(shelf, ran.chunks, ran.freed);
    if (ran.answer != BUMP_RUN_DONE) break;
  }
  bump_rested rested = bump_rest(lane);
  if (rested.answer != BUMP_REST_SETTLED || rested.applied != rested.counts.accepted) rest->unsettled++;
}

/* How many items are linked: the lengths of the lists, which bump counts. */
static uint64_t count_linked(struct shelf *shelf) {
  static const uint32_t LISTS[] = { BUMP_PLACE_HOT, BUMP_PLACE_WARM, BUMP_PLACE_COLD, BUMP_PLACE_TEMP };
  uint64_t sum = 0;
  for (size_t i = 0; i < sizeof LISTS / sizeof *LISTS; i++) sum += bump_size(&shelf->book, LISTS[i]);
  return sum;
}

/* Ends each item, and answers how many there were. */
static uint64_t end_all(struct shelf *shelf) {
  uint64_t ended = 0;
  for (uint32_t chunk = 0; chunk < shelf->used; chunk++) {
    bump_seen seen = bump_see(&shelf->book, chunk);
    if (!seen.linked) continue;
    table_forget(item_of(seen.label));
    shelf_end(shelf, (struct item_name){ chunk, seen.generation, (uint16_t)shelf->number });
    ended++;
  }
  return ended;
}

static void free_store(struct shelf *shelf) {
  for (uint32_t thread = 0; thread < (uint32_t)settings.threads; thread++) {
    struct shelf_reader *reader = &shelf->reader[thread];
    bump_lane_free(shelf->lane[thread].lane);
    free(reader->kept);
    reader->kept = NULL;
    reader->worker = (bump_worker){ 0 };
    shelf->lane[thread].lane = (bump_lane){ 0 };
  }
  bump_book_free(shelf->book);
  shelf->book = (bump_book){ 0 };
}

/* What a thread's worker and lane counted is told on, and what their next ones count comes to it. */
static void keep_counts(struct shelf_reader *reader, struct shelf_lane *lane) {
  bump_rested rested = bump_rest(&lane->lane);
  tell_counts(reader, rested.counts);
  reader->before = (bump_counts){ reader->attempted, reader->accepted, reader->full, reader->busy, reader->refs };
  lane->before += rested.applied;
  tell(&lane->applied, lane->before);
}

struct shelf_rest shelf_unmake(struct shelf *shelf) {
  struct shelf_rest rest = { 0 };
  shelf_lock(shelf);
  for (uint32_t thread = 0; thread < (uint32_t)settings.threads; thread++) {
    settle(shelf, thread, &rest);
    shelf->lane[thread].moves += bump_moves(&shelf->book, thread);
    keep_counts(&shelf->reader[thread], &shelf->lane[thread]);
  }
  free_store(shelf);
  shelf->used = shelf->crawled_to = 0;
  shelf->crawled = (struct crawled){ 0 };
  shelf->is_leaving = false;
  shelf_unlock(shelf);
  memory_give(MEMORY_shelves, shelf_bytes(shelf));
  return rest;
}

struct shelf_rest shelf_close(struct shelf *shelf) {
  struct shelf_rest rest = { 0 };
  for (uint32_t thread = 0; thread < (uint32_t)settings.threads; thread++) settle(shelf, thread, &rest);
  rest.items = settings.walks ? end_all(shelf) : count_linked(shelf);
  shelf_reap(shelf);
  rest.held = bump_size(&shelf->book, BUMP_PLACE_DYING);
  rest.charged = atomic_load(&shelf->charged);
  if (settings.walks) free_store(shelf);
  return rest;
}

