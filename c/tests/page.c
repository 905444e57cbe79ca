/* Runs the blocks of C of docs/C.md. Each block with a mark `snippet: NAME` is the file snippet_NAME.inc, its lines
 * without their four spaces. Two threads store, change values, age and drain, and two read: each value has its key in
 * it. Then each recipe is made alone, and its answers are compared. Status 1: a value was wrong, or an answer. */
#define _POSIX_C_SOURCE 200809L
#include "bump.h"
#include <pthread.h>
#include <stdatomic.h>
#include <stdio.h>
#include <stdlib.h>

enum { READERS = 2, WRITERS = 2, CLASSES = 3, CHUNKS = 60 + 40 + 100, KEYS = 200, HOLDS = 64, CHANGES = 1000 };

/* Keys are of class 0 and 1; class 2 is for the recipes. */
static const bump_class_config CLASS[CLASSES] = { { 60, 10, 20 }, { 40, 10, 10 }, { 100, 50, 50 } };
static const bump_config CONFIG = {
  .store = 1, .workers = READERS, .capacity = 16, .refs_limit = 64, .first_generation = 1, .holds = HOLDS
};

struct item { uint32_t chunk, generation; };
struct value { uint32_t key[15], number; };

static bump_worker readers[READERS];
static bump_lane lanes[READERS];
static bump_book book[CLASSES];
static pthread_mutex_t class_lock[CLASSES];

static struct item table[KEYS]; /* generation 0: the key has no item */
static pthread_mutex_t table_lock = PTHREAD_MUTEX_INITIALIZER;
static struct value value[CHUNKS];
static uint64_t expires[CHUNKS];

static uint64_t reads = 200000;
static atomic_int readers_left = READERS;
static atomic_int faults;

static struct counts { uint64_t hits, misses, wrong; } counts[READERS];

static void check(bool is_so, const char *what) {
  if (is_so) return;
  fprintf(stderr, "page: not so: %s\n", what);
  faults++;
}

static uint32_t some_key(uint64_t *state) {
  *state = *state * 6364136223846793005u + 1442695040888963407u;
  uint32_t a = (uint32_t)(*state >> 33) % KEYS;
  return a * a / KEYS;
}

static struct value value_of(uint32_t key) {
  struct value made = { .number = 0 };
  for (int i = 0; i < 15; i++) made.key[i] = key;
  return made;
}

static bool is_of(const struct value *read, uint32_t key) {
  int same = 0;
  while (same < 15 && read->key[same] == key) same++;
  return same == 15;
}

/* The program's table: which item a key has. */
static bool look_up(uint64_t key, struct item *item) {
  pthread_mutex_lock(&table_lock);
  *item = table[key];
  pthread_mutex_unlock(&table_lock);
  return item->generation != 0;
}

/* Names the item as the key's, and answers the one that it had. */
static struct item name(uint64_t key, bump_linked item) {
  pthread_mutex_lock(&table_lock);
  struct item old = table[key];
  table[key].chunk = item.chunk;
  table[key].generation = item.generation;
  pthread_mutex_unlock(&table_lock);
  return old;
}

/* Takes the key's item out, where it is in this chunk, or in any for BUMP_NONE; and answers it. */
static struct item forget(uint64_t key, uint32_t chunk) {
  static const struct item none;
  pthread_mutex_lock(&table_lock);
  struct item old = table[key];
  if (chunk != BUMP_NONE && old.chunk != chunk) old = none;
  if (old.generation != 0) table[key] = none;
  pthread_mutex_unlock(&table_lock);
  return old;
}

static void ask(struct counts *mine, bump_worker *worker, uint32_t key, uint64_t now) {
  struct item item;
  struct value copy = value_of(KEYS);
  bool found = false;
#include "snippet_read.inc"
  mine->hits += found;
  mine->misses += !found;
  mine->wrong += found && !is_of(&copy, key);
}

static void make_room(uint32_t c) {
#include "snippet_room.inc"
}

static void store(uint32_t key, uint64_t now) {
  uint32_t c = key % 2;
  struct value given = value_of(key);
  struct item old;
#include "snippet_store.inc"
}

static void drain(bump_lane *lane, uint64_t now) {
  uint32_t c;
#include "snippet_drain.inc"
}

static void age(uint32_t c, uint64_t now, uint32_t most_bytes) {
  uint32_t chunk_bytes = sizeof(struct value);
  pthread_mutex_lock(&class_lock[c]);
#include "snippet_ages.inc"
  pthread_mutex_unlock(&class_lock[c]);
}

static void expire(uint32_t c, uint64_t now) {
  pthread_mutex_lock(&class_lock[c]);
#include "snippet_temp.inc"
  pthread_mutex_unlock(&class_lock[c]);
}

static void change(uint32_t key, uint64_t now) {
  uint32_t c = key % 2;
  struct item old;
  pthread_mutex_lock(&class_lock[c]);
#include "snippet_incr.inc"
  pthread_mutex_unlock(&class_lock[c]);
}

/* Sweeps class 2, whose labels are what malloc gave. */
static void sweep(void) {
  uint32_t c = 2;
#include "snippet_sweep.inc"
}

static void *read_all(void *p) {
  size_t n = (size_t)p;
  uint64_t state = 11 + n;
  for (uint64_t now = 1; now <= reads; now++) ask(&counts[n], &readers[n], some_key(&state), now);
  readers_left--;
  return NULL;
}

/* Stores, each fourth time changes a value, and drains a lane that is its own. */
static void *write_all(void *p) {
  size_t n = (size_t)p;
  uint64_t state = 3 + n;
  for (uint64_t now = 1; readers_left > 0; now++) {
    uint32_t key = some_key(&state);
    if (now % 4 == 0) change(key, now);
    if (now % 4 != 0) store(key, now);
    if (now % 8 == 0) drain(&lanes[n], now);
    if (now % 8 == 4) age(key % 2, now, 10 * sizeof(struct value));
    if (now % 64 == 0) expire(key % 2, now);
  }
  return NULL;
}

static void run_threads(void) {
  pthread_t thread[READERS + WRITERS];
  for (size_t i = 0; i < READERS; i++)
    if (pthread_create(&thread[i], NULL, read_all, (void *)i) != 0) exit(1);
  for (size_t i = 0; i < WRITERS; i++)
    if (pthread_create(&thread[READERS + i], NULL, write_all, (void *)i) != 0) exit(1);
  for (int i = 0; i < READERS + WRITERS; i++) pthread_join(thread[i], NULL);
  for (int r = 0; r < READERS; r++) {
    check(counts[r].wrong == 0, "no value was wrong");
    check(2 * counts[r].hits > counts[r].misses, "a third of the reads hit");
  }
}

/* A key that is there all the time is changed so many times. */
static void check_changes(void) {
  struct item item;
  store(8, 1);
  for (int i = 0; i < CHANGES; i++) change(8, 1);
  check(look_up(8, &item) && is_of(&value[item.chunk], 8), "a value that was changed is the key's");
  check(value[item.chunk].number == CHANGES, "changes are counted");
}

static void check_ages(void) {
  bump_book *b = &book[2];
  bump_link(b, 1, 0);
  bump_pull(b, BUMP_TAIL_HOT, 0); /* COLD's last is of time 0: at 1000 the limit is an age of 200 */
  bump_link(b, 2, 700);
  age(2, 1000, 10 * sizeof(struct value));
  check(bump_size(b, BUMP_PLACE_COLD) == 2, "an old one goes to COLD");
  bump_link(b, 3, 900);
  age(2, 1000, sizeof(struct value));
  check(bump_size(b, BUMP_PLACE_HOT) == 1, "a young one stays, where there are no more than the limit");
  age(2, 1000, sizeof(struct value) - 1);
  check(bump_size(b, BUMP_PLACE_HOT) == 0, "it goes past a limit in bytes");
  while (bump_pull(b, BUMP_TAIL_EVICT, 0).answer == BUMP_PULL_FREED) {}
}

static void check_expiry(void) {
  bump_book *b = &book[2];
  bump_linked first = bump_link_temp(b, 30, 1), second = bump_link_temp(b, 31, 1);
  name(30, first);
  expires[first.chunk] = 50;
  expires[second.chunk] = 90;
  expire(2, 49);
  check(bump_size(b, BUMP_PLACE_TEMP) == 2, "nothing expired yet");
  for (int twice = 0; twice < 2; twice++) expire(2, 50);
  struct item item;
  check(bump_size(b, BUMP_PLACE_TEMP) == 1 && !look_up(30, &item), "TEMP's oldest expired, and its key is forgotten");
  bump_unlink(b, second.chunk, second.generation);
}

/* Values by malloc: those of unlinked items are freed once readers, and a bump, don't hold them any more. */
static void check_malloc(void) {
  bump_book *b = &book[2];
  for (uint32_t i = 0; i < HOLDS; i++) {
    bump_linked item = bump_link(b, (uintptr_t)malloc(16), 1);
    check(bump_get(&readers[0], i, item.chunk, item.generation) == BUMP_GET_HELD, "each is held");
    check(bump_unlink(b, item.chunk, item.generation).answer == BUMP_UNLINK_DEFERRED, "none is free");
  }
  sweep();
  check(bump_size(b, BUMP_PLACE_DYING) == HOLDS, "a sweep frees none that is held");
  for (uint32_t i = 0; i < HOLDS; i++) bump_release(&readers[0], i);
  sweep();
  check(bump_size(b, BUMP_PLACE_DYING) == 0, "a sweep frees all");
  bump_linked item = bump_link(b, (uintptr_t)malloc(16), 1);
  bump_pull(b, BUMP_TAIL_HOT, 0);
  bump_hit(&readers[0], item.chunk, item.generation, 2);
  check(bump_hit(&readers[0], item.chunk, item.generation, 3).touch == BUMP_TOUCH_QUEUED, "a bump is queued");
  bump_unlink(b, item.chunk, item.generation);
  bump_ran_told ran = bump_apply_run_told(b, &lanes[0], 4, 64);
  check(ran.applied == 1 && ran.freed == 1 && ran.chunks[0] == item.chunk, "a run tells the chunk");
  free((void *)(uintptr_t)bump_see(b, ran.chunks[0]).label);
}

static bool open_all(void) {
  bump_store s = { 0 };
  if (bump_open(&s, &CONFIG, CLASS, CLASSES) != BUMP_OPEN_DONE) return false;
  bool all = true;
  for (uint32_t r = 0; r < READERS; r++) {
    all &= bump_take_worker(&s, r, &readers[r]);
    all &= bump_take_lane(&s, r, &lanes[r]);
  }
  for (uint32_t c = 0; c < CLASSES; c++) {
    all &= bump_take_book(&s, c, &book[c]);
    pthread_mutex_init(&class_lock[c], NULL);
  }
  bump_close(s);
  return all;
}

static void close_all(void) {
  for (int r = 0; r < READERS; r++) {
    bump_worker back = { 0 };
    check(bump_worker_close(&lanes[r], readers[r], &back) == BUMP_CLOSE_DONE, "a worker is closed");
    drain(&lanes[r], reads);
    bump_rested rest = bump_rest(&lanes[r]);
    check(rest.answer == BUMP_REST_SETTLED && rest.applied == rest.counts.accepted, "a lane is settled");
    bump_lane_free(lanes[r]);
  }
  for (int c = 0; c < CLASSES; c++) {
    bump_sweep(&book[c]);
    check(bump_size(&book[c], BUMP_PLACE_DYING) == 0, "no chunk waits for a sweep");
    bump_book_free(book[c]);
  }
}

int main(int count, char **words) {
  if (count > 1) reads = strtoull(words[1], NULL, 10);
  if (!open_all()) return 1;
  for (uint32_t key = KEYS; key-- > 0;) store(key, 0); /* those that are asked for most are stored last */
  run_threads();
  for (int r = 0; r < READERS; r++) drain(&lanes[r], reads);
  check_changes();
  check_ages();
  check_expiry();
  check_malloc();
  close_all();
  printf("the page's blocks: %s\n", faults == 0 ? "all is right" : "FAILED");
  return faults == 0 ? 0 : 1;
}
