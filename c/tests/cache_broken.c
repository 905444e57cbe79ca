/* Breaks promises of bump_cache.h, and wants the build with checks to say so: compiled with -DBUMP_DEBUG and
 * bump_debug.c.
 *
 * Link with -Wl,--wrap=bump_cache_tend,--wrap=bump_cache_reader_counts, by which one thread stays in a call until
 * another has tried the same handle. */
#define _POSIX_C_SOURCE 200809L
#include "bump_cache_locks.h"
#include "catching.h"

void __real_bump_cache_tend(void *part, uint64_t now);
void __wrap_bump_cache_tend(void *part, uint64_t now);
void __wrap_bump_cache_tend(void *part, uint64_t now) {
  stay();
  __real_bump_cache_tend(part, now);
}
bump_cache_counts __real_bump_cache_reader_counts(void *reader);
bump_cache_counts __wrap_bump_cache_reader_counts(void *reader);
bump_cache_counts __wrap_bump_cache_reader_counts(void *reader) {
  stay();
  return __real_bump_cache_reader_counts(reader);
}

struct parts {
  bump_cache cache;
  bump_cache_part part;
  bump_cache_reader reader;
};

static bump_cache_config config_of(void) {
  bump_cache_config config = bump_cache_defaults(4, 1, 8, 8);
  config.holds = 1;
  return config;
}

static struct parts open_parts(void) {
  struct parts a = { { 0 }, { 0 }, { 0 } };
  bump_cache_config config = config_of();
  if (bump_cache_open(&a.cache, &config) != BUMP_CACHE_OPEN_DONE) printf("no cache\n"), exit(1);
  bump_cache_take_part(&a.cache, 0, &a.part);
  bump_cache_take_reader(&a.cache, 0, &a.reader);
  wants_nothing();
  return a;
}

static void free_parts(struct parts a) {
  bump_cache_part_free(a.part);
  bump_cache_reader_free(a.reader);
  bump_cache_close(a.cache);
  wants_nothing();
}

/* Handles that are empty, made up, of another kind; and what is to be filled and isn't {0}. */
static void wrong_handles(void) {
  struct parts a = open_parts();
  bump_cache_config config = config_of();
  bump_cache_reader empty = { 0 }, made_up = { &empty, 0 }, a_part = { a.part.p, a.part.check };
  bump_cache_part a_reader = { a.reader.p, a.reader.check }, filled = a.part, made_up_part = { &empty, 1 };
  bump_cache a_cache_part = { a.part.p, a.part.check };
  bump_book a_book = { a.part.p, a.part.check };
  char value[8];
  STOPPED(bump_cache_open(&a.cache, &config), "what the call fills isn't {0}");
  STOPPED(bump_cache_take_part(&a.cache, 0, &filled), "what the call fills isn't {0}");
  STOPPED(bump_cache_take_reader(&a_cache_part, 0, &empty), "the handle is of a cache's part");
  STOPPED(bump_cache_get(&empty, "key", 3, value, 8, 1), "the handle is empty");
  STOPPED(bump_cache_put(NULL, "key", 3, "v", 1, 0, 0, 1), "the handle is empty");
  STOPPED(bump_cache_read(&empty, 1, 0, value, 8), "the handle is empty");
  STOPPED(bump_cache_look(&made_up_part, "key", 3, value, 8, 1), "it is no handle that bump gave");
  STOPPED(bump_cache_each(&made_up_part, 0, value, 8, value, 8, 1), "it is no handle that bump gave");
  STOPPED(bump_cache_get_words(&made_up, "key", 3, 1), "it is no handle that bump gave");
  made_up.check = (uint64_t)1 << 40 | 123456;
  STOPPED(bump_cache_release(&made_up, 0), "it is no handle that bump gave");
  made_up.check = a.reader.check;
  STOPPED(bump_cache_reader_counts(&made_up), "it is no handle that bump gave");
  STOPPED(bump_cache_hold(&a_part, 1, "key", 3, 1), "the handle is of a cache's part");
  STOPPED(bump_cache_read_words(&a_part, 1, 0), "the handle is of a cache's part");
  STOPPED(bump_cache_chunks(&a_reader), "the handle is of a cache's reader");
  STOPPED(bump_cache_found_words(&a_reader, 0), "the handle is of a cache's reader");
  STOPPED(bump_cache_entry(&a_reader, 0, 1), "the handle is of a cache's reader");
  STOPPED(bump_cache_entry_key(&a_reader, 0), "the handle is of a cache's reader");
  STOPPED(bump_cache_entry_value(&a_reader, 0), "the handle is of a cache's reader");
  STOPPED(bump_sweep(&a_book), "the handle is of a cache's part");
  free_parts(a);
}

/* Pointers that are NULL. */
static void no_pointers(void) {
  struct parts a = open_parts();
  bump_cache_config config = config_of();
  char value[8];
  STOPPED(bump_cache_open(NULL, &config), "a pointer is NULL");
  STOPPED(bump_cache_get(&a.reader, NULL, 3, value, 8, 1), "a pointer is NULL");
  STOPPED(bump_cache_get(&a.reader, "key", 3, NULL, 8, 1), "a pointer is NULL");
  STOPPED(bump_cache_get_words(&a.reader, NULL, 3, 1), "a pointer is NULL");
  STOPPED(bump_cache_read(&a.reader, 1, 0, NULL, 8), "a pointer is NULL");
  STOPPED(bump_cache_add(&a.part, "key", 3, NULL, 1, 0, 0, 1), "a pointer is NULL");
  STOPPED(bump_cache_update(&a.part, "key", 3, NULL, 1, 1), "a pointer is NULL");
  STOPPED(bump_cache_touch(&a.part, NULL, 1, 0, 1), "a pointer is NULL");
  STOPPED(bump_cache_look(&a.part, "key", 3, NULL, 8, 1), "a pointer is NULL");
  STOPPED(bump_cache_find(&a.part, NULL, 3, 1), "a pointer is NULL");
  STOPPED(bump_cache_remove(&a.part, NULL, 1, 1), "a pointer is NULL");
  STOPPED(bump_cache_each(&a.part, 0, NULL, 8, value, 8, 1), "a pointer is NULL");
  STOPPED(bump_cache_each(&a.part, 0, value, 8, NULL, 8, 1), "a pointer is NULL");
  STOPPED(bump_cache_bytes_taken(NULL), "a pointer is NULL");
  STOPPED(bump_cache_part_of(NULL, "key", 3), "a pointer is NULL");
  STOPPED(bump_cache_part_of(&config, NULL, 3), "a pointer is NULL");
  free_parts(a);
}

static void *tends(void *part) {
  bump_cache_tend(part, 1);
  return NULL;
}

static void *counts(void *reader) {
  bump_cache_reader_counts(reader);
  return NULL;
}

/* Two threads are in a call with one handle: of a part, and of a reader. */
static void at_once(void) {
  struct parts a = open_parts();
  char value[8];
  for (int way = 0; way < 2; way++) {
    pthread_t thread = enter(way ? counts : tends, way ? (void *)&a.reader : (void *)&a.part);
    if (way == 0) STOPPED(bump_cache_put(&a.part, "k", 1, "v", 1, 0, 0, 1), "another thread is in a call with this");
    if (way == 1) STOPPED(bump_cache_get(&a.reader, "k", 1, value, 8, 1), "another thread is in a call with this");
    leave(thread);
  }
  bump_cache_put(&a.part, "k", 1, "v", 1, 0, 0, 1);
  if (bump_cache_get(&a.reader, "k", 1, value, 8, 1).answer != BUMP_CACHE_GET_FOUND) failed = 1;
  free_parts(a);
}

/* Copies of handles that are gone. */
static void copies(void) {
  struct parts one = open_parts(), two = open_parts();
  char value[8];
  bump_cache_part_free(one.part);
  STOPPED(bump_cache_put(&one.part, "key", 3, "v", 1, 0, 0, 1), "once a cache's part, was given back");
  STOPPED(bump_cache_part_free(one.part), "once a cache's part, was given back");
  bump_cache_reader_free(one.reader);
  STOPPED(bump_cache_get(&one.reader, "key", 3, value, 8, 1), "once a cache's reader, was given back");
  STOPPED(bump_cache_reader_free(one.reader), "once a cache's reader, was given back");
  bump_cache_close(one.cache);
  STOPPED(bump_cache_take_part(&one.cache, 0, &(bump_cache_part){ 0 }), "once a cache, was given back");
  STOPPED(bump_cache_close(one.cache), "once a cache, was given back");
  free_parts(two);
}

/* A copy of a handle that is gone, whose address another one may have by now; and stores beside caches, whose numbers
 * are their own. */
static void beside(void) {
  static const bump_class_config class = { 4, 1, 1 };
  struct parts gone = open_parts();
  free_parts(gone);
  struct parts next = open_parts();
  for (uint64_t number = 0; number < 3; number++) {
    const bump_config config = { number, 1, 4, 8, 1, 1, 0 };
    bump_store store = { 0 };
    if (bump_open(&store, &config, &class, 1) != BUMP_OPEN_DONE) failed = 1;
    wants_nothing();
    STOPPED(bump_cache_clear(&gone.part), "once a cache's part, was given back");
    bump_close(store);
  }
  free_parts(next);
}

/* The calls of bump_cache_locks.h break no promise, and are seen as well. */
static void by_locks(void) {
  static bump_cache_locks locks;
  bump_cache_config config = config_of();
  bump_cache cache = { 0 };
  if (bump_cache_open(&cache, &config) != BUMP_CACHE_OPEN_DONE) exit(1);
  if (!bump_cache_locks_init(&locks, &cache, &config)) exit(1);
  bump_cache_close(cache);
  bump_cache_locks_put(&locks, "key", 3, "v", 1, 0, 0, 1);
  bump_cache_locks_tend(&locks, 1);
  wants_nothing();
  bump_cache_part copy = locks.of[0].part;
  bump_cache_locks_free(&locks);
  STOPPED(bump_cache_stats(&copy), "once a cache's part, was given back");
}

int main(void) {
  bump_debug_broken = note;
  wrong_handles();
  no_pointers();
  at_once();
  copies();
  beside();
  by_locks();
  wants_nothing();
  return failed;
}
