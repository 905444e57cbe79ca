/* Makes the calls of bump_cache_locks.h, alone and by four threads that count up what a few keys have; and those that
 * bump_cache.h makes of others. Status 1, and a line on standard error, where an answer was another one. It is C, and
 * C++ too. */
#define _POSIX_C_SOURCE 200809L
#include "bump_cache_locks.h"
#include <pthread.h>
#include <stdio.h>
#include <string.h>

enum { KEY = 16, VALUE = 100, PARTS = 4, THREADS = 4, KEYS = 60, TURNS = 5000 };

static bump_cache_locks locks;
static bump_cache_reader reader;
static int failed;

static void want(bool holds, int line, const char *what) {
  if (holds) return;
  fprintf(stderr, "cache_locks.c:%d: not so: %s\n", line, what);
  failed = 1;
}
#define WANT(condition) want(condition, __LINE__, #condition)

static bool is_told(bump_cache_put_told told, enum bump_cache_put_answer answer) {
  return told.answer == answer && !told.evicted;
}

static bool is_got(bump_cache_got got, size_t length, uint32_t flags) {
  return got.answer == BUMP_CACHE_GET_FOUND && got.length == length && got.flags == flags;
}

/* Whether the key has this value, by gets with all room and with less, by a hold, and by a look. */
static bool has(const char *key, const char *value, uint32_t flags, uint64_t expires, uint64_t now) {
  char read[VALUE], first[BUMP_CACHE_MOST_BYTES], held[VALUE], looked[VALUE];
  size_t k = strlen(key), n = strlen(value);
  bool right = is_got(bump_cache_get(&reader, key, k, read, sizeof read, now), n, flags) && memcmp(read, value, n) == 0;
  right = right && is_got(bump_cache_get(&reader, key, k, first, sizeof first, now), n, flags);
  right = right && memcmp(first, value, n < sizeof first ? n : sizeof first) == 0;
  right = right && is_got(bump_cache_hold(&reader, 1, key, k, now), n, flags);
  bump_cache_read(&reader, 1, 0, held, n);
  right = right && memcmp(held, value, n) == 0 && bump_cache_release(&reader, 1);
  bump_cache_looked l = bump_cache_locks_look(&locks, key, k, looked, sizeof looked, now);
  return right && l.answer == BUMP_CACHE_GET_FOUND && l.flags == flags && l.expires == expires && l.length == n &&
         memcmp(looked, value, n) == 0;
}

/* How many chunks of all parts have this value, under keys of five bytes and more. */
static int found_by_each(const char *value, uint64_t now) {
  int found = 0;
  for (uint32_t i = 0; i < locks.config.parts; i++)
    for (uint32_t c = bump_cache_chunks(&locks.of[i].part); c-- > 0;) {
      char key[KEY], read[VALUE];
      bump_cache_entry_of e = bump_cache_each(&locks.of[i].part, c, key, sizeof key, read, sizeof read, now);
      found += e.found && e.key_length >= 5 && memcmp(key, "key ", 4) == 0 && e.value_length == strlen(value) &&
               memcmp(read, value, strlen(value)) == 0;
    }
  return found;
}

#define LAST "the last value of a key is longer than one call of the library tells, so it is read in pieces"

/* All calls with a key, which is one of many: so all parts have some. */
static void calls_of(const char *k) {
  size_t n = strlen(k);
  char read[VALUE];
  WANT(bump_cache_locks_look(&locks, k, n, read, VALUE, 1).answer == BUMP_CACHE_GET_NOTHING);
  WANT(is_told(bump_cache_locks_replace(&locks, k, n, "r", 1, 1, 0, 1), BUMP_CACHE_PUT_NOTHING));
  WANT(is_told(bump_cache_locks_update(&locks, k, n, "u", 1, 1), BUMP_CACHE_PUT_NOTHING));
  WANT(is_told(bump_cache_locks_touch(&locks, k, n, 9, 1), BUMP_CACHE_PUT_NOTHING));
  WANT(is_told(bump_cache_locks_put(&locks, k, n, "put", 3, 2, 20, 1), BUMP_CACHE_PUT_DONE) && has(k, "put", 2, 20, 1));
  WANT(is_told(bump_cache_locks_add(&locks, k, n, "a", 1, 1, 0, 1), BUMP_CACHE_PUT_HAS) && has(k, "put", 2, 20, 19));
  WANT(is_told(bump_cache_locks_add(&locks, k, n, "add", 3, 3, 30, 20), BUMP_CACHE_PUT_DONE));
  WANT(has(k, "add", 3, 30, 29));
  WANT(is_told(bump_cache_locks_replace(&locks, k, n, "re", 2, 4, 40, 20), BUMP_CACHE_PUT_DONE));
  WANT(has(k, "re", 4, 40, 39) && is_told(bump_cache_locks_update(&locks, k, n, "up", 2, 39), BUMP_CACHE_PUT_DONE));
  WANT(has(k, "up", 4, 40, 39) && is_told(bump_cache_locks_touch(&locks, k, n, 50, 39), BUMP_CACHE_PUT_DONE));
  WANT(has(k, "up", 4, 50, 49) && bump_cache_locks_remove(&locks, k, n, 49));
  WANT(!bump_cache_locks_remove(&locks, k, n, 49));
  WANT(is_told(bump_cache_locks_put(&locks, k, n, LAST, strlen(LAST), 5, 60, 49), BUMP_CACHE_PUT_DONE));
  WANT(has(k, LAST, 5, 60, 59));
}

/* A key that is too long, and a value. */
static void too_long(void) {
  static const char k[] = "a key of 17 bytes", value[VALUE + 1] = "";
  char read[VALUE];
  bump_cache_looked l = bump_cache_locks_look(&locks, k, KEY + 1, read, VALUE, 1);
  WANT(l.answer == BUMP_CACHE_GET_KEY_BYTES && l.flags == 0 && l.length == 0 && l.expires == 0);
  WANT(is_told(bump_cache_locks_put(&locks, k, KEY + 1, "", 0, 0, 0, 1), BUMP_CACHE_PUT_KEY_BYTES));
  WANT(is_told(bump_cache_locks_add(&locks, k, KEY + 1, "", 0, 0, 0, 1), BUMP_CACHE_PUT_KEY_BYTES));
  WANT(is_told(bump_cache_locks_replace(&locks, k, KEY + 1, "", 0, 0, 0, 1), BUMP_CACHE_PUT_KEY_BYTES));
  WANT(is_told(bump_cache_locks_update(&locks, k, KEY + 1, "", 0, 1), BUMP_CACHE_PUT_KEY_BYTES));
  WANT(is_told(bump_cache_locks_touch(&locks, k, KEY + 1, 0, 1), BUMP_CACHE_PUT_KEY_BYTES));
  WANT(!bump_cache_locks_remove(&locks, k, KEY + 1, 1) && !bump_cache_locks_take(&locks, k, KEY + 1));
  WANT(is_told(bump_cache_locks_put(&locks, k, KEY, value, VALUE + 1, 0, 0, 1), BUMP_CACHE_PUT_VALUE_BYTES));
  WANT(bump_cache_locks_look(&locks, k, KEY, read, VALUE, 1).answer == BUMP_CACHE_GET_NOTHING);
}

static void all_calls(void) {
  char key[KEY];
  uint32_t of_part[PARTS] = { 0, 0, 0, 0 };
  for (int i = 0; i < KEYS; i++) {
    snprintf(key, sizeof key, "key %d", i);
    calls_of(key);
    of_part[bump_cache_part_of(&locks.config, key, strlen(key))]++;
  }
  too_long();
  WANT(found_by_each(LAST, 59) == KEYS && found_by_each(LAST, 60) == 0 && found_by_each("last", 59) == 0);
  WANT(of_part[0] && of_part[1] && of_part[2] && of_part[3]);
  WANT(bump_cache_locks_sum(UINT64_MAX - 5, 5) == UINT64_MAX && bump_cache_locks_sum(UINT64_MAX, 1) == UINT64_MAX);
  bump_cache_stats_of s = bump_cache_locks_stats(&locks);
  WANT(s.number_hot + s.number_warm + s.number_cold + s.number_temp == KEYS && s.crawler_reclaimed == 0);
  bump_cache_locks_tend(&locks, 59);
  WANT(bump_cache_locks_stats(&locks).crawler_reclaimed == 0);
  bump_cache_locks_tend(&locks, 60);
  s = bump_cache_locks_stats(&locks);
  WANT(s.number_hot + s.number_warm + s.number_cold + s.number_temp == 0 && s.crawler_reclaimed == KEYS);
  for (int i = 0; i < KEYS; i++) {
    snprintf(key, sizeof key, "key %d", i);
    WANT(bump_cache_locks_put(&locks, key, strlen(key), "v", 1, 6, 0, 61).answer == BUMP_CACHE_PUT_DONE);
  }
  bump_cache_locks_clear(&locks);
  s = bump_cache_locks_stats(&locks);
  WANT(s.number_hot + s.number_warm + s.number_cold + s.number_temp == 0 && s.evicted == 0);
}

/* Counts up what a few keys have: a look, and what is made from it, under one mutex. */
static void *count_up(void *p) {
  for (uint32_t i = 0; i < TURNS; i++) {
    char key[2] = { 'n', (char)('0' + i % 5) };
    uint64_t number = 0;
    bump_cache_locked *taken = bump_cache_locks_take(&locks, key, 2);
    bump_cache_look(&taken->part, key, 2, &number, sizeof number, i);
    number++;
    if (bump_cache_put(&taken->part, key, 2, &number, sizeof number, 0, 0, i).answer != BUMP_CACHE_PUT_DONE) p = NULL;
    bump_cache_locks_give(taken);
  }
  return p;
}

static void threads(void) {
  pthread_t thread[THREADS];
  void *done;
  for (int i = 0; i < THREADS; i++) WANT(pthread_create(&thread[i], NULL, count_up, thread) == 0);
  for (int i = 0; i < THREADS; i++) WANT(pthread_join(thread[i], &done) == 0 && done != NULL);
  for (int i = 0; i < 5; i++) {
    char key[2] = { 'n', (char)('0' + i) };
    uint64_t number = 0;
    WANT(bump_cache_get(&reader, key, 2, &number, sizeof number, 0).answer == BUMP_CACHE_GET_FOUND);
    WANT(number == THREADS * TURNS / 5);
  }
}

/* In as many parts as there may be each key has what was put. */
static void many_parts(void) {
  static bump_cache cache;
  static bump_cache_locks many;
  static bump_cache_reader one;
  char key[KEY];
  bump_cache_config config = bump_cache_defaults(16 * BUMP_CACHE_MOST_PARTS, 1, KEY, VALUE);
  config.parts = BUMP_CACHE_MOST_PARTS;
  config.ring = 16;
  WANT(bump_cache_open(&cache, &config) == BUMP_CACHE_OPEN_DONE && bump_cache_take_reader(&cache, 0, &one));
  WANT(bump_cache_locks_init(&many, &cache, &config));
  bump_cache_close(cache);
  for (uint32_t i = 0; i < 2 * BUMP_CACHE_MOST_PARTS; i++) {
    snprintf(key, sizeof key, "key %u", i);
    WANT(is_told(bump_cache_locks_put(&many, key, strlen(key), &i, sizeof i, i, 0, 1), BUMP_CACHE_PUT_DONE));
  }
  for (uint32_t i = 0; i < 2 * BUMP_CACHE_MOST_PARTS; i++) {
    uint32_t read = 0;
    snprintf(key, sizeof key, "key %u", i);
    WANT(is_got(bump_cache_get(&one, key, strlen(key), &read, sizeof read, 1), sizeof read, i) && read == i);
  }
  bump_cache_locks_tend(&many, 1);
  bump_cache_stats_of s = bump_cache_locks_stats(&many);
  WANT(s.number_hot + s.number_warm + s.number_cold + s.number_temp == 2 * BUMP_CACHE_MOST_PARTS);
  bump_cache_locks_free(&many);
  bump_cache_reader_free(one);
}

int main(void) {
  static bump_cache cache, second;
  static bump_cache_part part;
  bump_cache_config config = bump_cache_defaults(4 * KEYS, 1, KEY, VALUE);
  config.parts = PARTS;
  config.holds = 1;
  WANT(bump_cache_open(&second, &config) == BUMP_CACHE_OPEN_DONE && bump_cache_take_part(&second, 2, &part));
  WANT(!bump_cache_locks_init(&locks, &second, &config));
  bump_cache_part_free(part);
  bump_cache_close(second);
  WANT(bump_cache_open(&cache, &config) == BUMP_CACHE_OPEN_DONE && bump_cache_take_reader(&cache, 0, &reader));
  WANT(bump_cache_locks_init(&locks, &cache, &config));
  bump_cache_close(cache);
  all_calls();
  threads();
  many_parts();
  bump_cache_locks_free(&locks);
  bump_cache_reader_free(reader);
  printf("%d threads counted up under the mutexes: %s\n", THREADS, failed ? "FAILED" : "passed");
  return failed;
}
