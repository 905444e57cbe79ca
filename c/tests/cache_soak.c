/* Eight readers, two threads that put and remove, and one that tends, on one cache of four parts.
 *
 *   cache_soak [GETS]       so many gets of all readers together: 400,000 unless it is said
 *
 * A value has its key, a version, and a sum over all its bytes: so a reader sees whether it is whole, and whose it is.
 * Those of half of the keys are short, and read by one call of the library; the others are longer than that tells. No
 * reader finds an older version of a key than it found before. Half of the keys are always there: those of the first
 * three parts, which have room for them all, are only overwritten. A get of one finds something, and no older version
 * than the one that was there when the get began. The other keys, of the last part, are three times as many as it has
 * room for: they are evicted, removed, and expire. */
#define _POSIX_C_SOURCE 200809L
#include "bump_cache_locks.h"
#include "soaking.h"
#include <inttypes.h>
#include <pthread.h>
#include <sched.h>
#include <stdatomic.h>
#include <stdio.h>
#include <stdlib.h>
#include <string.h>

enum { READERS = 8, WRITERS = 2, PARTS = 4, ROOM = 100, ITEMS = PARTS * ROOM, HOLDS = 4 };
enum { STEADY = 3 * ROOM, OTHERS = 3 * ROOM, KEYS = STEADY + OTHERS, KEY = 32, HEAD = 24, VALUE = 200 };

static bump_cache_locks locks;
static bump_cache_reader reader[READERS];
static struct { char text[KEY]; uint32_t length; } key[KEYS];
static _Atomic uint64_t there[STEADY]; /* the version that was put last */
static _Atomic uint64_t now = 1;
static _Atomic int readers_left = READERS;
static _Atomic uint64_t refused;
static uint64_t gets = 400000;

struct counts {
  uint64_t hits, misses;
};
static struct counts counts[READERS];

/* Some keys are asked for much more often. */
static uint32_t some_key(uint64_t *state) {
  uint64_t r = random_from(state);
  return (uint32_t)(r % 2 ? r / 2 % KEYS : r / 2 % 8 * (KEYS / 8));
}

/* --------------------------------------------------------------------------------------------------------- values */

static uint64_t sum_of(const unsigned char *bytes, size_t length) {
  uint64_t sum = length;
  for (size_t i = 0; i < length; i++) sum = (sum ^ bytes[i]) * 1099511628211u;
  return sum;
}

/* How long a key's value is at most. */
static size_t most_of(uint32_t k) { return k / WRITERS % 2 ? BUMP_CACHE_MOST_BYTES : VALUE; }

static uint32_t flags_of(uint32_t k, uint64_t version) { return (uint32_t)(version * 2654435761u) ^ k; }

/* The sum, the key, the version, and some bytes behind them. Versions have other lengths. */
static size_t make(unsigned char *value, uint32_t k, uint64_t version) {
  size_t length = HEAD + (size_t)((version * 31 + k) % (most_of(k) - HEAD + 1));
  uint64_t head[3] = { 0, k, version };
  for (size_t i = HEAD; i < length; i++) value[i] = (unsigned char)(version * 7 + k + i * i);
  memcpy(value, head, HEAD);
  head[0] = sum_of(value + 8, length - 8);
  memcpy(value, head, 8);
  return length;
}

/* The version of a value, which is to be whole, and of this key. 0: it isn't. */
static uint64_t version_of(const unsigned char *value, size_t length, uint32_t k, uint32_t flags) {
  uint64_t head[3];
  if (length < HEAD || length > most_of(k)) return 0;
  memcpy(head, value, HEAD);
  bool right = head[0] == sum_of(value + 8, length - 8) && head[1] == k && flags == flags_of(k, head[2]);
  return right ? head[2] : 0;
}

/* --------------------------------------------------------------------------------------------------------- readers */

/* What a reader holds: of which key, KEYS where it is nothing; and what was told of it. */
struct held {
  uint32_t k;
  bump_cache_got got;
};

/* What is held is read in two pieces, long after it was got. */
static void let_go(bump_cache_reader *r, uint32_t hold, struct held *held) {
  unsigned char value[VALUE];
  if (held->k == KEYS) return;
  want(held->got.length >= HEAD && held->got.length <= VALUE);
  bump_cache_read(r, hold, 0, value, 16);
  bump_cache_read(r, hold, 2, value + 16, held->got.length - 16);
  want(version_of(value, held->got.length, held->k, held->got.flags) != 0);
  want(bump_cache_release(r, hold));
  held->k = KEYS;
}

/* Gets a key's value in one of three ways: by a hold, which is kept; by words, if it is short; by a get. */
static bump_cache_got get(bump_cache_reader *r, uint32_t k, uint64_t turn, struct held *held, unsigned char *value) {
  uint32_t number = (uint32_t)(turn / 16 % HOLDS) + 1;
  uint64_t time = atomic_load(&now);
  if (turn % 16 == 0) {
    let_go(r, number, &held[number]);
    held[number].got = bump_cache_hold(r, number, key[k].text, key[k].length, time);
    if (held[number].got.answer == BUMP_CACHE_GET_FOUND) held[number].k = k;
    bump_cache_read(r, number, 0, value, held[number].got.length);
    return held[number].got;
  }
  if (turn % 16 == 8 && most_of(k) == BUMP_CACHE_MOST_BYTES) {
    bump_cache_got_words told = bump_cache_get_words(r, key[k].text, key[k].length, time);
    memcpy(value, told.words, sizeof told.words);
    return told.got;
  }
  return bump_cache_get(r, key[k].text, key[k].length, value, most_of(k), time);
}

static void *read_all(void *p) {
  size_t n = (size_t)p;
  uint64_t state = 7 + n;
  static uint64_t seen[READERS][KEYS];
  struct held held[HOLDS + 1];
  for (int i = 0; i <= HOLDS; i++) held[i].k = KEYS;
  for (uint64_t turn = 0; turn < gets / READERS; turn++) {
    unsigned char value[VALUE];
    uint32_t k = some_key(&state);
    uint64_t least = k < STEADY ? atomic_load(&there[k]) : 0;
    bump_cache_got got = get(&reader[n], k, turn, held, value);
    if (got.answer == BUMP_CACHE_GET_FOUND) {
      uint64_t version = version_of(value, got.length, k, got.flags);
      want(version != 0 && version >= seen[n][k] && version >= least);
      seen[n][k] = version;
      counts[n].hits++;
    } else {
      want(got.answer == BUMP_CACHE_GET_NOTHING && k >= STEADY);
      counts[n].misses++;
    }
    if (turn % 256 == 0) sched_yield(); /* so that few processors make all threads' calls by turns */
  }
  for (uint32_t i = 1; i <= HOLDS; i++) let_go(&reader[n], i, &held[i]);
  atomic_fetch_sub(&readers_left, 1);
  return NULL;
}

/* ------------------------------------------------------------------------------------------------- writers, tender */

typedef bump_cache_put_told call(bump_cache_locks *, const void *, size_t, const void *, size_t, uint32_t, uint64_t,
                                 uint64_t);

/* The next version of a key, which is this writer's alone, by one of the calls that put. */
static void put(call *by, uint32_t k, uint64_t *version, uint64_t expires) {
  unsigned char value[VALUE];
  size_t length = make(value, k, *version + 1);
  uint32_t flags = flags_of(k, *version + 1);
  bump_cache_put_told told = by(&locks, key[k].text, key[k].length, value, length, flags, expires, atomic_load(&now));
  want(k >= STEADY || !told.evicted);
  if (told.answer == BUMP_CACHE_PUT_DONE) {
    ++*version;
    if (k < STEADY) atomic_store(&there[k], *version);
  } else if (told.answer == BUMP_CACHE_PUT_NO_ROOM) {
    atomic_fetch_add(&refused, 1);
  } else {
    want(k >= STEADY && told.answer == BUMP_CACHE_PUT_HAS && by == bump_cache_locks_add);
  }
}

/* Changes a key of the last part in some way. */
static void change(uint32_t k, uint64_t *version, uint64_t turn, uint64_t time) {
  if (turn % 4 == 0) {
    char byte;
    bump_cache_locks_remove(&locks, key[k].text, key[k].length, time);
    want(bump_cache_locks_look(&locks, key[k].text, key[k].length, &byte, 1, 0).answer == BUMP_CACHE_GET_NOTHING);
  } else if (turn % 4 == 1) {
    bump_cache_put_told told = bump_cache_locks_touch(&locks, key[k].text, key[k].length, time + 9, time);
    want(!told.evicted && told.answer < BUMP_CACHE_PUT_NO_ROOM);
  } else {
    put(turn % 4 == 2 ? bump_cache_locks_put : bump_cache_locks_add, k, version, turn % 3 ? 0 : time + 1 + turn % 8);
  }
}

/* A look finds what was put last, since this writer alone puts under the key. */
static void look(uint32_t k, uint64_t version) {
  unsigned char value[VALUE];
  bump_cache_looked looked = bump_cache_locks_look(&locks, key[k].text, key[k].length, value, VALUE, 0);
  want(looked.answer == BUMP_CACHE_GET_FOUND && looked.expires == 0);
  want(version_of(value, looked.length, k, looked.flags) == version);
}

/* Each writer has each second key. */
static void *write_all(void *p) {
  size_t n = (size_t)p;
  uint64_t state = 90 + n;
  static uint64_t version[KEYS];
  for (uint32_t k = (uint32_t)n; k < STEADY; k += WRITERS) version[k] = 1;
  for (uint64_t turn = 0; atomic_load(&readers_left) > 0; turn++) {
    uint32_t k = some_key(&state) / WRITERS * WRITERS + (uint32_t)n;
    if (k >= STEADY)
      change(k, &version[k], random_from(&state), atomic_load(&now));
    else if (turn % 8 == 0)
      look(k, version[k]);
    else
      put(turn % 2 ? bump_cache_locks_put : bump_cache_locks_replace, k, &version[k], 0);
    if (turn % 64 == 0) sched_yield();
  }
  return NULL;
}

static void *tend_all(void *p) {
  while (atomic_load(&readers_left) > 0) {
    bump_cache_locks_tend(&locks, atomic_fetch_add(&now, 1) + 1);
    sched_yield();
  }
  return p;
}

/* --------------------------------------------------------------------------------------------------- start and end */

/* Keys of many lengths, as they come by: as many of each of the first parts as it has room for. */
static void name_keys(const bump_cache_config *config) {
  uint32_t steady = 0, others = 0, of_part[PARTS] = { 0 };
  for (int i = 0; steady < STEADY || others < OTHERS; i++) {
    char text[KEY];
    uint32_t length = (uint32_t)snprintf(text, sizeof text, "%.*s%d", i % 20, "keys of many lengths", i);
    uint32_t part = bump_cache_part_of(config, text, length);
    bool is_other = part == PARTS - 1;
    if (of_part[part]++ >= (is_other ? OTHERS : ROOM)) continue;
    uint32_t k = is_other ? STEADY + others++ : steady++;
    memcpy(key[k].text, text, length);
    key[k].length = length;
  }
}

static bool open_all(void) {
  bump_cache_config config = bump_cache_defaults(ITEMS, READERS, KEY, VALUE);
  bump_cache cache = { 0 };
  config.parts = PARTS;
  config.spare = 1 + READERS * (1 + HOLDS); /* as many as readers can hold in a part, and one: each put finds room */
  config.ring = 64;
  config.looks = 40;
  config.temporary = 4;
  config.holds = HOLDS;
  config.seed_first = 1;
  if (bump_cache_open(&cache, &config) != BUMP_CACHE_OPEN_DONE) return false;
  bool all = bump_cache_locks_init(&locks, &cache, &config);
  for (uint32_t r = 0; r < READERS; r++) all &= bump_cache_take_reader(&cache, r, &reader[r]);
  bump_cache_close(cache);
  if (all) name_keys(&config);
  for (uint32_t k = 0; all && k < STEADY; k++) put(bump_cache_locks_put, k, &(uint64_t){ 0 }, 0);
  return all;
}

/* Whether the parts have each key once at most, and the steady ones all. */
static bool adds_up(uint64_t time) {
  uint32_t found[KEYS] = { 0 }, all = 0, steady = 0;
  for (uint32_t i = 0; i < PARTS; i++)
    for (uint32_t c = bump_cache_chunks(&locks.of[i].part); c-- > 0;) {
      unsigned char value[VALUE];
      char text[KEY];
      bump_cache_entry_of e = bump_cache_each(&locks.of[i].part, c, text, KEY, value, VALUE, time);
      if (!e.found) continue;
      uint32_t k = 0;
      while (k < KEYS && (key[k].length != e.key_length || memcmp(key[k].text, text, e.key_length) != 0)) k++;
      if (k == KEYS || found[k]++ || version_of(value, e.value_length, k, e.flags) == 0) return false;
      steady += k < STEADY;
      all++;
    }
  bump_cache_stats_of s = bump_cache_locks_stats(&locks);
  return steady == STEADY && all <= ITEMS && all <= s.number_hot + s.number_warm + s.number_cold + s.number_temp;
}

int main(int count, char **words) {
  if (count > 1) gets = strtoull(words[1], NULL, 10);
  if (!open_all()) return 1;
  pthread_t thread[READERS + WRITERS + 1];
  for (size_t i = 0; i < READERS + WRITERS + 1; i++) {
    int fault = i < READERS             ? pthread_create(&thread[i], NULL, read_all, (void *)i)
                : i < READERS + WRITERS ? pthread_create(&thread[i], NULL, write_all, (void *)(i - READERS))
                                        : pthread_create(&thread[i], NULL, tend_all, NULL);
    if (fault) return 1;
  }
  for (int i = 0; i < READERS + WRITERS + 1; i++) pthread_join(thread[i], NULL);
  struct counts sum = { 0, 0 };
  bool right = adds_up(atomic_load(&now));
  for (int r = 0; r < READERS; r++) {
    bump_cache_counts c = bump_cache_reader_counts(&reader[r]);
    right &= c.hits == counts[r].hits && c.misses == counts[r].misses;
    sum.hits += c.hits;
    sum.misses += c.misses;
    bump_cache_reader_free(reader[r]);
  }
  right &= sum.hits + sum.misses == gets / READERS * READERS;
  bump_cache_stats_of s = bump_cache_locks_stats(&locks);
  bump_cache_locks_free(&locks);
  right &= atomic_load(&wrong) == 0 && atomic_load(&refused) == 0;
  printf("%" PRIu64 " gets, %" PRIu64 " hits", sum.hits + sum.misses, sum.hits);
  printf(", %" PRIu64 " evicted, %" PRIu64 " expired", s.evicted, s.reclaimed + s.crawler_reclaimed);
  printf(", %" PRIu64 " puts without room, %" PRIu64 " wrong: ", atomic_load(&refused), atomic_load(&wrong));
  printf("%s\n", right ? "all adds up" : "FAILED");
  return right ? 0 : 1;
}
