/* A mutex for each part of a cache, and bump_cache.h's calls of a part by which many threads change one cache.
 *
 * All is in this header, which is C99 to C23, and C++98 to C++20; it needs POSIX threads. A call with a key takes the
 * mutex of the key's part, and one of all parts takes one after the other: no call has two at a time, so a thread waits
 * only for threads that change the same part. Readers take no mutex, and make bump_cache.h's calls.
 *
 * WHAT C PROMISES, beside bump_cache.h's lines: calls of this header are made behind a bump_cache_locks_init that
 * answered true, and before bump_cache_locks_free; and `locks` stays where it is in between. A thread that took a mutex
 * makes none but bump_cache_locks_give. */
#ifndef BUMP_CACHE_LOCKS_H
#define BUMP_CACHE_LOCKS_H

#include "bump_cache.h"
#include <pthread.h>

#ifdef __cplusplus
extern "C" {
#endif

/* The most parts that a cache has. */
#define BUMP_CACHE_MOST_PARTS 256

/* How often a mutex that is taken is tried, with a pause behind each try, before a thread sleeps for it. */
#ifndef BUMP_CACHE_LOCKS_TRIES
#define BUMP_CACHE_LOCKS_TRIES 256
#endif

/* A part and its mutex. The room behind them keeps the next ones out of their line of memory. */
typedef struct bump_cache_locked {
  pthread_mutex_t mutex;
  bump_cache_part part;
  char apart[64];
} bump_cache_locked;

/* All parts of a cache. It has room for the most parts, which is 28 KB where a mutex has 40 bytes, as with Linux on
 * x86-64: so it is best a static variable, or in memory from malloc, and not on a small stack. */
typedef struct bump_cache_locks {
  bump_cache_config config; /* by which the cache was opened */
  bump_cache_locked of[BUMP_CACHE_MOST_PARTS];
} bump_cache_locks;

/* ------------------------------------------------------------------------------------------------ init and free */

/* Gives back the first parts, and their mutexes: a step of the two calls below. */
static inline void bump_cache_locks_end(bump_cache_locks *locks, uint32_t count) {
  for (uint32_t i = 0; i < count; i++) {
    bump_cache_part_free(locks->of[i].part);
    pthread_mutex_destroy(&locks->of[i].mutex);
  }
}

/* Takes all parts out of a cache that was opened by this configuration, and makes a mutex for each. false: a part was
 * taken before, or the system has no mutex more; the parts that it took are given back, which ends them. */
static inline bool bump_cache_locks_init(bump_cache_locks *locks, bump_cache *cache, const bump_cache_config *config) {
  if (config->parts > BUMP_CACHE_MOST_PARTS) return false;
  locks->config = *config;
  for (uint32_t i = 0; i < config->parts; i++) {
    locks->of[i].part.p = NULL;
    bool is_taken = bump_cache_take_part(cache, i, &locks->of[i].part);
    if (is_taken && pthread_mutex_init(&locks->of[i].mutex, NULL) == 0) continue;
    if (is_taken) bump_cache_part_free(locks->of[i].part);
    bump_cache_locks_end(locks, i);
    return false;
  }
  return true;
}

/* Gives back all parts, and their mutexes. */
static inline void bump_cache_locks_free(bump_cache_locks *locks) { bump_cache_locks_end(locks, locks->config.parts); }

/* Takes the mutex of a part. Who has it gives it back within a microsecond, as a rule, and to sleep and to be woken
 * takes longer: so a thread looks for some microseconds before it sleeps. */
static inline void bump_cache_locks_wait(bump_cache_locked *part) {
  for (int i = 0; i < BUMP_CACHE_LOCKS_TRIES; i++) {
    if (pthread_mutex_trylock(&part->mutex) == 0) return;
#if defined(__GNUC__) && defined(__x86_64__)
    __builtin_ia32_pause();
#endif
  }
  pthread_mutex_lock(&part->mutex);
}

/* ------------------------------------------------------------------------------------------------ calls of a key */

/* Takes the mutex of a key's part, for several calls as one: a look, and a put of what is made from it. NULL: the key
 * is too long, and no mutex is taken. */
static inline bump_cache_locked *bump_cache_locks_take(bump_cache_locks *locks, const void *key, size_t key_length) {
  uint32_t number = bump_cache_part_of(&locks->config, key, key_length);
  if (number == BUMP_NONE) return NULL;
  bump_cache_locks_wait(&locks->of[number]);
  return &locks->of[number];
}

/* Gives back the mutex that was taken so. */
static inline void bump_cache_locks_give(bump_cache_locked *taken) { pthread_mutex_unlock(&taken->mutex); }

/* Each is bump_cache.h's call of the same name, in the key's part: so it never answers BUMP_CACHE_PUT_OTHER_PART. */
static inline bump_cache_put_told bump_cache_locks_put(bump_cache_locks *locks, const void *key, size_t key_length,
                                                       const void *value, size_t value_length, uint32_t flags,
                                                       uint64_t expires, uint64_t now) {
  bump_cache_put_told told = { BUMP_CACHE_PUT_KEY_BYTES, false };
  bump_cache_locked *taken = bump_cache_locks_take(locks, key, key_length);
  if (!taken) return told;
  told = bump_cache_put(&taken->part, key, key_length, value, value_length, flags, expires, now);
  bump_cache_locks_give(taken);
  return told;
}

static inline bump_cache_put_told bump_cache_locks_add(bump_cache_locks *locks, const void *key, size_t key_length,
                                                       const void *value, size_t value_length, uint32_t flags,
                                                       uint64_t expires, uint64_t now) {
  bump_cache_put_told told = { BUMP_CACHE_PUT_KEY_BYTES, false };
  bump_cache_locked *taken = bump_cache_locks_take(locks, key, key_length);
  if (!taken) return told;
  told = bump_cache_add(&taken->part, key, key_length, value, value_length, flags, expires, now);
  bump_cache_locks_give(taken);
  return told;
}

static inline bump_cache_put_told bump_cache_locks_replace(bump_cache_locks *locks, const void *key, size_t key_length,
                                                           const void *value, size_t value_length, uint32_t flags,
                                                           uint64_t expires, uint64_t now) {
  bump_cache_put_told told = { BUMP_CACHE_PUT_KEY_BYTES, false };
  bump_cache_locked *taken = bump_cache_locks_take(locks, key, key_length);
  if (!taken) return told;
  told = bump_cache_replace(&taken->part, key, key_length, value, value_length, flags, expires, now);
  bump_cache_locks_give(taken);
  return told;
}

static inline bump_cache_put_told bump_cache_locks_update(bump_cache_locks *locks, const void *key, size_t key_length,
                                                          const void *value, size_t value_length, uint64_t now) {
  bump_cache_put_told told = { BUMP_CACHE_PUT_KEY_BYTES, false };
  bump_cache_locked *taken = bump_cache_locks_take(locks, key, key_length);
  if (!taken) return told;
  told = bump_cache_update(&taken->part, key, key_length, value, value_length, now);
  bump_cache_locks_give(taken);
  return told;
}

static inline bump_cache_put_told bump_cache_locks_touch(bump_cache_locks *locks, const void *key, size_t key_length,
                                                         uint64_t expires, uint64_t now) {
  bump_cache_put_told told = { BUMP_CACHE_PUT_KEY_BYTES, false };
  bump_cache_locked *taken = bump_cache_locks_take(locks, key, key_length);
  if (!taken) return told;
  told = bump_cache_touch(&taken->part, key, key_length, expires, now);
  bump_cache_locks_give(taken);
  return told;
}

static inline bump_cache_looked bump_cache_locks_look(bump_cache_locks *locks, const void *key, size_t key_length,
                                                      void *value, size_t room, uint64_t now) {
  bump_cache_looked looked = { BUMP_CACHE_GET_KEY_BYTES, 0, 0, 0 };
  bump_cache_locked *taken = bump_cache_locks_take(locks, key, key_length);
  if (!taken) return looked;
  looked = bump_cache_look(&taken->part, key, key_length, value, room, now);
  bump_cache_locks_give(taken);
  return looked;
}

static inline bool bump_cache_locks_remove(bump_cache_locks *locks, const void *key, size_t key_length, uint64_t now) {
  bump_cache_locked *taken = bump_cache_locks_take(locks, key, key_length);
  if (!taken) return false;
  bool had = bump_cache_remove(&taken->part, key, key_length, now);
  bump_cache_locks_give(taken);
  return had;
}

/* --------------------------------------------------------------------------------------------- calls of all parts */

/* Tends each part. */
static inline void bump_cache_locks_tend(bump_cache_locks *locks, uint64_t now) {
  for (uint32_t i = 0; i < locks->config.parts; i++) {
    bump_cache_locks_wait(&locks->of[i]);
    bump_cache_tend(&locks->of[i].part, now);
    pthread_mutex_unlock(&locks->of[i].mutex);
  }
}

/* Ends each item of each part. What others put meanwhile into a part that was cleared stays. */
static inline void bump_cache_locks_clear(bump_cache_locks *locks) {
  for (uint32_t i = 0; i < locks->config.parts; i++) {
    bump_cache_locks_wait(&locks->of[i]);
    bump_cache_clear(&locks->of[i].part);
    pthread_mutex_unlock(&locks->of[i].mutex);
  }
}

/* A sum, at most 2^64 - 1: a count that is at its end stays there, as inside the library. */
static inline uint64_t bump_cache_locks_sum(uint64_t one, uint64_t other) {
  return one > UINT64_MAX - other ? UINT64_MAX : one + other;
}

/* Adds the statistics of one more part to those of others: each count is at most 2^64 - 1. */
static inline void bump_cache_locks_sum_up(bump_cache_stats_of *sum, const bump_cache_stats_of *own) {
  sum->number_hot += own->number_hot;
  sum->number_warm += own->number_warm;
  sum->number_cold += own->number_cold;
  sum->number_temp += own->number_temp;
  for (size_t at = offsetof(bump_cache_stats_of, moves_to_cold); at < sizeof *sum; at += sizeof(uint64_t)) {
    uint64_t one, other;
    memcpy(&one, (const char *)sum + at, sizeof one);
    memcpy(&other, (const char *)own + at, sizeof other);
    one = bump_cache_locks_sum(one, other);
    memcpy((char *)sum + at, &one, sizeof one);
  }
}

/* The sums of all parts' statistics, each part's of a moment of its own, and each count at most 2^64 - 1. */
static inline bump_cache_stats_of bump_cache_locks_stats(bump_cache_locks *locks) {
  bump_cache_stats_of sum;
  memset(&sum, 0, sizeof sum);
  for (uint32_t i = 0; i < locks->config.parts; i++) {
    bump_cache_locks_wait(&locks->of[i]);
    bump_cache_stats_of own = bump_cache_stats(&locks->of[i].part);
    pthread_mutex_unlock(&locks->of[i].mutex);
    bump_cache_locks_sum_up(&sum, &own);
  }
  return sum;
}

#ifdef __cplusplus
}
#endif

#endif
