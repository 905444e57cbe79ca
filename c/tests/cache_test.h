/* What cache_calls.c and cache_lists.c share: a cache with all its parts taken out, and calls with keys and values of
 * text. */
#ifndef CACHE_TEST_H
#define CACHE_TEST_H

#include "bump_cache.h"
#include "answers.h"
#include <stdio.h>
#include <string.h>

enum { KEY = 20, VALUE = 150, HOLDS = 3 };
#define FLAGS UINT32_C(0xfedcba98)

/* The build with checks is to tell of nothing. */
#ifdef BUMP_DEBUG
static void hear(const char *what) {
  fprintf(stderr, "the build with checks tells: %s\n", what);
  failed = 1;
}
#define HEAR_CHECKS() (bump_debug_broken = hear)
#else
#define HEAR_CHECKS() ((void)0)
#endif

/* All parts of a cache of 1 to 4 parts with two readers. */
struct all {
  bump_cache_config config;
  bump_cache_part part[4];
  bump_cache_reader reader[2];
};

/* A configuration in which ages don't count, with two readers. */
static inline bump_cache_config config_of(uint32_t items, uint32_t spare, uint32_t parts) {
  bump_cache_config config = bump_cache_defaults(items, 2, KEY, VALUE);
  config.seed_first = 12345;
  config.seed_second = 67890;
  config.spare = spare;
  config.parts = parts;
  config.hot_age = config.warm_age = BUMP_NONE;
  config.holds = HOLDS;
  return config;
}

/* No part and no reader has this number, or it is taken already. */
static inline void none_of(bump_cache *cache, uint32_t number) {
  bump_cache_part part = { 0 };
  bump_cache_reader reader = { 0 };
  ANSWERS(bump_cache_take_part, bump_cache_take_part(cache, number, &part), false);
  ANSWERS(bump_cache_take_reader, bump_cache_take_reader(cache, number, &reader), false);
  HOLDS_THAT(bump_cache_take_part, part.p == NULL && reader.p == NULL);
}

/* A cache with all its parts and readers taken out, the last ones first. */
static inline struct all open_all(bump_cache_config config) {
  struct all a = { config, { { 0 } }, { { 0 } } };
  bump_cache cache = { 0 };
  ANSWERS(bump_cache_open, bump_cache_open(&cache, &config), BUMP_CACHE_OPEN_DONE);
  HOLDS_THAT(bump_cache_open, cache.p != NULL);
  for (uint32_t i = config.parts; i-- > 0;)
    ANSWERS(bump_cache_take_part, bump_cache_take_part(&cache, i, &a.part[i]), true);
  for (uint32_t i = 2; i-- > 0;)
    ANSWERS(bump_cache_take_reader, bump_cache_take_reader(&cache, i, &a.reader[i]), true);
  HOLDS_THAT(bump_cache_take_reader, a.part[0].p && a.reader[0].p && a.reader[1].p);
  none_of(&cache, 0);
  none_of(&cache, config.parts > 2 ? config.parts : 2);
  none_of(&cache, BUMP_NONE);
  bump_cache_close(cache);
  printf("bump_cache_close void\n");
  return a;
}

static inline void free_all(struct all *a) {
  for (uint32_t i = 0; i < a->config.parts; i++) bump_cache_part_free(a->part[i]);
  for (int i = 0; i < 2; i++)
    if (a->reader[i].p) bump_cache_reader_free(a->reader[i]);
  printf("bump_cache_part_free void\nbump_cache_reader_free void\n");
}

static inline bump_cache_put_told put(bump_cache_part *p, const char *key, const char *value, uint64_t expires,
                                      uint64_t now) {
  return bump_cache_put(p, key, strlen(key), value, strlen(value), FLAGS, expires, now);
}

/* Whether the key has this value, by a look: so nothing is hit or counted. Where it is NULL, whether it has none. */
static inline bool has(bump_cache_part *p, const char *key, const char *value, uint64_t now) {
  char read[VALUE];
  bump_cache_looked looked = bump_cache_look(p, key, strlen(key), read, sizeof read, now);
  if (!value) return looked.answer == BUMP_CACHE_GET_NOTHING && looked.flags == 0 && looked.length == 0;
  return looked.answer == BUMP_CACHE_GET_FOUND && looked.flags == FLAGS && looked.length == strlen(value) &&
         memcmp(read, value, looked.length) == 0;
}

/* The same by a get, with room that takes more than one call of the library. */
static inline bool gets_text(bump_cache_reader *r, const char *key, const char *value, uint64_t now) {
  char read[VALUE];
  bump_cache_got got = bump_cache_get(r, key, strlen(key), read, sizeof read, now);
  if (!value) return got.answer == BUMP_CACHE_GET_NOTHING && got.flags == 0 && got.length == 0;
  return got.answer == BUMP_CACHE_GET_FOUND && got.flags == FLAGS && got.length == strlen(value) &&
         memcmp(read, value, got.length) == 0;
}

/* A get with room that takes one. */
static inline enum bump_cache_get_answer get(bump_cache_reader *r, const char *key, uint64_t now) {
  char read[BUMP_CACHE_MOST_BYTES];
  return bump_cache_get(r, key, strlen(key), read, sizeof read, now).answer;
}

static inline bool counted(bump_cache_reader *r, uint64_t hits, uint64_t misses, uint64_t dropped) {
  bump_cache_counts c = bump_cache_reader_counts(r);
  return c.hits == hits && c.misses == misses && c.dropped == dropped;
}

#endif
