/* A small cache of texts: two threads get, and one puts. Who gets takes no lock; who puts takes the mutex of the key's
 * part, by bump_cache_locks.h. It prints how many gets found a text, and how many of these weren't the key's. */
#define _POSIX_C_SOURCE 200809L
#include "bump_cache_locks.h"
#include <pthread.h>
#include <stdio.h>
#include <string.h>

enum { READERS = 2, KEYS = 2000, GETS = 50000, KEY = 16, VALUE = 64 };

static bump_cache_locks locks;
static bump_cache_reader reader[READERS];
static int wrong[READERS];

/* A server asks its clock each second or so: here no time passes, and nothing expires. */
static const uint64_t NOW = 1;

static size_t name_key(char *key, unsigned number) { return (size_t)snprintf(key, KEY, "user:%u", number); }

static void put(unsigned number) {
  char key[KEY], value[VALUE];
  size_t length = name_key(key, number), bytes = (size_t)snprintf(value, VALUE, "the text of %s", key);
  bump_cache_put_told told = bump_cache_locks_put(&locks, key, length, value, bytes, 0, 0, NOW);
  if (told.answer == BUMP_CACHE_PUT_NO_ROOM) bump_cache_locks_remove(&locks, key, length, NOW); /* it is out of date */
}

static void *put_all(void *p) {
  for (unsigned i = 0; i < GETS; i++) put(i * 7919u % KEYS);
  bump_cache_locks_tend(&locks, NOW); /* a server does this each second or so */
  return p;
}

static void *get_all(void *p) {
  size_t me = (size_t)p;
  char key[KEY], value[VALUE], wanted[VALUE];
  for (unsigned i = 0; i < GETS; i++) {
    size_t length = name_key(key, i * 104729u % KEYS);
    bump_cache_got got = bump_cache_get(&reader[me], key, length, value, VALUE, NOW);
    if (got.answer != BUMP_CACHE_GET_FOUND) continue; /* a server would fetch it now, and put it */
    size_t bytes = (size_t)snprintf(wanted, VALUE, "the text of %s", key);
    wrong[me] += got.length != bytes || memcmp(value, wanted, bytes) != 0;
  }
  return NULL;
}

int main(void) {
  bump_cache cache = { 0 };
  bump_cache_config config = bump_cache_defaults(1500, READERS, KEY, VALUE);
  config.parts = 4;
  if (bump_cache_open(&cache, &config) != BUMP_CACHE_OPEN_DONE) return 1;
  if (!bump_cache_locks_init(&locks, &cache, &config)) return 1;
  for (uint32_t i = 0; i < READERS; i++) bump_cache_take_reader(&cache, i, &reader[i]);
  bump_cache_close(cache); /* all is taken out */
  pthread_t thread[READERS + 1];
  for (size_t i = 0; i < READERS; i++) pthread_create(&thread[i], NULL, get_all, (void *)i);
  pthread_create(&thread[READERS], NULL, put_all, NULL);
  for (int i = 0; i <= READERS; i++) pthread_join(thread[i], NULL);
  uint64_t hits = 0;
  for (int i = 0; i < READERS; i++) {
    hits += bump_cache_reader_counts(&reader[i]).hits;
    bump_cache_reader_free(reader[i]);
  }
  bump_cache_locks_free(&locks);
  printf("%llu gets found a text, %d a wrong one\n", (unsigned long long)hits, wrong[0] + wrong[1]);
  return wrong[0] + wrong[1] != 0;
}
