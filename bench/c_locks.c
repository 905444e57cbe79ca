/* What a put from C takes each of several threads that put at once, by any key: nanoseconds of the best of some passes.
 *
 *   c/pack && gcc -O2 -Ic bench/c_locks.c c/out/libbump.a -lpthread -o c_locks && ./c_locks THREADS PARTS
 *
 * The cache is full of 100,000 items, of ten times as many keys. With -DBUMP_CACHE_LOCKS_TRIES=0 threads sleep at once. */
#define _POSIX_C_SOURCE 200809L
#include "bump_cache_locks.h"
#include <stdio.h>
#include <stdlib.h>
#include <time.h>

enum { ITEMS = 100000, KEYS = 10 * ITEMS, PUTS = 400000, PASSES = 5, MOST_THREADS = 16 };

static bump_cache_locks locks;
static pthread_barrier_t start;

static double now(void) {
  struct timespec time;
  clock_gettime(CLOCK_MONOTONIC, &time);
  return (double)time.tv_sec * 1e9 + (double)time.tv_nsec;
}

/* Puts random keys, each thread in an order of its own. */
static void *put_many(void *at) {
  uint64_t random = 88172645463325252u * (1 + (uint64_t)(uintptr_t)at);
  pthread_barrier_wait(&start);
  for (int i = 0; i < PUTS; i++) {
    random ^= random << 13, random ^= random >> 7, random ^= random << 17;
    uint64_t key = random % KEYS;
    bump_cache_locks_put(&locks, &key, sizeof key, &key, sizeof key, 0, 0, 1);
  }
  return NULL;
}

static double pass(int threads) {
  pthread_t thread[MOST_THREADS];
  pthread_barrier_init(&start, NULL, (unsigned)threads + 1);
  for (intptr_t i = 0; i < threads; i++) pthread_create(&thread[i], NULL, put_many, (void *)i);
  pthread_barrier_wait(&start);
  double begin = now();
  for (int i = 0; i < threads; i++) pthread_join(thread[i], NULL);
  pthread_barrier_destroy(&start);
  return (now() - begin) / PUTS;
}

int main(int count, char **word) {
  int threads = count == 3 ? atoi(word[1]) : 0;
  bump_cache_config config = bump_cache_defaults(ITEMS, 1, 8, 8);
  bump_cache cache = { 0 };
  config.parts = count == 3 ? (uint32_t)atoi(word[2]) : 0;
  if (threads < 1 || threads > MOST_THREADS || bump_cache_open(&cache, &config) != BUMP_CACHE_OPEN_DONE ||
      !bump_cache_locks_init(&locks, &cache, &config))
    return fprintf(stderr, "c_locks: THREADS and PARTS are 1 to 16\n"), 2;
  double best = pass(threads);
  for (int i = 1; i < PASSES; i++) {
    double time = pass(threads);
    if (time < best) best = time;
  }
  printf("%d threads, %u parts: %.0f ns a put of each thread\n", threads, config.parts, best);
}
