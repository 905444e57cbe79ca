/* What a get and a put of a cache from C take, by the longest key and value that it has room for: nanoseconds of the best of some passes.
 *
 *   c/pack && gcc -O2 -Ic bench/c_puts.c c/out/libbump.a -lpthread -o c_puts && ./c_puts
 *
 * One thread gets present keys and puts fresh ones, each of which evicts an item, into a full cache of 1,000 items. Keys and values have
 * 8 bytes each, however long they might be; in the last column values have their full length. */
#define _POSIX_C_SOURCE 200809L
#include "bump_cache.h"
#include <stdio.h>
#include <stdlib.h>
#include <time.h>

enum { ITEMS = 1000, PASSES = 7 };

struct cache {
  bump_cache_part part;
  bump_cache_reader reader;
  uint64_t next; /* the next fresh key */
};

static double now(void) {
  struct timespec time;
  clock_gettime(CLOCK_MONOTONIC, &time);
  return (double)time.tv_sec * 1e9 + (double)time.tv_nsec;
}

static void put(struct cache *it, const void *value, size_t length) {
  bump_cache_put_told told = bump_cache_put(&it->part, &it->next, sizeof it->next, value, length, 0, 0, 1);
  if (told.answer != BUMP_CACHE_PUT_DONE) exit(fprintf(stderr, "c_puts: a put answers %d\n", (int)told.answer));
  it->next++;
}

static struct cache opened(uint32_t key_bytes, uint32_t value_bytes) {
  bump_cache_config config = bump_cache_defaults(ITEMS, 1, key_bytes, value_bytes);
  bump_cache cache = { NULL };
  struct cache it = { { NULL }, { NULL }, 0 };
  if (bump_cache_open(&cache, &config) != BUMP_CACHE_OPEN_DONE || !bump_cache_take_part(&cache, 0, &it.part) ||
      !bump_cache_take_reader(&cache, 0, &it.reader))
    exit(fprintf(stderr, "c_puts: no cache\n"));
  bump_cache_close(cache);
  while (it.next < ITEMS) put(&it, &it.next, sizeof it.next);
  return it;
}

/* The best of all passes of so many calls, each by its number from the first fresh key down, or as a put. */
static double best(struct cache *it, int calls, bool puts, const void *value, size_t length) {
  double least = 1e18;
  for (int pass = 0; pass < PASSES; pass++) {
    double begun = now();
    for (int i = 0; i < calls; i++) {
      uint64_t key = it->next - 1 - (uint64_t)(i % 100), got;
      if (puts)
        put(it, value, length);
      else if (bump_cache_get(&it->reader, &key, sizeof key, &got, sizeof got, 1).answer != BUMP_CACHE_GET_FOUND)
        exit(fprintf(stderr, "c_puts: a get misses\n"));
    }
    double taken = (now() - begun) / calls;
    if (taken < least) least = taken;
  }
  return least;
}

int main(void) {
  static const uint32_t sizes[][2] = { { 8, 8 }, { 250, 64 }, { 1024, 64 }, { 8, 1000 }, { 8, 10000 }, { 8, 100000 } };
  static char value[100000];
  printf("key_bytes value_bytes  get  put of 8 bytes  put of value_bytes\n");
  for (size_t i = 0; i < sizeof sizes / sizeof *sizes; i++) {
    struct cache it = opened(sizes[i][0], sizes[i][1]);
    int puts = sizes[i][1] > 1000 ? 200 : 20000;
    printf("%9u %11u %4.0f", (unsigned)sizes[i][0], (unsigned)sizes[i][1], best(&it, 20000, false, NULL, 0));
    printf(" %15.0f", best(&it, puts, true, value, 8));
    printf(" %19.0f\n", best(&it, puts, true, value, sizes[i][1]));
    bump_cache_part_free(it.part);
    bump_cache_reader_free(it.reader);
  }
  return 0;
}
