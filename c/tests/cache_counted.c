/* A get of a key and a value of 8 bytes, over 1,024 items that are marked already, to be counted and timed: by
 * bump_cache_get with as much room; with room for more than one call tells; by words; and by hold, read and release.
 *
 *   cache_counted get|long|words|hold ROUNDS     makes 1,024 x ROUNDS gets, and prints nothing
 *   cache_counted time                           prints nanoseconds of a get each way: the best of 60 passes of 64
 *                                                rounds
 *
 * Whoever counts the instructions of one get counts those of one_get. */
#define _POSIX_C_SOURCE 200809L
#include "bump_cache.h"
#include "counting.h"

static bump_cache_reader reader;
static bump_cache_part part;
static uint64_t key[ITEMS];

/* It stays a function, though what it calls is inline. */
enum bump_cache_get_answer one_get(const uint64_t *k, uint64_t *value);
__attribute__((noinline)) enum bump_cache_get_answer one_get(const uint64_t *k, uint64_t *value) {
  return bump_cache_get(&reader, k, 8, value, 8, 5).answer;
}

static uint64_t get(uint64_t rounds) {
  uint64_t sum = 0, value = 0;
  for (uint64_t round = 0; round < rounds; round++)
    for (int i = 0; i < ITEMS; i++) {
      if (one_get(&key[i], &value) != BUMP_CACHE_GET_FOUND) return 0;
      sum += value;
    }
  return sum;
}

static uint64_t get_long(uint64_t rounds) {
  uint64_t sum = 0, value[BUMP_MOST_WORDS + 1];
  for (uint64_t round = 0; round < rounds; round++)
    for (int i = 0; i < ITEMS; i++) {
      bump_cache_got got = bump_cache_get(&reader, &key[i], 8, value, sizeof value, 5);
      if (got.answer != BUMP_CACHE_GET_FOUND) return 0;
      sum += value[0];
    }
  return sum;
}

static uint64_t words(uint64_t rounds) {
  uint64_t sum = 0;
  for (uint64_t round = 0; round < rounds; round++)
    for (int i = 0; i < ITEMS; i++) {
      bump_cache_got_words told = bump_cache_get_words(&reader, &key[i], 8, 5);
      if (told.got.answer != BUMP_CACHE_GET_FOUND) return 0;
      sum += told.words[0];
    }
  return sum;
}

static uint64_t hold(uint64_t rounds) {
  uint64_t sum = 0, value = 0;
  for (uint64_t round = 0; round < rounds; round++)
    for (int i = 0; i < ITEMS; i++) {
      bump_cache_got got = bump_cache_hold(&reader, 1, &key[i], 8, 5);
      if (got.answer != BUMP_CACHE_GET_FOUND) return 0;
      bump_cache_read(&reader, 1, 0, &value, 8);
      bump_cache_release(&reader, 1);
      sum += value;
    }
  return sum;
}

static bool open_all(void) {
  bump_cache cache = { 0 };
  bump_cache_config config = bump_cache_defaults(ITEMS, 1, 8, 8);
  config.holds = 1;
  config.seed_first = 12345;
  config.seed_second = 67890;
  if (bump_cache_open(&cache, &config) != BUMP_CACHE_OPEN_DONE) return false;
  bool all = bump_cache_take_reader(&cache, 0, &reader) && bump_cache_take_part(&cache, 0, &part);
  bump_cache_close(cache);
  for (uint64_t i = 0; i < ITEMS && all; i++) {
    /* in no order of memory */
    uint64_t *k = &key[i * 2654435761u % ITEMS];
    *k = i;
    all = bump_cache_put(&part, k, 8, &i, 8, 0, 0, 0).answer == BUMP_CACHE_PUT_DONE;
  }
  return all;
}

/* The values of all items. */
static const uint64_t EACH_ROUND = (uint64_t)ITEMS * (ITEMS - 1) / 2;

static const struct way WAY[] = { { "get", get }, { "long", get_long }, { "words", words }, { "hold", hold } };
enum { WAYS = 4 };

int main(int count, char **words) {
  if (!open_all() || get(2) != 2 * EACH_ROUND) return 1; /* two gets of an item set both marks */
  int status = count_or_time(count, words, WAY, WAYS, EACH_ROUND);
  bump_cache_reader_free(reader);
  bump_cache_part_free(part);
  return status;
}
