/* Refuses each request for memory of bump_cache_open in turn, alone, and then all from it on: it answers want of
 * memory, nothing is changed and nothing leaks. No other call asks for memory.
 *
 * Link with -Wl,--wrap=malloc,--wrap=calloc,--wrap=realloc,--wrap=free. */
#include "bump_cache.h"
#include "refusing.h"
#include <stdio.h>
#include <string.h>

enum { READERS = 3, PARTS = 2, HOLDS = 2, KEY = 12, VALUE = 100 };

/* Puts in all ways, until items are evicted. */
static void puts_of(bump_cache_part *p, const char *key) {
  bump_cache_put_told told = { BUMP_CACHE_PUT_NO_ROOM, false };
  bump_cache_looked looked = { BUMP_CACHE_GET_NOTHING, 0, 0, 0 };
  bump_cache_words_of words = { { 0 } };
  char read[VALUE];
  static const char long_value[VALUE] = "a long value, really";
  ASKS_NOTHING(told = bump_cache_put(p, key, 5, long_value, VALUE, 1, 0, 1));
  want(told.answer == BUMP_CACHE_PUT_DONE, "no put");
  ASKS_NOTHING(told = bump_cache_add(p, key, 5, "v", 1, 1, 0, 1));
  want(told.answer == BUMP_CACHE_PUT_HAS, "an add");
  ASKS_NOTHING(told = bump_cache_replace(p, key, 5, "short", 5, 2, 0, 1));
  want(told.answer == BUMP_CACHE_PUT_DONE, "no replacement");
  ASKS_NOTHING(told = bump_cache_update(p, key, 5, "another value", 13, 1));
  want(told.answer == BUMP_CACHE_PUT_DONE, "no update");
  ASKS_NOTHING(told = bump_cache_touch(p, key, 5, 9, 1));
  want(told.answer == BUMP_CACHE_PUT_DONE, "no touch");
  ASKS_NOTHING(looked = bump_cache_look(p, key, 5, read, VALUE, 8));
  want(looked.answer == BUMP_CACHE_GET_FOUND && looked.length == 13 && looked.expires == 9, "no look");
  ASKS_NOTHING(looked = bump_cache_find(p, key, 5, 8));
  ASKS_NOTHING(words = bump_cache_found_words(p, 0));
  want(looked.length == 13 && memcmp(words.words, "another value", 14) == 0, "no words of a look");
}

/* Gets and holds of a key that has "another value". */
static void gets_of(bump_cache_reader *r, const char *key) {
  bump_cache_got got = { BUMP_CACHE_GET_NOTHING, 0, 0 };
  bool is = false;
  char read[VALUE];
  for (size_t room = BUMP_CACHE_MOST_BYTES - 1; room < BUMP_CACHE_MOST_BYTES + 2; room++) {
    ASKS_NOTHING(got = bump_cache_get(r, key, 5, read, room, 2));
    want(got.answer == BUMP_CACHE_GET_FOUND && memcmp(read, "another value", 13) == 0, "no get");
  }
  ASKS_NOTHING(got = bump_cache_get_words(r, key, 5, 2).got);
  want(got.answer == BUMP_CACHE_GET_FOUND && got.length == 13, "no words of a get");
  ASKS_NOTHING(got = bump_cache_hold(r, 2, key, 5, 2));
  want(got.answer == BUMP_CACHE_GET_FOUND && got.flags == 2, "no hold");
  ASKS_NOTHING(bump_cache_read(r, 2, 1, read, VALUE));
  want(memcmp(read, "value", 6) == 0, "no read");
  ASKS_NOTHING(bump_cache_read_words(r, 2, 1));
  ASKS_NOTHING(is = bump_cache_release(r, 2));
  want(is, "no release");
  ASKS_NOTHING(got = bump_cache_hold(r, 1, key, 5, 2));
  ASKS_NOTHING(bump_cache_reader_counts(r));
}

static void use(bump_cache_part *part, bump_cache_reader *reader, const bump_cache_config *config) {
  char key[6], value[VALUE];
  uint32_t found = 0;
  for (int i = 0; i < 40; i++) {
    snprintf(key, sizeof key, "key%02d", i);
    uint32_t number = BUMP_NONE;
    ASKS_NOTHING(number = bump_cache_part_of(config, key, 5));
    want(number < PARTS, "no part");
    if (number >= PARTS) return;
    puts_of(&part[number], key);
    if (i < READERS) gets_of(&reader[i], key);
  }
  for (int i = 0; i < PARTS; i++) {
    bump_cache_stats_of s;
    uint32_t chunks = 0;
    ASKS_NOTHING(bump_cache_tend(&part[i], 3));
    ASKS_NOTHING(s = bump_cache_stats(&part[i]));
    want(s.evicted > 0, "nothing is evicted");
    ASKS_NOTHING(chunks = bump_cache_chunks(&part[i]));
    for (uint32_t k = 0; k < chunks; k++) {
      bump_cache_entry_of e = { false, 0, 0, 0, 0 };
      ASKS_NOTHING(e = bump_cache_each(&part[i], k, key, 5, value, VALUE, 3));
      found += e.found && e.value_length == 13;
    }
    ASKS_NOTHING(bump_cache_tend(&part[i], 9));
    ASKS_NOTHING(bump_cache_clear(&part[i]));
    ASKS_NOTHING(bump_cache_remove(&part[i], "key39", 5, 9));
  }
  want(found == config->items, "other items");
}

/* From opening to the end. */
static void whole(void) {
  bump_cache_config config = { 0 };
  ASKS_NOTHING(config = bump_cache_defaults(8, READERS, KEY, VALUE));
  config.parts = PARTS;
  config.holds = HOLDS;
  config.ring = 4;
  config.spare = 8;
  bump_cache cache = { 0 };
  bump_cache_part part[PARTS] = { { 0 } };
  bump_cache_reader reader[READERS] = { { 0 } };
  enum bump_cache_open_answer opened = bump_cache_open(&cache, &config);
  if (opened != BUMP_CACHE_OPEN_DONE) {
    want(opened == BUMP_CACHE_OPEN_NO_MEMORY && refuse_at != 0, "another answer of bump_cache_open");
    want(cache.p == NULL && live == 0, "a cache that isn't opened leaves something");
    open_no_memory = true;
    return;
  }
  for (uint32_t i = READERS; i-- > 0;) TAKE(bump_cache_take_reader, &cache, bump_cache_reader, i, reader);
  for (uint32_t i = PARTS; i-- > 0;) TAKE(bump_cache_take_part, &cache, bump_cache_part, i, part);
  use(part, reader, &config);
  ASKS_NOTHING(bump_cache_close(cache));
  for (int i = 0; i < READERS; i++) ASKS_NOTHING(bump_cache_reader_free(reader[i]));
  for (int i = 0; i < PARTS; i++) ASKS_NOTHING(bump_cache_part_free(part[i]));
  want(live == 0, "a leak");
}

int main(void) { return refuse_each(whole, "bump_cache_open BUMP_CACHE_OPEN_NO_MEMORY"); }
