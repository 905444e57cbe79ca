/* Makes each call of bump_cache.h with each of its answers, and prints each answer that it saw, as `bump_cache_get
 * BUMP_CACHE_GET_FOUND`. Status 1, and a line on standard error, where an answer was another one. What is evicted and
 * counted is cache_lists.c's, and want of memory cache_refused.c's.
 *
 * With -DBUMP_DEBUG and bump_debug.c it makes the same calls by the build with checks, which has to come to the same,
 * and to tell of none. */
#include "cache_test.h"

enum { MOST_KEY = 1024, MOST_VALUE = 1048576 };

#ifndef BUMP_DEBUG
SIZE(bump_cache_reader, 8);
#endif
SIZE(bump_cache_config, 80);
SIZE(bump_cache_got, 16);
SIZE(bump_cache_got_words, 80);
SIZE(bump_cache_words_of, 64);
SIZE(bump_cache_counts, 24);
SIZE(bump_cache_put_told, 8);
SIZE(bump_cache_looked, 24);
SIZE(bump_cache_entry_of, 32);
SIZE(bump_cache_stats_of, 96);

/* Whether the hold reads this value, and zeros behind it; where it is NULL, whether it reads nothing but zeros. */
static bool holds(bump_cache_reader *r, uint32_t hold, const char *value) {
  static const char zeros[VALUE] = { 0 };
  char read[VALUE] = "changes";
  size_t n = value ? strlen(value) : 0;
  bump_cache_read(r, hold, 0, read, VALUE);
  return memcmp(read, value ? value : "", n) == 0 && memcmp(read + n, zeros, VALUE - n) == 0;
}

/* ------------------------------------------------------------------------------------------------------- opening */

static enum bump_cache_open_answer open_with(const bump_cache_config *config) {
  bump_cache cache = { 0 };
  enum bump_cache_open_answer answer = bump_cache_open(&cache, config);
  bool is_part = bump_cache_part_of(config, "", 0) != BUMP_NONE;
  if (cache.p) bump_cache_close(cache);
  HOLDS_THAT(bump_cache_open, (cache.p != NULL) == (answer == BUMP_CACHE_OPEN_DONE));
  HOLDS_THAT(bump_cache_part_of, is_part == (answer == BUMP_CACHE_OPEN_DONE));
  HOLDS_THAT(bump_cache_bytes_taken, (bump_cache_bytes_taken(config) > 0) == (answer == BUMP_CACHE_OPEN_DONE));
  return answer;
}

/* Each fault, while all numbers behind it are wrong too. */
static void faults(void) {
  bump_cache_config c = bump_cache_defaults(0, 0, 1025, 1048577);
  c.spare = c.hot = c.warm = UINT32_MAX;
  c.parts = c.ring = 0;
#define FAULT(field, value, answer) c.field = value, ANSWERS(bump_cache_open, open_with(&c), answer)
  FAULT(key_bytes, 1025, BUMP_CACHE_OPEN_KEY_BYTES);
  FAULT(key_bytes, UINT32_MAX, BUMP_CACHE_OPEN_KEY_BYTES);
  FAULT(key_bytes, 1024, BUMP_CACHE_OPEN_VALUE_BYTES);
  FAULT(value_bytes, UINT32_MAX, BUMP_CACHE_OPEN_VALUE_BYTES);
  FAULT(value_bytes, 16, BUMP_CACHE_OPEN_ITEMS);
  FAULT(items, 128000001, BUMP_CACHE_OPEN_ITEMS);
  FAULT(items, UINT32_MAX, BUMP_CACHE_OPEN_ITEMS);
  c.parts = 1; /* all spare chunks together are too many where there is a part */
  FAULT(items, 3, BUMP_CACHE_OPEN_SPARE);
  FAULT(spare, 127999998, BUMP_CACHE_OPEN_SPARE);
  FAULT(spare, 0, BUMP_CACHE_OPEN_SPARE);
  c.parts = 4;
  FAULT(spare, 32000000, BUMP_CACHE_OPEN_SPARE);
  FAULT(spare, 1073741824, BUMP_CACHE_OPEN_SPARE); /* multiplied by 4 it is 2^32 */
  c.parts = 0;
  FAULT(spare, 2, BUMP_CACHE_OPEN_SHARES);
  FAULT(warm, 1, BUMP_CACHE_OPEN_SHARES);
  FAULT(hot, 100, BUMP_CACHE_OPEN_SHARES);
  FAULT(hot, 101, BUMP_CACHE_OPEN_SHARES);
  FAULT(hot, 99, BUMP_CACHE_OPEN_PARTS);
  FAULT(parts, 4, BUMP_CACHE_OPEN_PARTS);
  c.items = 257;
  FAULT(parts, 257, BUMP_CACHE_OPEN_PARTS);
  FAULT(parts, 256, BUMP_CACHE_OPEN_READERS);
  FAULT(readers, 65, BUMP_CACHE_OPEN_READERS);
  FAULT(readers, 16777217, BUMP_CACHE_OPEN_READERS); /* multiplied by 256 it is 2^32 + 256 */
  FAULT(readers, UINT32_MAX, BUMP_CACHE_OPEN_READERS);
  FAULT(readers, 64, BUMP_CACHE_OPEN_RING);
  FAULT(ring, 65537, BUMP_CACHE_OPEN_RING);
  FAULT(ring, UINT32_MAX, BUMP_CACHE_OPEN_RING);
  FAULT(ring, 1, BUMP_CACHE_OPEN_DONE);
  FAULT(temporary, UINT64_MAX, BUMP_CACHE_OPEN_DONE);
  FAULT(looks, UINT32_MAX, BUMP_CACHE_OPEN_DONE);
#undef FAULT
}

/* The most items that fit: with one more a cache takes more than the limit, or has too many chunks. */
static void limits_in_bytes(void) {
  for (uint64_t limit = 100000; limit < 1000000000000; limit *= 3) {
    bump_cache_config most = bump_cache_for_bytes(limit, 2, 10, 100), more = most;
    more.items++;
    uint64_t bytes = bump_cache_bytes_taken(&most), beyond = bump_cache_bytes_taken(&more);
    HOLDS_THAT(bump_cache_for_bytes, most.items == 0 ? bytes == 0 : bytes > 0 && bytes <= limit);
    HOLDS_THAT(bump_cache_for_bytes, more.items + more.spare > 128000000 ? beyond == 0 : beyond > limit);
  }
  bump_cache_config d = bump_cache_defaults(1000, 1, 8, 8), two = d;
  two.parts = 2;
  HOLDS_THAT(bump_cache_bytes_taken, bump_cache_bytes_taken(&d) > 1000 * (8 * 8 + 12 + 8 + 64 / 3));
  HOLDS_THAT(bump_cache_bytes_taken, bump_cache_bytes_taken(&two) > bump_cache_bytes_taken(&d) + 8192 * 8);
  ANSWERS(bump_cache_for_bytes, bump_cache_for_bytes(1, 1, 8, 8).items, 0);
  ANSWERS(bump_cache_for_bytes, bump_cache_for_bytes(1 << 30, 0, 8, 8).items, 0);
  ANSWERS(bump_cache_for_bytes, bump_cache_for_bytes(1 << 30, 65, 8, 8).items, 0);
  ANSWERS(bump_cache_for_bytes, bump_cache_for_bytes(1 << 30, 1, 1025, 8).items, 0);
  ANSWERS(bump_cache_for_bytes, bump_cache_for_bytes(1 << 30, 1, 8, 1048577).items, 0);
}

static void configurations(void) {
  bump_cache_config d = bump_cache_defaults(6401, 3, 10, 20);
  HOLDS_THAT(bump_cache_defaults, d.items == 6401 && d.readers == 3 && d.key_bytes == 10 && d.value_bytes == 20);
  HOLDS_THAT(bump_cache_defaults, d.seed_first == 0 && d.seed_second == 0 && d.temporary == 0 && d.spare == 4);
  HOLDS_THAT(bump_cache_defaults, d.hot == 20 && d.warm == 40 && d.hot_age == 20 && d.warm_age == 200);
  HOLDS_THAT(bump_cache_defaults, d.parts == 1 && d.ring == 8192 && d.looks == 1000 && d.holds == 0);
  ANSWERS(bump_cache_open, open_with(&d), BUMP_CACHE_OPEN_DONE);
  d = bump_cache_defaults(128000000, 1, 0, 0);
  ANSWERS(bump_cache_open, open_with(&d), BUMP_CACHE_OPEN_SPARE);
  d.items = 127999998; /* which would take more than 10 GB */
  HOLDS_THAT(bump_cache_bytes_taken, bump_cache_bytes_taken(&d) > 0 && bump_cache_part_of(&d, "", 0) == 0);
  d.items = 1500000;
  ANSWERS(bump_cache_open, open_with(&d), BUMP_CACHE_OPEN_DONE);
  d = bump_cache_defaults(256, 4, 1, 1);
  d.parts = 256;
  ANSWERS(bump_cache_open, open_with(&d), BUMP_CACHE_OPEN_DONE);
  d = bump_cache_defaults(1, 64, 1, 1);
  ANSWERS(bump_cache_open, open_with(&d), BUMP_CACHE_OPEN_DONE);
  d.ring = 65536;
  d.readers = 1;
  ANSWERS(bump_cache_open, open_with(&d), BUMP_CACHE_OPEN_DONE);
  faults();
  limits_in_bytes();
}

/* ------------------------------------------------------------------------------------------------ keys and values */

/* Keys that differ by what is behind them alone, or by their length alone, are different ones. */
static void keys(void) {
  static const char zeros[KEY + 1] = { 0 };
  struct all a = open_all(config_of(200, 4, 1));
  bump_cache_part *p = &a.part[0];
  bool right = true;
  for (uint32_t n = 0; n <= KEY; n++) {
    char key[KEY] = { 0 };
    right &= bump_cache_put(p, zeros, n, &n, sizeof n, n, 0, 1).answer == BUMP_CACHE_PUT_DONE;
    if (n == 0) continue;
    key[n - 1] = 1; /* the last byte is another one */
    right &= bump_cache_put(p, key, n, &n, sizeof n, 100 + n, 0, 1).answer == BUMP_CACHE_PUT_DONE;
    key[n - 1] = 0, key[0] = 1; /* the first one: the same key where there is one byte */
    right &= bump_cache_put(p, key, n, &n, sizeof n, 200 + n, 0, 1).answer == BUMP_CACHE_PUT_DONE;
  }
  HOLDS_THAT(bump_cache_put, right);
  for (uint32_t n = 0; n <= KEY; n++) {
    char key[KEY] = { 0 };
    uint32_t read = 0;
    bump_cache_got got = bump_cache_get(&a.reader[0], zeros, n, &read, sizeof read, 2);
    right &= got.answer == BUMP_CACHE_GET_FOUND && got.flags == n && got.length == sizeof n && read == n;
    if (n == 0) continue;
    key[n - 1] = 1;
    got = bump_cache_get(&a.reader[0], key, n, &read, sizeof read, 2);
    right &= got.answer == BUMP_CACHE_GET_FOUND && got.flags == (n == 1 ? 200 : 100) + n;
    right &= bump_cache_remove(p, zeros, n, 2) && !bump_cache_remove(p, zeros, n, 2);
    key[n - 1] = 2;
    right &= bump_cache_get(&a.reader[0], key, n, &read, sizeof read, 2).answer == BUMP_CACHE_GET_NOTHING;
  }
  HOLDS_THAT(bump_cache_get, right && counted(&a.reader[0], 2 * KEY + 1, KEY, 0) && counted(&a.reader[1], 0, 0, 0));
  bump_cache_got got = bump_cache_get(&a.reader[1], zeros, 0, &right, 0, 2);
  HOLDS_THAT(bump_cache_get, got.answer == BUMP_CACHE_GET_FOUND && got.flags == 0 && got.length == 4 && right);
  HOLDS_THAT(bump_cache_reader_counts, counted(&a.reader[1], 1, 0, 0));
  free_all(&a);
}

static void fill(unsigned char *bytes, size_t length, unsigned first) {
  for (size_t i = 0; i < length; i++) bytes[i] = (unsigned char)(first + 7 * i + i / 37);
}

/* Whether a call that had this much room read a value's bytes, from this one on, and left the others as they were. */
static bool is_read(const unsigned char *read, size_t room, const unsigned char *value, size_t length, size_t from) {
  size_t n = from < length ? length - from : 0;
  if (n > room) n = room;
  for (size_t i = n; i < VALUE + 8; i++)
    if (read[i] != 0xee) return false;
  return n == 0 || memcmp(read, value + from, n) == 0;
}

/* Whether eight words have a value's bytes, from its word with this number on, and zeros behind them. */
static bool is_told(const uint64_t *words, const unsigned char *value, size_t length, uint32_t from) {
  for (uint64_t i = 0; i < BUMP_CACHE_MOST_BYTES; i++) {
    uint64_t at = (uint64_t)from * 8 + i, byte = words[i / 8] >> 8 * (i % 8) & 0xff;
    if (byte != (at < length ? value[at] : 0)) return false;
  }
  return true;
}

/* Whether a value is read whole by the item's chunk, and its key. */
static bool is_entry(bump_cache_part *p, const unsigned char *value, size_t length, size_t room) {
  unsigned char key[KEY], read[VALUE + 8];
  for (uint32_t i = 0; i < bump_cache_chunks(p); i++) {
    memset(read, 0xee, sizeof read);
    bump_cache_entry_of e = bump_cache_each(p, i, key, KEY, read, room, 1);
    if (e.found)
      return e.flags == length + 1 && e.value_length == length && e.expires == length + 2 && e.key_length == 3 &&
             memcmp(key, "key", 3) == 0 && is_read(read, room, value, length, 0);
  }
  return false;
}

/* Reads a value of this length by each call that copies one, with this much room. */
static bool reads(struct all *a, const unsigned char *value, size_t length, size_t room) {
  unsigned char read[VALUE + 8];
  memset(read, 0xee, sizeof read);
  bump_cache_got g = bump_cache_get(&a->reader[0], "key", 3, read, room, 1);
  bool right = g.answer == BUMP_CACHE_GET_FOUND && g.flags == length + 1 && g.length == length;
  right &= is_read(read, room, value, length, 0);
  memset(read, 0xee, sizeof read);
  bump_cache_looked l = bump_cache_look(&a->part[0], "key", 3, read, room, 1);
  right &= l.answer == BUMP_CACHE_GET_FOUND && l.flags == length + 1 && l.length == length && l.expires == length + 2;
  right &= is_read(read, room, value, length, 0) && is_entry(&a->part[0], value, length, room);
  g = bump_cache_hold(&a->reader[0], 1, "key", 3, 1);
  right &= g.answer == BUMP_CACHE_GET_FOUND && g.flags == length + 1 && g.length == length;
  for (uint32_t from = 0; 8 * from < length + 16; from++) {
    size_t left = length > 8 * from ? length - 8 * from : 0, count = left < room ? left : room;
    memset(read, 0xee, sizeof read);
    bump_cache_read(&a->reader[0], 1, from, read, count);
    right &= is_read(read, count, value, length, 8 * from);
  }
  return right && bump_cache_release(&a->reader[0], 1);
}

/* Behind a value's last byte zeros are read: also by words whose numbers are as great as they may be. */
static bool zeros_behind(bump_cache_reader *r, const unsigned char *value, size_t length) {
  static const uint32_t FAR[] = { VALUE / 8 + 1, UINT32_C(1) << 29, UINT32_MAX - 16, UINT32_MAX - 8, UINT32_MAX };
  unsigned char read[VALUE + 8];
  bool right = true;
  bump_cache_read(r, 1, 0, read, VALUE + 8);
  for (size_t i = 0; i < VALUE + 8; i++) right &= read[i] == (i < length ? value[i] : 0);
  for (int k = 0; k < 5; k++) {
    memset(read, 0xee, sizeof read);
    bump_cache_read(r, 1, FAR[k], read, VALUE);
    for (size_t i = 0; i < VALUE + 8; i++) right &= read[i] == (i < VALUE ? 0 : 0xee);
    right &= is_told(bump_cache_read_words(r, 1, FAR[k]).words, value, 0, 0);
  }
  return right;
}

/* Reads it by each call that tells words. */
static bool tells(struct all *a, const unsigned char *value, size_t length) {
  bump_cache_part *p = &a->part[0];
  bump_cache_got_words g = bump_cache_get_words(&a->reader[0], "key", 3, 1);
  bool right = g.got.answer == BUMP_CACHE_GET_FOUND && g.got.flags == length + 1 && g.got.length == length;
  right &= is_told(g.words, value, length, 0);
  bump_cache_looked l = bump_cache_find(p, "key", 3, 1);
  right &= l.answer == BUMP_CACHE_GET_FOUND && l.flags == length + 1 && l.length == length && l.expires == length + 2;
  for (uint32_t from = 0; from < VALUE / 8 + 9; from++)
    right &= is_told(bump_cache_found_words(p, from).words, value, length, from);
  right &= is_told(bump_cache_found_words(p, UINT32_MAX).words, value, 0, 0);
  uint32_t chunk = 0;
  while (chunk < bump_cache_chunks(p) && !bump_cache_entry(p, chunk, 1).found) chunk++;
  bump_cache_entry_of e = bump_cache_entry(p, chunk, 1);
  right &= e.found && e.flags == length + 1 && e.key_length == 3 && e.value_length == length && e.expires == length + 2;
  for (uint32_t from = 0; from < VALUE / 8 + 9; from++) {
    right &= is_told(bump_cache_entry_value(p, from).words, value, length, from);
    right &= is_told(bump_cache_entry_key(p, from).words, (const unsigned char *)"key", 3, from);
  }
  right &= is_told(bump_cache_entry_value(p, UINT32_MAX).words, value, 0, 0);
  right &= is_told(bump_cache_entry_key(p, UINT32_MAX).words, value, 0, 0);
  right &= bump_cache_hold(&a->reader[0], 1, "key", 3, 1).answer == BUMP_CACHE_GET_FOUND;
  for (uint32_t from = 0; from < VALUE / 8 + 9; from++)
    right &= is_told(bump_cache_read_words(&a->reader[0], 1, from).words, value, length, from);
  return right && zeros_behind(&a->reader[0], value, length) && bump_cache_release(&a->reader[0], 1);
}

/* Values of many lengths, one behind the other in few chunks: so what a longer one had isn't read of a shorter one. */
static void values(void) {
  static const size_t LENGTH[] = { VALUE, VALUE - 1, 1, 129, 0, 128, 127, 7, 73, 72, 71, 8, 65, 64, 63, 9, 33, 31, 16 };
  static const size_t ROOM[] = { 0, 1, 7, 8, 9, 33, 63, 64, 65, 72, 73, 127, 128, 129, VALUE - 1, VALUE, VALUE + 8 };
  const unsigned lengths = sizeof LENGTH / sizeof *LENGTH, rooms = sizeof ROOM / sizeof *ROOM;
  struct all a = open_all(config_of(2, 2, 1));
  unsigned char value[VALUE];
  bool right = true, told = true;
  for (unsigned i = 0; i < lengths; i++) {
    fill(value, VALUE, 3 * i);
    bump_cache_put_told done = bump_cache_put(&a.part[0], "key", 3, value, LENGTH[i], (uint32_t)LENGTH[i] + 1,
                                              LENGTH[i] + 2, 0);
    right &= done.answer == BUMP_CACHE_PUT_DONE && !done.evicted;
    for (unsigned k = 0; k < rooms; k++) right &= reads(&a, value, LENGTH[i], ROOM[k]);
    told &= tells(&a, value, LENGTH[i]);
  }
  HOLDS_THAT(bump_cache_get, right);
  HOLDS_THAT(bump_cache_look, right);
  HOLDS_THAT(bump_cache_each, right);
  HOLDS_THAT(bump_cache_read, right && told);
  HOLDS_THAT(bump_cache_get_words, told);
  HOLDS_THAT(bump_cache_find, told);
  HOLDS_THAT(bump_cache_found_words, told);
  HOLDS_THAT(bump_cache_entry, told);
  HOLDS_THAT(bump_cache_entry_key, told);
  HOLDS_THAT(bump_cache_entry_value, told);
  HOLDS_THAT(bump_cache_read_words, told);
  HOLDS_THAT(bump_cache_reader_counts, counted(&a.reader[0], 2 * (uint64_t)lengths * (rooms + 1), 0, 0));
  free_all(&a);
}

/* Nothing is told of what isn't there. */
static void no_words(void) {
  struct all a = open_all(config_of(2, 2, 1));
  bump_cache_got_words g = bump_cache_get_words(&a.reader[0], "key", 3, 1);
  ANSWERS(bump_cache_get_words, g.got.answer, BUMP_CACHE_GET_NOTHING);
  HOLDS_THAT(bump_cache_get_words, g.got.flags == 0 && g.got.length == 0 && is_told(g.words, NULL, 0, 0));
  HOLDS_THAT(bump_cache_read_words, is_told(bump_cache_read_words(&a.reader[0], 1, 0).words, NULL, 0, 0));
  HOLDS_THAT(bump_cache_read_words, is_told(bump_cache_read_words(&a.reader[0], UINT32_MAX, 0).words, NULL, 0, 0));
  bump_cache_looked l = bump_cache_find(&a.part[0], "key", 3, 1);
  ANSWERS(bump_cache_find, l.answer, BUMP_CACHE_GET_NOTHING);
  HOLDS_THAT(bump_cache_find, l.flags == 0 && l.length == 0 && l.expires == 0);
  bump_cache_entry_of e = bump_cache_entry(&a.part[0], 0, 1);
  HOLDS_THAT(bump_cache_entry, !e.found && !e.flags && !e.key_length && !e.value_length && !e.expires);
  e = bump_cache_entry(&a.part[0], UINT32_MAX, 1);
  HOLDS_THAT(bump_cache_entry, !e.found && !e.flags && !e.key_length && !e.value_length && !e.expires);
  put(&a.part[0], "key", "value", 5, 1);
  ANSWERS(bump_cache_get_words, bump_cache_get_words(&a.reader[0], "key", 3, 4).got.answer, BUMP_CACHE_GET_FOUND);
  ANSWERS(bump_cache_get_words, bump_cache_get_words(&a.reader[0], "key", 3, 5).got.answer, BUMP_CACHE_GET_NOTHING);
  ANSWERS(bump_cache_find, bump_cache_find(&a.part[0], "key", 3, 4).answer, BUMP_CACHE_GET_FOUND);
  ANSWERS(bump_cache_find, bump_cache_find(&a.part[0], "key", 3, 5).answer, BUMP_CACHE_GET_NOTHING);
  HOLDS_THAT(bump_cache_get_words, counted(&a.reader[0], 1, 2, 0));
  free_all(&a);
}

/* The calls with a key that is too long, or with a value, refuse it and change nothing. */
static void too_long(struct all *a, const char *key, size_t length, const char *value, size_t value_length) {
  bump_cache_part *p = &a->part[0];
  bump_cache_reader *r = &a->reader[0];
  char read[VALUE] = "stays";
  bump_cache_got got = bump_cache_get(r, key, length, read, BUMP_CACHE_MOST_BYTES, 1);
  ANSWERS(bump_cache_get, got.answer, BUMP_CACHE_GET_KEY_BYTES);
  HOLDS_THAT(bump_cache_get, got.flags == 0 && got.length == 0);
  got = bump_cache_get(r, key, length, read, VALUE, 1);
  ANSWERS(bump_cache_get, got.answer, BUMP_CACHE_GET_KEY_BYTES);
  HOLDS_THAT(bump_cache_get, got.flags == 0 && got.length == 0);
  bump_cache_got_words told = bump_cache_get_words(r, key, length, 1);
  ANSWERS(bump_cache_get_words, told.got.answer, BUMP_CACHE_GET_KEY_BYTES);
  HOLDS_THAT(bump_cache_get_words, told.got.length == 0 && told.got.flags == 0 && is_told(told.words, NULL, 0, 0));
  ANSWERS(bump_cache_hold, bump_cache_hold(r, 1, key, length, 1).answer, BUMP_CACHE_GET_KEY_BYTES);
  HOLDS_THAT(bump_cache_hold, holds(r, 1, NULL) && counted(r, 0, 0, 0) && strcmp(read, "stays") == 0);
  bump_cache_looked looked = bump_cache_look(p, key, length, read, VALUE, 1);
  ANSWERS(bump_cache_look, looked.answer, BUMP_CACHE_GET_KEY_BYTES);
  HOLDS_THAT(bump_cache_look, looked.flags == 0 && looked.length == 0 && looked.expires == 0);
  ANSWERS(bump_cache_find, bump_cache_find(p, key, length, 1).answer, BUMP_CACHE_GET_KEY_BYTES);
  ANSWERS(bump_cache_remove, bump_cache_remove(p, key, length, 1), false);
  ANSWERS(bump_cache_part_of, bump_cache_part_of(&a->config, key, length), BUMP_NONE);
#define REFUSES(why, call, ...) ANSWERS(call, call(p, __VA_ARGS__).answer, why)
  REFUSES(BUMP_CACHE_PUT_KEY_BYTES, bump_cache_put, key, length, "", 0, 0, 0, 1);
  REFUSES(BUMP_CACHE_PUT_KEY_BYTES, bump_cache_add, key, length, "", 0, 0, 0, 1);
  REFUSES(BUMP_CACHE_PUT_KEY_BYTES, bump_cache_replace, key, length, "", 0, 0, 0, 1);
  REFUSES(BUMP_CACHE_PUT_KEY_BYTES, bump_cache_update, key, length, "", 0, 1);
  REFUSES(BUMP_CACHE_PUT_KEY_BYTES, bump_cache_touch, key, length, 0, 1);
  REFUSES(BUMP_CACHE_PUT_VALUE_BYTES, bump_cache_put, key, length - 1, value, value_length, 0, 0, 1);
  REFUSES(BUMP_CACHE_PUT_VALUE_BYTES, bump_cache_add, key, length - 1, value, value_length, 0, 0, 1);
  REFUSES(BUMP_CACHE_PUT_VALUE_BYTES, bump_cache_replace, key, length - 1, value, value_length, 0, 0, 1);
  REFUSES(BUMP_CACHE_PUT_VALUE_BYTES, bump_cache_update, key, length - 1, value, value_length, 1);
#undef REFUSES
}

/* Whether a key and a value of full length are read whole by each call that copies, and nothing behind them. */
static bool reads_longest(struct all *a, const unsigned char *key, const unsigned char *value) {
  static unsigned char told_key[MOST_KEY + 1], read[MOST_VALUE + 1];
  bool right = true, found = false;
  bump_cache_got got = bump_cache_get(&a->reader[0], key, MOST_KEY, read, MOST_VALUE, 1);
  right &= got.length == MOST_VALUE && got.flags == FLAGS && memcmp(read, value, MOST_VALUE) == 0;
  memset(read, 0, sizeof read);
  bump_cache_looked looked = bump_cache_look(&a->part[0], key, MOST_KEY, read, MOST_VALUE, 1);
  right &= looked.length == MOST_VALUE && looked.flags == FLAGS && memcmp(read, value, MOST_VALUE) == 0;
  memset(read, 0, sizeof read);
  got = bump_cache_hold(&a->reader[0], 1, key, MOST_KEY, 1);
  bump_cache_read(&a->reader[0], 1, 0, read, got.length);
  right &= bump_cache_release(&a->reader[0], 1) && memcmp(read, value, MOST_VALUE) == 0;
  memset(read, 0, sizeof read);
  for (uint32_t i = 0; i < bump_cache_chunks(&a->part[0]) && !found; i++) {
    bump_cache_entry_of e = bump_cache_each(&a->part[0], i, told_key, MOST_KEY, read, MOST_VALUE, 1);
    found = e.found && e.key_length == MOST_KEY && e.value_length == MOST_VALUE && e.flags == FLAGS;
  }
  right &= memcmp(told_key, key, MOST_KEY) == 0 && memcmp(read, value, MOST_VALUE) == 0;
  return right && found && told_key[MOST_KEY] == 0 && read[MOST_VALUE] == 0;
}

/* The longest keys and values, and the shortest. */
static void longest(void) {
  static unsigned char key[MOST_KEY + 1], value[MOST_VALUE + 1], read[MOST_VALUE];
  bump_cache_config config = config_of(2, 1, 1);
  config.key_bytes = MOST_KEY;
  config.value_bytes = MOST_VALUE;
  struct all a = open_all(config);
  fill(key, MOST_KEY + 1, 1);
  fill(value, MOST_VALUE + 1, 2);
  too_long(&a, (const char *)key, MOST_KEY + 1, (const char *)value, MOST_VALUE + 1);
  bump_cache_put_told told = bump_cache_put(&a.part[0], key, MOST_KEY, value, MOST_VALUE, FLAGS, 0, 1);
  ANSWERS(bump_cache_put, told.answer, BUMP_CACHE_PUT_DONE);
  key[MOST_KEY - 1]++;
  bump_cache_got got = bump_cache_get(&a.reader[0], key, MOST_KEY, read, MOST_VALUE, 1);
  ANSWERS(bump_cache_get, got.answer, BUMP_CACHE_GET_NOTHING);
  key[MOST_KEY - 1]--;
  got = bump_cache_get(&a.reader[0], key, MOST_KEY, read, MOST_VALUE, 1);
  ANSWERS(bump_cache_get, got.answer, BUMP_CACHE_GET_FOUND);
  HOLDS_THAT(bump_cache_get, reads_longest(&a, key, value));
  free_all(&a);
  config.key_bytes = config.value_bytes = 0;
  a = open_all(config);
  too_long(&a, "k", 1, "v", 1);
  ANSWERS(bump_cache_put, put(&a.part[0], "", "", 0, 1).answer, BUMP_CACHE_PUT_DONE);
  HOLDS_THAT(bump_cache_get, get(&a.reader[0], "", 1) == BUMP_CACHE_GET_FOUND && has(&a.part[0], "", "", 1));
  free_all(&a);
}

/* --------------------------------------------------------------------------------------------------------- parts */

/* Calls with a key of another part find nothing, and change nothing. */
static bool refuses_other(bump_cache_part *p, const char *key, size_t n) {
  char read[VALUE] = "stays";
  bump_cache_looked looked = bump_cache_look(p, key, n, read, VALUE, 1);
  bump_cache_put_told told = bump_cache_touch(p, key, n, 5, 1);
  return looked.answer == BUMP_CACHE_GET_NOTHING && looked.length == 0 && strcmp(read, "stays") == 0 &&
         told.answer == BUMP_CACHE_PUT_OTHER_PART && !told.evicted &&
         bump_cache_put(p, key, n, "x", 1, 0, 0, 1).answer == BUMP_CACHE_PUT_OTHER_PART &&
         bump_cache_add(p, key, n, "x", 1, 0, 0, 1).answer == BUMP_CACHE_PUT_OTHER_PART &&
         bump_cache_replace(p, key, n, "x", 1, 0, 0, 1).answer == BUMP_CACHE_PUT_OTHER_PART &&
         bump_cache_update(p, key, n, "x", 1, 1).answer == BUMP_CACHE_PUT_OTHER_PART &&
         !bump_cache_remove(p, key, n, 1);
}

/* Keys of four parts: each is of the one that bump_cache_part_of tells, by the seed. */
static void parts(void) {
  enum { KEYS = 100 };
  struct all a = open_all(config_of(4 * KEYS + 2, 2, 4));
  bump_cache_config first = a.config, second = a.config;
  uint32_t others = 0, seconds = 0, of_part[4] = { 0 }, chunks = 0, found = 0;
  bool right = true;
  first.seed_first++;
  second.seed_second++;
  for (int i = 0; i < KEYS; i++) {
    char key[KEY];
    size_t n = (size_t)snprintf(key, sizeof key, "key %d", i);
    uint32_t part = bump_cache_part_of(&a.config, key, n);
    others += part != bump_cache_part_of(&first, key, n);
    seconds += part != bump_cache_part_of(&second, key, n);
    right = right && part < 4 && ++of_part[part];
    for (uint32_t k = 0; right && k < 4; k++) right &= k == part || refuses_other(&a.part[k], key, n);
    right = right && put(&a.part[part], key, key, 0, 1).answer == BUMP_CACHE_PUT_DONE;
    for (uint32_t k = 0; right && k < 4; k++) right &= k == part || refuses_other(&a.part[k], key, n);
    right = right && has(&a.part[part], key, key, 1) && gets_text(&a.reader[i % 2], key, key, 1);
  }
  HOLDS_THAT(bump_cache_part_of, right && of_part[0] && of_part[1] && of_part[2] && of_part[3] && others && seconds);
  HOLDS_THAT(bump_cache_reader_counts, counted(&a.reader[0], KEYS / 2, 0, 0) && counted(&a.reader[1], KEYS / 2, 0, 0));
  char read[VALUE];
  uint32_t part = bump_cache_part_of(&a.config, "key 7", 5);
  ANSWERS(bump_cache_put, put(&a.part[(part + 1) % 4], "key 7", "x", 0, 1).answer, BUMP_CACHE_PUT_OTHER_PART);
  bump_cache_looked looked = bump_cache_look(&a.part[(part + 1) % 4], "key 7", 5, read, VALUE, 1);
  ANSWERS(bump_cache_look, looked.answer, BUMP_CACHE_GET_NOTHING);
  looked = bump_cache_look(&a.part[part], "key 7", 5, read, VALUE, 1);
  ANSWERS(bump_cache_look, looked.answer, BUMP_CACHE_GET_FOUND);
  /* each part has its share of items, the first ones one more where they aren't even, and as many spare chunks */
  for (uint32_t k = 0; k < 4; k++) {
    ANSWERS(bump_cache_chunks, bump_cache_chunks(&a.part[k]), KEYS + (k < 2 ? 1u : 0u) + 2u);
    chunks += bump_cache_chunks(&a.part[k]);
    for (uint32_t i = 0; i < chunks + 9; i++) found += bump_cache_each(&a.part[k], i, read, 0, read, 0, 1).found;
  }
  HOLDS_THAT(bump_cache_chunks, chunks == 4 * KEYS + 2 + 8 && found == KEYS);
  free_all(&a);
}

/* Whether all calls that put a value refuse one that is too long, under this key, and tell this. */
static bool all_refuse(bump_cache_part *p, const char *key, size_t n, enum bump_cache_put_answer why) {
  static const char value[VALUE + 1] = { 0 };
  return bump_cache_put(p, key, n, value, VALUE + 1, 0, 0, 1).answer == why &&
         bump_cache_add(p, key, n, value, VALUE + 1, 0, 0, 1).answer == why &&
         bump_cache_replace(p, key, n, value, VALUE + 1, 0, 0, 1).answer == why &&
         bump_cache_update(p, key, n, value, VALUE + 1, 1).answer == why;
}

/* Where two refusals are due the first one is told: of a hold that isn't there, or holds something, and a key that is
 * too long; of such a key, one of another part, a value that is too long, and what the key has, or hasn't. */
static void refused_first(void) {
  static const char key[KEY + 1] = "k";
  struct all a = open_all(config_of(8, 2, 2));
  bump_cache_reader *r = &a.reader[0];
  uint32_t own = bump_cache_part_of(&a.config, "k", 1);
  char read[VALUE];
  ANSWERS(bump_cache_put, put(&a.part[own], "k", "v", 0, 1).answer, BUMP_CACHE_PUT_DONE);
  ANSWERS(bump_cache_hold, bump_cache_hold(r, HOLDS + 1, key, KEY + 1, 1).answer, BUMP_CACHE_GET_NO_PLACE);
  for (uint32_t i = 0; i < 2; i++) {
    ANSWERS(bump_cache_hold, bump_cache_hold(r, i, key, KEY + 1, 1).answer, BUMP_CACHE_GET_KEY_BYTES);
    ANSWERS(bump_cache_hold, bump_cache_hold(r, i, "k", 1, 1).answer, BUMP_CACHE_GET_FOUND);
    ANSWERS(bump_cache_hold, bump_cache_hold(r, i, key, KEY + 1, 1).answer, BUMP_CACHE_GET_NO_PLACE);
    HOLDS_THAT(bump_cache_put, all_refuse(&a.part[i], key, KEY + 1, BUMP_CACHE_PUT_KEY_BYTES));
    ANSWERS(bump_cache_touch, bump_cache_touch(&a.part[i], key, KEY + 1, 0, 1).answer, BUMP_CACHE_PUT_KEY_BYTES);
    ANSWERS(bump_cache_find, bump_cache_find(&a.part[i], key, KEY + 1, 1).answer, BUMP_CACHE_GET_KEY_BYTES);
  }
  ANSWERS(bump_cache_get, bump_cache_get(r, key, KEY + 1, read, VALUE, 1).answer, BUMP_CACHE_GET_NO_PLACE);
  ANSWERS(bump_cache_get, bump_cache_get(r, key, KEY + 1, read, 1, 1).answer, BUMP_CACHE_GET_KEY_BYTES);
  HOLDS_THAT(bump_cache_hold, holds(r, 0, "v") && holds(r, 1, "v") && counted(r, 2, 0, 0));
  HOLDS_THAT(bump_cache_put, all_refuse(&a.part[1 - own], "k", 1, BUMP_CACHE_PUT_OTHER_PART));
  HOLDS_THAT(bump_cache_put, all_refuse(&a.part[own], "k", 1, BUMP_CACHE_PUT_VALUE_BYTES)); /* and it has something */
  HOLDS_THAT(bump_cache_put, has(&a.part[own], "k", "v", 1) && bump_cache_remove(&a.part[own], "k", 1, 1));
  HOLDS_THAT(bump_cache_put, all_refuse(&a.part[own], "k", 1, BUMP_CACHE_PUT_VALUE_BYTES)); /* and it has nothing */
  free_all(&a);
}

/* Goes through all chunks of a part: how many items of these texts it finds, each once; UINT32_MAX: another one. */
static uint32_t found_by_each(bump_cache_part *p, const char *const *text, uint32_t count, uint64_t now) {
  uint32_t found = 0, seen[16] = { 0 };
  for (uint32_t i = 0; i < bump_cache_chunks(p) + 2; i++) {
    char key[KEY], value[VALUE];
    uint32_t k = 0;
    bump_cache_entry_of e = bump_cache_each(p, i, key, KEY, value, VALUE, now);
    if (!e.found && !e.flags && !e.key_length && !e.value_length && !e.expires) continue;
    while (k < count && (strlen(text[k]) != e.key_length || memcmp(key, text[k], e.key_length) != 0)) k++;
    bool is = e.found && k < count && !seen[k] && e.flags == FLAGS && e.expires == 10 * k;
    if (!is || e.value_length != e.key_length || memcmp(value, text[k], e.value_length) != 0) return UINT32_MAX;
    seen[k] = 1;
    found++;
  }
  return found;
}

/* What a part has, item by item: keys of many lengths, of which the one with the number k expires at 10 x k. */
static void each(void) {
  static const char *const TEXT[] = { "", "a", "b", "aa", "1234567", "12345678", "123456789", "12345678901234567890" };
  struct all a = open_all(config_of(20, 5, 1));
  bump_cache_part *p = &a.part[0];
  bool right = true;
  for (uint32_t k = 0; k < 8; k++) {
    right &= put(p, TEXT[k], "old", 0, 0).answer == BUMP_CACHE_PUT_DONE;
    right &= put(p, TEXT[k], TEXT[k], 10 * k, 0).answer == BUMP_CACHE_PUT_DONE;
  }
  HOLDS_THAT(bump_cache_each, right && found_by_each(p, TEXT, 8, 9) == 8);
  HOLDS_THAT(bump_cache_each, found_by_each(p, TEXT, 8, 10) == 7 && found_by_each(p, TEXT, 8, 69) == 2);
  HOLDS_THAT(bump_cache_each, found_by_each(p, TEXT, 8, 70) == 1 && found_by_each(p, TEXT, 8, 9) == 8);
  HOLDS_THAT(bump_cache_remove, bump_cache_remove(p, "", 0, 9) && bump_cache_remove(p, "aa", 2, 9));
  HOLDS_THAT(bump_cache_each, found_by_each(p, TEXT, 8, 9) == 6);
  /* with less room the others stay */
  uint32_t seen = 0;
  for (uint32_t i = 0; i < bump_cache_chunks(p); i++) {
    char key[8] = "stays", value[8] = "stays";
    bump_cache_entry_of e = bump_cache_each(p, i, key, 1, value, 2, 69);
    if (e.found) seen += e.key_length == 20 && e.value_length == 20 && !strcmp(key, "1tays") && !strcmp(value, "12ays");
    if (!e.found) right &= !strcmp(key, "stays") && !strcmp(value, "stays");
    right &= bump_cache_each(p, i, key, 0, value, 0, 69).found == e.found;
  }
  HOLDS_THAT(bump_cache_each, right && seen == 1);
  bump_cache_entry_of e = bump_cache_each(p, UINT32_MAX, &right, 0, &right, 0, 1);
  HOLDS_THAT(bump_cache_each, !e.found && !e.flags && !e.key_length && !e.value_length && !e.expires);
  bump_cache_clear(p);
  printf("bump_cache_clear void\n");
  HOLDS_THAT(bump_cache_clear, found_by_each(p, TEXT, 8, 1) == 0 && gets_text(&a.reader[0], "a", NULL, 1));
  bump_cache_stats_of s = bump_cache_stats(p);
  HOLDS_THAT(bump_cache_clear, s.number_hot + s.number_warm + s.number_cold + s.number_temp == 0);
  HOLDS_THAT(bump_cache_clear, s.evicted == 0 && s.reclaimed == 0 && s.crawler_reclaimed == 0);
  free_all(&a);
}

/* ----------------------------------------------------------------------------- puts that look first, and expiry */

/* Whether the key has this, by a look. */
static bool is_kept(bump_cache_part *p, const char *value, uint32_t flags, uint64_t expires, uint64_t now) {
  char read[VALUE];
  bump_cache_looked l = bump_cache_look(p, "k", 1, read, VALUE, now);
  return l.answer == BUMP_CACHE_GET_FOUND && l.flags == flags && l.expires == expires && l.length == strlen(value) &&
         memcmp(read, value, l.length) == 0;
}

/* A call that puts under the key answers this, and evicts nothing. */
#define PUTS(what, call, ...)                                \
  do {                                                       \
    bump_cache_put_told does = call(p, "k", 1, __VA_ARGS__); \
    ANSWERS(call, does.answer, what);                        \
    HOLDS_THAT(call, !does.evicted);                         \
  } while (0)

static void looks_first(void) {
  struct all a = open_all(config_of(3, 2, 1));
  bump_cache_part *p = &a.part[0];
  char read[VALUE];
  PUTS(BUMP_CACHE_PUT_NOTHING, bump_cache_replace, "r", 1, 1, 0, 1);
  PUTS(BUMP_CACHE_PUT_NOTHING, bump_cache_update, "u", 1, 1);
  PUTS(BUMP_CACHE_PUT_NOTHING, bump_cache_touch, 0, 1);
  ANSWERS(bump_cache_look, bump_cache_look(p, "k", 1, read, VALUE, 1).answer, BUMP_CACHE_GET_NOTHING);
  PUTS(BUMP_CACHE_PUT_DONE, bump_cache_add, "one", 3, FLAGS, 20, 1);
  HOLDS_THAT(bump_cache_add, is_kept(p, "one", FLAGS, 20, 19) && gets_text(&a.reader[0], "k", "one", 19));
  PUTS(BUMP_CACHE_PUT_HAS, bump_cache_add, "two", 3, 2, 0, 19);
  HOLDS_THAT(bump_cache_add, is_kept(p, "one", FLAGS, 20, 19));
  PUTS(BUMP_CACHE_PUT_NOTHING, bump_cache_replace, "r", 1, 1, 0, 20);
  PUTS(BUMP_CACHE_PUT_NOTHING, bump_cache_update, "u", 1, 20);
  PUTS(BUMP_CACHE_PUT_NOTHING, bump_cache_touch, 0, 20);
  HOLDS_THAT(bump_cache_look, is_kept(p, "one", FLAGS, 20, 19));
  PUTS(BUMP_CACHE_PUT_DONE, bump_cache_add, "three", 5, 3, 30, 20);
  HOLDS_THAT(bump_cache_add, is_kept(p, "three", 3, 30, 19));
  PUTS(BUMP_CACHE_PUT_DONE, bump_cache_replace, "four", 4, 4, 40, 29);
  HOLDS_THAT(bump_cache_replace, is_kept(p, "four", 4, 40, 39));
  PUTS(BUMP_CACHE_PUT_DONE, bump_cache_update, "", 0, 39);
  HOLDS_THAT(bump_cache_update, is_kept(p, "", 4, 40, 39));
  PUTS(BUMP_CACHE_PUT_DONE, bump_cache_update, "five", 4, 39);
  PUTS(BUMP_CACHE_PUT_DONE, bump_cache_touch, 50, 39);
  HOLDS_THAT(bump_cache_touch, is_kept(p, "five", 4, 50, 49) && get(&a.reader[0], "k", 50) == BUMP_CACHE_GET_NOTHING);
  PUTS(BUMP_CACHE_PUT_DONE, bump_cache_touch, 0, 49);
  HOLDS_THAT(bump_cache_touch, is_kept(p, "five", 4, 0, UINT64_MAX));
  PUTS(BUMP_CACHE_PUT_DONE, bump_cache_put, "six", 3, 6, 60, 50);
  HOLDS_THAT(bump_cache_put, is_kept(p, "six", 6, 60, 59));
  ANSWERS(bump_cache_remove, bump_cache_remove(p, "k", 1, 59), true);
  ANSWERS(bump_cache_remove, bump_cache_remove(p, "k", 1, 59), false);
  HOLDS_THAT(bump_cache_remove, has(p, "k", NULL, 59) && gets_text(&a.reader[0], "k", NULL, 59));
  free_all(&a);
}

static void expiry(void) {
  struct all a = open_all(config_of(4, 2, 1));
  bump_cache_part *p = &a.part[0];
  bump_cache_reader *r = &a.reader[0], *other = &a.reader[1];
  PUTS(BUMP_CACHE_PUT_DONE, bump_cache_put, "v", 1, FLAGS, 10, 5);
  HOLDS_THAT(bump_cache_get, get(r, "k", 9) == BUMP_CACHE_GET_FOUND && get(r, "k", 10) == BUMP_CACHE_GET_NOTHING);
  HOLDS_THAT(bump_cache_get, get(r, "k", UINT64_MAX) == BUMP_CACHE_GET_NOTHING && gets_text(other, "k", "v", 9));
  ANSWERS(bump_cache_hold, bump_cache_hold(r, 1, "k", 1, 10).answer, BUMP_CACHE_GET_NOTHING);
  HOLDS_THAT(bump_cache_hold, holds(r, 1, NULL) && counted(r, 1, 3, 0) && gets_text(other, "k", NULL, 10));
  /* what a hold has is read on */
  ANSWERS(bump_cache_hold, bump_cache_hold(r, 1, "k", 1, 9).answer, BUMP_CACHE_GET_FOUND);
  bump_cache_tend(p, 10);
  HOLDS_THAT(bump_cache_tend, gets_text(other, "k", NULL, 9) && bump_cache_stats(p).crawler_reclaimed == 1);
  HOLDS_THAT(bump_cache_read, holds(r, 1, "v"));
  ANSWERS(bump_cache_release, bump_cache_release(r, 1), true);
  /* at once, and never */
  PUTS(BUMP_CACHE_PUT_DONE, bump_cache_put, "v", 1, FLAGS, 5, 5);
  HOLDS_THAT(bump_cache_put, gets_text(other, "k", NULL, 5) && gets_text(other, "k", "v", 4));
  PUTS(BUMP_CACHE_PUT_DONE, bump_cache_put, "w", 1, FLAGS, 3, 5);
  HOLDS_THAT(bump_cache_put, gets_text(other, "k", NULL, 3) && gets_text(other, "k", "w", 2));
  ANSWERS(bump_cache_remove, bump_cache_remove(p, "k", 1, 3), false);
  HOLDS_THAT(bump_cache_remove, gets_text(other, "k", NULL, 2));
  PUTS(BUMP_CACHE_PUT_DONE, bump_cache_put, "x", 1, FLAGS, 0, 5);
  HOLDS_THAT(bump_cache_put, gets_text(other, "k", "x", UINT64_MAX));
  PUTS(BUMP_CACHE_PUT_DONE, bump_cache_put, "y", 1, FLAGS, UINT64_MAX, 5);
  HOLDS_THAT(bump_cache_put, gets_text(other, "k", "y", UINT64_MAX - 1) && gets_text(other, "k", NULL, UINT64_MAX));
  free_all(&a);
}

/* ------------------------------------------------------------------------------------------------- holds and room */

/* There is no place where a hold of that number holds something, nor where there is no hold of that number. */
static void no_place(bump_cache_reader *r, uint32_t hold) {
  bump_cache_got got = bump_cache_hold(r, hold, "k", 1, 1);
  ANSWERS(bump_cache_hold, got.answer, BUMP_CACHE_GET_NO_PLACE);
  HOLDS_THAT(bump_cache_hold, got.flags == 0 && got.length == 0);
}

/* Items that are held keep their values, whatever is put, removed or evicted. */
static void held(void) {
  static const char *const TEXT[] = { "a", "b", "c", "d", "e", "f", "g", "h", "i", "j" };
  struct all a = open_all(config_of(4, 6, 1));
  bump_cache_part *p = &a.part[0];
  bump_cache_reader *r = &a.reader[0], *other = &a.reader[1];
  put(p, "k", "one", 0, 1);
  bump_cache_got got = bump_cache_hold(r, 1, "k", 1, 1);
  ANSWERS(bump_cache_hold, got.answer, BUMP_CACHE_GET_FOUND);
  HOLDS_THAT(bump_cache_hold, got.flags == FLAGS && got.length == 3 && holds(r, 1, "one"));
  put(p, "k", "two", 0, 1);
  HOLDS_THAT(bump_cache_read, holds(r, 1, "one") && has(p, "k", "two", 1));
  no_place(r, 1);
  no_place(r, HOLDS + 1);
  no_place(r, UINT32_MAX);
  HOLDS_THAT(bump_cache_read, holds(r, 1, "one"));
  ANSWERS(bump_cache_hold, bump_cache_hold(r, 2, "none", 4, 1).answer, BUMP_CACHE_GET_NOTHING);
  ANSWERS(bump_cache_hold, bump_cache_hold(r, 2, "k", 1, 1).answer, BUMP_CACHE_GET_FOUND);
  ANSWERS(bump_cache_hold, bump_cache_hold(other, 2, "k", 1, 1).answer, BUMP_CACHE_GET_FOUND);
  HOLDS_THAT(bump_cache_hold, counted(r, 2, 1, 0) && counted(other, 1, 0, 0));
  HOLDS_THAT(bump_cache_remove, bump_cache_remove(p, "k", 1, 1) && has(p, "k", NULL, 1));
  for (int i = 0; i < 30; i++) put(p, TEXT[i % 10], "more", 0, 1);
  HOLDS_THAT(bump_cache_put, bump_cache_stats(p).evicted == 26);
  ANSWERS(bump_cache_hold, bump_cache_hold(r, 3, "j", 1, 1).answer, BUMP_CACHE_GET_FOUND);
  for (int i = 0; i < 4; i++) put(p, TEXT[i], "less", 0, 1);
  HOLDS_THAT(bump_cache_put, has(p, "j", NULL, 1) && holds(r, 3, "more"));
  bump_cache_clear(p);
  bump_cache_tend(p, 2);
  HOLDS_THAT(bump_cache_read, holds(r, 1, "one") && holds(r, 2, "two") && holds(r, 3, "more"));
  HOLDS_THAT(bump_cache_read, holds(other, 2, "two") && holds(other, 1, NULL) && holds(r, 0, NULL));
  HOLDS_THAT(bump_cache_read, holds(r, HOLDS + 1, NULL) && holds(r, UINT32_MAX, NULL));
  for (uint32_t i = HOLDS; i > 0; i--) {
    ANSWERS(bump_cache_release, bump_cache_release(r, i), true);
    ANSWERS(bump_cache_release, bump_cache_release(r, i), false);
    HOLDS_THAT(bump_cache_read, holds(r, i, NULL) && holds(other, 2, "two"));
  }
  ANSWERS(bump_cache_release, bump_cache_release(r, HOLDS + 1), false);
  ANSWERS(bump_cache_release, bump_cache_release(r, UINT32_MAX), false);
  free_all(&a);
}

/* A get with room for more than one call tells takes hold 0, and leaves it: so it has no place while the program has
 * it, and changes nothing then. A get with less room does without. */
static void hold_of_gets(uint32_t holds_of_program) {
  bump_cache_config config = config_of(2, 2, 1);
  config.holds = holds_of_program;
  struct all a = open_all(config);
  bump_cache_part *p = &a.part[0];
  bump_cache_reader *r = &a.reader[0];
  char read[VALUE] = "stays";
  put(p, "k", "value", 0, 1);
  HOLDS_THAT(bump_cache_get, gets_text(r, "k", "value", 1) && gets_text(r, "none", NULL, 1));
  ANSWERS(bump_cache_release, bump_cache_release(r, 0), false);
  no_place(r, holds_of_program + 1);
  ANSWERS(bump_cache_hold, bump_cache_hold(r, 0, "k", 1, 1).answer, BUMP_CACHE_GET_FOUND);
  HOLDS_THAT(bump_cache_reader_counts, counted(r, 2, 1, 0));
  bump_cache_got got = bump_cache_get(r, "k", 1, read, BUMP_CACHE_MOST_BYTES + 1, 1);
  ANSWERS(bump_cache_get, got.answer, BUMP_CACHE_GET_NO_PLACE);
  HOLDS_THAT(bump_cache_get, got.flags == 0 && got.length == 0 && strcmp(read, "stays") == 0 && counted(r, 2, 1, 0));
  got = bump_cache_get(r, "k", 1, read, BUMP_CACHE_MOST_BYTES, 1);
  ANSWERS(bump_cache_get, got.answer, BUMP_CACHE_GET_FOUND);
  HOLDS_THAT(bump_cache_get, got.length == 5 && memcmp(read, "value", 5) == 0 && holds(r, 0, "value"));
  HOLDS_THAT(bump_cache_get, gets_text(&a.reader[1], "k", "value", 1));
  ANSWERS(bump_cache_release, bump_cache_release(r, 0), true);
  HOLDS_THAT(bump_cache_get, gets_text(r, "k", "value", 1) && counted(r, 4, 1, 0));
  free_all(&a);
}

/* A put finds no room where each chunk without an item is held. */
static void no_room(void) {
  struct all a = open_all(config_of(1, 1, 1));
  bump_cache_part *p = &a.part[0];
  bump_cache_reader *r = &a.reader[0];
  PUTS(BUMP_CACHE_PUT_DONE, bump_cache_put, "u", 1, FLAGS, 0, 1);
  ANSWERS(bump_cache_hold, bump_cache_hold(r, 1, "k", 1, 1).answer, BUMP_CACHE_GET_FOUND);
  PUTS(BUMP_CACHE_PUT_DONE, bump_cache_put, "v", 1, FLAGS, 0, 1); /* at the spare chunk */
  PUTS(BUMP_CACHE_PUT_NO_ROOM, bump_cache_put, "w", 1, 1, 0, 1);
  PUTS(BUMP_CACHE_PUT_NO_ROOM, bump_cache_replace, "w", 1, 1, 0, 1);
  PUTS(BUMP_CACHE_PUT_NO_ROOM, bump_cache_update, "w", 1, 1);
  PUTS(BUMP_CACHE_PUT_NO_ROOM, bump_cache_touch, 9, 1);
  PUTS(BUMP_CACHE_PUT_HAS, bump_cache_add, "w", 1, 1, 0, 1); /* which comes before NO_ROOM */
  HOLDS_THAT(bump_cache_put, all_refuse(p, "k", 1, BUMP_CACHE_PUT_VALUE_BYTES)); /* as this does */
  HOLDS_THAT(bump_cache_put, is_kept(p, "v", FLAGS, 0, 9));
  bump_cache_put_told told = put(p, "l", "x", 0, 1);
  ANSWERS(bump_cache_put, told.answer, BUMP_CACHE_PUT_DONE);
  HOLDS_THAT(bump_cache_put, told.evicted && has(p, "k", NULL, 1) && has(p, "l", "x", 1));
  ANSWERS(bump_cache_hold, bump_cache_hold(r, 2, "l", 1, 1).answer, BUMP_CACHE_GET_FOUND);
  told = put(p, "k", "y", 0, 1);
  ANSWERS(bump_cache_put, told.answer, BUMP_CACHE_PUT_NO_ROOM);
  HOLDS_THAT(bump_cache_put, told.evicted && has(p, "l", NULL, 1) && holds(r, 1, "u") && holds(r, 2, "x"));
  PUTS(BUMP_CACHE_PUT_NOTHING, bump_cache_replace, "y", 1, FLAGS, 0, 1); /* and this */
  PUTS(BUMP_CACHE_PUT_NOTHING, bump_cache_update, "y", 1, 1);
  PUTS(BUMP_CACHE_PUT_NOTHING, bump_cache_touch, 9, 1);
  PUTS(BUMP_CACHE_PUT_NO_ROOM, bump_cache_add, "y", 1, FLAGS, 0, 1);
  ANSWERS(bump_cache_release, bump_cache_release(r, 2), true);
  PUTS(BUMP_CACHE_PUT_DONE, bump_cache_add, "y", 1, FLAGS, 0, 1);
  /* a reader that is freed gives back what it holds */
  ANSWERS(bump_cache_hold, bump_cache_hold(r, 2, "k", 1, 1).answer, BUMP_CACHE_GET_FOUND);
  told = put(p, "l", "z", 0, 1);
  HOLDS_THAT(bump_cache_put, told.answer == BUMP_CACHE_PUT_NO_ROOM && told.evicted);
  bump_cache_reader_free(a.reader[0]);
  a.reader[0].p = NULL;
  told = put(p, "l", "z", 0, 1);
  HOLDS_THAT(bump_cache_put, told.answer == BUMP_CACHE_PUT_DONE && !told.evicted);
  HOLDS_THAT(bump_cache_get, gets_text(&a.reader[1], "l", "z", 1));
  free_all(&a);
}

/* ----------------------------------------------------------------------------------------------------------- ends */

/* Parts and readers are given back in any order, and with the cache where they weren't taken out. */
static void ends(void) {
  bump_cache_config config = config_of(9, 3, 3);
  for (int way = 0; way < 4; way++) {
    bump_cache cache = { 0 };
    bump_cache_part part = { 0 };
    bump_cache_reader reader = { 0 };
    ANSWERS(bump_cache_open, bump_cache_open(&cache, &config), BUMP_CACHE_OPEN_DONE);
    ANSWERS(bump_cache_take_part, bump_cache_take_part(&cache, bump_cache_part_of(&config, "k", 1), &part), true);
    ANSWERS(bump_cache_take_reader, bump_cache_take_reader(&cache, 1, &reader), true);
    put(&part, "k", "v", 0, 1);
    ANSWERS(bump_cache_hold, bump_cache_hold(&reader, 1, "k", 1, 1).answer, BUMP_CACHE_GET_FOUND);
    if (way == 0) bump_cache_close(cache);
    if (way == 1) bump_cache_reader_free(reader);
    if (way != 2) bump_cache_part_free(part);
    if (way != 1) HOLDS_THAT(bump_cache_read, holds(&reader, 1, "v"));
    if (way > 1) bump_cache_reader_free(reader);
    if (way != 0) bump_cache_close(cache);
    if (way == 0) bump_cache_reader_free(reader);
    if (way == 2) bump_cache_part_free(part);
  }
}

int main(void) {
  HEAR_CHECKS();
  configurations();
  keys();
  values();
  no_words();
  longest();
  parts();
  refused_first();
  each();
  looks_first();
  expiry();
  held();
  hold_of_gets(0);
  hold_of_gets(HOLDS);
  no_room();
  ends();
  return failed;
}
