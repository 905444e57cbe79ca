/* bump_cache from C: a cache of keys and values whose gets take no lock.
 *
 * Link with libbump.a, or libbump.so: docs/C.md shows how. This header is C99 to C23, and C++98 to C++20.
 *
 * A KEY and a VALUE are bytes, any, of any length up to the configuration's, also of none. With a value the cache
 * keeps 32 bits of flags, which it doesn't look at, and the time at which it EXPIRES; 0 is never. Times are the
 * caller's ticks, which all calls count alike: what expires at 7 is found at 6 and not at 7. Keys and values lie in the
 * cache's own memory, a place of full length for each item: so a cache asks for all its memory when it is opened, and
 * where values are of very different lengths a program has a cache for each size.
 *
 * A cache has PARTS, numbered from 0, and a key is of one of them, by its hash: bump_cache_part_of tells it. Whoever
 * changes a part has the program's mutex of it; bump_cache_locks.h has functions that take it. A READER takes no lock.
 * What a put of an item keeps a get finds whole, until the item ends: each get finds what one put kept.
 *
 * The library tells bytes as WORDS, eight a call. Byte 0 is the lowest byte of word 0, and byte 8 that of word 1: so in
 * memory they stand one behind the other. Behind the last byte there are zeros. A program needn't care: bump_cache_get,
 * bump_cache_read, bump_cache_look and bump_cache_each, which are in this header, copy bytes.
 *
 * WHAT C PROMISES. Nothing checks it, but for the build with checks (bump_debug.h):
 * 1. A handle is one value, of which no copy is used; one thread at a time is in a call with it.
 * 2. It goes to another thread by what orders both: a mutex, a thread's start or join, a seq_cst atomic.
 * 3. What a call takes by value is gone: no call is made with it any more. What a call fills is {0} before.
 * 4. Pointers aren't NULL, and lead to as many bytes as is said.
 * 5. malloc, realloc, free are one allocator's. No call from a signal handler, or a forked child of a threaded process.
 *
 * WHAT BUMP ANSWERS. Every other argument is tested: what is out of range is an answer, and changes nothing. No call
 * aborts, and no call waits for another thread. Only bump_cache_open asks for memory: a refusal of it is an answer,
 * nothing leaks, and nothing is changed.
 *
 * COSTS are in words of 8 bytes, of which a key has one and a value two beside their bytes. */
#ifndef BUMP_CACHE_H
#define BUMP_CACHE_H

#include "bump.h"
#include <string.h>

/* As in bump.h. BUMP_MADE stands before the calls that are made of others: this header has them, at its end; but in a
 * build with checks bump_debug.c has them, which knows where they are called. */
#ifdef BUMP_DEBUG
#define BUMP_DECLARES_CACHE
#include "bump_debug.h"
#define BUMP_MADE
#else
#define BUMP_CHECK
#define BUMP_MADE static inline
#endif

#ifdef __cplusplus
extern "C" {
#endif

/* ------------------------------------------------------------------------------------------------- handles */

/* What is still to be taken out of a cache that was opened. */
typedef struct bump_cache { void *p; BUMP_CHECK } bump_cache;

/* A part. Each call with it is made under one lock, which is the caller's: a mutex for each part. */
typedef struct bump_cache_part { void *p; BUMP_CHECK } bump_cache_part;

/* A reading thread's: it gets from all parts. */
typedef struct bump_cache_reader { void *p; BUMP_CHECK } bump_cache_reader;

/* ------------------------------------------------------------------------------------------------- opening */

/* What a cache is made from. */
typedef struct bump_cache_config {
  uint64_t seed_first;  /* of the keys' hashes: random numbers, shown to nobody, where others choose the keys; */
  uint64_t seed_second; /* else any */
  uint64_t temporary;   /* what expires within so many ticks of its put goes to TEMP; 0: nothing does */
  uint32_t key_bytes;   /* the longest key: 0 to 1,024 */
  uint32_t value_bytes; /* the longest value: 0 to 1,048,576 */
  uint32_t items;       /* the most items: 1 to 128,000,000 */
  uint32_t spare;       /* chunks of each part beside those of its items, 1 or more: see below */
  uint32_t hot;         /* HOT's share of the items in percent: past it balances move its last ones on, a few at a time, */
  uint32_t warm;        /* so it may have more. The same of WARM, into which bumps move items; with `hot` at most 100 */
  uint32_t hot_age;     /* HOT's last item goes to COLD where it is older than so many percent of the age of COLD's */
  uint32_t warm_age;    /* the same of WARM's; BUMP_NONE for one of them: ages don't count there */
  uint32_t parts;       /* 1 to 256, and no more than items */
  uint32_t readers;     /* 1 to 64, each with a ring in each part */
  uint32_t ring;        /* bumps, of 8 bytes, that a reader's ring of a part has room for: 1 to 65,536 */
  uint32_t looks;       /* chunks at which a tend looks for items that have expired: any number */
  uint32_t holds;       /* numbered holds of each reader, from 1 to this: any number; bump_cache_get needs none */
} bump_cache_config;

/* Whether a cache was opened; or the first fault of its configuration, in this order; or want of memory. */
enum bump_cache_open_answer {
  BUMP_CACHE_OPEN_DONE,
  BUMP_CACHE_OPEN_KEY_BYTES,   /* more than 1,024 */
  BUMP_CACHE_OPEN_VALUE_BYTES, /* more than 1,048,576 */
  BUMP_CACHE_OPEN_ITEMS,       /* not 1 to 128,000,000 */
  BUMP_CACHE_OPEN_SPARE,       /* 0, or multiplied by parts more than 128,000,000 with the items */
  BUMP_CACHE_OPEN_SHARES,      /* hot and warm are more than 100 percent */
  BUMP_CACHE_OPEN_PARTS,       /* not 1 to 256, or more than items */
  BUMP_CACHE_OPEN_READERS,     /* not 1 to 64 */
  BUMP_CACHE_OPEN_RING,        /* not 1 to 65,536 */
  BUMP_CACHE_OPEN_NO_MEMORY    /* malloc or realloc refused: what was taken is given back */
};

/* The configuration as memcached has it: 20 and 40 percent, ages of 20 and 200, a ring of 8,192, nothing in TEMP; a
 * part's spare chunk for each reader and one more, one part, 1,000 looks, no holds, and a seed of zeros.
 * A put needs a free chunk, also where its key has an item; and an ended item keeps its chunk while a reader holds it. So
 * with 1 + readers * (1 + holds) spare chunks BUMP_CACHE_PUT_NO_ROOM came in no test; it may where chunks have had the last
 * of their 4,294,967,295 items. With fewer it comes where readers hold as many ended items of a part. */
bump_cache_config bump_cache_defaults(uint32_t items, uint32_t readers, uint32_t key_bytes, uint32_t value_bytes);

/* The bytes that a cache of this configuration asks for when it is opened, and keeps; what its handles and numbered holds
 * take comes to them, and what malloc takes. 0: no cache is made from this. Any thread. Cost: grows with parts. */
uint64_t bump_cache_bytes_taken(const bump_cache_config *config);

/* The defaults with the most items with which a cache takes at most `limit` bytes, by bump_cache_bytes_taken. Its items
 * are 0, and it opens no cache, where one item takes more, or another of these numbers is a fault. Any thread. Cost:
 * twenty-seven calls of that. */
BUMP_MADE bump_cache_config bump_cache_for_bytes(uint64_t limit, uint32_t readers, uint32_t key_bytes, uint32_t value_bytes);

/* Opens a cache, and puts it into `cache`, which is {0} before and stays so where it answers anything but
 * BUMP_CACHE_OPEN_DONE. Any thread. Cost: grows with the chunks and their words. It asks for memory, and where blocks
 * are large for huge pages. */
enum bump_cache_open_answer bump_cache_open(bump_cache *cache, const bump_cache_config *config);

/* Each takes the part, or the reader, with this number out of the cache and puts it into `part`, which is {0} before.
 * false: there is no such number, or it is taken already; nothing is changed. Whoever has the cache. */
bool bump_cache_take_part(bump_cache *cache, uint32_t number, bump_cache_part *part);
bool bump_cache_take_reader(bump_cache *cache, uint32_t number, bump_cache_reader *part);

/* The part that a key is of, by number, in a cache of this configuration. BUMP_NONE: the key is too long, or no cache
 * is made from this. Any thread. Cost: grows with key_bytes. */
uint32_t bump_cache_part_of(const bump_cache_config *config, const void *key, size_t key_length);

/* ---------------------------------------------------------------- readers: the one thread that has the reader */

/* The most bytes that one call of the library tells: they are BUMP_MOST_WORDS words. */
#define BUMP_CACHE_MOST_BYTES 64

/* What became of a look for a key. Where both refusals are due BUMP_CACHE_GET_NO_PLACE is told. */
enum bump_cache_get_answer {
  BUMP_CACHE_GET_FOUND,
  BUMP_CACHE_GET_NOTHING,   /* the key has nothing, or what has expired */
  BUMP_CACHE_GET_KEY_BYTES, /* the key is longer than key_bytes: nothing is done, and nothing counted */
  BUMP_CACHE_GET_NO_PLACE   /* the reader has no hold of that number, or it holds an item already: the same */
};

typedef struct bump_cache_got {
  enum bump_cache_get_answer answer;
  uint32_t flags;  /* where it is FOUND; else 0 */
  uint64_t length; /* the value's, in bytes, where it is FOUND; else 0 */
} bump_cache_got;

/* Words of a value's bytes, or of a key's: 0 where there are none. */
typedef struct bump_cache_words_of {
  uint64_t words[BUMP_MOST_WORDS];
} bump_cache_words_of;

typedef struct bump_cache_got_words {
  bump_cache_got got;
  uint64_t words[BUMP_MOST_WORDS]; /* the value's first ones, where it is FOUND; else 0 */
} bump_cache_got_words;

/* Reads what a key has: as many bytes of the value as it has, or as there is room for in `value`; the others of `value`
 * stay. The item is hit, as bump.h's touch: what is got often isn't evicted. It counts as a hit or as a miss.
 *
 * With room for at most BUMP_CACHE_MOST_BYTES it is one call of the library. With more it holds the item by hold 0
 * while it reads: so it answers BUMP_CACHE_GET_NO_PLACE where the program itself holds something by hold 0, and only
 * there. Cost: grows with the key's words and the value's that are read; a few steps. */
BUMP_MADE bump_cache_got bump_cache_get(bump_cache_reader *reader, const void *key, size_t key_length, void *value,
                                        size_t room, uint64_t now);

/* The same, but the value's first words are told, and nothing is copied. */
bump_cache_got_words bump_cache_get_words(bump_cache_reader *reader, const void *key, size_t key_length, uint64_t now);

/* As bump_cache_get, but the value is read later: the item is held, by the reader's hold of that number, until
 * bump_cache_release. While it is held its value stays, whatever is put, removed or evicted. A program's holds are
 * numbered from 1 to `holds` of the configuration; hold 0 is bump_cache_get's own. */
bump_cache_got bump_cache_hold(bump_cache_reader *reader, uint32_t hold, const void *key, size_t key_length,
                               uint64_t now);

/* Reads `count` bytes of the value that is held, from its byte 8 x `from` on: 0 behind its last byte, and nothing but 0
 * where the hold of that number holds nothing. How long the value is bump_cache_hold told. Cost: grows with them. */
BUMP_MADE void bump_cache_read(bump_cache_reader *reader, uint32_t hold, uint32_t from, void *bytes, size_t count);

/* The same by words, from the value's word with the number `from` on. */
bump_cache_words_of bump_cache_read_words(bump_cache_reader *reader, uint32_t hold, uint32_t from);

/* Gives back what the hold holds. false: it holds nothing. Cost: a step. */
bool bump_cache_release(bump_cache_reader *reader, uint32_t hold);

/* A reader's counts, each at most UINT64_MAX. */
typedef struct bump_cache_counts {
  uint64_t hits;    /* gets and holds that found something */
  uint64_t misses;  /* those that found nothing */
  uint64_t dropped; /* bumps of its hits that were dropped */
} bump_cache_counts;

bump_cache_counts bump_cache_reader_counts(bump_cache_reader *reader);

/* ------------------------------------------------------------- a part: whoever has the program's mutex of it */

/* What became of a put. A refusal changes nothing, but that BUMP_CACHE_PUT_NO_ROOM may have evicted. Of several that
 * are due the first is told, in this order: KEY_BYTES, OTHER_PART, VALUE_BYTES; HAS or NOTHING; NO_ROOM. */
enum bump_cache_put_answer {
  BUMP_CACHE_PUT_DONE,
  BUMP_CACHE_PUT_HAS,         /* bump_cache_add: the key has something */
  BUMP_CACHE_PUT_NOTHING,     /* replace, update, touch: it has nothing, or what has expired */
  BUMP_CACHE_PUT_NO_ROOM,     /* each chunk without an item was found held, or has had its last item */
  BUMP_CACHE_PUT_KEY_BYTES,   /* the key is longer than key_bytes */
  BUMP_CACHE_PUT_VALUE_BYTES, /* the value is longer than value_bytes */
  BUMP_CACHE_PUT_OTHER_PART   /* the key is of another part */
};

typedef struct bump_cache_put_told {
  enum bump_cache_put_answer answer;
  bool evicted; /* another item was evicted */
} bump_cache_put_told;

/* Puts a value under a key, as memcached's set. Each eighth put of a part applies bumps that wait, at most 16 of each
 * reader. Where the key has no item and the part is full, another one is evicted; where COLD's last item is held then, or
 * no chunk is free, all bumps are applied. What the key had ends behind the new item's beginning: so a reader finds the
 * one or the other. Cost: grows with the words of key_bytes and value_bytes. */
bump_cache_put_told bump_cache_put(bump_cache_part *part, const void *key, size_t key_length, const void *value,
                                   size_t value_length, uint32_t flags, uint64_t expires, uint64_t now);

/* The same where the key has nothing, or what has expired, as memcached's add. */
bump_cache_put_told bump_cache_add(bump_cache_part *part, const void *key, size_t key_length, const void *value,
                                   size_t value_length, uint32_t flags, uint64_t expires, uint64_t now);

/* The same where the key has something that hasn't expired, as memcached's replace. */
bump_cache_put_told bump_cache_replace(bump_cache_part *part, const void *key, size_t key_length, const void *value,
                                       size_t value_length, uint32_t flags, uint64_t expires, uint64_t now);

/* The same as replace, but flags and expiry stay what they are: for incr, append and their like, which look first. */
bump_cache_put_told bump_cache_update(bump_cache_part *part, const void *key, size_t key_length, const void *value,
                                      size_t value_length, uint64_t now);

/* The value and its flags stay, and it expires anew, as memcached's touch. */
bump_cache_put_told bump_cache_touch(bump_cache_part *part, const void *key, size_t key_length, uint64_t expires,
                                     uint64_t now);

typedef struct bump_cache_looked {
  enum bump_cache_get_answer answer; /* FOUND, NOTHING or KEY_BYTES */
  uint32_t flags;                    /* where it is FOUND; else 0, and so behind it */
  uint64_t length;                   /* the value's, in bytes */
  uint64_t expires;
} bump_cache_looked;

/* Reads what a key has, as bump_cache_get, but the item isn't hit, and nothing is counted. Nobody changes it meanwhile:
 * so what is put then is made from this. A key of another part has nothing. */
BUMP_MADE bump_cache_looked bump_cache_look(bump_cache_part *part, const void *key, size_t key_length, void *value,
                                            size_t room, uint64_t now);

/* The same in two calls: the first one reads nothing. The other one tells words of the value that it found, from the
 * one with the number `from` on, until any other call is made with the part. */
bump_cache_looked bump_cache_find(bump_cache_part *part, const void *key, size_t key_length, uint64_t now);
bump_cache_words_of bump_cache_found_words(bump_cache_part *part, uint32_t from);

/* Ends what a key has, as memcached's delete. false: it had nothing, or what had expired, which ends too; or the key is
 * too long. */
bool bump_cache_remove(bump_cache_part *part, const void *key, size_t key_length, uint64_t now);

/* Applies the bumps that wait, ends what has expired among `looks` chunks, frees what nobody holds any more, and
 * balances HOT and WARM. Call it each second or so. Cost: grows with the bumps, `looks` and moves. */
void bump_cache_tend(bump_cache_part *part, uint64_t now);

/* Ends each item. Cost: grows with the part's chunks. */
void bump_cache_clear(bump_cache_part *part);

/* How many chunks the part has: each has an item, or none. */
uint32_t bump_cache_chunks(bump_cache_part *part);

typedef struct bump_cache_entry_of {
  bool found;            /* the part has such a chunk, with an item that hasn't expired; else all is 0 */
  uint32_t flags;
  uint64_t key_length;   /* in bytes */
  uint64_t value_length; /* in bytes */
  uint64_t expires;
} bump_cache_entry_of;

/* Reads the item of the part's chunk with this number, from 0 on: so a program goes through all that the part has, key
 * by key. As many bytes are told as there is room for, and the others stay. The item isn't hit. */
BUMP_MADE bump_cache_entry_of bump_cache_each(bump_cache_part *part, uint32_t number, void *key, size_t key_room,
                                              void *value, size_t value_room, uint64_t now);

/* The same in three calls: the first one reads nothing. The others tell words of the key that it found, and of the
 * value, in the same way. */
bump_cache_entry_of bump_cache_entry(bump_cache_part *part, uint32_t number, uint64_t now);
bump_cache_words_of bump_cache_entry_key(bump_cache_part *part, uint32_t from);
bump_cache_words_of bump_cache_entry_value(bump_cache_part *part, uint32_t from);

/* Statistics by memcached's names, of this part: sizes are of now, all else is counted since the cache was opened. */
typedef struct bump_cache_stats_of {
  uint32_t number_hot, number_warm, number_cold, number_temp;
  uint64_t moves_to_cold, moves_to_warm, moves_within_lru;
  uint64_t evicted, evicted_unfetched, evicted_active, direct_reclaims, reclaimed, expired_unfetched;
  uint64_t crawler_reclaimed;
} bump_cache_stats_of;

bump_cache_stats_of bump_cache_stats(bump_cache_part *part);

/* --------------------------------------------------------------------------------------------- giving it back */

/* Each ends a handle, which is gone, and gives back what it has; bump_cache_close also what wasn't taken out. What all
 * share is given back with the last of them. A reader gives back what it holds. In any order. */
void bump_cache_close(bump_cache cache);
void bump_cache_part_free(bump_cache_part part);
void bump_cache_reader_free(bump_cache_reader reader);

/* ------------------------------------------------------------------------------ the calls that are made of others */

#ifndef BUMP_DEBUG

/* Copies those of the first `count` bytes that these words have, which begin with byte `at`. */
static inline void bump_cache_copy(void *bytes, size_t at, size_t count, const uint64_t *words) {
  size_t left = count - at;
  memcpy((char *)bytes + at, words, left < BUMP_CACHE_MOST_BYTES ? left : BUMP_CACHE_MOST_BYTES);
}

static inline bump_cache_config bump_cache_for_bytes(uint64_t limit, uint32_t readers, uint32_t key_bytes,
                                                     uint32_t value_bytes) {
  uint32_t fits = 0, over = 128000001; /* no cache has that many */
  while (over - fits > 1) {
    uint32_t middle = fits + (over - fits) / 2;
    bump_cache_config config = bump_cache_defaults(middle, readers, key_bytes, value_bytes);
    uint64_t bytes = bump_cache_bytes_taken(&config);
    if (bytes > 0 && bytes <= limit)
      fits = middle;
    else
      over = middle;
  }
  return bump_cache_defaults(fits, readers, key_bytes, value_bytes);
}

static inline void bump_cache_read(bump_cache_reader *reader, uint32_t hold, uint32_t from, void *bytes, size_t count) {
  for (size_t at = 0; at < count; at += BUMP_CACHE_MOST_BYTES) {
    bump_cache_words_of told = bump_cache_read_words(reader, hold, from);
    bump_cache_copy(bytes, at, count, told.words);
    if (from < UINT32_MAX - BUMP_MOST_WORDS) from += BUMP_MOST_WORDS; /* else it stays: no value has so many */
  }
}

static inline bump_cache_got bump_cache_get(bump_cache_reader *reader, const void *key, size_t key_length, void *value,
                                            size_t room, uint64_t now) {
  if (room > BUMP_CACHE_MOST_BYTES) {
    bump_cache_got got = bump_cache_hold(reader, 0, key, key_length, now);
    if (got.answer != BUMP_CACHE_GET_FOUND) return got;
    bump_cache_read(reader, 0, 0, value, got.length < room ? got.length : room);
    bump_cache_release(reader, 0);
    return got;
  }
  bump_cache_got_words told = bump_cache_get_words(reader, key, key_length, now);
  if (told.got.length >= room)
    memcpy(value, told.words, room); /* where `room` is a constant, this is no call */
  else if (told.got.length > 0)
    memcpy(value, told.words, told.got.length);
  return told.got;
}

static inline bump_cache_looked bump_cache_look(bump_cache_part *part, const void *key, size_t key_length, void *value,
                                                size_t room, uint64_t now) {
  bump_cache_looked looked = bump_cache_find(part, key, key_length, now);
  size_t count = looked.length < room ? looked.length : room;
  for (size_t at = 0; at < count; at += BUMP_CACHE_MOST_BYTES) {
    bump_cache_words_of told = bump_cache_found_words(part, (uint32_t)(at / 8));
    bump_cache_copy(value, at, count, told.words);
  }
  return looked;
}

static inline bump_cache_entry_of bump_cache_each(bump_cache_part *part, uint32_t number, void *key, size_t key_room,
                                                  void *value, size_t value_room, uint64_t now) {
  bump_cache_entry_of entry = bump_cache_entry(part, number, now);
  size_t of_key = entry.key_length < key_room ? entry.key_length : key_room;
  size_t of_value = entry.value_length < value_room ? entry.value_length : value_room;
  for (size_t at = 0; at < of_key; at += BUMP_CACHE_MOST_BYTES) {
    bump_cache_words_of told = bump_cache_entry_key(part, (uint32_t)(at / 8));
    bump_cache_copy(key, at, of_key, told.words);
  }
  for (size_t at = 0; at < of_value; at += BUMP_CACHE_MOST_BYTES) {
    bump_cache_words_of told = bump_cache_entry_value(part, (uint32_t)(at / 8));
    bump_cache_copy(value, at, of_value, told.words);
  }
  return entry;
}

#endif

#ifdef __cplusplus
}
#endif

#ifdef BUMP_DEBUG
#undef BUMP_DECLARES_CACHE
#include "bump_debug.h"
#endif
#undef BUMP_CHECK
#undef BUMP_MADE

#endif
