/* Runs the blocks of C of docs/C_CACHE.md. Each block with a mark `snippet: NAME` is the file snippet_NAME.inc, its
 * lines without their four spaces. Each is made alone first, and what it does is compared. Then two threads count up
 * what a key has, while one gets it. Status 1: something wasn't so. */
#define _POSIX_C_SOURCE 200809L
#include "bump_cache_locks.h"
#include <pthread.h>
#include <stdatomic.h>
#include <stdio.h>
#include <stdlib.h>
#include <string.h>

enum { WRITERS = 2, CHANGES = 2000, KEY = 16, VALUE = 200, PIECE = 72 };
#define FLAGS UINT32_C(0xfedcba98)

static bump_cache_locks locks;
static bump_cache_reader reader;
static atomic_int writers_left = WRITERS;
static int failed;

/* What the last get that found something told, and what was sent. */
static bump_cache_got told_by_get;
static bool is_whole;
static unsigned char sent[VALUE];
static size_t sent_bytes, sends;

static void check(bool is_so, const char *what) {
  if (is_so) return;
  fprintf(stderr, "cache_page: not so: %s\n", what);
  failed = 1;
}

/* ----------------------------------------------------------------------------------------------- the page's blocks */

static bump_cache_put_told put(const char *key, const void *value, size_t length, uint64_t expires, uint64_t now) {
  size_t key_length = strlen(key);
  uint32_t flags = FLAGS;
#include "snippet_cache_put.inc"
  return told;
}

static bool get(const char *key, void *value, size_t room, uint64_t now) {
  size_t key_length = strlen(key);
#include "snippet_cache_get.inc"
  told_by_get = got;
  return true;
}

/* Takes a piece of the value that is held; and behind the first one that key gets another value, and loses it. */
static void send_bytes(const unsigned char *piece, size_t count) {
  if (sent_bytes + count <= VALUE) memcpy(sent + sent_bytes, piece, count);
  sent_bytes += count;
  if (sends++ > 0) return;
  check(put("held", "another value", 13, 0, 1).answer == BUMP_CACHE_PUT_DONE, "another value is put meanwhile");
  check(bump_cache_locks_remove(&locks, "held", 4, 1), "and removed");
}

static bool send_held(const char *key, uint64_t now) {
  size_t key_length = strlen(key);
  unsigned char piece[PIECE];
  sent_bytes = sends = 0;
#include "snippet_cache_hold.inc"
  return true;
}

static bool count_up(const char *key, uint64_t now) {
  size_t key_length = strlen(key);
#include "snippet_cache_update.inc"
  return is_counted;
}

/* ------------------------------------------------------------------------------------------------------- each alone */

static void open_all(uint32_t items, uint32_t spare, uint32_t parts) {
  bump_cache cache = { 0 };
  bump_cache_reader none = { 0 };
  bump_cache_config config = bump_cache_defaults(items, 1, KEY, VALUE);
  config.spare = spare;
  config.parts = parts;
  config.holds = 1;
  reader = none;
  check(bump_cache_open(&cache, &config) == BUMP_CACHE_OPEN_DONE, "a cache is opened");
  check(bump_cache_take_reader(&cache, 0, &reader), "a reader is taken out");
  check(bump_cache_locks_init(&locks, &cache, &config), "all parts are taken out");
  bump_cache_close(cache);
}

static void close_all(void) {
  bump_cache_reader_free(reader);
  bump_cache_locks_free(&locks);
}

static void fill(unsigned char *value, size_t length) {
  for (size_t i = 0; i < length; i++) value[i] = (unsigned char)(1 + i + length);
}

/* What is put is found, until it expires; and what is out of date isn't where there was no room. */
static void check_puts(void) {
  char read[VALUE];
  open_all(100, 10, 4);
  check(!get("key", read, VALUE, 1), "nothing is found where nothing was put");
  bump_cache_put_told told = put("key", "value", 5, 9, 1);
  check(told.answer == BUMP_CACHE_PUT_DONE && !told.evicted, "a value is put");
  check(get("key", read, VALUE, 8) && is_whole && memcmp(read, "value", 5) == 0, "what was put is found");
  check(told_by_get.length == 5 && told_by_get.flags == FLAGS, "with its length and its flags");
  check(!get("key", read, VALUE, 9), "what has expired isn't");
  check(put("a key of 17 bytes", "value", 5, 0, 1).answer == BUMP_CACHE_PUT_KEY_BYTES, "a key is too long");
  check(!get("a key of 17 bytes", read, VALUE, 1), "nothing is found under it");
  close_all();
  open_all(1, 1, 1);
  check(put("key", "one", 3, 0, 1).answer == BUMP_CACHE_PUT_DONE && get("key", read, VALUE, 1), "the first is put");
  check(put("key", "two", 3, 0, 1).answer == BUMP_CACHE_PUT_DONE, "there is room beside it");
  check(bump_cache_hold(&reader, 1, "key", 3, 1).answer == BUMP_CACHE_GET_FOUND, "the second is put, and held");
  check(put("key", "three", 5, 0, 1).answer == BUMP_CACHE_PUT_DONE, "there is room beside it");
  check(put("key", "four", 4, 0, 1).answer == BUMP_CACHE_PUT_NO_ROOM, "one more is more than spare says");
  check(!get("key", read, VALUE, 1), "what is out of date is gone");
  check(bump_cache_release(&reader, 1), "what was held is given back");
  check(put("key", "five", 4, 0, 1).answer == BUMP_CACHE_PUT_DONE, "there is room then");
  check(get("key", read, VALUE, 1) && memcmp(read, "five", 4) == 0, "the last is put");
  close_all();
}

/* A get tells whether the value was whole; one with less room copies as much as there is room for. */
static void check_room(void) {
  static const size_t ROOM[] = { 0, 1, 63, 64, 65, VALUE - 1, VALUE, VALUE + 1 };
  unsigned char value[VALUE], read[VALUE + 1];
  fill(value, VALUE);
  open_all(100, 10, 4);
  check(put("key", value, VALUE, 0, 1).answer == BUMP_CACHE_PUT_DONE, "a value of full length is put");
  for (size_t i = 0; i < sizeof ROOM / sizeof *ROOM; i++) {
    size_t room = ROOM[i], count = room < VALUE ? room : VALUE;
    memset(read, 0, sizeof read);
    check(get("key", read, room, 1) && is_whole == (room >= VALUE), "a get with too little room says so");
    check(told_by_get.length == VALUE && memcmp(read, value, count) == 0, "as many bytes are copied");
    check(read[count] == 0, "and no more");
  }
  close_all();
}

/* Values of all lengths are read in pieces, one of 200 bytes in three. */
static void check_pieces(void) {
  unsigned char value[VALUE];
  open_all(100, 10, 4);
  check(!send_held("held", 1) && sends == 0, "nothing is sent where nothing was put");
  for (size_t length = 0; length <= VALUE; length++) {
    fill(value, length);
    check(put("held", value, length, 0, 1).answer == BUMP_CACHE_PUT_DONE, "a value is put");
    check(send_held("held", 1) && sends == (length + PIECE - 1) / PIECE, "it is sent in pieces");
    check(sent_bytes == length && memcmp(sent, value, length) == 0, "it stays while it is held");
    check(!bump_cache_release(&reader, 1), "it was given back");
  }
  check(sent_bytes == VALUE && sends == 3, "a value of 200 bytes is sent in three pieces");
  check(!send_held("held", 1), "what was removed meanwhile isn't found");
  close_all();
}

/* ---------------------------------------------------------------------------------------------------------- threads */

static void *count_all(void *p) {
  for (int i = 0; i < CHANGES; i++)
    if (!count_up("number", 1)) p = NULL;
  writers_left--;
  return p;
}

/* Each change counts, whoever else makes one; and a reader finds one number behind the other. */
static void check_changes(void) {
  pthread_t thread[WRITERS];
  uint64_t number = 5, last = 5;
  void *done;
  open_all(100, 10, 4);
  check(!count_up("number", 1) && !get("number", &number, 8, 1), "what isn't there isn't changed");
  check(!count_up("a key of 17 bytes", 1), "nor is what no key may have");
  check(put("number", &number, 8, 9, 1).answer == BUMP_CACHE_PUT_DONE, "a number is put");
  for (int i = 0; i < WRITERS; i++)
    if (pthread_create(&thread[i], NULL, count_all, thread) != 0) exit(1);
  while (writers_left > 0) {
    check(get("number", &number, 8, 1) && is_whole && number >= last, "no number is lower than the one before");
    last = number;
  }
  for (int i = 0; i < WRITERS; i++) check(pthread_join(thread[i], &done) == 0 && done, "each change finds a number");
  check(get("number", &number, 8, 8) && number == 5 + WRITERS * CHANGES, "each change counts");
  check(told_by_get.length == 8 && told_by_get.flags == FLAGS, "length and flags stay");
  check(!get("number", &number, 8, 9), "and so does its expiry");
  close_all();
}

int main(void) {
  check_puts();
  check_room();
  check_pieces();
  check_changes();
  printf("the page's blocks: %s\n", failed ? "FAILED" : "all is right");
  return failed;
}
