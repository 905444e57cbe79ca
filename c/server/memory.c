#define _GNU_SOURCE
#include "memory.h"
#include <fcntl.h>
#include <limits.h>
#include <malloc.h>
#include <stdalign.h>
#include <stdatomic.h>
#include <stdio.h>
#include <stdlib.h>
#include <sys/mman.h>
#include <time.h>
#include <unistd.h>
#include "pages.h"
#include "settings.h"

enum { BEFORE_BLOCK = sizeof(size_t) };

/* Where memory is locked (-k) pages go back by this alone, which Linux has from 5.18 on, and headers later. */
enum { DONTNEED_LOCKED = 24 };

/* Pieces that come free before they are put in order. For a block of SORTING_BYTES malloc looks at all of them: few
 * pieces have just this size, of which it would take the first. */
enum { UNSORTED_MOST = 16, SORTING_BYTES = 60008 };

/* Parts of -m: the most that counts of what isn't items, of what connections take, and of what is exceeded; and what
 * always stays for items. What is exceeded is what the process has beyond -m, a SPARE_PART-th of it, and what it had at
 * its start: since some memory always lies free between pieces. It doesn't grow less by itself when items are evicted.
 * But those that come take the places of those that went, and so it grows no more. */
enum { NOT_ITEMS_PART = 2, CONNECTIONS_PART = 4, EXCEEDED_PART = 4, ITEMS_PART = 4, SPARE_PART = 50 };

/* Free pages are given back where at least a FREE_PART-th of -m is free. That takes at most one of PAUSE_TIMES parts of
 * the time, or of PRESSED_TIMES where it wasn't enough. */
enum { FREE_PART = 16, PASSED_PART = 32, PAUSE_TIMES = 32, PRESSED_TIMES = 8 };
enum { PAUSE_LEAST = 100000000, SECOND = 1000000000 };

/* Where the process has more than a BEYOND_PART-th beyond -m and what it began with, though all was given back that
 * could be, items go. Of what counts for that, a part is let go in each look where it has less. And where it was of no
 * use, some rounds pass before it is tried again, twice as many each time. */
enum { BEYOND_PART = 12, PRESSED_PART = 256, SKIPS_MOST = 64 };

/* Nanoseconds from one look to the next, which takes as long as some requests. */
enum { LOOK_PAUSE = 5000000 };

/* In a line of the processor's cache each: so who reads another one doesn't wait for whoever changes this one. */
static struct {
  alignas(64) _Atomic uint64_t bytes;
} taken[MEMORY_KIND_COUNT];
static _Atomic uint64_t now_resident, exceeded;
static uint64_t at_start; /* what the process had before it had any of these */
static uint64_t mappings; /* that the process may have */

/* The maintainer's: what counts so that more items go, of that what came last, and what the process had before. */
static struct {
  uint64_t bytes, last, before;
  uint32_t skips, skips_next;
} pressed;

static uint64_t least_of(uint64_t one, uint64_t other) { return one < other ? one : other; }

/* What the process has in memory; 0: the system doesn't tell. */
static uint64_t resident(void) {
  static int file = -1;
  char text[128] = "";
  if (file < 0) file = open("/proc/self/statm", O_RDONLY | O_CLOEXEC);
  if (file < 0 || pread(file, text, sizeof text - 1, 0) <= 0) return 0;
  char *second;
  strtoull(text, &second, 10);
  return strtoull(second, NULL, 10) * (uint64_t)sysconf(_SC_PAGESIZE);
}

/* Linux's own number, where it tells none; and the part that malloc may have of them. */
enum { MAPPINGS_USUAL = 65530, MAPPINGS_PART = 8 };

static uint64_t mappings_allowed(void) {
  char text[32] = "";
  int file = open("/proc/sys/vm/max_map_count", O_RDONLY | O_CLOEXEC);
  if (file < 0) return MAPPINGS_USUAL;
  uint64_t number = read(file, text, sizeof text - 1) > 0 ? strtoull(text, NULL, 10) : 0;
  close(file);
  return number > 0 ? number : MAPPINGS_USUAL;
}

uint64_t memory_mappings(void) { return mappings; }

/* All threads have one heap: with a heap for each, what one frees no other one could use, and the process would take
 * several times -m. A mapping goes back to the system by itself: always, where malloc would choose by what was freed
 * before. The end of the heap doesn't, since it may be large, and whoever frees would wait: pages_give_back does it.
 * Where malloc has its part of the mappings, large pieces lie in the heap, too. */
void memory_begin(void) {
  mappings = settings.mappings > 0 ? settings.mappings : mappings_allowed();
#ifdef __GLIBC__
  mallopt(M_ARENA_MAX, 1);
  mallopt(M_MMAP_THRESHOLD, MEMORY_MAPPED_LEAST);
  mallopt(M_MMAP_MAX, mappings / MAPPINGS_PART < INT_MAX ? (int)(mappings / MAPPINGS_PART) : INT_MAX);
  mallopt(M_TRIM_THRESHOLD, INT_MAX);
  mallopt(M_MXFAST, 0); /* else small pieces are joined when a large one is asked for: all at once */
#endif
  at_start = resident();
}

void memory_free(void *block) {
  static _Thread_local int unsorted;
  free(block);
#ifdef __GLIBC__
  if (++unsorted < UNSORTED_MOST) return;
  unsorted = 0;
  void *volatile sorts = malloc(SORTING_BYTES); /* or the compiler would leave both out */
  free(sorts);
#endif
}

void memory_give_pages(void *at, size_t bytes) {
  if (madvise(at, bytes, MADV_DONTNEED) == 0) return;
  madvise(at, bytes, DONTNEED_LOCKED); /* or they stay: there is nothing else to be done */
}

void memory_take(enum memory_kind kind, uint64_t bytes) {
  atomic_fetch_add_explicit(&taken[kind].bytes, bytes, memory_order_relaxed);
}

void memory_give(enum memory_kind kind, uint64_t bytes) {
  atomic_fetch_sub_explicit(&taken[kind].bytes, bytes, memory_order_relaxed);
}

uint64_t memory_of(enum memory_kind kind) {
  return atomic_load_explicit(&taken[kind].bytes, memory_order_relaxed);
}

size_t memory_of_block(void *block) { return malloc_usable_size(block) + BEFORE_BLOCK; }

uint64_t memory_resident(void) { return atomic_load_explicit(&now_resident, memory_order_relaxed); }

static int64_t nanoseconds(void) {
  struct timespec time;
  clock_gettime(CLOCK_MONOTONIC, &time);
  return (int64_t)time.tv_sec * SECOND + time.tv_nsec;
}

/* Whether many pages of the heap have nothing in them any more: as where small values made room for large ones, or for
 * what isn't in the heap. */
static bool has_free_pages(uint64_t all) {
  uint64_t known = 0;
  for (enum memory_kind kind = 0; kind < MEMORY_KIND_COUNT; kind++) known += memory_of(kind);
  return memory_resident() >= known + all / FREE_PART;
}

static uint64_t most_pressed(uint64_t all) { return all + all / BEYOND_PART + at_start; }

/* Whether what went since the last round was of no use: where small values lie in all pages, few of them free none. */
static bool was_useless(uint64_t has) {
  uint64_t fell = pressed.before > has ? pressed.before - has : 0;
  return pressed.last > 0 && fell < pressed.last / 4;
}

/* Pages can't go back where something small stays in each of them. So where the process has too much though all was
 * given back that could be, items go, too: for half of it, as others come free with them. Whether that is so. */
static bool press(uint64_t all) {
  uint64_t has = memory_resident(), last = pressed.last;
  bool is_useless = was_useless(has);
  pressed.last = 0;
  if (is_useless) {
    pressed.bytes -= least_of(pressed.bytes, last);
    pressed.skips = pressed.skips_next = (uint32_t)least_of(pressed.skips_next * 2 + 1, SKIPS_MOST);
  }
  if (pressed.skips > 0) return pressed.skips--, false;
  if (has <= most_pressed(all)) return pressed.skips_next = 0, false;
  pressed.last = (has - most_pressed(all)) / 2;
  pressed.before = has;
  pressed.bytes = least_of(pressed.bytes + pressed.last, all / EXCEEDED_PART);
  return true;
}

/* Gives some of them back, where that is to be done, or goes on with it. How far it is. */
enum giving { GIVING_DONE, GIVING_LATER, GIVING_NOW };
static enum giving give_back_pages(uint64_t all, bool is_enough) {
  static bool is_giving;
  static int64_t not_before, took;
  int64_t begins = nanoseconds();
  if (!is_giving) {
    if (is_enough || !has_free_pages(all)) return GIVING_DONE;
    if (begins < not_before) return GIVING_LATER;
    is_giving = true;
    took = 0;
  }
  bool is_over = pages_give_back(is_enough);
  int64_t ends = nanoseconds();
  took += ends - begins;
  if (!is_over) return GIVING_NOW;
  is_giving = false;
  atomic_store_explicit(&now_resident, resident(), memory_order_relaxed);
  not_before = ends + took * (press(all) ? PRESSED_TIMES : PAUSE_TIMES) + PAUSE_LEAST;
  return GIVING_DONE;
}

/* How much is exceeded is known once free pages were given back. Until then a PASSED_PART-th of -m is let pass, beside
 * what was known before. */
bool memory_look(void) {
  static uint64_t known;
  static int64_t looked;
  static enum giving giving;
  if (giving != GIVING_NOW && nanoseconds() < looked + LOOK_PAUSE) return false;
  looked = nanoseconds();
  uint64_t all = atomic_load_explicit(&settings.memory, memory_order_relaxed);
  uint64_t may = all + all / SPARE_PART + at_start;
  atomic_store_explicit(&now_resident, resident(), memory_order_relaxed);
  giving = give_back_pages(all, memory_resident() <= may);
  uint64_t over = memory_resident() > may ? memory_resident() - may : 0;
  known = giving == GIVING_DONE ? over : least_of(known, over);
  uint64_t counts = over > known + all / PASSED_PART ? over - all / PASSED_PART : known;
  if (memory_resident() < most_pressed(all)) pressed.bytes -= pressed.bytes / PRESSED_PART;
  counts = least_of(counts, all / EXCEEDED_PART) + pressed.bytes;
  atomic_store_explicit(&exceeded, counts, memory_order_relaxed);
  return giving == GIVING_NOW;
}

bool memory_is_exceeded(void) { return atomic_load_explicit(&exceeded, memory_order_relaxed) > 0; }

uint64_t memory_used(void) {
  uint64_t all = atomic_load_explicit(&settings.memory, memory_order_relaxed);
  uint64_t others = memory_of(MEMORY_shelves) + memory_of(MEMORY_table) +
                    least_of(memory_of(MEMORY_connections), all / CONNECTIONS_PART);
  others = least_of(others, all / NOT_ITEMS_PART) + atomic_load_explicit(&exceeded, memory_order_relaxed);
  return memory_of(MEMORY_items) + least_of(others, all - all / ITEMS_PART);
}

bool memory_may_take(uint64_t bytes) {
  uint64_t all = atomic_load_explicit(&settings.memory, memory_order_relaxed);
  return memory_of(MEMORY_connections) + bytes <= all / CONNECTIONS_PART;
}
