/* c/memory.c alone: blocks keep what is in them, a refusal changes nothing, large blocks may be in huge pages, and an
 * opening gives back a slice of zeros. In place of the proved library this file has openings that take memory so. */
#include "bump_cache.h"
#include "resident.h"
#include <errno.h>
#include <stdio.h>
#include <stdlib.h>

typedef struct {
  uint64_t is_there;
  void *p;
} rattle_tried;
rattle_tried rattle_alloc(size_t n, size_t align);
rattle_tried rattle_realloc(void *p, size_t kept, size_t n, size_t align);
void rattle_dealloc(void *p);
enum bump_open_answer proved_open(bump_store *, const bump_config *, const bump_class_config *, size_t);
enum bump_cache_open_answer proved_cache_open(bump_cache *, const bump_cache_config *);

enum { MB = 1 << 20, WORDS = 64 * MB / 8, SOME = 5 * MB };
static int failed;

static void want(bool holds, const char *what) {
  if (!holds) fprintf(stderr, "not so: %s\n", what);
  failed |= !holds;
}

/* ---------------------------------------------------------------------------------------- blocks */

static void fill(unsigned char *p, size_t from, size_t to) {
  for (size_t i = from; i < to; i++) p[i] = (unsigned char)(i * 31 + i / 4096);
}

static bool is_filled(const unsigned char *p, size_t n) {
  for (size_t i = 0; i < n; i++)
    if (p[i] != (unsigned char)(i * 31 + i / 4096)) return false;
  return true;
}

static void refuses(rattle_tried tried) { want(!tried.is_there && tried.p != NULL, "no block, and some pointer"); }

/* A block of each size in turn. */
static void resize(void) {
  static const size_t sizes[] = { 0,          16,     2 * MB - 16, 2 * MB - 1, 2 * MB, 2 * MB + 1, 3 * MB, 40 * MB,
                                  2 * MB + 1, 2 * MB, 2 * MB - 1,  64 * MB,    100,    0,          9 * MB, 1 };
  size_t had = 0;
  rattle_tried block = rattle_alloc(0, 8);
  for (size_t i = 0; i < sizeof sizes / sizeof *sizes; i++) {
    size_t n = sizes[i];
    block = rattle_realloc(block.p, had, n, 8);
    want(block.is_there == 1 && (uintptr_t)block.p % 16 == 0, "a block by realloc, aligned");
    want(is_filled(block.p, had < n ? had : n), "realloc keeps what is in the block");
    fill(block.p, had < n ? had : n, n);
    refuses(rattle_realloc(block.p, n, SIZE_MAX / 2, 8));
    want(is_filled(block.p, n), "a refusal leaves the block as it was");
    had = n;
    rattle_tried other = rattle_alloc(n, 16);
    want(other.is_there == 1 && (uintptr_t)other.p % 16 == 0, "a block by malloc, aligned");
    fill(other.p, 0, n);
    want(is_filled(block.p, n), "no other block has its memory");
    rattle_dealloc(other.p);
  }
  rattle_dealloc(block.p);
  refuses(rattle_alloc(SIZE_MAX / 2, 8));
}

/* What /proc/self/smaps says of a place's mapping: whether huge pages were asked for, and the kilobytes in them. */
static bool is_advised(const void *p, unsigned long *huge) {
  unsigned long first, end, told;
  bool here = false, advised = false;
  char line[512], dash;
  FILE *maps = fopen("/proc/self/smaps", "r");
  while (maps && fgets(line, sizeof line, maps)) {
    if (sscanf(line, "%lx%c%lx", &first, &dash, &end) == 3 && dash == '-')
      here = first <= (uintptr_t)p && (uintptr_t)p < end;
    if (here && sscanf(line, "AnonHugePages: %lu", &told) == 1) *huge = told;
    if (here && !strncmp(line, "VmFlags:", 8)) advised = strstr(line, " hg") != NULL;
  }
  if (maps) fclose(maps);
  return advised;
}

static void in_huge_pages(void) {
  unsigned long huge = 0;
  errno = EDOM;
  rattle_tried block = rattle_alloc(64 * MB, 8), small = rattle_alloc(MB, 8);
  want(errno == EDOM, "errno stays");
  fill(block.p, 0, 64 * MB);
  fill(small.p, 0, MB);
  FILE *has = fopen("/sys/kernel/mm/transparent_hugepage/enabled", "r");
  if (has) {
    want(is_advised((char *)block.p + 32 * MB, &huge), "huge pages are asked for");
    printf("%lu of 64 MB are in huge pages\n", huge / 1024);
    bool asks_itself = getenv("GLIBC_TUNABLES") != NULL; /* glibc does, if it says so */
    want(asks_itself || !is_advised((char *)small.p + MB / 2, &huge), "none are asked for a small block");
    fclose(has);
  }
  block = rattle_realloc(block.p, 64 * MB, 80 * MB, 8);
  want(!has || is_advised((char *)block.p + 75 * MB, &huge), "huge pages are asked for what is added");
  rattle_dealloc(block.p);
  rattle_dealloc(small.p);
}

/* -------------------------------------------------------------------------------------- openings */

static uint64_t *take(void) {
  rattle_tried block = rattle_alloc(8 * (size_t)WORDS, 8);
  if (!block.is_there) exit(2);
  return block.p;
}

static void set(uint64_t *words, size_t marked) {
  for (size_t i = 0; i < WORDS; i++) ((volatile uint64_t *)words)[i] = i == marked ? 7 : 0;
}

static size_t marked; /* the slice's word that isn't zero; WORDS: none */
static bool is_moved; /* whether the slice was made larger */
static size_t given;  /* how many bytes the table's block gave back */
static uint64_t *kept;

/* As an opening does it: a slice is filled, the table is taken, and filled from it. Then a second one; and one block is
 * kept alone. */
static void open_it(void) {
  for (int twice = 0; twice < 2; twice++) {
    uint64_t *slice = take();
    set(slice, marked);
    if (is_moved) slice = rattle_realloc(slice, 8 * (size_t)WORDS, 8 * (size_t)WORDS, 8).p;
    size_t before = resident();
    uint64_t *table = take();
    size_t now = resident();
    given = before > now ? before - now : 0;
    for (size_t i = 0; i < WORDS; i++) table[i] = slice[i];
    for (size_t i = 0; i < WORDS; i++)
      if (slice[i] != (i == marked ? 7u : 0u) || table[i] != slice[i]) failed = 1;
    rattle_dealloc(slice);
    before = resident();
    slice = take();
    want(resident() + SOME > before, "a table isn't given back");
    rattle_dealloc(slice);
    rattle_dealloc(table);
  }
  kept = take();
  set(kept, WORDS);
}

enum bump_open_answer proved_open(bump_store *store, const bump_config *config, const bump_class_config *classes,
                                  size_t count) {
  (void)store, (void)config, (void)classes;
  open_it();
  return count == 3 ? BUMP_OPEN_CLASSES : BUMP_OPEN_DONE;
}

enum bump_cache_open_answer proved_cache_open(bump_cache *cache, const bump_cache_config *config) {
  (void)cache, (void)config;
  open_it();
  return BUMP_CACHE_OPEN_NO_MEMORY;
}

static void gives(size_t least, size_t most, const char *what) {
  bool is_right = given + SOME >= least && given <= most + SOME;
  want(is_right, what);
  if (!is_right) fprintf(stderr, "%zu MB were given back\n", given / MB);
  size_t before = resident();
  rattle_tried block = rattle_alloc(8 * (size_t)WORDS, 8);
  want(resident() + SOME > before, "once it is open nothing is given back");
  rattle_dealloc(block.p);
  rattle_dealloc(kept);
}

int main(void) {
  const size_t all = 8 * (size_t)WORDS;
  in_huge_pages(); /* first: malloc hands out again what was freed, huge pages and all */
  resize();
  marked = WORDS;
  want(bump_cache_open(NULL, NULL) == BUMP_CACHE_OPEN_NO_MEMORY, "a cache's answer");
  gives(all, all, "a slice of zeros");
  want(bump_open(NULL, NULL, NULL, 3) == BUMP_OPEN_CLASSES, "a store's answer");
  gives(all, all, "a slice of zeros, of a store");
  open_it();
  gives(0, 0, "a slice of zeros, in no opening");
  marked = WORDS / 2;
  want(bump_open(NULL, NULL, NULL, 0) == BUMP_OPEN_DONE, "a store's answer");
  gives(all / 2, all / 2, "a slice of zeros up to its middle");
  marked = 600;
  bump_open(NULL, NULL, NULL, 0);
  gives(0, 0, "a slice with a word in front");
  marked = WORDS;
  is_moved = true;
  bump_open(NULL, NULL, NULL, 0);
  gives(all, all, "a slice that was moved");
  if (!failed) printf("blocks keep their bytes, and zeros are given back\n");
  return failed;
}
