/* libbump's memory: three functions, by which the proved library asks for it, and the two calls that ask. c/pack links
 * this file with that library, in place of the toolchain's liblibc_c.a. No proof sees it: it is trusted, as malloc is.
 *
 * THE THREE FUNCTIONS do what the toolchain's do: one call of malloc, realloc or free. A refusal is an answer, and
 * leaves the block as it was. For 0 bytes malloc is asked for as many as the alignment has, which is 16 at most.
 *
 * HUGE PAGES. Gets of a large cache go anywhere in its memory, and then wait mostly for where a page lies. So for each
 * block of 2 MB or more the system is asked for huge pages. Where it has none that changes nothing.
 *
 * MEMORY ONCE. The toolchain fills a table of atomic words from a slice of the same length. So a call that opens would
 * have twice what it keeps, for a while. But the slice is all zeros, if the first generation is 1. So when the table is
 * asked for, the slice's pages are given back to the system: they still read as zeros, and take no memory. */
#define _DEFAULT_SOURCE   /* madvise */
#define BUMP_DEBUG_ITSELF /* a build with checks isn't told that they miss here */
#include "bump_cache.h"
#include <errno.h>
#include <stdlib.h>
#include <sys/mman.h>
#include <unistd.h>

/* As many bytes as a huge page has: a block of so many is large. */
#define LARGE ((size_t)2 << 20)

/* 1 and the block; or 0 and any pointer, but not NULL. */
typedef struct {
  uint64_t is_there;
  void *p;
} rattle_tried;

rattle_tried rattle_alloc(size_t n, size_t align);
rattle_tried rattle_realloc(void *p, size_t kept, size_t n, size_t align);
void rattle_dealloc(void *p);

/* Whether this thread is in a call that opens; and the large block that it took last there, but no table's, if it still
 * has it. No other thread knows of it yet. n is 0 where there is none. */
static __thread struct {
  bool is_opening;
  void *p;
  size_t n;
} last;

static void set_last(void *p, size_t n) {
  last.p = p;
  last.n = p != NULL ? n : 0;
}

static void begin_or_end(bool is_opening) {
  last.is_opening = is_opening;
  set_last(NULL, 0);
}

static rattle_tried told(void *p) {
  static char nothing;
  rattle_tried tried = { p != NULL, p != NULL ? p : &nothing };
  return tried;
}

/* Of these bytes. A program sees no refusal, and no errno. */
static void advise(uintptr_t first, uintptr_t end, int advice) {
  int before = errno;
  (void)madvise((void *)first, end - first, advice);
  errno = before;
}

/* Of each page in which a byte of the block lies: malloc's own bytes before it may be in the same huge page. */
static void ask_for_huge_pages(void *p, size_t n) {
#ifdef MADV_HUGEPAGE
  uintptr_t page = (uintptr_t)sysconf(_SC_PAGESIZE);
  advise((uintptr_t)p / page * page, (uintptr_t)p + n, MADV_HUGEPAGE);
#else
  (void)p, (void)n;
#endif
}

static bool is_zero(uintptr_t page, size_t n) {
  const char *p = (const char *)page;
  return *p == 0 && memcmp(p, p + 1, n - 1) == 0;
}

/* Of the pages that lie in the block as a whole, those before the first that isn't all zero. Linux makes them anew, as
 * zeros, when they are next used; if memory is locked it refuses. Only if malloc's memory lay in a file they would be
 * what that has: so they are looked at once more. Nobody may write to the block meanwhile. */
static void give_back_zeros(void *p, size_t n) {
#ifdef MADV_DONTNEED
  uintptr_t page = (uintptr_t)sysconf(_SC_PAGESIZE);
  uintptr_t first = ((uintptr_t)p + page - 1) / page * page, end = ((uintptr_t)p + n) / page * page, at = first;
  while (at < end && is_zero(at, page)) at += page;
  if (at > first) advise(first, at, MADV_DONTNEED);
  while (at > first) {
    at -= page;
    if (!is_zero(at, page)) memset((void *)at, 0, page);
  }
#else
  (void)p, (void)n;
#endif
}

rattle_tried rattle_alloc(size_t n, size_t align) {
  if (n == 0) n = align;
  if (n < LARGE) return told(malloc(n));
  bool is_table = n == last.n;
  if (is_table) give_back_zeros(last.p, n);
  void *p = malloc(n);
  if (p != NULL) ask_for_huge_pages(p, n);
  if (last.is_opening) set_last(is_table ? NULL : p, n);
  return told(p);
}

rattle_tried rattle_realloc(void *p, size_t kept, size_t n, size_t align) {
  (void)kept; /* realloc keeps all bytes for which there is room */
  if (n == 0) n = align;
  bool is_last = p == last.p;
  void *moved = realloc(p, n);
  if (moved != NULL && n >= LARGE) ask_for_huge_pages(moved, n);
  if (moved != NULL && is_last) set_last(moved, n);
  return told(moved);
}

void rattle_dealloc(void *p) {
  if (p == last.p) set_last(NULL, 0);
  free(p);
}

/* The proved bump_open and bump_cache_open, which c/pack renames. */
enum bump_open_answer proved_open(bump_store *, const bump_config *, const bump_class_config *, size_t);
enum bump_cache_open_answer proved_cache_open(bump_cache *, const bump_cache_config *);

enum bump_open_answer bump_open(bump_store *store, const bump_config *config, const bump_class_config *classes,
                                size_t count) {
  begin_or_end(true);
  enum bump_open_answer answer = proved_open(store, config, classes, count);
  begin_or_end(false);
  return answer;
}

enum bump_cache_open_answer bump_cache_open(bump_cache *cache, const bump_cache_config *config) {
  begin_or_end(true);
  enum bump_cache_open_answer answer = proved_cache_open(cache, config);
  begin_or_end(false);
  return answer;
}
