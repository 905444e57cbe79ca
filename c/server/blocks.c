#define _GNU_SOURCE
#include "blocks.h"
#include <malloc.h>
#include <pthread.h>
#include <stdalign.h>
#include <stdatomic.h>
#include <stdbool.h>
#include <stdlib.h>
#include <string.h>
#include <sys/mman.h>
#include <unistd.h>
#include "memory.h"
#include "settings.h"

/* Before each block. */
struct head {
  alignas(max_align_t) size_t bytes; /* with this, and up to the end of its last page where it is mapped */
  bool is_mapped;
};

/* The sanitizer of threads doesn't see mremap: it would take what another thread has at the old place later for this
 * block. So there it is copied. */
#ifdef __SANITIZE_THREAD__
enum { MAPPINGS_GROW = false };
#else
enum { MAPPINGS_GROW = true };
#endif

static struct head *head_of(char *block) { return (struct head *)(void *)block - 1; }

static size_t whole_pages(size_t bytes) {
  size_t page = (size_t)sysconf(_SC_PAGESIZE);
  return (bytes + page - 1) / page * page;
}

static size_t pages_of(size_t bytes) { return bytes / (size_t)sysconf(_SC_PAGESIZE); }

/* So many pages are a mapping of their own, and up to so many a small one. */
enum { MAPPED_PAGES_LEAST = 4, SMALL_PAGES_MOST = 32 };

/* ---------------------------------------------------------------------------------------------------- counting */

/* Parts of the mappings that the system lets the process have: for small ones, of which there are SMALL_MOST at most,
 * and for large ones. What is left is for malloc, threads, libraries. To the system neighbours are one mapping; but
 * where values go at random there is soon one for each second value. */
enum { SMALL_MOST = 16384, SMALL_PART = 4, LARGE_PART = 2 };

/* Mappings that are there, with those that are kept. */
static struct {
  alignas(64) _Atomic uint64_t small;
  _Atomic uint64_t large;
} there;

static bool is_small(size_t bytes) { return pages_of(bytes) <= SMALL_PAGES_MOST; }

static _Atomic uint64_t *there_are(size_t bytes) { return is_small(bytes) ? &there.small : &there.large; }

/* Counts one more of so many bytes. false: there are as many as there may be. */
static bool count_one(size_t bytes) {
  uint64_t all = memory_mappings(), small = all / SMALL_PART < SMALL_MOST ? all / SMALL_PART : SMALL_MOST;
  uint64_t most = is_small(bytes) ? small : all / LARGE_PART;
  if (atomic_fetch_add_explicit(there_are(bytes), 1, memory_order_relaxed) < most) return true;
  atomic_fetch_sub_explicit(there_are(bytes), 1, memory_order_relaxed);
  return false;
}

static void uncount_one(size_t bytes) { atomic_fetch_sub_explicit(there_are(bytes), 1, memory_order_relaxed); }

/* ----------------------------------------------------------------------------------------------------- keeping */

/* A mapping that came free, where the next one of as many pages finds it. */
struct spare {
  struct spare *next;
  size_t bytes;
};

/* So much of -m is kept of small ones that came free; and lists that there are of large ones. */
enum { SPARE_PART = 64, LARGE_LISTS = 31 };

/* Large ones are kept only where the system refuses to take them, and without pages but their first one. Of each size
 * there are no more than there were values of it at once: since no mapping is made of a size, nor grows to it, while
 * one is kept. */
static struct {
  pthread_mutex_t lock;
  struct spare *small[SMALL_PAGES_MOST + 1]; /* by their pages */
  struct spare *large[LARGE_LISTS];          /* by what their pages leave, divided by as many as these are */
  size_t bytes;                              /* of all small ones */
  size_t next; /* of small ones those that are looked at next, where all kept ones have other sizes */
} spares = { .lock = PTHREAD_MUTEX_INITIALIZER };

static struct spare **list_of(size_t bytes) {
  return is_small(bytes) ? &spares.small[pages_of(bytes)] : &spares.large[pages_of(bytes) % LARGE_LISTS];
}

/* Where one of so many bytes is named, or else the end of its list. Under the lock. */
static struct spare **place_of(size_t bytes) {
  struct spare **at = list_of(bytes);
  while (*at != NULL && (*at)->bytes != bytes) at = &(*at)->next;
  return at;
}

/* Under the lock. */
static void *take_spare(size_t bytes) {
  struct spare **at = place_of(bytes), *spare = *at;
  if (spare == NULL) return NULL;
  *at = spare->next;
  if (is_small(bytes)) spares.bytes -= bytes;
  return spare;
}

static bool is_kept(size_t bytes) {
  pthread_mutex_lock(&spares.lock);
  bool is = *place_of(bytes) != NULL;
  pthread_mutex_unlock(&spares.lock);
  return is;
}

/* Whether it is kept, where all small ones that are kept have no more bytes than that. */
static bool spare(void *at, size_t bytes, uint64_t most) {
  struct spare *one = at, **list = list_of(bytes);
  pthread_mutex_lock(&spares.lock);
  bool keeps = spares.bytes + bytes <= most;
  if (keeps) {
    *one = (struct spare){ *list, bytes };
    *list = one;
    if (is_small(bytes)) spares.bytes += bytes;
  }
  pthread_mutex_unlock(&spares.lock);
  return keeps;
}

/* Where the system has as many mappings as it may, it can't cut one in two: then the pages alone go back. */
static void give_up(void *at, size_t bytes) {
  if (munmap(at, bytes) == 0) {
    uncount_one(bytes);
    return;
  }
  memory_give_pages(at, bytes);
  spare(at, bytes, UINT64_MAX);
}

/* One of so many bytes; or else a small one of another size is given up for a small one, as these seem to be asked for
 * no more. */
static void *spare_of(size_t bytes) {
  void *old = NULL;
  size_t pages = 0, page = (size_t)sysconf(_SC_PAGESIZE);
  pthread_mutex_lock(&spares.lock);
  void *found = take_spare(bytes);
  bool seeks = found == NULL && is_small(bytes) && spares.bytes > 0;
  for (size_t i = 0; seeks && old == NULL && i <= SMALL_PAGES_MOST; i++) {
    pages = spares.next;
    spares.next = (spares.next + 1) % (SMALL_PAGES_MOST + 1);
    old = take_spare(pages * page);
  }
  pthread_mutex_unlock(&spares.lock);
  if (old != NULL) give_up(old, pages * page);
  return found;
}

/* ------------------------------------------------------------------------------------------------------ blocks */

/* Pages of its own; NULL: the system has no more of them, or there are as many mappings as there may be. */
static void *map(size_t bytes) {
  void *at = spare_of(bytes);
  if (at != NULL) return at;
  if (!count_one(bytes)) return NULL;
  at = mmap(NULL, bytes, PROT_READ | PROT_WRITE, MAP_PRIVATE | MAP_ANONYMOUS, -1, 0);
  if (at != MAP_FAILED) return at;
  uncount_one(bytes);
  return NULL;
}

static char *begin(void *at, size_t bytes, bool is_mapped) {
  struct head *head = at;
  if (head == NULL) return NULL;
  *head = (struct head){ bytes, is_mapped };
  return (char *)(head + 1);
}

/* Where there is no mapping more, malloc may have room in the heap. */
char *block_new(size_t bytes) {
  bytes += sizeof(struct head);
  if (pages_of(bytes) >= MAPPED_PAGES_LEAST) {
    size_t pages = whole_pages(bytes);
    void *at = map(pages);
    if (at != NULL) return begin(at, pages, true);
  }
  return begin(malloc(bytes), bytes, false);
}

/* To another mapping, mostly from the heap: what is in it is copied. */
static char *replace(char *block, size_t bytes) {
  char *other = block_new(bytes);
  size_t had = head_of(block)->bytes - sizeof(struct head);
  if (other == NULL) return NULL;
  memcpy(other, block, had < bytes ? had : bytes);
  block_free(block);
  return other;
}

/* The same mapping with so many bytes; NULL: the system refuses it, or another one is to take its place. */
static char *remap(struct head *head, size_t bytes) {
  size_t had = head->bytes;
  bool changes = is_small(had) != is_small(bytes);
  if (is_kept(bytes) || (changes && !count_one(bytes))) return NULL;
  void *at = mremap(head, had, bytes, MREMAP_MAYMOVE);
  if (changes) uncount_one(at != MAP_FAILED ? had : bytes);
  return at != MAP_FAILED ? begin(at, bytes, true) : NULL;
}

char *block_grow(char *block, size_t bytes) {
  struct head *head = head_of(block);
  size_t all = bytes + sizeof *head;
  if (!head->is_mapped && pages_of(all) < MAPPED_PAGES_LEAST) return begin(realloc(head, all), all, false);
  char *grown = head->is_mapped && MAPPINGS_GROW ? remap(head, whole_pages(all)) : NULL;
  return grown != NULL ? grown : replace(block, bytes);
}

void block_free(char *block) {
  struct head *head = head_of(block);
  size_t bytes = head->bytes;
  if (!head->is_mapped) memory_free(head);
  else if (!is_small(bytes) || !spare(head, bytes, atomic_load(&settings.memory) / SPARE_PART)) give_up(head, bytes);
}

size_t block_takes(char *block) {
  struct head *head = head_of(block);
  return head->is_mapped ? head->bytes : memory_of_block(head);
}
