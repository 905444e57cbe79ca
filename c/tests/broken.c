/* Breaks promises of bump.h, and wants the build with checks to say so: compiled with -DBUMP_DEBUG and bump_debug.c.
 *
 *   broken           breaks them all
 *   broken mixed     makes one call, and wants it to tell of plain.c, which is linked too, compiled without that
 *
 * Link with -Wl,--wrap=bump_sweep, by which one thread stays in a call until another has tried the same handle, and
 * --wrap=calloc, by which bump_debug.c finds no memory for a while. */
#define _POSIX_C_SOURCE 200809L
#include "bump.h"
#include "catching.h"

/* A call that the library refuses by itself, or that does no harm. */
#define MADE(call, what)    \
  do {                      \
    wants_nothing();        \
    call;                   \
    wants(what, ANY_PLACE); \
  } while (0)

uint32_t __real_bump_sweep(void *book);
uint32_t __wrap_bump_sweep(void *book);
uint32_t __wrap_bump_sweep(void *book) {
  stay();
  return __real_bump_sweep(book);
}

static bool no_memory;
void *__real_calloc(size_t, size_t);
void *__wrap_calloc(size_t, size_t);
void *__wrap_calloc(size_t n, size_t m) { return no_memory ? NULL : __real_calloc(n, m); }

static void *sweeps(void *book) {
  bump_sweep(book);
  return NULL;
}

struct parts {
  bump_store store;
  bump_worker worker;
  bump_book book;
  bump_lane lane;
};

static bump_store open_store(uint64_t number, uint32_t workers) {
  static const bump_class_config class = { 4, 1, 1 };
  const bump_config config = { number, workers, 4, 8, 1, 1, 0 };
  bump_store store = { 0 };
  if (bump_open(&store, &config, &class, 1) != BUMP_OPEN_DONE) printf("no store\n"), exit(1);
  return store;
}

static struct parts open_parts(uint64_t number) {
  struct parts a = { { 0 }, { 0 }, { 0 }, { 0 } };
  a.store = open_store(number, 1);
  bump_take_worker(&a.store, 0, &a.worker);
  bump_take_book(&a.store, 0, &a.book);
  bump_take_lane(&a.store, 0, &a.lane);
  return a;
}

static void free_parts(struct parts a) {
  bump_worker_free(a.worker);
  bump_book_free(a.book);
  bump_lane_free(a.lane);
  bump_close(a.store);
  wants_nothing();
}

/* Handles that are empty, made up, of another kind, of two stores; and what is to be filled and isn't {0}. */
static void wrong_handles(void) {
  struct parts one = open_parts(1), two = open_parts(2), same = { { 0 }, { 0 }, { 0 }, { 0 } };
  bump_worker empty = { 0 }, made_up = { &empty, 0 }, a_lane = { one.lane.p, one.lane.check };
  bump_lane no_lane = { 0 }, filled = one.lane;
  MADE(same = open_parts(1), "a store that is open has this number");
  MADE(bump_apply_run(&two.book, &one.lane, 1, 1), "the two handles are of two stores");
  MADE(bump_apply_run_told(&two.book, &one.lane, 1, 1), "the two handles are of two stores");
  MADE(bump_take_lane(&two.store, 0, &filled), "what the call fills isn't {0}");
  STOPPED(bump_label(&empty, 0), "the handle is empty");
  STOPPED(bump_size(NULL, 0), "the handle is empty");
  STOPPED(bump_apply_run(&two.book, &no_lane, 1, 1), "the handle is empty");
  STOPPED(bump_link_words(&two.book, 1, NULL, 2, 1), "a pointer is NULL");
  STOPPED(bump_worker_counts(&made_up), "it is no handle that bump gave");
  made_up.check = (uint64_t)1 << 40 | 123456;
  STOPPED(bump_worker_counts(&made_up), "it is no handle that bump gave");
  made_up.check = one.worker.check;
  STOPPED(bump_worker_counts(&made_up), "it is no handle that bump gave");
  STOPPED(bump_release(&a_lane, 0), "the handle is of a lane");
  if (bump_size(&two.book, BUMP_PLACE_UNUSED) != 4) failed = 1;
  free_parts(one);
  free_parts(two);
  free_parts(same);
}

/* Two threads are in a call with one handle. */
static void at_once(void) {
  struct parts a = open_parts(1);
  pthread_t thread = enter(sweeps, &a.book);
  STOPPED(bump_size(&a.book, 0), "another thread is in a call with this handle");
  STOPPED(bump_apply_run(&a.book, &a.lane, 1, 1), "another thread is in a call with this handle");
  leave(thread);
  bump_rest(&a.lane);
  if (bump_size(&a.book, BUMP_PLACE_UNUSED) != 4) failed = 1;
  free_parts(a);
}

/* Copies of handles that are gone: also of a worker that came back, which is another handle. */
static void copies(void) {
  struct parts one = open_parts(1), two = open_parts(2);
  bump_worker copy = two.worker, back = { 0 };
  MADE(bump_worker_close(&one.lane, two.worker, &back), "the two handles are of two stores");
  STOPPED(bump_worker_counts(&copy), "once a worker, was given back");
  two.worker = back;
  copy = one.worker;
  bump_label(&one.worker, 0);
  bump_worker no_worker = { 0 };
  bump_worker_close(&one.lane, one.worker, &no_worker);
  STOPPED(bump_get(&copy, 0, 0, 1), "once a worker, was given back");
  STOPPED(bump_worker_free(copy), "once a worker, was given back");
  bump_book copied = two.book;
  bump_book_free(two.book);
  STOPPED(bump_sweep(&copied), "once a book, was given back");
  STOPPED(bump_book_free(copied), "once a book, was given back");
  bump_book_free(one.book);
  bump_lane_free(one.lane);
  bump_close(one.store);
  bump_worker_free(two.worker);
  bump_lane_free(two.lane);
  bump_close(two.store);
  wants_nothing();
}

static bool has_address(const struct parts *a, const void *p) {
  return a->store.p == p || a->worker.p == p || a->book.p == p || a->lane.p == p;
}

/* A copy of a handle that is gone, whose address another handle has by now. */
static void same_address(void) {
  struct parts gone = open_parts(1);
  free_parts(gone);
  for (uint64_t i = 0; i < 1000; i++) {
    struct parts next = open_parts(2 + i);
    bool book = has_address(&next, gone.book.p), worker = has_address(&next, gone.worker.p);
    bool lane = has_address(&next, gone.lane.p), store = has_address(&next, gone.store.p);
    if (book) STOPPED(bump_size(&gone.book, 0), "once a book, was given back");
    if (worker) STOPPED(bump_worker_counts(&gone.worker), "once a worker, was given back");
    if (lane) STOPPED(bump_rest(&gone.lane), "once a lane, was given back");
    if (store) STOPPED(bump_take_book(&gone.store, 0, &(bump_book){ 0 }), "once a store, was given back");
    free_parts(next);
    if (book || worker || lane || store) return;
  }
  printf("NOT FOUND: no handle has the address of one that is gone\n");
  failed = 1;
}

/* More handles than a table of some size has room for. For a while there is no memory for more of it. */
static void many(void) {
  enum { STORES = 260, WORKERS = 64 };
  static bump_store store[STORES];
  static bump_worker worker[STORES][WORKERS];
  bump_worker *unchecked = NULL;
  no_memory = true;
  for (uint32_t i = 0; i < STORES; i++) {
    store[i] = open_store(i, WORKERS);
    for (uint32_t w = 0; w < WORKERS; w++) {
      bump_take_worker(&store[i], w, &worker[i][w]);
      if (unchecked || !said[0]) continue;
      wants("there is no room to note one more handle", ANY_PLACE);
      unchecked = &worker[i][w];
      no_memory = false;
    }
  }
  wants_nothing();
  if (!unchecked || bump_worker_counts(unchecked).attempted) failed = 1;
  bump_worker last = worker[STORES - 1][WORKERS - 1], a_store = { store[STORES - 1].p, store[STORES - 1].check };
  STOPPED(bump_release(&a_store, 0), "the handle is of a store");
  for (int i = 0; i < STORES; i++) {
    for (int w = 0; w < WORKERS; w++) bump_worker_free(worker[i][w]);
    bump_close(store[i]);
  }
  STOPPED(bump_release(&last, 0), "once a worker, was given back");
  no_memory = true; /* so each entry is used again, and that of the copy too */
  for (uint64_t i = 0; i < 25000; i++) bump_close(open_store(i, 1));
  no_memory = false;
  STOPPED(bump_release(&last, 0), "once a worker, was given back");
}

int main(int count, char **words) {
  bump_debug_broken = note;
  if (count > 1 && strcmp(words[1], "mixed") == 0) {
    bump_store store = open_store(1, 1);
    wants("a file of this program was compiled without -DBUMP_DEBUG", ANY_PLACE);
    bump_close(store);
    wants_nothing();
    return failed;
  }
  wrong_handles();
  at_once();
  copies();
  same_address();
  many();
  wants_nothing();
  return failed;
}
