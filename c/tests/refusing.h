/* What refused.c and cache_refused.c share: requests for memory are counted, and refused: each in turn, alone, and then
 * with all behind it. */
#ifndef REFUSING_H
#define REFUSING_H

#include <stdbool.h>
#include <stdio.h>
#include <stdlib.h>

static long asked, refuse_at, live; /* requests so far; that which is refused, from 1 (0: none); blocks that are out */
static bool all_behind;             /* and each behind it */
static bool open_no_memory;         /* whether the opening answered that there is none */
static int failed;

void *__real_malloc(size_t);
void *__real_calloc(size_t, size_t);
void *__real_realloc(void *, size_t);
void __real_free(void *);
void *__wrap_malloc(size_t);
void *__wrap_calloc(size_t, size_t);
void *__wrap_realloc(void *, size_t);
void __wrap_free(void *);

static bool is_refused(void) {
  asked++;
  return refuse_at != 0 && (asked == refuse_at || (all_behind && asked > refuse_at));
}

static void *counted(void *p) {
  live += p != NULL;
  return p;
}

void *__wrap_malloc(size_t n) { return is_refused() ? NULL : counted(__real_malloc(n)); }
void *__wrap_calloc(size_t n, size_t m) { return is_refused() ? NULL : counted(__real_calloc(n, m)); }

void *__wrap_realloc(void *p, size_t n) {
  if (is_refused()) return NULL;
  void *q = __real_realloc(p, n);
  live += p == NULL && q != NULL;
  return q;
}

void __wrap_free(void *p) {
  live -= p != NULL;
  __real_free(p);
}

static void want(bool holds, const char *what) {
  if (holds) return;
  fprintf(stderr, "with request %ld refused%s: %s\n", refuse_at, all_behind ? " and all behind it" : "", what);
  failed = 1;
}

/* A call that asks for no memory. */
#define ASKS_NOTHING(call)                                     \
  do {                                                         \
    long before = asked;                                       \
    call;                                                      \
    want(asked == before, "asks for memory: " #call);          \
  } while (0)

/* A part of what was opened is taken, once. */
#define TAKE(call, opened, type, number, parts)                     \
  do {                                                              \
    bool taken = false;                                             \
    type none = { 0 };                                              \
    ASKS_NOTHING(taken = call(opened, number, &(parts)[number]));   \
    want(taken && (parts)[number].p != NULL, "no " #call);          \
    ASKS_NOTHING(taken = call(opened, number, &none));              \
    want(!taken && none.p == NULL, "twice " #call);                 \
  } while (0)

/* Does it all with nothing refused, and then with each request; and prints this answer of the opening, if it was seen. */
static int refuse_each(void (*whole)(void), const char *no_memory) {
  whole();
  long requests = asked;
  for (int behind = 0; behind < 2; behind++) {
    all_behind = behind == 1;
    for (refuse_at = 1; refuse_at <= requests; refuse_at++) {
      asked = 0;
      whole();
    }
  }
  want(open_no_memory, "nothing is refused");
  if (open_no_memory) printf("%s\n", no_memory);
  printf("each of %ld requests refused, alone and with all behind it: %s\n", requests, failed ? "FAILED" : "passed");
  return failed;
}

#endif
