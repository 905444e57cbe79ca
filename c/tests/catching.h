/* What broken.c and cache_broken.c share: what the build with checks says is caught, and compared; and one thread stays
 * in a call until another has tried the same handle. */
#ifndef CATCHING_H
#define CATCHING_H

#include <pthread.h>
#include <semaphore.h>
#include <setjmp.h>
#include <stdbool.h>
#include <stdio.h>
#include <stdlib.h>
#include <string.h>

static char said[512];
static jmp_buf out;
static bool jumps; /* the call isn't to be made */
static int failed;

static void note(const char *what) {
  snprintf(said, sizeof said, "%s", what);
  if (jumps) longjmp(out, 1);
}

/* It is said, of the call at this place. */
static void wants(const char *what, const char *place) {
  bool found = strstr(said, what) && strstr(said, place);
  printf("%s: %s\n", found ? "found" : "NOT FOUND", found ? said : what);
  failed |= !found;
  said[0] = '\0';
}
#define PLACE_OF(line) __FILE__ ":" #line ": "
#define PLACE(line) PLACE_OF(line)
#define ANY_PLACE ""

/* What comes before breaks no promise. */
static void wants_nothing(void) {
  if (!said[0]) return;
  printf("NOT RIGHT: %s\n", said);
  failed = 1;
  said[0] = '\0';
}

/* A call that must not reach the library. */
#define STOPPED(call, what)       \
  do {                            \
    wants_nothing();              \
    jumps = true;                 \
    if (!setjmp(out)) call;       \
    jumps = false;                \
    wants(what, PLACE(__LINE__)); \
  } while (0)

static sem_t inside, tried;
static bool waits;

/* What a call that is wrapped does first. */
static void stay(void) {
  if (!waits) return;
  sem_post(&inside);
  sem_wait(&tried);
}

/* A thread that calls such a one, and is in it. */
static pthread_t enter(void *(*calls)(void *), void *handle) {
  pthread_t thread;
  sem_init(&inside, 0, 0);
  sem_init(&tried, 0, 0);
  waits = true;
  if (pthread_create(&thread, NULL, calls, handle)) exit(1);
  sem_wait(&inside);
  return thread;
}

static void leave(pthread_t thread) {
  sem_post(&tried);
  pthread_join(thread, NULL);
  waits = false;
  sem_destroy(&inside);
  sem_destroy(&tried);
}

#endif
