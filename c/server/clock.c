#define _GNU_SOURCE
#include "clock.h"
#include <stdatomic.h>
#include <time.h>

enum { THIRTY_DAYS = 60 * 60 * 24 * 30, SECOND = 1000000000 };

/* The clock on the wall, as it was set at the start, goes on by the clock that nobody sets. So a tick begins where a
 * second of Unix does, and what is to expire then doesn't expire in the second before. */
static int64_t ahead; /* nanoseconds of the one before the other */
static int64_t began_at_unix;
static _Atomic int32_t moved;

static int64_t nanoseconds(clockid_t clock) {
  struct timespec time;
  clock_gettime(clock, &time);
  return (int64_t)time.tv_sec * SECOND + time.tv_nsec;
}

/* The coarse clock is read without a system call. */
static int64_t seconds_of_unix(void) { return (nanoseconds(CLOCK_MONOTONIC_COARSE) + ahead) / SECOND; }

void clock_begin(void) {
  ahead = nanoseconds(CLOCK_REALTIME) - nanoseconds(CLOCK_MONOTONIC);
  began_at_unix = seconds_of_unix() - TICK_FIRST;
}

uint32_t clock_now(void) {
  return (uint32_t)(seconds_of_unix() - began_at_unix + atomic_load_explicit(&moved, memory_order_relaxed));
}

uint32_t clock_expiry(int64_t given, uint32_t now) {
  if (given == 0) return TICK_NEVER;
  if (given < 0) return TICK_LONG_AGO;
  if (given <= THIRTY_DAYS) return (uint32_t)given + now;
  return given <= began_at_unix ? TICK_LONG_AGO : (uint32_t)(given - began_at_unix);
}

int64_t clock_unix(uint32_t tick) { return began_at_unix + tick; }

void clock_move(int32_t by) { atomic_fetch_add(&moved, by); }
