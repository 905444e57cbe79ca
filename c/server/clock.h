/* Times as ticks: seconds since the server was started, and two more. So 0 can stand for never, and 1 for long ago. */
#ifndef CLOCK_H
#define CLOCK_H

#include <stdint.h>

enum { TICK_NEVER = 0, TICK_LONG_AGO = 1, TICK_FIRST = 2 };

/* Before any other call. */
void clock_begin(void);

/* The tick now. */
uint32_t clock_now(void);

/* Seconds since a tick. Threads look at the clock at different times: so it may be one that is still to come. */
static inline uint32_t clock_since(uint32_t then, uint32_t now) { return now > then ? now - then : 0; }

/* What a client gave as the time when its item expires: 0 is never, a negative number long ago; up to thirty days are
 * seconds from now on, and what is more is a time of Unix. */
uint32_t clock_expiry(int64_t given, uint32_t now);

/* A tick as a time of Unix. */
int64_t clock_unix(uint32_t tick);

/* Makes all later ticks greater by so many seconds. For tests, which don't want to wait. */
void clock_move(int32_t seconds);

#endif
