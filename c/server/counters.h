/* What each thread counts for itself, so that no count is shared between processors. */
#ifndef COUNTERS_H
#define COUNTERS_H

#include <stdatomic.h>
#include <stdint.h>

/* By the names that `stats` tells them by. */
#define COUNTERS(X)                                                                                                    \
  X(cmd_get) X(cmd_set) X(cmd_flush) X(cmd_touch) X(cmd_meta) X(get_hits) X(get_misses) X(get_expired) X(get_flushed)  \
  X(delete_misses) X(delete_hits) X(incr_misses) X(incr_hits) X(decr_misses) X(decr_hits) X(cas_misses) X(cas_hits)    \
  X(cas_badval) X(touch_hits) X(touch_misses) X(store_too_large) X(store_no_memory) X(bytes_read) X(bytes_written)     \
  X(conn_yields) X(malloc_fails) X(total_items) X(expired_unfetched) X(evicted_unfetched) X(evicted_active)            \
  X(evictions) X(reclaimed) X(crawler_reclaimed) X(crawler_items_checked) X(lrutail_reflocked) X(get_busy)             \
  X(get_refs_full) X(get_stale) X(calls_together) X(idle_kicks)

#define COUNTER_AS_NAME(name) COUNT_##name,
enum counter { COUNTERS(COUNTER_AS_NAME) COUNTER_COUNT };

struct counters {
  _Atomic uint64_t of[COUNTER_COUNT];
};

static inline uint64_t counted(const struct counters *counters, enum counter which) {
  return atomic_load_explicit(&counters->of[which], memory_order_relaxed);
}

/* By the one thread whose counters these are: a store, and no locked step. */
static inline void count(struct counters *counters, enum counter which, uint64_t by) {
  atomic_store_explicit(&counters->of[which], counted(counters, which) + by, memory_order_relaxed);
}

#endif
