/* Who watches: connections that asked by `watch` to be told of evictions, look-ups, stores, deletions, of other
 * connections that come and go, or of looks for expired items, as memcached tells of them. Whoever does one of these
 * writes a line for each that watches it, and waits for nobody: who reads slowly loses lines, and is told how many. */
#ifndef WATCHERS_H
#define WATCHERS_H

#include "cache.h"
#include "connection.h"
#include "shelf.h"

/* What can be watched. Of raw commands nothing is told: in memcached neither. */
enum watched {
  WATCHED_EVICTIONS = 1,
  WATCHED_FETCHERS = 2,
  WATCHED_MUTATIONS = 4,
  WATCHED_DELETIONS = 8,
  WATCHED_CONNECTIONS = 16,
  WATCHED_RAW_COMMANDS = 32,
  WATCHED_SYSTEM = 64
};

/* All that somebody watches now. */
extern _Atomic uint32_t all_watched;
static inline bool is_watched(enum watched kind) {
  return (atomic_load_explicit(&all_watched, memory_order_relaxed) & kind) != 0;
}

enum watch_answer { WATCH_DONE, WATCH_TOO_MANY, WATCH_NO_MEMORY };

/* This connection watches these kinds from now on, until it leaves; which does nothing where it doesn't watch. */
enum watch_answer watchers_join(struct connection *connection, uint32_t kinds);
void watchers_leave(struct connection *connection);

/* Puts lines into what this connection is to send. Whether there are more. By its thread. */
bool watchers_take(struct connection *connection);

/* The first connection of a thread that watches, from a number on, which is raised behind it; NULL: there is none. By
 * this thread, which is woken where there are lines for one of them. */
struct connection *watchers_of(const struct thread *thread, uint32_t *from);

struct watchers_measure {
  uint64_t watching; /* connections */
  uint64_t written;  /* lines, each once */
  uint64_t sent;     /* lines, each for each that it was for */
  uint64_t skipped;  /* lines that were lost, since who watches reads too slowly */
};
struct watchers_measure watchers_measure(void);

/* A key was looked up; NULL: it has no item. Under the stripe's lock, as the next one. */
void watchers_write_fetch(const struct thread *thread, const struct key *key, const struct item *item);
static inline void watchers_tell_fetch(const struct thread *thread, const struct key *key, const struct item *item) {
  if (is_watched(WATCHED_FETCHERS)) watchers_write_fetch(thread, key, item);
}

/* A client ended an item. */
void watchers_tell_end(const struct thread *thread, const struct item *item, const char *command);

/* An item is evicted, which was hit or wasn't, and last so many seconds ago. Under its shelf's lock. */
void watchers_tell_eviction(const struct item *item, bool is_fetched, uint32_t idle, uint32_t now);

/* An item that a client stores, or can't: where it has no class, there is no memory for it. */
struct watched_store {
  struct key key;
  enum store_how how;
  uint32_t class;
  uint32_t expires;
  uint32_t bytes;
};
void watchers_tell_store(const struct thread *thread, const struct watched_store *store, const char *status);

/* All of a shelf's chunks were looked at for expired items. */
void watchers_tell_crawl(uint32_t class, const struct crawled *crawled, uint32_t now);

/* A connection that comes, or goes: then with why. */
struct watched_connection {
  int file;
  const char *host;
  unsigned port;
  const char *transport;
  const char *reason; /* NULL: it comes */
};
void watchers_tell_connection(const struct watched_connection *told);

#endif
