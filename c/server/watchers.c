#define _GNU_SOURCE
#include "watchers.h"
#include <inttypes.h>
#include <stdarg.h>
#include <stdio.h>
#include <stdlib.h>
#include <string.h>
#include <time.h>
#include "clock.h"
#include "network.h"
#include "shelf.h"
#include "words.h"

/* As many as memcached has, each with as much memory for its lines. */
enum { WATCHERS_MOST = 20, LINES_ROOM = 1 << 18, TAKEN_AT_ONCE = 1 << 16, LINE_MOST = 1024 };

struct watcher {
  struct connection *connection; /* NULL: this place is free */
  uint32_t kinds;
  bool is_woken;    /* its thread is to take lines, and knows of it */
  char *lines;      /* a ring */
  size_t put, took; /* bytes, ever */
  uint64_t skipped; /* lines, since the last one that was put */
};

/* The lock comes behind all others. Nobody keeps it for longer than it takes to copy some lines. */
static pthread_mutex_t watching = PTHREAD_MUTEX_INITIALIZER;
static struct watcher watchers[WATCHERS_MOST];
static struct watchers_measure measure;
_Atomic uint32_t all_watched;

struct watchers_measure watchers_measure(void) {
  pthread_mutex_lock(&watching);
  struct watchers_measure told = measure;
  pthread_mutex_unlock(&watching);
  return told;
}

/* ------------------------------------------------------------------------------------------------ who watches */

/* Under the lock. */
static void note_kinds(void) {
  uint32_t kinds = 0;
  for (int i = 0; i < WATCHERS_MOST; i++)
    if (watchers[i].connection != NULL) kinds |= watchers[i].kinds;
  atomic_store(&all_watched, kinds);
}

enum watch_answer watchers_join(struct connection *connection, uint32_t kinds) {
  char *lines = malloc(LINES_ROOM);
  if (lines == NULL) return WATCH_NO_MEMORY;
  pthread_mutex_lock(&watching);
  int i = 0;
  while (i < WATCHERS_MOST && watchers[i].connection != NULL) i++;
  if (i < WATCHERS_MOST) {
    watchers[i] = (struct watcher){ .connection = connection, .kinds = kinds, .lines = lines };
    connection->watcher = &watchers[i];
    measure.watching++;
    note_kinds();
  }
  pthread_mutex_unlock(&watching);
  if (i == WATCHERS_MOST) free(lines);
  return i < WATCHERS_MOST ? WATCH_DONE : WATCH_TOO_MANY;
}

void watchers_leave(struct connection *connection) {
  struct watcher *watcher = connection->watcher;
  if (watcher == NULL) return;
  pthread_mutex_lock(&watching);
  free(watcher->lines);
  *watcher = (struct watcher){ 0 };
  measure.watching--;
  note_kinds();
  pthread_mutex_unlock(&watching);
  connection->watcher = NULL;
}

struct connection *watchers_of(const struct thread *thread, uint32_t *from) {
  struct connection *found = NULL;
  pthread_mutex_lock(&watching);
  while (found == NULL && *from < WATCHERS_MOST) {
    struct connection *connection = watchers[(*from)++].connection;
    if (connection != NULL && connection->thread == thread) found = connection;
  }
  pthread_mutex_unlock(&watching);
  return found;
}

/* -------------------------------------------------------------------------------------------- lines come and go */

/* Under the lock, where there is room for them. */
static void put(struct watcher *watcher, const char *text, size_t bytes) {
  size_t at = watcher->put % LINES_ROOM;
  size_t first = bytes < LINES_ROOM - at ? bytes : LINES_ROOM - at;
  memcpy(watcher->lines + at, text, first);
  memcpy(watcher->lines, text + first, bytes - first);
  watcher->put += bytes;
}

/* Gives a line to who watches, or counts it as skipped. Under the lock. */
static void give(struct watcher *watcher, const char *line, size_t bytes) {
  char skipped[40];
  int more = watcher->skipped > 0 ? snprintf(skipped, sizeof skipped, "skipped=%" PRIu64 "\n", watcher->skipped) : 0;
  if (watcher->put - watcher->took + bytes + (size_t)more > LINES_ROOM) {
    watcher->skipped++;
    measure.skipped++;
    return;
  }
  put(watcher, skipped, (size_t)more);
  put(watcher, line, bytes);
  watcher->skipped = 0;
  measure.sent++;
  if (watcher->is_woken) return;
  watcher->is_woken = true;
  network_wake(watcher->connection->thread);
}

/* Lines have numbers in the order in which they are given. */
static void write_line(enum watched kind, const char *format, ...) __attribute__((format(printf, 2, 3)));
static void write_line(enum watched kind, const char *format, ...) {
  char line[LINE_MOST];
  struct timespec time;
  va_list values;
  clock_gettime(CLOCK_REALTIME, &time);
  pthread_mutex_lock(&watching);
  int begin = snprintf(line, sizeof line, "ts=%lld.%06ld gid=%" PRIu64 " type=", (long long)time.tv_sec,
                       time.tv_nsec / 1000, ++measure.written);
  va_start(values, format);
  int rest = vsnprintf(line + begin, sizeof line - (size_t)begin, format, values);
  va_end(values);
  size_t bytes = (size_t)(begin + rest) < sizeof line ? (size_t)(begin + rest) : sizeof line - 1;
  for (int i = 0; i < WATCHERS_MOST; i++)
    if (watchers[i].connection != NULL && (watchers[i].kinds & kind) != 0) give(&watchers[i], line, bytes);
  pthread_mutex_unlock(&watching);
}

/* What is in the ring is this thread's alone until it says that it took it: so it is copied without the lock. */
bool watchers_take(struct connection *connection) {
  struct watcher *watcher = connection->watcher;
  pthread_mutex_lock(&watching);
  size_t there = watcher->put - watcher->took, at = watcher->took % LINES_ROOM;
  if (there == 0) watcher->is_woken = false;
  pthread_mutex_unlock(&watching);
  size_t bytes = there < TAKEN_AT_ONCE ? there : TAKEN_AT_ONCE;
  if (bytes > LINES_ROOM - at) bytes = LINES_ROOM - at;
  if (bytes == 0) return false;
  connection_put(connection, watcher->lines + at, bytes);
  connection->work -= (int32_t)bytes;
  pthread_mutex_lock(&watching);
  watcher->took += bytes;
  pthread_mutex_unlock(&watching);
  return true;
}

/* ----------------------------------------------------------------------------------------------- what is told */

/* A key as a part of a line, and a 0 behind it. */
struct encoded {
  char text[KEY_MOST * 3 + 1];
};

static struct encoded encode(const char *key, size_t bytes) {
  struct encoded encoded;
  *put_encoded(encoded.text, key, bytes) = 0;
  return encoded;
}

static uint32_t class_of(const struct item *item) { return shelf_at(item->shelf)->class; }

void watchers_write_fetch(const struct thread *thread, const struct key *key, const struct item *item) {
  struct encoded name = encode(key->at, key->bytes);
  write_line(WATCHED_FETCHERS, "item_get key=%s status=%s clsid=%" PRIu32 " cfd=%d size=%" PRIu32 "\n", name.text,
             item != NULL ? "found" : "not_found", item != NULL ? class_of(item) : 0, thread->file,
             item != NULL ? item->bytes : 0);
}

void watchers_tell_end(const struct thread *thread, const struct item *item, const char *command) {
  if (!is_watched(WATCHED_DELETIONS)) return;
  struct encoded name = encode(item->key, item->key_bytes);
  write_line(WATCHED_DELETIONS, "deleted key=%s cmd=%s clsid=%" PRIu32 " cfd=%d size=%" PRIu32 "\n", name.text, command,
             class_of(item), thread->file, item->bytes);
}

void watchers_tell_eviction(const struct item *item, bool is_fetched, uint32_t idle, uint32_t now) {
  if (!is_watched(WATCHED_EVICTIONS)) return;
  struct encoded name = encode(item->key, item->key_bytes);
  uint32_t expires = atomic_load(&item->expires);
  write_line(WATCHED_EVICTIONS,
             "eviction key=%s fetch=%s ttl=%" PRId64 " la=%" PRIu32 " clsid=%" PRIu32 " size=%" PRIu32 "\n", name.text,
             is_fetched ? "yes" : "no", expires != TICK_NEVER ? (int64_t)expires - now : -1, idle, class_of(item),
             item->bytes);
}

void watchers_tell_store(const struct thread *thread, const struct watched_store *store, const char *status) {
  static const char *const COMMANDS[] = { "set", "add", "replace", "cas", "append", "prepend" };
  if (!is_watched(WATCHED_MUTATIONS)) return;
  struct encoded name = encode(store->key.at, store->key.bytes);
  uint32_t ttl = clock_since(thread->now, store->expires);
  write_line(WATCHED_MUTATIONS,
             "item_store key=%s status=%s cmd=%s ttl=%" PRIu32 " clsid=%" PRIu32 " cfd=%d size=%" PRIu32 "\n",
             name.text, status, COMMANDS[store->how], ttl, store->class, thread->file, store->bytes);
}

/* The mark for how many would be worth a round is a part of them, and isn't told. */
void watchers_tell_crawl(uint32_t class, const struct crawled *crawled, uint32_t now) {
  if (!is_watched(WATCHED_SYSTEM)) return;
  uint32_t elapsed = clock_since(crawled->begins, now);
  write_line(WATCHED_SYSTEM,
             "lru_crawler crawler=%" PRIu32 " lru=all low_mark=0 next_reclaims=0 since_run=%" PRIu32
             " next_run=%" PRIu32 " elapsed=%" PRIu32 " examined=%" PRIu64 " reclaimed=%" PRIu64 "\n",
             class, elapsed, crawled->rests, elapsed, crawled->examined, crawled->reclaimed);
}

void watchers_tell_connection(const struct watched_connection *told) {
  write_line(WATCHED_CONNECTIONS, "conn_%s rip=%s rport=%u transport=%s%s%s cfd=%d\n",
             told->reason == NULL ? "new" : "close", told->host, told->port, told->transport,
             told->reason == NULL ? "" : " reason=", told->reason == NULL ? "" : told->reason, told->file);
}
