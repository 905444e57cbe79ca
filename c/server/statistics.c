/* What `stats` tells: by memcached's names where it has them, so that its tools read them. */
#define _GNU_SOURCE
#include <inttypes.h>
#include <stdio.h>
#include <stdlib.h>
#include <string.h>
#include <sys/resource.h>
#include <sys/types.h>
#include <unistd.h>
#include "clock.h"
#include "maintainer.h"
#include "memory.h"
#include "network.h"
#include "prefixes.h"
#include "protocol.h"
#include "shelf.h"
#include "sizes.h"
#include "table.h"
#include "watchers.h"

static void tell(struct connection *connection, const char *name, uint64_t number) {
  connection_print(connection, "STAT %s %" PRIu64 "\r\n", name, number);
}

static void tell_word(struct connection *connection, const char *name, const char *word) {
  connection_print(connection, "STAT %s ", name);
  connection_put(connection, word, strlen(word)); /* a list of addresses may be longer than what is printed at once */
  connection_put(connection, "\r\n", 2);
}

static const char *yes_or_no(bool yes) { return yes ? "yes" : "no"; }

/* --------------------------------------------------------------------------------------------------- counters */

#define COUNTER_AS_TEXT(name) #name,
static const char *const COUNTER_NAMES[] = { COUNTERS(COUNTER_AS_TEXT) };
static const char *const EVENT_NAMES[] = { SHELF_EVENTS(COUNTER_AS_TEXT) };

#define KIND_AS_TEXT(name) "bytes_of_" #name,
static const char *const KIND_NAMES[] = { MEMORY_KINDS(KIND_AS_TEXT) };

/* What was counted when `stats reset` was asked for last: so no thread's counters are written by another. */
static _Atomic uint64_t forgotten[COUNTER_COUNT];

static uint64_t counted_ever(enum counter which) {
  uint64_t sum = 0;
  for (size_t i = 0; i < sizeof threads / sizeof *threads; i++) sum += counted(&threads[i].counters, which);
  return sum;
}

static void tell_counters(struct connection *connection, enum counter first, enum counter last) {
  for (enum counter which = first; which <= last; which++)
    tell(connection, COUNTER_NAMES[which], counted_ever(which) - atomic_load(&forgotten[which]));
}

static void reset(void) {
  prefixes_forget();
  for (enum counter which = 0; which < COUNTER_COUNT; which++)
    if (which != COUNT_total_items) atomic_store(&forgotten[which], counted_ever(which));
  for (uint32_t number = 0; number < shelf_count(); number++) {
    struct shelf *shelf = shelf_at(number);
    if (!shelf_was_open(shelf)) continue;
    shelf_lock(shelf);
    shelf->counts = (struct shelf_counts){ 0 };
    for (enum shelf_event event = 0; event < SHELF_EVENT_COUNT; event++)
      shelf->forgotten[event] = shelf_counted(shelf, event);
    shelf->forgotten_moves = shelf_moves(shelf);
    shelf_unlock(shelf);
  }
}

/* ---------------------------------------------------------------------------------------------------- general */

static void add_counts(struct shelf_counts *to, const struct shelf_counts *from) {
  to->evicted += from->evicted;
  to->evicted_nonzero += from->evicted_nonzero;
  if (from->evicted_time > to->evicted_time) to->evicted_time = from->evicted_time;
  to->evicted_unfetched += from->evicted_unfetched;
  to->evicted_active += from->evicted_active;
  to->outofmemory += from->outofmemory;
  to->reclaimed += from->reclaimed;
  to->expired_unfetched += from->expired_unfetched;
  to->crawler_reclaimed += from->crawler_reclaimed;
  to->crawler_items_checked += from->crawler_items_checked;
  to->lrutail_reflocked += from->lrutail_reflocked;
  to->moves_to_cold += from->moves_to_cold;
  to->moves_to_warm += from->moves_to_warm;
  to->moves_within_lru += from->moves_within_lru;
  to->direct_reclaims += from->direct_reclaims;
}

/* What all shelves have together. */
struct general_measure {
  uint64_t requested, dropped;
  struct shelf_counts counts;
};

static uint64_t read_count(const _Atomic uint64_t *count) { return atomic_load_explicit(count, memory_order_relaxed); }

static struct general_measure measure_all(void) {
  struct general_measure all = { 0 };
  for (uint32_t number = 0; number < shelf_count(); number++) {
    struct shelf *shelf = shelf_at(number);
    if (!shelf_was_open(shelf)) continue;
    shelf_lock(shelf);
    all.requested += shelf->requested;
    add_counts(&all.counts, &shelf->counts);
    all.counts.moves_to_warm += shelf_moves(shelf) - shelf->forgotten_moves;
    shelf_unlock(shelf);
    for (uint32_t thread = 0; thread < (uint32_t)settings.threads; thread++) {
      const struct shelf_reader *reader = &shelf->reader[thread];
      all.dropped += read_count(&reader->full) + read_count(&reader->busy) + read_count(&reader->refs);
    }
  }
  return all;
}

static void tell_process(struct connection *connection) {
  struct rusage usage;
  getrusage(RUSAGE_SELF, &usage);
  struct network_measure network = network_measure();
  tell(connection, "pid", (uint64_t)getpid());
  tell(connection, "uptime", clock_now() - TICK_FIRST);
  tell(connection, "time", (uint64_t)clock_unix(clock_now()));
  tell_word(connection, "version", SERVER_VERSION);
  tell_word(connection, "libevent", "none");
  tell(connection, "pointer_size", sizeof(void *) * 8);
  connection_print(connection, "STAT rusage_user %lld.%06ld\r\n", (long long)usage.ru_utime.tv_sec,
                   (long)usage.ru_utime.tv_usec);
  connection_print(connection, "STAT rusage_system %lld.%06ld\r\n", (long long)usage.ru_stime.tv_sec,
                   (long)usage.ru_stime.tv_usec);
  tell(connection, "max_connections", (uint64_t)settings.connections);
  tell(connection, "curr_connections", network.current);
  tell(connection, "total_connections", network.ever);
  tell(connection, "rejected_connections", network.rejected);
  tell(connection, "connection_structures", network.current);
}

/* Names that memcached tells, and that stand for what isn't here. */
static void tell_nothing_of(struct connection *connection, const char *const *names) {
  for (; *names != NULL; names++) tell(connection, *names, 0);
}

static const char *const BUFFERS[] = { "response_obj_oom", "response_obj_count", "response_obj_bytes",
                                       "read_buf_count",   "read_buf_bytes",     "read_buf_bytes_free",
                                       "read_buf_oom",     "reserved_fds",       NULL };
static const char *const PAGES[] = { "slab_reassign_rescues",
                                     "slab_reassign_chunk_rescues",
                                     "slab_reassign_evictions_nomem",
                                     "slab_reassign_inline_reclaim",
                                     "slab_reassign_busy_items",
                                     "slab_reassign_busy_deletes",
                                     "slab_reassign_running",
                                     "slabs_moved",
                                     NULL };
static const char *const NETWORK[] = { "unexpected_napi_ids", "round_robin_fallback", NULL };
static const char *const AUTHENTICATION[] = { "auth_cmds", "auth_errors", NULL };

static void tell_items_of_all(struct connection *connection, uint64_t items) {
  struct general_measure all = measure_all();
  tell(connection, "bytes", all.requested);
  tell(connection, "curr_items", items);
  tell_counters(connection, COUNT_total_items, COUNT_total_items);
  tell(connection, "slab_global_page_pool", 0);
  tell_counters(connection, COUNT_expired_unfetched, COUNT_evicted_unfetched);
  if (settings.maintains) tell_counters(connection, COUNT_evicted_active, COUNT_evicted_active);
  tell_counters(connection, COUNT_evictions, COUNT_lrutail_reflocked);
  if (!settings.maintains) return;
  tell(connection, "moves_to_cold", all.counts.moves_to_cold);
  tell(connection, "moves_to_warm", all.counts.moves_to_warm);
  tell(connection, "moves_within_lru", all.counts.moves_within_lru);
  tell(connection, "direct_reclaims", all.counts.direct_reclaims);
  tell(connection, "lru_bumps_dropped", all.dropped);
}

static void tell_watching(struct connection *connection) {
  struct watchers_measure measure = watchers_measure();
  tell(connection, "log_worker_dropped", 0);
  tell(connection, "log_worker_written", measure.written);
  tell(connection, "log_watcher_skipped", measure.skipped);
  tell(connection, "log_watcher_sent", measure.sent);
  tell(connection, "log_watchers", measure.watching);
}

static void tell_general(struct connection *connection) {
  struct network_measure network = network_measure();
  tell_process(connection);
  tell_nothing_of(connection, BUFFERS);
  tell_counters(connection, COUNT_cmd_get, COUNT_store_no_memory);
  tell_nothing_of(connection, AUTHENTICATION);
  if (settings.idle_most > 0) tell_counters(connection, COUNT_idle_kicks, COUNT_idle_kicks);
  tell_counters(connection, COUNT_bytes_read, COUNT_bytes_written);
  tell(connection, "limit_maxbytes", atomic_load(&settings.memory));
  tell(connection, "accepting_conns", 1);
  tell(connection, "listen_disabled_num", network.without_file);
  tell(connection, "time_in_listen_disabled_us", 0);
  tell(connection, "threads", (uint64_t)settings.threads);
  tell_counters(connection, COUNT_conn_yields, COUNT_conn_yields);
  struct table_measure table = table_measure();
  uint64_t power = 0;
  while (table.buckets >> (power + 1) != 0) power++;
  tell(connection, "hash_power_level", power);
  tell(connection, "hash_bytes", table.buckets * sizeof(void *));
  tell(connection, "hash_is_expanding", 0);
  tell_nothing_of(connection, PAGES);
  if (settings.begins_crawling) {
    tell(connection, "lru_crawler_running", 0);
    tell(connection, "lru_crawler_starts", maintainer_rounds().crawls);
  }
  if (settings.maintains) tell(connection, "lru_maintainer_juggles", maintainer_rounds().juggles);
  tell_counters(connection, COUNT_malloc_fails, COUNT_malloc_fails);
  tell_watching(connection);
  tell_nothing_of(connection, NETWORK);
  tell_items_of_all(connection, table.items);
}

static void tell_lists(struct connection *connection) {
  int ttl = atomic_load(&settings.temporary_ttl);
  tell_word(connection, "lru_maintainer_thread", yes_or_no(settings.maintains));
  tell_word(connection, "lru_segmented", yes_or_no(!atomic_load(&settings.is_flat)));
  tell(connection, "hot_lru_pct", (uint64_t)atomic_load(&settings.hot_percent));
  tell(connection, "warm_lru_pct", (uint64_t)atomic_load(&settings.warm_percent));
  connection_print(connection, "STAT hot_max_factor %.2f\r\n", atomic_load(&settings.hot_factor));
  connection_print(connection, "STAT warm_max_factor %.2f\r\n", atomic_load(&settings.warm_factor));
  tell_word(connection, "temp_lru", yes_or_no(ttl >= 0));
  connection_print(connection, "STAT temporary_ttl %d\r\n", ttl);
}

/* As memcached names them. */
static const char *const PROTOCOLS[] = { "auto-negotiate", "ascii", "binary" };

static void tell_details(struct connection *connection) {
  connection_print(connection, "STAT stat_key_prefix %c\r\n", settings.prefix_delimiter);
  tell_word(connection, "detail_enabled", yes_or_no(atomic_load(&prefixes_are_counted)));
}

static void tell_settings(struct connection *connection) {
  tell(connection, "maxbytes", atomic_load(&settings.memory));
  tell(connection, "maxconns", (uint64_t)settings.connections);
  tell(connection, "tcpport", settings.socket_path != NULL ? 0 : (uint64_t)settings.port);
  tell(connection, "udpport", 0);
  tell_word(connection, "inter", settings.socket_path != NULL ? "NULL" : settings.address);
  tell(connection, "verbosity", (uint64_t)atomic_load(&settings.verbosity));
  tell(connection, "oldest", items_flushed_until());
  tell_word(connection, "evictions", settings.evicts ? "on" : "off");
  tell_word(connection, "domain_socket", settings.socket_path != NULL ? settings.socket_path : "NULL");
  connection_print(connection, "STAT umask %o\r\n", settings.socket_mode);
  tell_word(connection, "shutdown_command", yes_or_no(settings.may_shut_down));
  connection_print(connection, "STAT growth_factor %.2f\r\n", settings.growth_factor);
  tell(connection, "chunk_size", settings.chunk_least);
  tell(connection, "num_threads", (uint64_t)settings.threads);
  tell_details(connection);
  tell(connection, "reqs_per_event", (uint64_t)settings.requests_at_once);
  tell_word(connection, "cas_enabled", yes_or_no(settings.has_unique));
  tell(connection, "tcp_backlog", (uint64_t)settings.backlog);
  tell_word(connection, "binding_protocol", PROTOCOLS[settings.protocol]);
  tell_word(connection, "auth_enabled_sasl", "no");
  tell_word(connection, "auth_enabled_ascii", "no");
  tell(connection, "item_size_max", settings.item_most);
  tell_word(connection, "maxconns_fast", "yes");
  tell_word(connection, "slab_reassign", "no");
  connection_print(connection, "STAT slab_automove_ratio %.2f\r\n", atomic_load(&settings.balance));
  tell(connection, "slab_chunk_max", settings.chunk_most);
  tell(connection, "idle_timeout", (uint64_t)settings.idle_most);
  tell_word(connection, "lru_crawler", yes_or_no(atomic_load(&settings.crawls)));
  tell(connection, "tail_repair_time", 0);
  tell_word(connection, "flush_enabled", yes_or_no(settings.may_flush));
  tell_word(connection, "dump_enabled", yes_or_no(settings.may_dump));
  tell_word(connection, "hash_algorithm", "murmur3");
  tell_lists(connection);
  tell(connection, "read_buf_mem_limit", 0);
  tell_word(connection, "track_sizes", yes_or_no(atomic_load(&sizes_round) != 0));
  tell_word(connection, "ssl_enabled", "no");
  tell_word(connection, "memory_file", "(null)");
}

/* ---------------------------------------------------------------------------------------------- class by class */

/* What a class's shelves have together. */
struct class_measure {
  uint64_t size[BUMP_PLACE_RETIRED + 1]; /* of each list */
  uint64_t age[BUMP_PLACE_COLD + 1];     /* of the last item of each, but TEMP's */
  uint64_t chunks, requested, charged;
  uint64_t of[SHELF_EVENT_COUNT];
  struct shelf_counts counts;
  bool is_open;
};

static void add_ages(struct class_measure *to, struct shelf *shelf, uint32_t now) {
  for (uint32_t place = 0; place <= BUMP_PLACE_COLD; place++) {
    bump_seen last = bump_look(&shelf->book, place, BUMP_NONE);
    uint64_t age = last.answer == BUMP_SEE_SEEN && now > last.time ? now - last.time : 0;
    if (age > to->age[place]) to->age[place] = age;
  }
}

static void add_lists(struct class_measure *to, struct shelf *shelf) {
  for (uint32_t place = 0; place <= BUMP_PLACE_RETIRED; place++) to->size[place] += bump_size(&shelf->book, place);
  add_ages(to, shelf, clock_now());
  to->chunks += shelf->chunks;
}

static void add_shelf(struct class_measure *to, struct shelf *shelf) {
  to->is_open = true;
  shelf_lock(shelf);
  if (shelf_has_book(shelf)) add_lists(to, shelf);
  to->requested += shelf->requested;
  add_counts(&to->counts, &shelf->counts);
  to->counts.moves_to_warm += shelf_moves(shelf) - shelf->forgotten_moves;
  for (enum shelf_event event = 0; event < SHELF_EVENT_COUNT; event++)
    to->of[event] += shelf_counted(shelf, event) - shelf->forgotten[event];
  shelf_unlock(shelf);
  to->charged += atomic_load(&shelf->charged);
}

static struct class_measure measure(uint32_t class) {
  struct class_measure all = { 0 };
  for (uint32_t number = shelf_first(class); number < shelf_first(class + 1); number++)
    if (shelf_was_open(shelf_at(number))) add_shelf(&all, shelf_at(number));
  return all;
}

static uint64_t used(const struct class_measure *of) {
  return of->size[BUMP_PLACE_HOT] + of->size[BUMP_PLACE_WARM] + of->size[BUMP_PLACE_COLD] + of->size[BUMP_PLACE_TEMP] +
         of->size[BUMP_PLACE_DYING];
}

static void tell_of(struct connection *connection, const char *group, uint32_t class, const char *name,
                    uint64_t number) {
  connection_print(connection, "STAT %s%" PRIu32 ":%s %" PRIu64 "\r\n", group, class, name, number);
}

static void tell_items_of(struct connection *connection, uint32_t class, const struct class_measure *of) {
  const struct {
    const char *name;
    uint64_t number;
  } TOLD[] = {
    { "number", used(of) - of->size[BUMP_PLACE_DYING] },
    { "number_hot", of->size[BUMP_PLACE_HOT] },
    { "number_warm", of->size[BUMP_PLACE_WARM] },
    { "number_cold", of->size[BUMP_PLACE_COLD] },
    { "number_temp", of->size[BUMP_PLACE_TEMP] },
    { "age_hot", of->age[BUMP_PLACE_HOT] },
    { "age_warm", of->age[BUMP_PLACE_WARM] },
    { "age", of->age[BUMP_PLACE_COLD] },
    { "mem_requested", of->requested },
    { "evicted", of->counts.evicted },
    { "evicted_nonzero", of->counts.evicted_nonzero },
    { "evicted_time", of->counts.evicted_time },
    { "outofmemory", of->counts.outofmemory },
    { "tailrepairs", 0 },
    { "reclaimed", of->counts.reclaimed },
    { "expired_unfetched", of->counts.expired_unfetched },
    { "evicted_unfetched", of->counts.evicted_unfetched },
    { "evicted_active", of->counts.evicted_active },
    { "crawler_reclaimed", of->counts.crawler_reclaimed },
    { "crawler_items_checked", of->counts.crawler_items_checked },
    { "lrutail_reflocked", of->counts.lrutail_reflocked },
    { "moves_to_cold", of->counts.moves_to_cold },
    { "moves_to_warm", of->counts.moves_to_warm },
    { "moves_within_lru", of->counts.moves_within_lru },
    { "direct_reclaims", of->counts.direct_reclaims },
  };
  for (size_t i = 0; i < sizeof TOLD / sizeof *TOLD; i++)
    tell_of(connection, "items:", class, TOLD[i].name, TOLD[i].number);
  for (enum shelf_event event = SHELF_hits_to_hot; event <= SHELF_hits_to_temp; event++)
    tell_of(connection, "items:", class, EVENT_NAMES[event], of->of[event]);
}

/* The class that a walk over classes comes to next; 0: it is over. */
static uint32_t next_class(struct connection *connection) {
  connection->work -= WORK_CLASS;
  return connection->walk.number < class_count() ? ++connection->walk.number : 0;
}

static bool step_items(struct connection *connection) {
  uint32_t class = next_class(connection);
  if (class == 0) return true;
  struct class_measure all = measure(class);
  if (used(&all) > 0) tell_items_of(connection, class, &all);
  return false;
}

/* There are no pages: a class is told to have as many as its items would fill, which memcached's tool wants. */
enum { MEGABYTE = 1 << 20 };

static void tell_slabs_of(struct connection *connection, uint32_t class, const struct class_measure *of) {
  tell_of(connection, "", class, "chunk_size", class_size(class));
  tell_of(connection, "", class, "chunks_per_page", MEGABYTE / class_size(class));
  tell_of(connection, "", class, "total_pages", (of->charged + MEGABYTE - 1) / MEGABYTE);
  tell_of(connection, "", class, "total_chunks", of->chunks);
  tell_of(connection, "", class, "used_chunks", used(of));
  tell_of(connection, "", class, "free_chunks", of->size[BUMP_PLACE_UNUSED]);
  tell_of(connection, "", class, "free_chunks_end", of->size[BUMP_PLACE_UNUSED]);
  tell_of(connection, "", class, "mem_charged", of->charged);
  uint64_t hits = 0;
  for (enum shelf_event event = SHELF_hits_to_hot; event <= SHELF_hits_to_temp; event++) hits += of->of[event];
  tell_of(connection, "", class, "get_hits", hits);
  for (enum shelf_event event = SHELF_cmd_set; event < SHELF_EVENT_COUNT; event++)
    tell_of(connection, "", class, EVENT_NAMES[event], of->of[event]);
}

static bool step_slabs(struct connection *connection) {
  uint32_t class = next_class(connection);
  if (class == 0) {
    tell(connection, "active_slabs", connection->walk.count);
    tell(connection, "total_malloced", settings.bytes_before + memory_of(MEMORY_items) + memory_of(MEMORY_shelves));
    return true;
  }
  struct class_measure all = measure(class);
  if (all.is_open) tell_slabs_of(connection, class, &all);
  if (used(&all) > 0) connection->walk.count++;
  return false;
}

/* ------------------------------------------------------------------------------------------------ bump's counts */

/* What became of a thread's bumps of a class. */
struct bump_measure {
  uint64_t attempted, accepted, full, busy, refs, applied, moves;
};

static void add_bumps(struct bump_measure *to, struct shelf *shelf, uint32_t thread) {
  const struct shelf_reader *reader = &shelf->reader[thread];
  to->attempted += read_count(&reader->attempted);
  to->accepted += read_count(&reader->accepted);
  to->full += read_count(&reader->full);
  to->busy += read_count(&reader->busy);
  to->refs += read_count(&reader->refs);
  to->applied += read_count(&shelf->lane[thread].applied);
  shelf_lock(shelf);
  to->moves += shelf_moves_of(shelf, thread);
  shelf_unlock(shelf);
}

static void tell_bumps_of_thread(struct connection *connection, uint32_t class, uint32_t thread) {
  struct bump_measure all = { 0 };
  for (uint32_t number = shelf_first(class); number < shelf_first(class + 1); number++)
    if (shelf_was_open(shelf_at(number))) add_bumps(&all, shelf_at(number), thread);
  const struct {
    const char *name;
    uint64_t number;
  } TOLD[] = {
    { "attempted", all.attempted }, { "accepted", all.accepted }, { "dropped_full", all.full },
    { "dropped_busy", all.busy },   { "dropped_refs", all.refs }, { "applied", all.applied },
    { "moves", all.moves },
  };
  for (size_t i = 0; i < sizeof TOLD / sizeof *TOLD; i++)
    connection_print(connection, "STAT bump:%" PRIu32 ":%" PRIu32 ":%s %" PRIu64 "\r\n", class, thread, TOLD[i].name,
                     TOLD[i].number);
}

static void tell_bump_of_class(struct connection *connection, uint32_t class, const struct class_measure *of) {
  static const char *const PLACES[] = { "hot", "warm", "cold", "temp", "dying", "unused", "retired" };
  for (uint32_t place = 0; place <= BUMP_PLACE_RETIRED; place++)
    tell_of(connection, "bump:", class, PLACES[place], of->size[place]);
}

/* What the memory is for. */
static void tell_memory(struct connection *connection) {
  for (enum memory_kind kind = 0; kind < MEMORY_KIND_COUNT; kind++)
    tell(connection, KIND_NAMES[kind], memory_of(kind));
  tell(connection, "bytes_resident", memory_resident());
  tell(connection, "bytes_kept", cache_kept());
  tell(connection, "bytes_used", memory_used());
}

/* A class, and then a thread of this class. */
static bool step_bump(struct connection *connection) {
  struct walk *walk = &connection->walk;
  if (walk->part < walk->left) {
    connection->work -= WORK_CLASS;
    tell_bumps_of_thread(connection, walk->number, walk->part++);
    return false;
  }
  uint32_t class = next_class(connection);
  if (class == 0) {
    tell_counters(connection, COUNT_get_busy, COUNT_calls_together);
    tell(connection, "bytes_under_way", items_under_way());
    tell_memory(connection);
    return true;
  }
  struct class_measure all = measure(class);
  walk->part = 0;
  walk->left = all.is_open ? (uint32_t)settings.threads : 0;
  if (all.is_open) tell_bump_of_class(connection, class, &all);
  return false;
}

/* ------------------------------------------------------------------------------------------------ which it is */

/* stats cachedump CLASS LIMIT */
static void dump(struct connection *connection, const struct words *words) {
  uint32_t class, most;
  if (!settings.may_dump) {
    connection_say(connection, "CLIENT_ERROR stats cachedump not allowed");
  } else if (words->count < 4) {
    connection_say(connection, "CLIENT_ERROR bad command line");
  } else if (!number_u32(words->word[2].at, &class) || !number_u32(words->word[3].at, &most)) {
    connection_say(connection, WRONG_FORMAT);
  } else if (class >= CLASSES_MOST) {
    connection_say(connection, "CLIENT_ERROR Illegal slab id");
  } else {
    walk_listing(connection, class, most);
  }
}

/* stats detail on|off|dump */
static void detail(struct connection *connection, const struct words *words) {
  const struct word *what = &words->word[2];
  if (words->count > 2 && word_is(what, "dump")) {
    connection_walk(connection, prefixes_tell, "END");
  } else if (words->count > 2 && (word_is(what, "on") || word_is(what, "off"))) {
    atomic_store(&prefixes_are_counted, word_is(what, "on"));
    connection_say(connection, "OK");
  } else {
    connection_say(connection, "CLIENT_ERROR usage: stats detail on|off|dump");
  }
}

static void enable_sizes(struct connection *connection) {
  bool counted = sizes_begin();
  tell_word(connection, "sizes_status", counted ? "enabled" : "error");
  if (!counted) tell_word(connection, "sizes_error", "no_memory");
}

static void disable_sizes(struct connection *connection) {
  sizes_end();
  tell_word(connection, "sizes_status", "disabled");
}

/* What is told at once, and then END. false: it is something else. */
static bool is_told(struct connection *connection, const struct words *words) {
  if (words->count == 1) tell_general(connection);
  else if (word_is(&words->word[1], "settings")) tell_settings(connection);
  else if (word_is(&words->word[1], "sizes_enable")) enable_sizes(connection);
  else if (word_is(&words->word[1], "sizes_disable")) disable_sizes(connection);
  else if (word_is(&words->word[1], "sizes") && atomic_load(&sizes_round) == 0)
    tell_word(connection, "sizes_status", "disabled");
  else return false;
  connection_say(connection, "END");
  return true;
}

void statistics(struct connection *connection, struct words *words) {
  const struct word *what = &words->word[1];
  if (is_told(connection, words)) return;
  if (word_is(what, "items")) connection_walk(connection, step_items, "END");
  else if (word_is(what, "slabs")) connection_walk(connection, step_slabs, "END");
  else if (word_is(what, "bump")) connection_walk(connection, step_bump, "END");
  else if (word_is(what, "conns")) connection_walk(connection, network_tell, "END");
  else if (word_is(what, "cachedump")) dump(connection, words);
  else if (word_is(what, "reset")) reset(), connection_say(connection, "RESET");
  else if (word_is(what, "sizes")) connection_walk(connection, sizes_tell, "END");
  else if (word_is(what, "detail")) detail(connection, words);
  else connection_say(connection, "ERROR");
}
