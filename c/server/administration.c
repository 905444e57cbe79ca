/* Commands that aren't about one key. */
#define _GNU_SOURCE
#include <signal.h>
#include <stdio.h>
#include <string.h>
#include <unistd.h>
#include "clock.h"
#include "protocol.h"
#include "watchers.h"

enum { VERBOSITY_MOST = 2, MEGABYTES_LEAST = 8, MEGABYTES_MOST = 1000000000 };

void administer_flush_at(int64_t given) {
  uint32_t now = clock_now();
  items_flush(given > 0 ? clock_expiry(given, now) : now, now);
}

void administer_flush(struct connection *connection, struct words *words) {
  int32_t given = 0;
  size_t without_time = text_wants_no_reply(connection, words) ? 2 : 1;
  count(connection_counters(connection), COUNT_cmd_flush, 1);
  if (!settings.may_flush) {
    connection_say(connection, "CLIENT_ERROR flush_all not allowed");
    return;
  }
  if (words->count != without_time && !number_i32(words->word[1].at, &given)) {
    connection_say(connection, "CLIENT_ERROR invalid exptime argument");
    return;
  }
  administer_flush_at(given);
  connection_say(connection, "OK");
}

void administer_version(struct connection *connection, struct words *words) {
  (void)words;
  connection_say(connection, "VERSION " SERVER_VERSION);
}

void administer_verbosity(struct connection *connection, struct words *words) {
  uint32_t level;
  text_wants_no_reply(connection, words);
  if (!number_u32(words->word[1].at, &level)) {
    connection_say(connection, WRONG_FORMAT);
    return;
  }
  atomic_store(&settings.verbosity, level > VERBOSITY_MOST ? VERBOSITY_MOST : (int)level);
  connection_say(connection, "OK");
}

void administer_memory(struct connection *connection, struct words *words) {
  uint32_t megabytes;
  text_wants_no_reply(connection, words);
  if (!number_u32(words->word[1].at, &megabytes)) {
    connection_say(connection, "ERROR");
  } else if (megabytes < MEGABYTES_LEAST) {
    connection_say(connection, "MEMLIMIT_TOO_SMALL cannot set maxbytes to less than 8m");
  } else if (megabytes > MEGABYTES_MOST) {
    connection_say(connection, "MEMLIMIT_ADJUST_FAILED input value is megabytes not bytes");
  } else {
    atomic_store(&settings.memory, (uint64_t)megabytes << 20);
    connection_say(connection, "OK");
  }
}

/* lru tune HOT WARM FACTOR FACTOR */
static const char *tune(const struct word *word) {
  uint32_t hot, warm;
  double hot_factor, warm_factor;
  if (!number_u32(word[2].at, &hot) || !number_u32(word[3].at, &warm) || !number_real(word[4].at, &hot_factor) ||
      !number_real(word[5].at, &warm_factor))
    return "ERROR";
  if (hot > 80 || warm > 80 || hot + warm > 80) return "ERROR hot and warm pcts must not exceed 80";
  if (!(hot_factor > 0) || !(warm_factor > 0)) return "ERROR hot/warm age factors must be greater than 0";
  atomic_store(&settings.hot_percent, (int)hot);
  atomic_store(&settings.warm_percent, (int)warm);
  atomic_store(&settings.hot_factor, hot_factor);
  atomic_store(&settings.warm_factor, warm_factor);
  return "OK";
}

void administer_lists(struct connection *connection, struct words *words) {
  const struct word *word = words->word;
  int32_t seconds;
  const char *answer = "ERROR";
  text_wants_no_reply(connection, words);
  if (words->count >= 6 && word_is(&word[1], "tune")) {
    answer = tune(word);
  } else if (words->count >= 3 && word_is(&word[1], "temp_ttl") && number_i32(word[2].at, &seconds)) {
    atomic_store(&settings.temporary_ttl, seconds < 0 ? -1 : seconds);
    answer = "OK";
  } else if (words->count >= 3 && word_is(&word[1], "mode") && settings.maintains) {
    bool is_flat = word_is(&word[2], "flat");
    if (is_flat || word_is(&word[2], "segmented")) {
      atomic_store(&settings.is_flat, is_flat);
      answer = "OK";
    }
  }
  connection_say(connection, answer);
}

/* ------------------------------------------------------------------------------------- crawling and dumping */

/* Which classes a command names, with commas between, as bits; 0: one that isn't there. */
static uint64_t classes_named(const struct word *word) {
  if (word_is(word, "all") || word_is(word, "hash")) return UINT64_MAX;
  uint64_t classes = 0;
  char *rest = NULL;
  for (char *name = strtok_r(word->at, ",", &rest); name != NULL; name = strtok_r(NULL, ",", &rest)) {
    uint32_t class;
    if (!number_u32(name, &class) || class == 0 || class > class_count()) return 0;
    classes |= UINT64_C(1) << class;
  }
  return classes;
}

/* lru_crawler crawl CLASSES, lru_crawler metadump CLASSES */
static void crawl_or_dump(struct connection *connection, const struct word *word) {
  uint64_t classes = classes_named(&word[2]);
  bool dumps = word_is(&word[1], "metadump");
  if (!atomic_load(&settings.crawls)) {
    connection_say(connection, "CLIENT_ERROR lru crawler disabled");
  } else if (classes == 0) {
    connection_say(connection, "BADCLASS invalid class id");
  } else if (dumps && !settings.may_dump) {
    connection_say(connection, "ERROR metadump not allowed");
  } else if (dumps && !sending_is_empty(connection)) {
    connection_say(connection, "ERROR cannot pipeline other commands before metadump");
  } else if (dumps) {
    walk_dumping(connection, classes);
  } else {
    walk_crawling(connection, classes);
  }
}

void administer_crawler(struct connection *connection, struct words *words) {
  const struct word *word = words->word;
  uint32_t number;
  if (words->count == 3 && (word_is(&word[1], "crawl") || word_is(&word[1], "metadump"))) {
    crawl_or_dump(connection, word);
  } else if (words->count == 3 && (word_is(&word[1], "tocrawl") || word_is(&word[1], "sleep"))) {
    bool is_number = number_u32(word[2].at, &number); /* which has no effect */
    if (is_number && word_is(&word[1], "sleep") && number > 1000000)
      connection_say(connection, "CLIENT_ERROR sleep must be one second or less");
    else connection_say(connection, is_number ? "OK" : WRONG_FORMAT);
  } else if (words->count == 2 && (word_is(&word[1], "enable") || word_is(&word[1], "disable"))) {
    atomic_store(&settings.crawls, word[1].at[0] == 'e');
    connection_say(connection, "OK");
  } else {
    connection_say(connection, "ERROR");
  }
}

/* ----------------------------------------------------------------------------------------- slabs, and watching */

/* Items aren't in pages, so there are none to move: shelves give memory to each other an item at a time. */
void administer_slabs(struct connection *connection, struct words *words) {
  const struct word *word = words->word;
  uint32_t level;
  double ratio;
  if (words->count == 4 && word_is(&word[1], "reassign")) {
    connection_say(connection, "CLIENT_ERROR slab reassignment disabled");
  } else if (words->count >= 3 && word_is(&word[1], "automove")) {
    text_wants_no_reply(connection, words);
    if (words->count >= 4 && word_is(&word[2], "ratio") && number_real(word[3].at, &ratio) && ratio > 0 && ratio <= 1) {
      atomic_store(&settings.balance, ratio);
      connection_say(connection, "OK");
    } else if (word_is(&word[2], "ratio")) {
      connection_say(connection, "ERROR");
    } else if (!number_u32(word[2].at, &level)) {
      connection_say(connection, WRONG_FORMAT);
    } else {
      connection_say(connection, level <= 2 ? "OK" : "ERROR");
    }
  } else {
    connection_say(connection, "ERROR");
  }
}

/* What a word of `watch` names; 0: nothing that is told of here. */
static uint32_t kind_named(const struct word *word) {
  if (word_is(word, "evictions")) return WATCHED_EVICTIONS;
  if (word_is(word, "fetchers")) return WATCHED_FETCHERS;
  if (word_is(word, "mutations")) return WATCHED_MUTATIONS;
  if (word_is(word, "connevents")) return WATCHED_CONNECTIONS;
  if (word_is(word, "rawcmds")) return WATCHED_RAW_COMMANDS;
  if (word_is(word, "sysevents")) return WATCHED_SYSTEM;
  return word_is(word, "deletions") ? WATCHED_DELETIONS : 0;
}

static const char *watch(struct connection *connection, uint32_t kinds) {
  switch (watchers_join(connection, kinds)) {
    case WATCH_DONE: connection->state = WATCHES; return "OK";
    case WATCH_TOO_MANY: return "WATCHER_TOO_MANY log watcher limit reached";
    default: return "WATCHER_FAILED failed to add log watcher";
  }
}

void administer_watch(struct connection *connection, struct words *words) {
  uint32_t kinds = words->count == 1 ? WATCHED_FETCHERS : 0;
  text_wants_no_reply(connection, words);
  if (!settings.may_watch) {
    connection_say(connection, "CLIENT_ERROR watch commands not allowed");
    return;
  }
  bool is_known = buffer_size(&connection->out) == 0; /* else the answers before it would be among its lines */
  for (size_t i = 1; i < words->count; i++) {
    uint32_t kind = kind_named(&words->word[i]);
    is_known &= kind != 0;
    kinds |= kind;
  }
  connection_say(connection, is_known ? watch(connection, kinds) : "ERROR");
}

/* -------------------------------------------------------------------------------------------------- the end */

void administer_shutdown(struct connection *connection, struct words *words) {
  if (!settings.may_shut_down) {
    connection_say(connection, "ERROR: shutdown not enabled");
  } else if (words->count == 1 || (words->count == 2 && word_is(&words->word[1], "graceful"))) {
    connection->ends = true;
    connection->closing = CLOSED_BY_SHUTDOWN;
    kill(getpid(), words->count == 1 ? SIGINT : SIGUSR1); /* the first thread is told, and ends all */
  } else {
    connection_say(connection, "CLIENT_ERROR invalid shutdown mode");
  }
}

void administer_quit(struct connection *connection, struct words *words) {
  (void)words;
  connection->ends = true;
  connection->closing = CLOSED_BY_CLIENT;
}

void administer_time(struct connection *connection, struct words *words) {
  int32_t seconds;
  if (!settings.may_move_time) {
    connection_say(connection, "ERROR");
    return;
  }
  if (number_i32(words->word[1].at, &seconds) && seconds > 0) clock_move(seconds);
  connection->thread->now = clock_now();
  connection_say(connection, "OK");
}
