/* The text protocol: storing, retrieving, and which command a line is. */
#define _GNU_SOURCE
#include <inttypes.h>
#include <stdio.h>
#include <string.h>
#include "clock.h"
#include "keys.h"
#include "prefixes.h"
#include "protocol.h"
#include "table.h"
#include "values.h"

/* GROUP_MOST: keys of a get that memory is asked for at once. */
enum { VALUE_LINE_MOST = 64 + KEY_MOST, GROUP_MOST = 32 };

bool text_wants_no_reply(struct connection *connection, const struct words *words) {
  connection->is_quiet = words->count > 1 && word_is(&words->word[words->count - 1], "noreply");
  return connection->is_quiet;
}

/* ------------------------------------------------------------------------------------------------- retrieving */

/* VALUE key flags bytes [number for cas], the value, of an item that is held. false: no memory. */
static bool put_item(struct connection *connection, struct item *item, bool tells_unique) {
  char *at = sending_prepare(connection, item, VALUE_LINE_MOST);
  if (at == NULL) return false;
  connection->work -= (int32_t)item->bytes;
  memcpy(at, "VALUE ", 6);
  memcpy(at + 6, item->key, item->key_bytes);
  at += 6 + item->key_bytes;
  *at++ = ' ';
  at = put_u64(at, item->flags);
  *at++ = ' ';
  at = put_u64(at, item->bytes);
  if (tells_unique) {
    *at++ = ' ';
    at = put_u64(at, atomic_load_explicit(&item->unique, memory_order_relaxed));
  }
  memcpy(at, "\r\n", 2);
  connection_put_to(connection, at + 2);
  sending_put(connection, item, (size_t)item->bytes + 2);
  return true;
}

/* false: there is no memory to answer it. */
static bool answer_key(struct connection *connection, const struct key *key, uint32_t now) {
  const struct asked_keys *keys = &connection->keys;
  struct item *item = key_fetch(connection->thread, key, now, keys->sets_expiry ? &keys->expires : NULL);
  prefixes_count_get(key, item != NULL);
  if (item == NULL) return true;
  bool is_put = put_item(connection, item, keys->tells_unique);
  cache_release(connection->thread, item);
  return is_put;
}

/* Cuts off the next keys, at most GROUP_MOST, and answers how many. Memory is asked for what all of them need. */
static int next_keys(char *at, struct key *group) {
  int count = 0;
  for (char *end; count < GROUP_MOST; at = end) {
    at = word_begin(at);
    end = word_end(at);
    if (at == end) break;
    group[count++] = table_key(at, (size_t)(end - at));
  }
  if (count == 1) return count;
  for (int i = 0; i < count; i++) table_fetch_stripe(group[i].hash);
  for (int i = 0; i < count; i++) table_fetch_bucket(group[i].hash);
  for (int i = 0; i < count; i++) table_fetch_item(group[i].hash);
  return count;
}

/* Whether its turn goes on, and more can be made for it to send. */
static bool may_go_on(const struct connection *connection) {
  return !connection->ends && connection->work > 0 && !sending_is_full(connection);
}

void text_answer_keys(struct connection *connection) {
  struct key group[GROUP_MOST];
  uint32_t now = connection->thread->now;
  while (may_go_on(connection)) {
    int count = next_keys(connection->keys.at, group);
    if (count == 0) {
      connection_put(connection, "END\r\n", 5);
      connection->state = READS_LINE;
      return;
    }
    for (int i = 0; i < count && may_go_on(connection); i++) {
      connection->keys.at = (char *)group[i].at + group[i].bytes;
      connection->work -= WORK_KEY;
      if (answer_key(connection, &group[i], now)) continue;
      connection->state = READS_LINE;
      connection_say(connection, NO_MEMORY_TO_SEND);
      return;
    }
  }
}

/* No key is answered where one of them is too long. They are looked at before, as many in a turn as go: a line may have
 * millions. In a short line none can be too long. */
void text_check_keys(struct connection *connection) {
  for (char *at = connection->keys.at, *end; connection->work > 0; at = end) {
    end = at = word_begin(at);
    while (*end != 0 && *end != ' ' && end - at <= KEY_MOST) end++;
    connection->work -= (int32_t)(end - connection->keys.at);
    connection->keys.at = end;
    if (end - at > KEY_MOST) {
      connection->state = READS_LINE;
      connection_say(connection, WRONG_FORMAT);
      return;
    }
    if (at == end) {
      connection->keys.at = connection->keys.begin;
      connection->state = ANSWERS_KEYS;
      text_answer_keys(connection);
      return;
    }
  }
}

/* The line isn't cut into words, since it may have any number of keys. `at` is behind the command's name. */
static void get(struct connection *connection, char *at, const char *line_end, bool tells_unique, bool sets_expiry) {
  connection->keys = (struct asked_keys){ .tells_unique = tells_unique, .sets_expiry = sets_expiry };
  at = word_begin(at);
  if (*at == 0) {
    connection_say(connection, "ERROR");
    return;
  }
  if (sets_expiry) {
    int32_t given;
    char *end = word_end(at);
    char *keys = *end != 0 ? end + 1 : end;
    *end = 0;
    if (!number_i32(at, &given)) {
      connection_say(connection, "CLIENT_ERROR invalid exptime argument");
      return;
    }
    connection->keys.expires = clock_expiry(given, connection->thread->now);
    at = keys;
  }
  connection->keys.begin = connection->keys.at = at;
  bool may_be_long = line_end - at > KEY_MOST;
  connection->state = may_be_long ? CHECKS_KEYS : ANSWERS_KEYS;
  if (may_be_long) text_check_keys(connection);
  else text_answer_keys(connection);
}

/* Whether a line is one of the gets, which is answered then. */
static bool is_get(struct connection *connection, char *line, const char *end) {
  char *rest = word_end(line);
  size_t bytes = (size_t)(rest - line);
  bool has_s = bytes == 4 && line[3] == 's';
  bool is_gat = (bytes == 3 || has_s) && memcmp(line, "gat", 3) == 0;
  bool is_plain = (bytes == 3 || has_s) && memcmp(line, "get", 3) == 0;
  if (!is_plain && !is_gat && !(bytes == 4 && memcmp(line, "bget", 4) == 0)) return false;
  get(connection, rest, end, has_s, is_gat);
  return true;
}

/* ---------------------------------------------------------------------------------------------------- storing */

const char *const TEXT_REFUSALS[] = { TOO_LARGE, OUT_OF_MEMORY, "CLIENT_ERROR bad data chunk" };

static void tell_stored(struct connection *connection, enum store_answer answer, uint64_t unique) {
  (void)unique;
  switch (answer) {
    case STORE_DONE: connection_say(connection, "STORED"); return;
    case STORE_EXISTS: connection_say(connection, "EXISTS"); return;
    case STORE_NOT_FOUND: connection_say(connection, "NOT_FOUND"); return;
    case STORE_NOT: connection_say(connection, "NOT_STORED"); return;
    default:
      count(connection_counters(connection), COUNT_store_no_memory, 1);
      connection_say(connection, OUT_OF_MEMORY);
  }
}

static void tell_refused(struct connection *connection, enum refusal refusal) {
  connection_say(connection, TEXT_REFUSALS[refusal]);
}

static void update(struct connection *connection, struct words *words, enum store_how how) {
  static const struct speaker SPEAKER = { 2, tell_stored, tell_refused };
  uint32_t flags;
  int32_t expires;
  size_t bytes;
  uint64_t unique = 0;
  struct word *word = words->word;
  text_wants_no_reply(connection, words);
  if (word[1].bytes > KEY_MOST || !number_u32(word[2].at, &flags) || !number_i32(word[3].at, &expires) ||
      !number_length(word[4].at, &bytes) || (how == STORE_CAS && !number_u64(word[5].at, &unique))) {
    connection_say(connection, WRONG_FORMAT);
    return;
  }
  connection->storing.terms = (struct store_terms){ .how = how, .unique = unique };
  connection->storing.speaker = &SPEAKER;
  connection->storing.outdates = how == STORE_SET;
  struct key key = table_key(word[1].at, word[1].bytes);
  prefixes_count(&key, PREFIX_SET);
  value_begin(connection, &key, flags, clock_expiry(expires, connection->thread->now), bytes);
}

static void set(struct connection *connection, struct words *words) { update(connection, words, STORE_SET); }
static void add(struct connection *connection, struct words *words) { update(connection, words, STORE_ADD); }
static void replace(struct connection *connection, struct words *words) { update(connection, words, STORE_REPLACE); }
static void append(struct connection *connection, struct words *words) { update(connection, words, STORE_APPEND); }
static void prepend(struct connection *connection, struct words *words) { update(connection, words, STORE_PREPEND); }
static void cas(struct connection *connection, struct words *words) { update(connection, words, STORE_CAS); }

/* ------------------------------------------------------------------------------------ what else is about a key */

static void arithmetic(struct connection *connection, struct words *words, bool goes_up) {
  struct word *word = words->word;
  struct delta delta = { .goes_up = goes_up };
  text_wants_no_reply(connection, words);
  if (word[1].bytes > KEY_MOST) {
    connection_say(connection, WRONG_FORMAT);
    return;
  }
  if (!number_u64(word[2].at, &delta.by)) {
    connection_say(connection, "CLIENT_ERROR invalid numeric delta argument");
    return;
  }
  struct key key = table_key(word[1].at, word[1].bytes);
  char text[24] = { 0 };
  struct reckoned reckoned = key_reckon(connection->thread, &key, &delta, &(struct beginning){ 0 });
  connection->work -= (int32_t)reckoned.done.bytes;
  switch (reckoned.answer) {
    case DELTA_DONE:
      put_u64(text, reckoned.done.number);
      connection_say(connection, text);
      return;
    case DELTA_NOT_FOUND: connection_say(connection, "NOT_FOUND"); return;
    case DELTA_NO_NUMBER:
      connection_say(connection, "CLIENT_ERROR cannot increment or decrement non-numeric value");
      return;
    default: connection_say(connection, "SERVER_ERROR out of memory");
  }
}

static void incr(struct connection *connection, struct words *words) { arithmetic(connection, words, true); }
static void decr(struct connection *connection, struct words *words) { arithmetic(connection, words, false); }

static void delete_key(struct connection *connection, struct words *words) {
  const struct word *word = words->word;
  if (words->count > 2) {
    bool zero = word_is(&word[2], "0"), quiet = text_wants_no_reply(connection, words);
    if (!(words->count == 3 && (zero || quiet)) && !(words->count == 4 && zero && quiet)) {
      connection_say(connection, "CLIENT_ERROR bad command line format.  Usage: delete <key> [noreply]");
      return;
    }
  }
  if (word[1].bytes > KEY_MOST) {
    connection_say(connection, WRONG_FORMAT);
    return;
  }
  struct key key = table_key(word[1].at, word[1].bytes);
  prefixes_count(&key, PREFIX_DELETE);
  enum end_answer answer = key_end(connection->thread, &key, &(struct end_terms){ .command = "delete" });
  connection_say(connection, answer == END_DONE ? "DELETED" : "NOT_FOUND");
}

static void touch(struct connection *connection, struct words *words) {
  const struct word *word = words->word;
  int32_t given;
  text_wants_no_reply(connection, words);
  if (word[1].bytes > KEY_MOST) {
    connection_say(connection, WRONG_FORMAT);
    return;
  }
  if (!number_i32(word[2].at, &given)) {
    connection_say(connection, "CLIENT_ERROR invalid exptime argument");
    return;
  }
  struct key key = table_key(word[1].at, word[1].bytes);
  bool there = key_touch(connection->thread, &key, clock_expiry(given, connection->thread->now));
  connection_say(connection, there ? "TOUCHED" : "NOT_FOUND");
}

/* ------------------------------------------------------------------------------------------------ which it is */

/* With its name, between `least` and `most` words. */
struct command {
  const char *name;
  size_t least, most;
  void (*run)(struct connection *connection, struct words *words);
};

static const struct command COMMANDS[] = {
  { "mg", 2, WORDS_MOST, meta_get },
  { "ms", 2, WORDS_MOST, meta_set },
  { "set", 5, 6, set },
  { "add", 5, 6, add },
  { "cas", 6, 7, cas },
  { "incr", 3, 4, incr },
  { "decr", 3, 4, decr },
  { "delete", 2, 4, delete_key },
  { "touch", 3, 4, touch },
  { "md", 2, WORDS_MOST, meta_delete },
  { "ma", 2, WORDS_MOST, meta_arithmetic },
  { "mn", 1, WORDS_MOST, meta_no_operation },
  { "me", 1, WORDS_MOST, meta_debug },
  { "replace", 5, 6, replace },
  { "append", 5, 6, append },
  { "prepend", 5, 6, prepend },
  { "stats", 1, WORDS_MOST, statistics },
  { "version", 1, WORDS_MOST, administer_version },
  { "flush_all", 1, 3, administer_flush },
  { "verbosity", 2, 3, administer_verbosity },
  { "cache_memlimit", 2, 3, administer_memory },
  { "lru", 1, WORDS_MOST, administer_lists },
  { "lru_crawler", 1, WORDS_MOST, administer_crawler },
  { "slabs", 1, WORDS_MOST, administer_slabs },
  { "watch", 1, WORDS_MOST, administer_watch },
  { "shutdown", 1, WORDS_MOST, administer_shutdown },
  { "debugtime", 2, 2, administer_time },
  { "quit", 1, WORDS_MOST, administer_quit },
};

static void unknown(struct connection *connection, const struct words *words) {
  if (strncmp(words->word[words->count - 1].at, "HTTP/", 5) == 0) connection->ends = true;
  else connection_say(connection, "ERROR");
}

void text_line(struct connection *connection, char *line, const char *end) {
  struct words words;
  if (atomic_load_explicit(&settings.verbosity, memory_order_relaxed) > 1)
    fprintf(stderr, "<%d %s\n", connection->file, line);
  connection->is_quiet = false;
  line = word_begin(line);
  if (is_get(connection, line, end)) return;
  words_cut(&words, line);
  if (words.count == 0 || words.word[0].bytes < 2) {
    connection_say(connection, "ERROR");
    return;
  }
  for (size_t i = 0; i < sizeof COMMANDS / sizeof *COMMANDS; i++) {
    const struct command *command = &COMMANDS[i];
    if (command->name[0] != words.word[0].at[0] || !word_is(&words.word[0], command->name)) continue;
    if (words.count >= command->least && words.count <= command->most) command->run(connection, &words);
    else connection_say(connection, "ERROR");
    return;
  }
  unknown(connection, &words);
}
