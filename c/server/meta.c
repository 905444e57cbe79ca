/* The meta protocol: mg, ms, md, ma, me, mn, and their flags. */
#define _GNU_SOURCE
#include <inttypes.h>
#include <stdio.h>
#include <string.h>
#include "base64.h"
#include "clock.h"
#include "keys.h"
#include "prefixes.h"
#include "protocol.h"
#include "shelf.h"
#include "table.h"
#include "values.h"

/* memcached's measures; and room for a line of an answer, in which each flag is told once at most. */
enum { META_WORDS_MOST = 19, OPAQUE_MOST = 32, ANSWER_MOST = 1024, VIVIFY_TRIES = 4 };

#define BAD_TOKEN "CLIENT_ERROR bad token in command line format"

/* What the flags of a command say. */
struct meta {
  bool tells_value;    /* v */
  bool is_quiet;       /* q */
  bool leaves_marks;   /* u */
  bool vivifies;       /* N */
  bool has_expiry;     /* T */
  bool recaches;       /* R */
  bool has_unique;     /* C */
  bool invalidates;    /* I */
  bool has_binary_key; /* b */
  bool ends_by_vivify; /* of N and T, N comes last: it tells when a new item expires */
  char mode;           /* M */
  uint32_t now;
  uint32_t vivify_expires;
  uint32_t expires;
  uint32_t recache_before;
  uint32_t flags; /* F */
  uint64_t unique;
  uint64_t initial; /* J */
  uint64_t by;      /* D */
  const char *error;
};

/* A time, which follows its flag. */
static uint32_t read_time(struct meta *meta, const char *text) {
  int32_t given;
  if (number_i32(text, &given)) return clock_expiry(given, meta->now);
  meta->error = BAD_TOKEN;
  return TICK_NEVER;
}

static uint64_t read_number(struct meta *meta, const char *text, const char *error) {
  uint64_t number;
  if (!number_u64(text, &number)) meta->error = error;
  return number;
}

/* A flag with something behind it. false: there is no such flag. */
static bool read_token(struct meta *meta, const struct word *word) {
  const char *rest = word->at + 1;
  switch (word->at[0]) {
    case 'N': meta->vivifies = meta->ends_by_vivify = true, meta->vivify_expires = read_time(meta, rest); return true;
    case 'T':
      meta->has_expiry = true, meta->expires = read_time(meta, rest);
      meta->ends_by_vivify = false;
      return true;
    case 'R': meta->recaches = true, meta->recache_before = read_time(meta, rest); return true;
    case 'C': meta->has_unique = true, meta->unique = read_number(meta, rest, BAD_TOKEN); return true;
    case 'J': meta->initial = read_number(meta, rest, "CLIENT_ERROR invalid numeric initial value"); return true;
    case 'D': meta->by = read_number(meta, rest, "CLIENT_ERROR invalid numeric delta value"); return true;
    case 'F':
      if (!number_u32(rest, &meta->flags) && meta->error == NULL) meta->error = WRONG_FORMAT;
      return true;
    case 'M':
      meta->mode = word->at[1];
      if (word->bytes != 2) meta->error = "CLIENT_ERROR incorrect length for M token";
      return true;
    default: return false;
  }
}

/* false: there is no such flag. */
static bool read_flag(struct meta *meta, const struct word *word, struct word *key) {
  switch (word->at[0]) {
    case 'b':
      key->bytes = base64_decode(key->at, key->bytes);
      if (key->bytes == 0) meta->error = "CLIENT_ERROR error decoding key";
      meta->has_binary_key = true;
      return true;
    case 'v': meta->tells_value = true; return true;
    case 'q': meta->is_quiet = true; return true;
    case 'u': meta->leaves_marks = true; return true;
    case 'I': meta->invalidates = true; return true;
    case 'O':
    case 'P':
    case 'L':
    case 'k':
    case 's':
    case 't':
    case 'c':
    case 'f':
    case 'h':
    case 'l': return true;
    default: return read_token(meta, word);
  }
}

/* Reads the flags from this word on. The key is decoded, where a flag says so. */
static struct meta read_flags(const struct connection *connection, struct words *words, size_t from) {
  bool seen[127] = { false };
  struct meta meta = { .by = 1, .now = connection->thread->now };
  for (size_t i = from; i < words->count; i++) {
    unsigned char flag = (unsigned char)words->word[i].at[0];
    if (flag >= sizeof seen || seen[flag]) {
      meta.error = "CLIENT_ERROR duplicate flag";
      return meta;
    }
    seen[flag] = true;
    if (!read_flag(&meta, &words->word[i], &words->word[1])) {
      meta.error = "CLIENT_ERROR invalid flag";
      return meta;
    }
  }
  return meta;
}

static bool has_long_opaque(const struct words *words, size_t from) {
  for (size_t i = from; i < words->count; i++)
    if (words->word[i].at[0] == 'O' && words->word[i].bytes > OPAQUE_MOST) return true;
  return false;
}

/* What the commands have in common that is wrong with a line; NULL: nothing. */
static const char *fault_of(const struct words *words, const char *many) {
  if (words->word[1].bytes > KEY_MOST) return WRONG_FORMAT;
  return words->count > META_WORDS_MOST ? many : NULL;
}

/* --------------------------------------------------------------------------------------- what answers have */

static char *put_key(char *at, const char *key, size_t bytes, bool is_binary) {
  memcpy(at, " k", 2);
  at += 2;
  if (!is_binary) return (char *)memcpy(at, key, bytes) + bytes;
  at = base64_encode(at, key, bytes);
  memcpy(at, " b", 2);
  return at + 2;
}

static char *put_word(char *at, const struct word *word) {
  *at++ = ' ';
  return (char *)memcpy(at, word->at, word->bytes) + word->bytes;
}

static char *put_number(char *at, char flag, uint64_t number) {
  *at++ = ' ';
  *at++ = flag;
  return put_u64(at, number);
}

static char *put_left(char *at, uint32_t expires, uint32_t now) {
  if (expires != TICK_NEVER) return put_number(at, 't', (uint32_t)(expires - now));
  return (char *)memcpy(at, " t-1", 4) + 4;
}

/* The flags O and k, which are told whether or not there is an item. */
static char *put_common(char *at, const struct words *words, size_t from, bool is_binary) {
  const struct word *key = &words->word[1];
  for (size_t i = from; i < words->count; i++) {
    if (words->word[i].at[0] == 'O') at = put_word(at, &words->word[i]);
    if (words->word[i].at[0] == 'k') at = put_key(at, key->at, key->bytes, is_binary);
  }
  return at;
}

static void put_line(struct connection *connection, const char *text, char *end) {
  memcpy(end, "\r\n", 2);
  connection_put(connection, text, (size_t)(end + 2 - text));
}

/* --------------------------------------------------------------------------------------------------------- mg */

/* What a get found: an item that is held, under its stripe's lock. */
struct found {
  struct item *item;
  bool is_full;
  bool is_new;
  uint32_t now;
};

/* Stores an empty item under a key that has none. */
static bool vivify(struct thread *thread, const struct key *key, const struct meta *meta) {
  struct item *item = cache_new_item(thread, key, 0, meta->vivify_expires, 0);
  if (item == NULL) return false;
  item->has_binary_key = meta->has_binary_key;
  uint64_t unique;
  return cache_store(thread, item, &(struct store_terms){ .how = STORE_ADD }, &unique) == STORE_DONE;
}

/* The key's item, held; or one that is made, where the flags want that. The stripe's lock is kept. */
static struct found find(struct thread *thread, const struct key *key, const struct meta *meta) {
  struct found found = { .now = thread->now };
  for (int tries = 0;; tries++) {
    struct held held = cache_hold_locked(thread, key, found.now);
    found.item = held.item;
    found.is_full = held.is_full;
    if (held.item != NULL || held.is_full || !meta->vivifies || tries == VIVIFY_TRIES) return found;
    table_unlock(key->hash);
    found.is_new = vivify(thread, key, meta);
  }
}

/* What each flag asks of an item, in the order of the flags: so t behind T or N tells the new time. */
static char *put_found(char *at, const struct words *words, const struct meta *meta, struct thread *thread,
                       const struct found *found, bool *wins) {
  struct item *item = found->item;
  uint32_t expires = found->is_new ? TICK_NEVER : atomic_load(&item->expires);
  for (size_t i = 2; i < words->count; i++) {
    switch (words->word[i].at[0]) {
      case 'T': atomic_store(&item->expires, expires = meta->expires); break;
      case 'N':
        if (found->is_new) atomic_store(&item->expires, expires = meta->vivify_expires);
        *wins |= found->is_new;
        break;
      case 'R': *wins |= !item->has_winner && !found->is_new && expires != 0 && expires < meta->recache_before; break;
      case 's': at = put_number(at, 's', item->bytes); break;
      case 't': at = put_left(at, expires, found->now); break;
      case 'c': at = put_number(at, 'c', atomic_load(&item->unique)); break;
      case 'f': at = put_number(at, 'f', item->flags); break;
      case 'l': at = put_number(at, 'l', clock_since(cache_time(thread, item), found->now)); break;
      case 'h': at = put_number(at, 'h', cache_was_hit(thread, item)); break;
      case 'O': at = put_word(at, &words->word[i]); break;
      case 'k': at = put_key(at, item->key, item->key_bytes, item->has_binary_key); break;
      default: break;
    }
  }
  return at;
}

/* Z: somebody won before; X: it is stale; W: this client won, and is to store it anew. */
static char *put_state(char *at, struct item *item, bool wins) {
  if (item->has_winner) at = (char *)memcpy(at, " Z", 2) + 2;
  if (item->is_stale) at = (char *)memcpy(at, " X", 2) + 2;
  wins |= item->is_stale && !item->has_winner;
  if (!wins) return at;
  item->has_winner = true;
  return (char *)memcpy(at, " W", 2) + 2;
}

static void tell_missed(struct connection *connection, const struct words *words, const struct meta *meta) {
  char text[ANSWER_MOST];
  count(connection_counters(connection), COUNT_cmd_get, 1);
  count(connection_counters(connection), COUNT_get_misses, 1);
  if (meta->is_quiet) return;
  memcpy(text, "EN", 2);
  put_line(connection, text, put_common(text + 2, words, 2, meta->has_binary_key));
}

/* Tells a found item, and hits it. The stripe's lock is let go. */
static void tell_found(struct connection *connection, const struct words *words, const struct meta *meta,
                       const struct found *found) {
  struct thread *thread = connection->thread;
  struct item *item = found->item;
  char text[ANSWER_MOST], *at = text;
  bool wins = false;
  if (meta->tells_value && sending_prepare(connection, item, ANSWER_MOST) == NULL) {
    table_unlock(item->hash);
    cache_release(thread, item);
    connection_say_always(connection, NO_MEMORY_TO_SEND);
    return;
  }
  memcpy(at, meta->tells_value ? "VA " : "HD", 3);
  at = meta->tells_value ? put_u64(at + 3, item->bytes) : at + 2;
  at = put_found(at, words, meta, thread, found, &wins);
  at = put_state(at, item, wins);
  table_unlock(item->hash);
  put_line(connection, text, at);
  if (meta->tells_value) sending_put(connection, item, (size_t)item->bytes + 2);
  connection->work -= meta->tells_value ? (int32_t)item->bytes : 0;
  if (meta->has_expiry) shelf_count_event(item->shelf, thread->number, SHELF_touch_hits);
  if (!meta->has_expiry || !meta->leaves_marks)
    cache_hit(thread, item, found->now,
              meta->has_expiry ? HIT_UNCOUNTED : meta->leaves_marks ? HIT_UNMARKED : HIT_WHOLE);
  cache_release(thread, item);
  count(&thread->counters, meta->has_expiry ? COUNT_cmd_touch : COUNT_cmd_get, 1);
  count(&thread->counters, meta->has_expiry ? COUNT_touch_hits : COUNT_get_hits, 1);
}

void meta_get(struct connection *connection, struct words *words) {
  const char *fault = fault_of(words, "CLIENT_ERROR options flags are too long");
  struct meta meta = fault == NULL ? read_flags(connection, words, 2) : (struct meta){ .error = fault };
  if (meta.error == NULL && has_long_opaque(words, 2)) meta.error = "CLIENT_ERROR opaque token too long";
  if (meta.error != NULL) {
    connection_say_always(connection, meta.error);
    return;
  }
  struct key key = table_key(words->word[1].at, words->word[1].bytes);
  struct found found = find(connection->thread, &key, &meta);
  prefixes_count_get(&key, found.item != NULL && !found.is_new);
  if (found.item != NULL) {
    tell_found(connection, words, &meta, &found);
    return;
  }
  table_unlock(key.hash);
  if (found.is_full) connection_say_always(connection, "SERVER_ERROR refcount overflow during fetch");
  else tell_missed(connection, words, &meta);
}

/* --------------------------------------------------------------------------------------------------------- ms */

/* How an item is stored; -1: there is no such mode. */
static int how_of(const struct meta *meta) {
  switch (meta->mode) {
    case 0:
    case 'S': return meta->has_unique ? STORE_CAS : STORE_SET;
    case 'R': return meta->has_unique ? STORE_CAS : STORE_REPLACE;
    case 'E': return STORE_ADD;
    case 'A': return STORE_APPEND;
    case 'P': return STORE_PREPEND;
    default: return -1;
  }
}

/* What is told once the value is stored: text, but for the number for cas, which isn't known before. */
static void prepare_answer(struct storing *storing, const struct words *words, const struct meta *meta) {
  const struct word *key = &words->word[1];
  char *at = storing->before_unique, *behind = storing->behind_unique;
  storing->tells_unique = false;
  for (size_t i = 3; i < words->count; i++) {
    char **to = storing->tells_unique ? &behind : &at;
    if (words->word[i].at[0] == 'O') *to = put_word(*to, &words->word[i]);
    if (words->word[i].at[0] == 'k') *to = put_key(*to, key->at, key->bytes, meta->has_binary_key);
    if (words->word[i].at[0] == 'c') storing->tells_unique = true;
  }
  *at = *behind = 0;
}

static void tell_stored(struct connection *connection, enum store_answer answer, uint64_t unique) {
  const struct storing *storing = &connection->storing;
  bool is_quiet = connection->is_quiet;
  connection->is_quiet = false;
  if (answer == STORE_NO_MEMORY) {
    count(connection_counters(connection), COUNT_store_no_memory, 1);
    connection_say_always(connection, OUT_OF_MEMORY);
    return;
  }
  if (answer == STORE_DONE && is_quiet) return;
  const char *code = answer == STORE_DONE        ? "HD"
                     : answer == STORE_EXISTS    ? "EX"
                     : answer == STORE_NOT_FOUND ? "NF"
                                                 : "NS";
  connection_put(connection, code, 2);
  connection_put(connection, storing->before_unique, strlen(storing->before_unique));
  if (storing->tells_unique) connection_print(connection, " c%" PRIu64, unique);
  connection_put(connection, storing->behind_unique, strlen(storing->behind_unique));
  connection_put(connection, "\r\n", 2);
}

static void tell_refused(struct connection *connection, enum refusal refusal) {
  connection_say_always(connection, TEXT_REFUSALS[refusal]);
}

void meta_set(struct connection *connection, struct words *words) {
  static const struct speaker SPEAKER = { 2, tell_stored, tell_refused };
  size_t bytes = 0;
  const char *fault = fault_of(words, "CLIENT_ERROR options flags too long");
  if (words->count == 2) fault = WRONG_FORMAT;
  if (fault == NULL && !number_length(words->word[2].at, &bytes)) fault = WRONG_FORMAT;
  if (fault != NULL) {
    connection_say_always(connection, fault);
    return;
  }
  struct meta meta = read_flags(connection, words, 3);
  int how = how_of(&meta);
  if (meta.error == NULL && how < 0) meta.error = "CLIENT_ERROR invalid mode for ms M token";
  if (meta.error == NULL && has_long_opaque(words, 3)) meta.error = "CLIENT_ERROR opaque token too long";
  if (meta.error != NULL) {
    connection_say_always(connection, meta.error);
    value_skip(connection, bytes + 2);
    return;
  }
  struct storing *storing = &connection->storing;
  storing->terms = (struct store_terms){ .how = (enum store_how)how,
                                         .unique = meta.has_unique ? meta.unique : 0,
                                         .may_be_stale = meta.invalidates && how == STORE_CAS };
  storing->speaker = &SPEAKER;
  storing->outdates = true;
  connection->is_quiet = meta.is_quiet;
  prepare_answer(storing, words, &meta);
  struct key key = table_key(words->word[1].at, words->word[1].bytes);
  prefixes_count(&key, PREFIX_SET);
  value_begin(connection, &key, meta.flags, meta.expires, bytes);
  if (connection->state == READS_VALUE) storing->item->has_binary_key = meta.has_binary_key;
}

/* --------------------------------------------------------------------------------------------------------- md */

void meta_delete(struct connection *connection, struct words *words) {
  const char *fault = fault_of(words, "CLIENT_ERROR options flags too long");
  struct meta meta = fault == NULL ? read_flags(connection, words, 2) : (struct meta){ .error = fault };
  if (fault == NULL && meta.error != NULL) meta.error = "CLIENT_ERROR invalid or duplicate flag";
  if (meta.error == NULL && has_long_opaque(words, 2)) meta.error = "CLIENT_ERROR opaque token too long";
  if (meta.error != NULL) {
    connection_say_always(connection, meta.error);
    return;
  }
  struct key key = table_key(words->word[1].at, words->word[1].bytes);
  char text[ANSWER_MOST];
  const struct end_terms terms = { meta.has_unique, meta.unique,  meta.invalidates,
                                   meta.has_expiry, meta.expires, "md" };
  prefixes_count(&key, PREFIX_DELETE);
  enum end_answer answer = key_end(connection->thread, &key, &terms);
  if (answer == END_EXISTS) count(connection_counters(connection), COUNT_delete_misses, 1);
  bool done = answer == END_DONE || answer == END_MADE_STALE;
  if (meta.is_quiet && done) return;
  memcpy(text, done ? "HD" : answer == END_EXISTS ? "EX" : "NF", 2);
  put_line(connection, text, put_common(text + 2, words, 2, meta.has_binary_key));
}

/* --------------------------------------------------------------------------------------------------------- ma */

/* In the order of the flags: so t behind T or N tells the new time. */
static char *put_reckoned(char *at, const struct words *words, const struct meta *meta,
                          const struct reckoned *reckoned) {
  uint32_t expires = reckoned->done.expired_before;
  const struct word *key = &words->word[1];
  for (size_t i = 2; i < words->count; i++) {
    switch (words->word[i].at[0]) {
      case 'c': at = put_number(at, 'c', reckoned->done.unique); break;
      case 't': at = put_left(at, expires, meta->now); break;
      case 'T': expires = meta->expires; break;
      case 'N':
        if (reckoned->is_new) expires = meta->vivify_expires;
        break;
      case 'O': at = put_word(at, &words->word[i]); break;
      case 'k': at = put_key(at, key->at, key->bytes, meta->has_binary_key); break;
      default: break;
    }
  }
  return at;
}

static void tell_reckoned(struct connection *connection, const struct words *words, const struct meta *meta,
                          const struct reckoned *reckoned) {
  char text[ANSWER_MOST], digits[20], *at = text + 2;
  if (reckoned->answer == DELTA_NO_NUMBER) {
    connection_say_always(connection, "CLIENT_ERROR cannot increment or decrement non-numeric value");
  } else if (reckoned->answer == DELTA_NO_MEMORY) {
    connection_say_always(connection, "SERVER_ERROR out of memory");
  } else if (reckoned->answer != DELTA_DONE) {
    memcpy(text, reckoned->answer == DELTA_NOT_FOUND ? "NF" : "EX", 2);
    put_line(connection, text, put_common(at, words, 2, meta->has_binary_key));
  } else if (!meta->is_quiet || reckoned->is_new) {
    size_t bytes = (size_t)(put_u64(digits, reckoned->done.number) - digits);
    memcpy(text, meta->tells_value ? "VA " : "HD", 3);
    if (meta->tells_value) at = put_u64(at + 1, bytes);
    at = put_reckoned(at, words, meta, reckoned);
    if (meta->tells_value) {
      memcpy(at, "\r\n", 2);
      at = (char *)memcpy(at + 2, digits, bytes) + bytes;
    }
    put_line(connection, text, at);
  }
}

void meta_arithmetic(struct connection *connection, struct words *words) {
  const char *fault = fault_of(words, "CLIENT_ERROR options flags too long");
  struct meta meta = fault == NULL ? read_flags(connection, words, 2) : (struct meta){ .error = fault };
  if (fault == NULL && meta.error != NULL) meta.error = "CLIENT_ERROR invalid or duplicate flag";
  bool goes_down = meta.mode == 'D' || meta.mode == '-';
  if (meta.error == NULL && !goes_down && meta.mode != 0 && meta.mode != 'I' && meta.mode != '+')
    meta.error = "CLIENT_ERROR invalid mode for ma M token";
  if (meta.error == NULL && has_long_opaque(words, 2)) meta.error = "CLIENT_ERROR opaque token too long";
  if (meta.error != NULL) {
    connection_say_always(connection, meta.error);
    return;
  }
  struct key key = table_key(words->word[1].at, words->word[1].bytes);
  /* A number of 0 for cas is none, as in memcached; and not so in md and ms. */
  const bool has_unique = meta.has_unique && meta.unique != 0;
  const struct delta delta = { !goes_down, meta.by, has_unique, meta.unique, meta.has_expiry, meta.expires };
  const struct beginning beginning = { meta.vivifies, meta.initial,
                                       meta.ends_by_vivify ? meta.vivify_expires : meta.expires, meta.has_binary_key };
  struct reckoned reckoned = key_reckon(connection->thread, &key, &delta, &beginning);
  connection->work -= (int32_t)reckoned.done.bytes;
  tell_reckoned(connection, words, &meta, &reckoned);
}

/* ----------------------------------------------------------------------------------------------------- me, mn */

void meta_debug(struct connection *connection, struct words *words) {
  struct word *word = words->word;
  bool is_binary = words->count > 2 && word_is(&word[2], "b");
  if (words->count < 2 || word[1].bytes > KEY_MOST) {
    connection_say(connection, WRONG_FORMAT);
    return;
  }
  if (is_binary && (word[1].bytes = base64_decode(word[1].at, word[1].bytes)) == 0) {
    connection_say(connection, WRONG_FORMAT);
    return;
  }
  count(connection_counters(connection), COUNT_cmd_meta, 1);
  struct thread *thread = connection->thread;
  struct key key = table_key(word[1].at, word[1].bytes);
  uint32_t now = thread->now;
  struct held held = cache_hold(thread, &key, now);
  struct item *item = held.item;
  if (item == NULL) {
    connection_say(connection, "EN");
    return;
  }
  char text[ANSWER_MOST], *at = text + 3;
  memcpy(text, "ME ", 3);
  at = item->has_binary_key ? base64_encode(at, item->key, item->key_bytes)
                            : (char *)memcpy(at, item->key, item->key_bytes) + item->key_bytes;
  connection_put(connection, text, (size_t)(at - text));
  uint32_t expires = atomic_load(&item->expires);
  connection_print(connection, " exp=%d la=%" PRIu32 " cas=%" PRIu64 " fetch=%s cls=%" PRIu32 " size=%zu\r\n",
                   expires != 0 ? (int)(now - expires) : -1, clock_since(cache_time(thread, item), now),
                   atomic_load(&item->unique), cache_was_hit(thread, item) ? "yes" : "no", shelf_at(item->shelf)->class,
                   item_reckoned(item->key_bytes, item->flags, item->bytes));
  cache_release(thread, item);
}

void meta_no_operation(struct connection *connection, struct words *words) {
  (void)words;
  connection_say(connection, "MN");
}
