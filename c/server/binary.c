#define _GNU_SOURCE
#include "binary.h"
#include <endian.h>
#include <stdlib.h>
#include <string.h>
#include "clock.h"
#include "keys.h"
#include "prefixes.h"
#include "protocol.h"
#include "table.h"
#include "values.h"

enum { HEAD_BYTES = 24, BINARY_ANSWER = 0x81, FLAGS_BYTES = 4, LINE_OF_STATS_MOST = 6 + KEY_MOST + 1 };

/* The commands that are told apart in what they share. Their quiet forms have numbers of their own, which answers tell;
 * in the code they are the command that they are the quiet form of. */
enum opcode {
  GET = 0x00,
  SET = 0x01,
  ADD = 0x02,
  REPLACE = 0x03,
  DELETE = 0x04,
  INCREMENT = 0x05,
  DECREMENT = 0x06,
  QUIT = 0x07,
  FLUSH = 0x08,
  GETQ = 0x09,
  NOOP = 0x0a,
  VERSION = 0x0b,
  GETK = 0x0c,
  GETKQ = 0x0d,
  APPEND = 0x0e,
  PREPEND = 0x0f,
  STAT = 0x10,
  SETQ = 0x11,
  ADDQ = 0x12,
  REPLACEQ = 0x13,
  DELETEQ = 0x14,
  INCREMENTQ = 0x15,
  DECREMENTQ = 0x16,
  QUITQ = 0x17,
  FLUSHQ = 0x18,
  APPENDQ = 0x19,
  PREPENDQ = 0x1a,
  TOUCH = 0x1c,
  GAT = 0x1d,
  GATQ = 0x1e,
  SASL_LIST = 0x20,
  SASL_AUTH = 0x21,
  SASL_STEP = 0x22,
  GATK = 0x23,
  GATKQ = 0x24
};

enum status {
  STATUS_DONE = 0x00,
  STATUS_NOT_FOUND = 0x01,
  STATUS_EXISTS = 0x02,
  STATUS_TOO_LARGE = 0x03,
  STATUS_INVALID = 0x04,
  STATUS_NOT_STORED = 0x05,
  STATUS_NO_NUMBER = 0x06,
  STATUS_REFUSED = 0x20,
  STATUS_UNKNOWN = 0x81,
  STATUS_NO_MEMORY = 0x82
};

/* A request whose key is there. */
struct request {
  uint8_t opcode;
  uint8_t extras_bytes;
  uint16_t key_bytes;
  uint32_t body_bytes; /* extras, key and value */
  uint64_t unique;
  const char *extras;
  const char *key;
};

static uint16_t read_16(const char *at) {
  uint16_t number;
  memcpy(&number, at, sizeof number);
  return be16toh(number);
}

static uint32_t read_32(const char *at) {
  uint32_t number;
  memcpy(&number, at, sizeof number);
  return be32toh(number);
}

static uint64_t read_64(const char *at) {
  uint64_t number;
  memcpy(&number, at, sizeof number);
  return be64toh(number);
}

static char *put_16(char *at, uint16_t number) { return (char *)memcpy(at, &(uint16_t){ htobe16(number) }, 2) + 2; }
static char *put_32(char *at, uint32_t number) { return (char *)memcpy(at, &(uint32_t){ htobe32(number) }, 4) + 4; }
static char *put_64(char *at, uint64_t number) { return (char *)memcpy(at, &(uint64_t){ htobe64(number) }, 8) + 8; }

/* It has no sign: what text's -1 is, is a time of Unix far away. */
static uint32_t read_expiry(const struct connection *connection, const char *at) {
  return clock_expiry(read_32(at), connection->thread->now);
}

static uint64_t value_bytes(const struct request *request) {
  return request->body_bytes - request->extras_bytes - request->key_bytes;
}

/* Whether a line of text can't have such a key: then the text protocols tell it as base64. */
static bool has_binary_key(const struct request *request) {
  for (size_t i = 0; i < request->key_bytes; i++)
    if ((unsigned char)request->key[i] <= ' ' || request->key[i] == 0x7f) return true;
  return false;
}

static struct key key_of(const struct request *request) { return table_key(request->key, request->key_bytes); }

/* ---------------------------------------------------------------------------------------------------- answers */

/* The parts of an answer's body, in their order. */
struct body {
  const char *extras;
  size_t extras_bytes;
  const char *key;
  size_t key_bytes;
  const char *value;
  struct item *item; /* whose value is told, in place of that: it is prepared to be sent */
  size_t value_bytes;
};

static char *put_part(char *at, const char *part, size_t bytes) {
  return bytes > 0 ? (char *)memcpy(at, part, bytes) + bytes : at;
}

static void put_answer(struct connection *connection, enum status status, uint64_t unique, const struct body *body) {
  size_t before = body->extras_bytes + body->key_bytes, bytes = before + body->value_bytes;
  char *at = connection_room(connection, HEAD_BYTES + (body->item == NULL ? bytes : before));
  if (at == NULL) return;
  *at++ = (char)BINARY_ANSWER;
  *at++ = (char)connection->binary.opcode;
  at = put_16(at, (uint16_t)body->key_bytes);
  at = put_16(at, (uint16_t)(body->extras_bytes << 8)); /* and a byte for the kind of data, of which there is one */
  at = put_16(at, (uint16_t)status);
  at = put_32(at, (uint32_t)bytes);
  at = put_32(at, connection->binary.opaque);
  at = put_64(at, unique);
  at = put_part(at, body->extras, body->extras_bytes);
  at = put_part(at, body->key, body->key_bytes);
  if (body->item == NULL) at = put_part(at, body->value, body->value_bytes);
  connection_put_to(connection, at);
  if (body->item != NULL) sending_put(connection, body->item, body->value_bytes);
}

/* All went well, and there is no more to tell than that. */
static void tell_done(struct connection *connection, uint64_t unique) {
  if (!connection->binary.is_quiet) put_answer(connection, STATUS_DONE, unique, &(struct body){ 0 });
}

static void tell_text(struct connection *connection, enum status status, const char *text) {
  put_answer(connection, status, 0, &(struct body){ .value = text, .value_bytes = strlen(text) });
}

/* What went wrong, which is told of quiet commands, too. */
static void tell_fault(struct connection *connection, enum status status) {
  switch (status) {
    case STATUS_NOT_FOUND: tell_text(connection, status, "Not found"); return;
    case STATUS_EXISTS: tell_text(connection, status, "Data exists for key."); return;
    case STATUS_TOO_LARGE: tell_text(connection, status, "Too large."); return;
    case STATUS_INVALID: tell_text(connection, status, "Invalid arguments"); return;
    case STATUS_NOT_STORED: tell_text(connection, status, "Not stored."); return;
    case STATUS_NO_NUMBER: tell_text(connection, status, "Non-numeric server-side value for incr or decr"); return;
    case STATUS_REFUSED: tell_text(connection, status, "Auth failure."); return;
    case STATUS_UNKNOWN: tell_text(connection, status, "Unknown command"); return;
    default: tell_text(connection, status, "Out of memory");
  }
}

/* ------------------------------------------------------------------------------------------- reading, changing */

static bool tells_key(uint8_t opcode) {
  return opcode == GETK || opcode == GETKQ || opcode == GATK || opcode == GATKQ;
}

static void tell_missed(struct connection *connection, const struct request *request) {
  if (connection->binary.is_quiet) return;
  if (!tells_key(request->opcode)) tell_fault(connection, STATUS_NOT_FOUND);
  else
    put_answer(connection, STATUS_NOT_FOUND, 0,
               &(struct body){ .key = request->key, .key_bytes = request->key_bytes });
}

/* A hit is told of quiet gets, too. */
static void get(struct connection *connection, const struct request *request) {
  bool has_expiry = request->extras_bytes > 0;
  uint32_t expires = has_expiry ? read_expiry(connection, request->extras) : TICK_NEVER;
  struct key key = key_of(request);
  struct item *item = key_fetch(connection->thread, &key, connection->thread->now, has_expiry ? &expires : NULL);
  prefixes_count_get(&key, item != NULL);
  connection->work -= WORK_KEY;
  if (item == NULL) {
    tell_missed(connection, request);
    return;
  }
  if (request->opcode != TOUCH && sending_prepare(connection, item, HEAD_BYTES + FLAGS_BYTES + KEY_MOST) == NULL) {
    cache_release(connection->thread, item);
    tell_fault(connection, STATUS_NO_MEMORY);
    return;
  }
  char flags[FLAGS_BYTES];
  put_32(flags, item->flags);
  struct body body = { .extras = flags, .extras_bytes = sizeof flags };
  if (tells_key(request->opcode)) body.key = item->key, body.key_bytes = item->key_bytes;
  if (request->opcode != TOUCH) body.item = item, body.value_bytes = item->bytes;
  put_answer(connection, STATUS_DONE, atomic_load_explicit(&item->unique, memory_order_relaxed), &body);
  connection->work -= (int32_t)body.value_bytes;
  cache_release(connection->thread, item);
}

static void delete_key(struct connection *connection, const struct request *request) {
  const struct end_terms terms = { .has_unique = request->unique != 0, .unique = request->unique, .command = "delete" };
  struct key key = key_of(request);
  prefixes_count(&key, PREFIX_DELETE);
  enum end_answer answer = key_end(connection->thread, &key, &terms);
  if (answer == END_DONE) tell_done(connection, 0);
  else tell_fault(connection, answer == END_EXISTS ? STATUS_EXISTS : STATUS_NOT_FOUND);
}

static void tell_number(struct connection *connection, const struct delta_done *done) {
  char number[8];
  put_64(number, done->number);
  if (!connection->binary.is_quiet)
    put_answer(connection, STATUS_DONE, done->unique, &(struct body){ .value = number, .value_bytes = sizeof number });
}

/* Extras: by how much; the number to begin with; when that expires, and if that is all ones, none begins. */
static void arithmetic(struct connection *connection, const struct request *request) {
  const struct delta delta = { .goes_up = request->opcode == INCREMENT || request->opcode == INCREMENTQ,
                               .by = read_64(request->extras),
                               .has_unique = request->unique != 0,
                               .unique = request->unique };
  const struct beginning beginning = { .begins = read_32(request->extras + 16) != UINT32_MAX,
                                       .number = read_64(request->extras + 8),
                                       .expires = read_expiry(connection, request->extras + 16),
                                       .has_binary_key = has_binary_key(request) };
  struct key key = key_of(request);
  struct reckoned reckoned = key_reckon(connection->thread, &key, &delta, &beginning);
  connection->work -= (int32_t)reckoned.done.bytes;
  switch (reckoned.answer) {
    case DELTA_DONE: tell_number(connection, &reckoned.done); return;
    case DELTA_NOT_FOUND: tell_fault(connection, STATUS_NOT_FOUND); return;
    case DELTA_EXISTS: tell_fault(connection, STATUS_EXISTS); return;
    case DELTA_NO_NUMBER: tell_fault(connection, STATUS_NO_NUMBER); return;
    default: tell_text(connection, STATUS_NO_MEMORY, "Out of memory incrementing value");
  }
}

/* ---------------------------------------------------------------------------------------------------- storing */

/* Why an add or a replace stored nothing, the status tells. */
static void tell_stored(struct connection *connection, enum store_answer answer, uint64_t unique) {
  enum store_how how = connection->storing.terms.how;
  switch (answer) {
    case STORE_DONE: tell_done(connection, unique); return;
    case STORE_EXISTS: tell_fault(connection, STATUS_EXISTS); return;
    case STORE_NOT_FOUND: tell_fault(connection, STATUS_NOT_FOUND); return;
    case STORE_NO_MEMORY:
      count(connection_counters(connection), COUNT_store_no_memory, 1);
      tell_fault(connection, STATUS_NO_MEMORY);
      return;
    default:
      tell_fault(connection, how == STORE_ADD       ? STATUS_EXISTS
                             : how == STORE_REPLACE ? STATUS_NOT_FOUND
                                                    : STATUS_NOT_STORED);
  }
}

static void tell_refused(struct connection *connection, enum refusal refusal) {
  if (refusal == REFUSED_TOO_LARGE) tell_fault(connection, STATUS_TOO_LARGE);
  else tell_text(connection, STATUS_NO_MEMORY, "Out of memory allocating item");
}

static enum store_how how_of(const struct request *request) {
  switch (request->opcode) {
    case APPEND:
    case APPENDQ: return STORE_APPEND;
    case PREPEND:
    case PREPENDQ: return STORE_PREPEND;
    default: break;
  }
  if (request->unique != 0) return STORE_CAS;
  if (request->opcode == ADD || request->opcode == ADDQ) return STORE_ADD;
  return request->opcode == SET || request->opcode == SETQ ? STORE_SET : STORE_REPLACE;
}

/* Extras: flags, and when it expires; those that join values have none. */
static void store(struct connection *connection, const struct request *request) {
  static const struct speaker SPEAKER = { 0, tell_stored, tell_refused };
  struct storing *storing = &connection->storing;
  bool has_extras = request->extras_bytes > 0;
  uint32_t flags = has_extras ? read_32(request->extras) : 0;
  uint32_t expires = has_extras ? read_expiry(connection, request->extras + 4) : TICK_NEVER;
  storing->terms = (struct store_terms){ .how = how_of(request), .unique = request->unique };
  storing->speaker = &SPEAKER;
  storing->outdates = request->opcode == SET || request->opcode == SETQ;
  struct key key = key_of(request);
  prefixes_count(&key, PREFIX_SET);
  value_begin(connection, &key, flags, expires, value_bytes(request));
  if (connection->state == READS_VALUE) storing->item->has_binary_key = has_binary_key(request);
}

/* ------------------------------------------------------------------------------------------ what isn't of keys */

static void no_operation(struct connection *connection, const struct request *request) {
  (void)request;
  tell_done(connection, 0);
}

static void version(struct connection *connection, const struct request *request) {
  (void)request;
  tell_text(connection, STATUS_DONE, SERVER_VERSION);
}

static void quit(struct connection *connection, const struct request *request) {
  (void)request;
  tell_done(connection, 0);
  connection->ends = true;
  connection->closing = CLOSED_BY_CLIENT;
}

static void flush(struct connection *connection, const struct request *request) {
  int64_t given = request->extras_bytes > 0 ? read_32(request->extras) : 0;
  if (!settings.may_flush) {
    tell_fault(connection, STATUS_REFUSED);
    return;
  }
  count(connection_counters(connection), COUNT_cmd_flush, 1);
  administer_flush_at(given);
  tell_done(connection, 0);
}

static bool is_line(const char *line, size_t bytes, const char *text) {
  return bytes == strlen(text) && memcmp(line, text, bytes) == 0;
}

/* A line of `stats` as an answer of its own; and behind the last one an empty one. What `stats detail` tells of a
 * prefix is told as it is in text, by a key that memcached has for all of them together. */
static void retell_line(struct connection *connection, const char *line, size_t bytes) {
  const char *name = line + 5, *end = line + bytes;
  if (bytes > 5 && memcmp(line, "STAT ", 5) == 0) {
    const char *blank = memchr(name, ' ', (size_t)(end - name)), *value = blank != NULL ? blank + 1 : end;
    const char *behind = blank != NULL ? blank : end;
    put_answer(connection, STATUS_DONE, 0,
               &(struct body){ .key = name,
                               .key_bytes = (size_t)(behind - name),
                               .value = value,
                               .value_bytes = (size_t)(end - value) });
  } else if (bytes > 7 && memcmp(line, "PREFIX ", 7) == 0) {
    put_answer(connection, STATUS_DONE, 0,
               &(struct body){ .key = "detailed", .key_bytes = 8, .value = line, .value_bytes = bytes + 2 });
  } else if (is_line(line, bytes, "END") || is_line(line, bytes, "RESET") || is_line(line, bytes, "OK")) {
    put_answer(connection, STATUS_DONE, 0, &(struct body){ 0 });
  } else {
    tell_fault(connection, STATUS_NOT_FOUND);
  }
}

void binary_retell(struct connection *connection, size_t before) {
  struct buffer *out = &connection->out;
  size_t bytes = buffer_size(out) - before;
  if (connection->ends || bytes == 0) return;
  char *lines = malloc(bytes);
  if (lines == NULL) {
    count(connection_counters(connection), COUNT_malloc_fails, 1);
    connection->ends = true;
    return;
  }
  memcpy(lines, out->at + out->end - bytes, bytes);
  out->end -= bytes;
  for (const char *line = lines, *end; (end = memchr(line, '\n', (size_t)(lines + bytes - line))) != NULL;) {
    retell_line(connection, line, (size_t)(end - line) - 1);
    line = end + 1;
    if (line == lines + bytes) break;
  }
  free(lines);
}

/* What is told of many connections or items isn't told here, as it isn't by memcached. */
static void stat(struct connection *connection, const struct request *request) {
  char line[LINE_OF_STATS_MOST + 1] = "stats ";
  struct words words;
  size_t before = buffer_size(&connection->out);
  memcpy(line + 6, request->key, request->key_bytes);
  words_cut(&words, line);
  const struct word *what = &words.word[1];
  connection->is_quiet = false;
  if (words.count > 1 && (word_is(what, "conns") || word_is(what, "cachedump"))) {
    tell_fault(connection, STATUS_NOT_FOUND);
    return;
  }
  statistics(connection, &words);
  binary_retell(connection, before);
}

/* The rest of it is skipped. */
static void unknown(struct connection *connection, const struct request *request) {
  tell_fault(connection, STATUS_UNKNOWN);
  value_skip(connection, value_bytes(request));
}

/* ------------------------------------------------------------------------------------------------ which it is */

/* Whether a request has a key. */
enum keyed { KEYED_NOT, KEYED_MAY, KEYED_MUST };

struct command {
  void (*run)(struct connection *connection, const struct request *request);
  uint8_t extras_bytes;
  bool extras_may_lack;
  enum keyed keyed;
  bool has_value;
  bool is_quiet;
};

static const struct command COMMANDS[] = {
  [GET] = { get, 0, false, KEYED_MUST, false, false },
  [GETQ] = { get, 0, false, KEYED_MUST, false, true },
  [GETK] = { get, 0, false, KEYED_MUST, false, false },
  [GETKQ] = { get, 0, false, KEYED_MUST, false, true },
  [TOUCH] = { get, 4, false, KEYED_MUST, false, false },
  [GAT] = { get, 4, false, KEYED_MUST, false, false },
  [GATQ] = { get, 4, false, KEYED_MUST, false, true },
  [GATK] = { get, 4, false, KEYED_MUST, false, false },
  [GATKQ] = { get, 4, false, KEYED_MUST, false, true },
  [SET] = { store, 8, false, KEYED_MUST, true, false },
  [SETQ] = { store, 8, false, KEYED_MUST, true, true },
  [ADD] = { store, 8, false, KEYED_MUST, true, false },
  [ADDQ] = { store, 8, false, KEYED_MUST, true, true },
  [REPLACE] = { store, 8, false, KEYED_MUST, true, false },
  [REPLACEQ] = { store, 8, false, KEYED_MUST, true, true },
  [APPEND] = { store, 0, false, KEYED_MUST, true, false },
  [APPENDQ] = { store, 0, false, KEYED_MUST, true, true },
  [PREPEND] = { store, 0, false, KEYED_MUST, true, false },
  [PREPENDQ] = { store, 0, false, KEYED_MUST, true, true },
  [DELETE] = { delete_key, 0, false, KEYED_MUST, false, false },
  [DELETEQ] = { delete_key, 0, false, KEYED_MUST, false, true },
  [INCREMENT] = { arithmetic, 20, false, KEYED_MUST, false, false },
  [INCREMENTQ] = { arithmetic, 20, false, KEYED_MUST, false, true },
  [DECREMENT] = { arithmetic, 20, false, KEYED_MUST, false, false },
  [DECREMENTQ] = { arithmetic, 20, false, KEYED_MUST, false, true },
  [FLUSH] = { flush, 4, true, KEYED_NOT, false, false },
  [FLUSHQ] = { flush, 4, true, KEYED_NOT, false, true },
  [NOOP] = { no_operation, 0, false, KEYED_NOT, false, false },
  [VERSION] = { version, 0, false, KEYED_NOT, false, false },
  [STAT] = { stat, 0, false, KEYED_MAY, false, false },
  [QUIT] = { quit, 0, false, KEYED_NOT, false, false },
  [QUITQ] = { quit, 0, false, KEYED_NOT, false, true },
  [SASL_LIST] = { unknown, 0, false, KEYED_NOT, false, false },
  [SASL_AUTH] = { unknown, 0, false, KEYED_MUST, true, false },
  [SASL_STEP] = { unknown, 0, false, KEYED_MUST, true, false },
};

/* NULL: there is no such command. */
static const struct command *command_of(uint8_t opcode) {
  if (opcode >= sizeof COMMANDS / sizeof *COMMANDS || COMMANDS[opcode].run == NULL) return NULL;
  return &COMMANDS[opcode];
}

/* Whether a request has the parts that its command has. */
static bool is_well_formed(const struct command *command, const struct request *request) {
  if (request->extras_bytes != command->extras_bytes && !(command->extras_may_lack && request->extras_bytes == 0))
    return false;
  if (command->keyed != KEYED_MAY && (request->key_bytes != 0) != (command->keyed == KEYED_MUST)) return false;
  return command->has_value || value_bytes(request) == 0;
}

static void run(struct connection *connection, const struct request *request) {
  const struct command *command = command_of(request->opcode);
  connection->binary.is_quiet = command != NULL && command->is_quiet;
  if (request->body_bytes < (uint32_t)request->extras_bytes + request->key_bytes) {
    tell_fault(connection, STATUS_UNKNOWN);
    connection->ends = true;
  } else if (request->key_bytes > KEY_MOST || (command != NULL && !is_well_formed(command, request))) {
    tell_fault(connection, STATUS_INVALID);
    connection->ends = true;
  } else if (command == NULL) {
    unknown(connection, request);
  } else {
    command->run(connection, request);
  }
}

bool binary_request(struct connection *connection) {
  struct buffer *in = &connection->in;
  const char *head = in->at + in->begin;
  if ((unsigned char)*head != BINARY_REQUEST) {
    connection->ends = true; /* where the next request begins isn't known */
    return false;
  }
  if (buffer_size(in) < HEAD_BYTES) return false;
  struct request request = { .opcode = (uint8_t)head[1],
                             .key_bytes = read_16(head + 2),
                             .extras_bytes = (uint8_t)head[4],
                             .body_bytes = read_32(head + 8),
                             .unique = read_64(head + 16),
                             .extras = head + HEAD_BYTES };
  size_t bytes = HEAD_BYTES + (size_t)request.extras_bytes + request.key_bytes;
  if (buffer_size(in) < bytes) return false;
  request.key = request.extras + request.extras_bytes;
  connection->binary.opcode = request.opcode;
  connection->binary.opaque = read_32(head + 12);
  in->begin += bytes;
  run(connection, &request);
  return true;
}
