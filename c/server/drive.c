#define _GNU_SOURCE
#include "drive.h"
#include <errno.h>
#include <stdlib.h>
#include <string.h>
#include "binary.h"
#include "calls.h"
#include "protocol.h"
#include "values.h"
#include "watchers.h"

/* A line may be so long only if it is a get. */
enum {
  RECEIVE_LEAST = 2048,
  SHORT_LINE_MOST = 2048,
  LINE_MOST = 1 << 24,
  RECEIVED_AT_ONCE = 1 << 17,
  BLANKS_MOST = 100
};

/* --------------------------------------------------------------------------------------------------- receiving */

enum received { RECEIVED_ALL, RECEIVED_SOME, RECEIVED_NOTHING, RECEIVED_END };

/* What came: so many bytes, of those that there was room for; or an errno below 0. */
static enum received note_received(struct connection *connection, ssize_t received, size_t room) {
  if (received > 0) {
    connection->work -= (int32_t)received;
    count(connection_counters(connection), COUNT_bytes_read, (uint64_t)received);
    return (size_t)received < room ? RECEIVED_ALL : RECEIVED_SOME;
  }
  if (received == 0) connection->closing = CLOSED_BY_CLIENT;
  bool is_later = received == -EAGAIN || received == -EWOULDBLOCK || received == -EINTR;
  return is_later ? RECEIVED_NOTHING : RECEIVED_END;
}

static enum received receive_to(struct connection *connection, char *at, size_t room, size_t *bytes) {
  if (room > RECEIVED_AT_ONCE) room = RECEIVED_AT_ONCE;
  ssize_t received = call_receive(connection->file, at, room);
  *bytes = received > 0 ? (size_t)received : 0;
  return note_received(connection, received < 0 ? -errno : received, room);
}

/* Room behind what was received. false: no memory, or too long a line. */
static bool make_room(struct connection *connection) {
  struct buffer *in = &connection->in;
  bool is_large = buffer_size(in) == 0 && in->room > BUFFER_SMALL_MOST;
  if (is_large && !buffer_shrink(in)) buffer_give_back(connection->thread, in);
  if (buffer_size(in) == 0) in->begin = in->end = 0;
  return buffer_size(in) <= LINE_MOST && buffer_make_room(connection->thread, in, RECEIVE_LEAST);
}

/* What comes of a value goes to its item at once. */
static enum received receive(struct connection *connection) {
  struct buffer *in = &connection->in;
  struct storing *storing = &connection->storing;
  size_t bytes;
  if (connection->state == READS_VALUE && buffer_size(in) == 0) {
    char *at = storing->item->value + storing->received;
    enum received received = receive_to(connection, at, storing_most(storing) - storing->received, &bytes);
    storing->received += bytes;
    bool is_whole = storing->received == storing->item->bytes + storing->speaker->behind;
    return is_whole ? RECEIVED_ALL : received; /* mostly its client waits for the answer now; else the epoll tells */
  }
  if (!make_room(connection)) return RECEIVED_END;
  enum received received = receive_to(connection, in->at + in->end, in->room - in->end, &bytes);
  in->end += bytes;
  return received;
}

/* ------------------------------------------------------------------------------------------------------ steps */

static bool step_value(struct connection *connection) {
  struct buffer *in = &connection->in;
  struct storing *storing = &connection->storing;
  size_t left = storing_most(storing) - storing->received;
  size_t bytes = buffer_size(in) < left ? buffer_size(in) : left;
  if (bytes > 0) memcpy(storing->item->value + storing->received, in->at + in->begin, bytes);
  storing->received += bytes;
  in->begin += bytes;
  if (bytes < left) return false;
  if (storing->room < (size_t)storing->item->bytes + 2) value_grow(connection);
  else value_end(connection);
  return true;
}

static bool step_skip(struct connection *connection) {
  struct buffer *in = &connection->in;
  size_t bytes = buffer_size(in) < connection->skip ? buffer_size(in) : (size_t)connection->skip;
  in->begin += bytes;
  connection->skip -= bytes;
  if (connection->skip > 0) return false;
  connection->state = READS_LINE;
  return true;
}

/* A line that has no end yet, and goes on too long for any command but a get, is nonsense: as in memcached. */
static void refuse_long_line(struct connection *connection) {
  const char *at = connection->in.at + connection->in.begin;
  size_t bytes = buffer_size(&connection->in), blanks = 0;
  if (bytes <= SHORT_LINE_MOST) return;
  while (blanks < bytes && at[blanks] == ' ') blanks++;
  bool is_get = bytes - blanks > 5 && (memcmp(at + blanks, "get ", 4) == 0 || memcmp(at + blanks, "gets ", 5) == 0);
  if (blanks > BLANKS_MOST || !is_get) connection->ends = true;
}

static bool step_line(struct connection *connection) {
  struct buffer *in = &connection->in;
  char *line = in->at + in->begin;
  if (buffer_size(in) == 0) return false;
  char *end = memchr(line + connection->sought, '\n', buffer_size(in) - connection->sought);
  if (end == NULL) {
    connection->sought = buffer_size(in);
    refuse_long_line(connection);
    return false;
  }
  connection->sought = 0;
  in->begin = (size_t)(end + 1 - in->at);
  if (end - line > 1 && end[-1] == '\r') end--;
  *end = 0;
  text_line(connection, line, end);
  return true;
}

/* A request begins. By a connection's first byte it is told which protocol it speaks, unless the settings say so. */
static bool step_request(struct connection *connection) {
  const struct buffer *in = &connection->in;
  if (buffer_size(in) == 0) return false;
  if (!connection->has_begun) {
    connection->has_begun = true;
    bool is_binary = (unsigned char)in->at[in->begin] == BINARY_REQUEST;
    connection->is_binary = settings.protocol == PROTOCOL_BINARY || (settings.protocol == PROTOCOL_AUTO && is_binary);
  }
  return connection->is_binary ? binary_request(connection) : step_line(connection);
}

/* One step of a walk; and behind the last one, what is told at its end. */
static void step_walk(struct connection *connection) {
  size_t before = buffer_size(&connection->out);
  if (connection->walk.step(connection)) {
    connection->state = READS_LINE;
    connection_say(connection, connection->walk.end);
  }
  if (connection->is_binary) binary_retell(connection, before);
}

/* What comes of who watches is for nobody. */
static bool step_watch(struct connection *connection) {
  connection->in.begin = connection->in.end;
  return watchers_take(connection);
}

/* One step. false: it needs more to be received. */
static bool step(struct connection *connection) {
  switch (connection->state) {
    case READS_VALUE: return step_value(connection);
    case SKIPS_BYTES: return step_skip(connection);
    case CHECKS_KEYS: text_check_keys(connection); return true;
    case ANSWERS_KEYS: text_answer_keys(connection); return true;
    case WALKS: step_walk(connection); return true;
    case WATCHES: return step_watch(connection);
    default: return step_request(connection);
  }
}

/* Whether there is something to step through, or may be. */
static bool has_more(const struct connection *connection) {
  const struct storing *storing = &connection->storing;
  if (connection->state == READS_VALUE && storing->received == storing_most(storing)) return true;
  return buffer_size(&connection->in) > 0 || connection->state >= CHECKS_KEYS;
}

/* Steps on, until more has to be received, or much is to be sent, or others should have their turn. Whatever a step is
 * for, it may evict. */
static bool step_on(struct connection *connection, int *requests) {
  const struct counters *counters = connection_counters(connection);
  while (!connection->ends && !sending_is_full(connection) && *requests > 0 && connection->work > 0) {
    if (!has_more(connection)) return false;
    uint64_t evicted = counted(counters, COUNT_evictions);
    if (connection->state == READS_LINE) --*requests;
    if (!step(connection)) return false;
    connection->work -= (int32_t)(counted(counters, COUNT_evictions) - evicted) * WORK_ENDED;
  }
  return true;
}

/* It waits for its client: what it doesn't need meanwhile goes back. Keys that are to be answered stand in what was
 * received, though it is done with. Whether there is more, of so large a block that others have their turn before. */
static bool give_back(struct connection *connection) {
  struct buffer *in = &connection->in;
  if (connection->state >= CHECKS_KEYS || buffer_size(in) > 0) return false;
  if (in->room > BUFFER_PART && buffer_shrink(in)) return true;
  buffer_give_back(connection->thread, in);
  return false;
}

/* A connection's turn. */
struct turn {
  int requests;           /* so many may still be served in it */
  bool is_shared;         /* its last answers are sent with those of others */
  enum received received; /* what the socket had last */
};

static struct turn begin_turn(struct connection *connection, bool is_shared) {
  connection->work = TURN_WORK;
  connection->thread->file = connection->file;
  return (struct turn){ settings.requests_at_once, is_shared, RECEIVED_SOME };
}

/* Goes on with what was received, and with what is to be sent: until more has to be received, which is DRIVE_RECEIVES,
 * or its turn is over. */
static enum driven go_on(struct connection *connection, struct turn *turn) {
  for (;;) {
    bool could_go_on = step_on(connection, &turn->requests);
    bool is_last = turn->received == RECEIVED_ALL && !could_go_on;
    if (turn->is_shared && is_last && !sending_is_empty(connection)) return DRIVE_ANSWERS;
    enum sent sent = sending_go_on(connection);
    if (sent != SENT_ALL) return sent == SENT_SOME ? DRIVE_YIELDS : DRIVE_SENDS;
    if (connection->ends) return DRIVE_ENDS;
    if (!could_go_on || !has_more(connection)) return DRIVE_RECEIVES;
    if (turn->requests <= 0 || connection->work <= 0) return connection->storing.waits ? DRIVE_PARKS : DRIVE_YIELDS;
  }
}

/* Where less came than there was room for, nothing is left in the socket: the epoll tells when more comes. It tells at
 * once where the turn is over, and more is there. */
static enum driven end_turn(struct connection *connection, struct turn *turn, enum driven driven) {
  while (driven == DRIVE_RECEIVES && turn->received == RECEIVED_SOME && connection->work > 0) {
    turn->received = receive(connection);
    if (turn->received == RECEIVED_END) return DRIVE_ENDS;
    if (turn->received != RECEIVED_NOTHING) driven = go_on(connection, turn);
  }
  bool is_last = driven == DRIVE_RECEIVES || driven == DRIVE_SENDS || driven == DRIVE_ANSWERS;
  if (is_last && give_back(connection) && driven != DRIVE_ANSWERS) return DRIVE_YIELDS;
  return driven;
}

enum driven drive(struct connection *connection) {
  struct turn turn = begin_turn(connection, false);
  enum driven driven = DRIVE_RECEIVES;
  if (has_more(connection) || !sending_is_empty(connection)) driven = go_on(connection, &turn);
  return end_turn(connection, &turn, driven);
}

/* ------------------------------------------------------------------------------------------------ with others */

bool drive_prepare(struct connection *connection, struct call *call) {
  struct buffer *in = &connection->in;
  bool is_due = connection->state == READS_LINE && !connection->is_yielded && buffer_size(in) == 0;
  if (!is_due || !sending_is_empty(connection) || !make_room(connection)) return false;
  call->connection = connection;
  call->file = connection->file;
  call->sends = false;
  call->at = in->at + in->end;
  call->bytes = in->room - in->end < RECEIVED_AT_ONCE ? in->room - in->end : RECEIVED_AT_ONCE;
  return true;
}

enum driven drive_received(struct connection *connection, const struct call *call) {
  struct turn turn = begin_turn(connection, true);
  turn.received = note_received(connection, call->result, call->bytes);
  if (turn.received == RECEIVED_END) return DRIVE_ENDS;
  if (call->result > 0) connection->in.end += (size_t)call->result;
  return end_turn(connection, &turn, turn.received != RECEIVED_NOTHING ? go_on(connection, &turn) : DRIVE_RECEIVES);
}

enum driven drive_sent(struct connection *connection, const struct call *call) {
  struct turn turn = begin_turn(connection, false);
  turn.received = RECEIVED_ALL;
  sending_note(connection, call->result);
  return end_turn(connection, &turn, go_on(connection, &turn));
}
