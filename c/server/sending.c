#define _GNU_SOURCE
#include "sending.h"
#include <errno.h>
#include <string.h>
#include "calls.h"
#include "connection.h"
#include "memory.h"

/* TEXT_MOST: more text isn't made before some was sent; where all connections together have as much as they may, it is
 * TEXT_LEAST. VALUES_BYTES_MOST: the same of values. */
enum { TEXT_MOST = 1 << 15, VALUES_BYTES_MOST = 1 << 18, SENT_AT_ONCE = 1 << 18 };

bool sending_is_full_by(const struct connection *connection) {
  size_t text = buffer_size(&connection->out);
  if (connection->sending.count == VALUES_MOST || connection->sending.bytes >= VALUES_BYTES_MOST) return true;
  return text >= TEXT_LEAST && (text >= TEXT_MOST || !memory_may_take(TEXT_MOST));
}

/* ------------------------------------------------------------------------------------------------------ values */

char *sending_prepare(struct connection *connection, struct item *item, size_t line) {
  struct sent_value *next = &connection->sending.next;
  struct buffer *out = &connection->out;
  size_t bytes = (size_t)item->bytes + 2;
  bool is_kept = item_is_apart(item) && connection->sending.count < VALUES_MOST &&
                 cache_keep(connection->thread, item, &next->number);
  next->item = is_kept ? item : NULL;
  if (buffer_make_room(connection->thread, out, is_kept ? line : line + bytes)) return out->at + out->end;
  if (is_kept) cache_let_go(connection->thread, item, next->number);
  return NULL;
}

void sending_put(struct connection *connection, struct item *item, size_t bytes) {
  struct sending *sending = &connection->sending;
  if (sending->next.item == NULL) {
    connection_put(connection, item->value, bytes);
    return;
  }
  sending->next.bytes = bytes;
  sending->next.at = sending->text + buffer_size(&connection->out);
  sending->value[sending->count] = sending->next;
  sending->bytes += bytes;
  sending->count++;
}

static void let_first_go(struct connection *connection) {
  struct sending *sending = &connection->sending;
  cache_let_go(connection->thread, sending->value[0].item, sending->value[0].number);
  sending->count--;
  memmove(sending->value, sending->value + 1, sending->count * sizeof *sending->value);
  sending->sent = 0;
}

void sending_drop(struct connection *connection) {
  while (connection->sending.count > 0) let_first_go(connection);
  connection->sending.bytes = 0;
  buffer_give_back(connection->thread, &connection->out);
}

/* ----------------------------------------------------------------------------------------------------- sending */

_Static_assert(PARTS_MOST == 2 * VALUES_MOST + 1, "text before each value, and behind the last one");

static void add_part(struct call *call, size_t most, char *at, size_t bytes) {
  if (bytes > most - call->bytes) bytes = most - call->bytes;
  if (bytes == 0) return;
  call->part[call->parts++] = (struct iovec){ at, bytes };
  call->bytes += bytes;
}

/* The parts that are sent by one call: at most so many bytes. */
static void gather(const struct connection *connection, struct call *call, size_t most) {
  const struct sending *sending = &connection->sending;
  char *text = connection->out.at + connection->out.begin;
  uint64_t position = sending->text;
  call->parts = call->bytes = 0;
  for (uint32_t i = 0; i < sending->count; i++) {
    const struct sent_value *value = &sending->value[i];
    size_t before = (size_t)(value->at - position), sent = i == 0 ? sending->sent : 0;
    add_part(call, most, text, before);
    add_part(call, most, value->item->value + sent, value->bytes - sent);
    text += before;
    position = value->at;
  }
  add_part(call, most, text, (size_t)(connection->out.at + connection->out.end - text));
  call->message = (struct msghdr){ .msg_iov = call->part, .msg_iovlen = call->parts };
}

void sending_prepare_call(struct connection *connection, struct call *call) {
  const struct buffer *out = &connection->out;
  size_t text = buffer_size(out);
  call->connection = connection;
  call->file = connection->file;
  call->sends = true;
  call->parts = 0;
  if (connection->sending.count > 0) {
    gather(connection, call, SENT_AT_ONCE);
  } else {
    call->at = out->at + out->begin;
    call->bytes = text < SENT_AT_ONCE ? text : SENT_AT_ONCE;
  }
}

/* So many bytes were sent: of text, and of values where they come. */
static void note_sent(struct connection *connection, size_t bytes) {
  struct sending *sending = &connection->sending;
  struct buffer *out = &connection->out;
  while (bytes > 0) {
    size_t text = sending->count > 0 ? (size_t)(sending->value[0].at - sending->text) : buffer_size(out);
    size_t value = text == 0 ? sending->value[0].bytes - sending->sent : 0;
    size_t part = text > 0 ? text : value;
    if (part > bytes) part = bytes;
    bytes -= part;
    if (text > 0) {
      out->begin += part;
      sending->text += part;
      continue;
    }
    sending->bytes -= part;
    sending->sent += part;
    if (part == value) let_first_go(connection);
  }
}

void sending_note(struct connection *connection, ssize_t sent) {
  if (sent >= 0) {
    note_sent(connection, (size_t)sent);
    count(connection_counters(connection), COUNT_bytes_written, (uint64_t)sent);
  } else if (sent != -EAGAIN && sent != -EWOULDBLOCK && sent != -EINTR) {
    connection->ends = true; /* nobody is there to read it */
    sending_drop(connection);
  }
}

static ssize_t send_parts(const struct connection *connection, size_t most) {
  struct call call;
  gather(connection, &call, most);
  return sendmsg(connection->file, &call.message, MSG_NOSIGNAL);
}

/* So many bytes were sent; or an errno below 0. */
static ssize_t send_some(const struct connection *connection, size_t most) {
  const struct buffer *out = &connection->out;
  size_t text = buffer_size(out) < most ? buffer_size(out) : most;
  bool is_text = connection->sending.count == 0;
  ssize_t sent = is_text ? call_send(connection->file, out->at + out->begin, text) : send_parts(connection, most);
  return sent < 0 ? -errno : sent;
}

enum sent sending_go_on(struct connection *connection) {
  for (size_t left = SENT_AT_ONCE; !sending_is_empty(connection);) {
    if (left == 0) return SENT_SOME;
    ssize_t sent = send_some(connection, left);
    sending_note(connection, sent);
    if (sent == -EAGAIN || sent == -EWOULDBLOCK) return SENT_AS_MUCH_AS_GOES;
    if (sent > 0) left -= (size_t)sent;
  }
  buffer_give_back(connection->thread, &connection->out);
  return SENT_ALL;
}
