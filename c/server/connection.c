#include "connection.h"
#include <stdarg.h>
#include <stdio.h>
#include <stdlib.h>
#include <string.h>
#include <sys/ioctl.h>

char *connection_make_room(struct connection *connection, size_t bytes) {
  struct buffer *out = &connection->out;
  if (buffer_make_room(connection->thread, out, bytes)) return out->at + out->end;
  count(connection_counters(connection), COUNT_malloc_fails, 1);
  connection->ends = true;
  return NULL;
}

size_t connection_waiting(const struct connection *connection) {
  int bytes;
  return ioctl(connection->file, FIONREAD, &bytes) == 0 && bytes > 0 ? (size_t)bytes : 0;
}

void connection_drop_value(struct connection *connection) {
  struct storing *storing = &connection->storing;
  if (storing->item == NULL) return;
  if (storing->is_under_way) item_drop(storing->item);
  else item_free(storing->item);
  storing->item = NULL;
}

void connection_print(struct connection *connection, const char *format, ...) {
  char text[1024];
  va_list values;
  va_start(values, format);
  int bytes = vsnprintf(text, sizeof text, format, values);
  va_end(values);
  if (bytes > 0) connection_put(connection, text, (size_t)bytes < sizeof text ? (size_t)bytes : sizeof text - 1);
}

void connection_say_always(struct connection *connection, const char *line) {
  connection->is_quiet = false;
  connection_put(connection, line, strlen(line));
  connection_put(connection, "\r\n", 2);
}

void connection_say(struct connection *connection, const char *line) {
  if (!connection->is_quiet) connection_say_always(connection, line);
  connection->is_quiet = false;
}

void connection_walk(struct connection *connection, bool (*step)(struct connection *connection), const char *end) {
  connection->walk = (struct walk){ .step = step, .end = end };
  connection->state = WALKS;
}
