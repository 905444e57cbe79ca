/* What a connection is to send: text in its buffer, and between it values that lie apart from their items' rows. These
 * are sent from where they lie, and aren't copied: so their items are kept until they are sent. */
#ifndef SENDING_H
#define SENDING_H

#include <stdbool.h>
#include <stddef.h>
#include <stdint.h>
#include <sys/types.h>
#include "item.h"

struct call;
struct connection;

/* A value that is sent where so much of the connection's text was. */
struct sent_value {
  struct item *item;
  uint32_t number; /* by which its thread keeps it */
  size_t bytes;    /* with the line's end, or without */
  uint64_t at;
};

/* So many values may wait to be sent. */
enum { VALUES_MOST = 16 };

struct sending {
  uint64_t text; /* so many bytes of text were ever sent */
  uint32_t count;
  size_t bytes; /* of the values that are to be sent, */
  size_t sent;  /* beside those of the first one, of which so much was sent */
  struct sent_value value[VALUES_MOST];
  struct sent_value next; /* the one that is prepared; without an item it is copied */
};

/* Whether nothing more is to be made for it to send, before some was sent: of one that has a value to send, or
 * TEXT_LEAST of text. Any other isn't full. */
enum { TEXT_LEAST = 1 << 12 };
bool sending_is_full_by(const struct connection *connection);

/* Room for a line of so many bytes, before the value of an item that this thread holds. NULL: it can't be sent, since
 * others wait to be sent, and take as much memory as they may together; or there is none. Else sending_put comes next,
 * after the line, of so many bytes of the value and the line's end behind it. */
char *sending_prepare(struct connection *connection, struct item *item, size_t line);
void sending_put(struct connection *connection, struct item *item, size_t bytes);

/* Sends what is to be sent, and so much of it as goes in a turn. */
enum sent {
  SENT_ALL,
  SENT_SOME,           /* more can be sent at once: others have their turn before */
  SENT_AS_MUCH_AS_GOES /* until the client read some of it */
};
enum sent sending_go_on(struct connection *connection);

/* The same by a call that is made with others': how it is to be made, and what came of it. */
void sending_prepare_call(struct connection *connection, struct call *call);
void sending_note(struct connection *connection, ssize_t sent);

/* Gives up what isn't sent. */
void sending_drop(struct connection *connection);

#endif
