/* A connection: what was received and isn't read yet, what is to be sent, and what it is in the midst of. */
#ifndef CONNECTION_H
#define CONNECTION_H

#include <stdbool.h>
#include <stddef.h>
#include <stdint.h>
#include <string.h>
#include "buffer.h"
#include "cache.h"
#include "sending.h"
#include "thread.h"

enum connection_state {
  READS_LINE,
  READS_VALUE,
  SKIPS_BYTES,  /* of a value that isn't stored */
  CHECKS_KEYS,  /* of a get: whether none of them is too long */
  ANSWERS_KEYS, /* of a get that has more than one turn answers */
  WALKS,        /* over items, classes or connections, for a command about many of them */
  WATCHES       /* is told what the server does, and asks for nothing any more */
};

/* What a connection does before others have their turn, in steps of about a nanosecond: so another one waits for some
 * tenths of a millisecond, whatever is asked. A byte is a step; the others are for a key that is looked up, a chunk
 * that is looked at, an item that is ended, a line that tells of one, and what tells of a class. */
enum { TURN_WORK = 150000, WORK_KEY = 500, WORK_LOOKED = 100, WORK_ENDED = 2500, WORK_TOLD = 1500, WORK_CLASS = 15000 };

/* Why a connection is closed. */
enum closing { CLOSED_BY_FAULT, CLOSED_BY_CLIENT, CLOSED_BY_IDLING, CLOSED_BY_SHUTDOWN };

/* Why a value isn't stored. */
enum refusal { REFUSED_TOO_LARGE, REFUSED_NO_MEMORY, REFUSED_BAD_END };

/* How a protocol tells what became of a value. */
struct speaker {
  size_t behind; /* bytes that come behind a value: \r\n, or none */
  void (*tell_stored)(struct connection *connection, enum store_answer answer, uint64_t unique);
  void (*tell_refused)(struct connection *connection, enum refusal refusal);
};

/* A value that is being received. */
struct storing {
  struct item *item;
  const struct speaker *speaker;
  size_t received;   /* with the \r\n behind it, where that comes */
  size_t room;       /* for so much of it there is memory, with a \r\n behind */
  bool is_under_way; /* its item isn't complete */
  bool waits;        /* for others under way to end: since this tick, or 0 */
  uint32_t waits_since;
  bool outdates;     /* where it isn't stored, what the key has is out of date */
  struct store_terms terms;
  bool tells_unique;       /* of a meta set's answer: whether the number for cas is told, */
  char before_unique[416]; /* what comes before it, */
  char behind_unique[416]; /* and behind it */
};

/* The keys of a get that are still to be answered: in the buffer of what was received. */
struct asked_keys {
  char *begin; /* the first one */
  char *at;
  bool tells_unique;
  bool sets_expiry;
  uint32_t expires;
};

/* A request of the binary protocol whose answer isn't made yet. */
struct asked_binary {
  uint8_t opcode;
  bool is_quiet; /* it wants no answer where all went well */
  uint32_t opaque;
};

/* A walk, of which each turn does a part. By the items of a list that were told last it finds its place again. */
enum { WALK_KEPT = 8 };

struct walk {
  bool (*step)(struct connection *connection); /* a bounded part of it: whether that was the last one */
  const char *end;                             /* what is told then */
  uint64_t classes;                            /* a bit for each that it is about */
  uint32_t number;                             /* of the shelf, the class or the file it has come to */
  uint32_t part;                               /* of that: the thread or the list */
  uint32_t chunk;
  uint32_t left;                    /* so many lines may still be told */
  uint32_t count;                   /* of what was told */
  struct item_name last[WALK_KEPT]; /* by that count, from its beginning again and again */
};

struct connection {
  int file;
  struct thread *thread;
  struct connection *next, **previous; /* in the thread's list */
  struct connection *next_yielded;
  uint32_t awaits; /* which events of its file, beside those of faults */
  enum connection_state state;
  enum closing closing; /* once it ends */
  bool ends;     /* once what is to be sent was sent */
  bool is_quiet; /* the command wants no reply */
  bool is_yielded; /* or parked */
  bool has_begun; /* something was received */
  bool is_binary; /* it speaks the binary protocol */
  struct buffer in;
  struct buffer out;
  struct sending sending;
  struct storing storing;
  struct asked_keys keys;
  struct asked_binary binary;
  struct walk walk;
  struct watcher *watcher; /* NULL: it doesn't watch */
  uint64_t skip;
  size_t sought;           /* of what was received, for the end of the line */
  int32_t work;            /* that is left of its turn */
  _Atomic uint32_t active; /* the tick of what it did last */
  _Atomic int told;        /* what it does, as told of it by its thread: its state, and DOES_.. */
};

/* Beside its state, which another thread may not look at. */
enum { DOES_WAIT = 0, DOES_SEND = 16, DOES_STEPS = 32 };

/* Room for so many bytes at the end of its text; NULL: no memory, and the connection ends. The first one is called
 * where the room isn't there yet. */
char *connection_make_room(struct connection *connection, size_t bytes);
static inline char *connection_room(struct connection *connection, size_t bytes) {
  const struct buffer *out = &connection->out;
  return out->end + bytes <= out->room ? out->at + out->end : connection_make_room(connection, bytes);
}

static inline void connection_put_to(struct connection *connection, const char *end) {
  connection->out.end = (size_t)(end - connection->out.at);
}

/* Up to which place what comes of a value may be received now. */
static inline size_t storing_most(const struct storing *storing) {
  size_t all = storing->item->bytes + storing->speaker->behind;
  return storing->room < all ? storing->room : all;
}

/* The bytes that came and aren't received yet. */
size_t connection_waiting(const struct connection *connection);

/* Gives back the item of a value that isn't stored; or does nothing where there is none. */
void connection_drop_value(struct connection *connection);

static inline void connection_put(struct connection *connection, const char *text, size_t bytes) {
  char *at = connection_room(connection, bytes);
  if (at == NULL) return;
  memcpy(at, text, bytes);
  connection->out.end += bytes;
}

void connection_print(struct connection *connection, const char *format, ...) __attribute__((format(printf, 2, 3)));

/* A line of an answer, unless no reply is wanted; and one that is told all the same. */
void connection_say(struct connection *connection, const char *line);
void connection_say_always(struct connection *connection, const char *line);

/* Begins a walk, behind whose last step this line is told. */
void connection_walk(struct connection *connection, bool (*step)(struct connection *connection), const char *end);

static inline bool sending_is_full(const struct connection *connection) {
  bool may_be = buffer_size(&connection->out) >= TEXT_LEAST || connection->sending.count > 0;
  return may_be && sending_is_full_by(connection);
}

/* Whether nothing is to be sent. */
static inline bool sending_is_empty(const struct connection *connection) {
  return buffer_size(&connection->out) == 0 && connection->sending.count == 0;
}

static inline struct counters *connection_counters(struct connection *connection) {
  return &connection->thread->counters;
}

#endif
