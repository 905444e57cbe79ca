/* Threads: those that serve, the maintainer, and the one that accepts connections. */
#ifndef THREAD_H
#define THREAD_H

#include <pthread.h>
#include <stdalign.h>
#include <stdatomic.h>
#include <stdbool.h>
#include <stdint.h>
#include "counters.h"
#include "settings.h"

struct calls;
struct connection;
struct queues;

/* Blocks of buffers that a thread has for its next ones: for all that it receives from at once, and some more. */
enum { SPARE_BLOCKS_MOST = 14 };

struct thread {
  alignas(64) uint32_t number; /* of its worker in each shelf */
  int events;                  /* an epoll of its connections */
  int wake;                    /* written to when there is something for it, beside its connections */
  pthread_t id;
  pthread_mutex_t lock;           /* of the list, to which the first thread adds */
  struct connection *connections; /* its own */
  struct connection *yielded;     /* those that have more to do, in a ring: the last one */
  struct connection *parked;      /* those whose values wait for others to end, in another ring */
  int file;                       /* of the connection that it serves now */
  uint32_t now;                   /* the tick at which it began to serve those that have something to do */
  _Atomic uint64_t turns;         /* how often it began and ended to serve them: odd while it does */
  char *spare_block[SPARE_BLOCKS_MOST]; /* of buffers: buffer.h */
  int spare_blocks;
  struct calls *receives, *sends; /* of several connections, that are made at once */
  struct queues *queues;          /* by which they are; NULL: one by one */
  struct counters counters;
};

/* Those that serve, then the maintainer, then the first thread. */
extern struct thread threads[THREADS_MOST + 2];
#define MAINTAINER (&threads[THREADS_MOST])
#define FIRST_THREAD (&threads[THREADS_MOST + 1])

/* By the thread itself. So another one knows by two looks that it has ended the call in which it was at the first. */
static inline void thread_turns(struct thread *thread) {
  atomic_store(&thread->turns, atomic_load_explicit(&thread->turns, memory_order_relaxed) + 1);
}

/* Set when the server is to end. */
extern _Atomic bool is_ending;

#endif
