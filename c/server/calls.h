/* The system's three calls that each request makes. The C library's are points at which a thread may be cancelled, and
 * say so before and behind by a locked step, though no thread is ever cancelled here. Sanitizers look into the C
 * library's, and so have those.
 *
 * And several of them at once: a call costs as much to enter the kernel and leave it as all that the server does for a
 * get. So who has several connections to receive from, or to send to, hands all to io_uring by one call, where the
 * kernel has it and lets this process use it. */
#ifndef CALLS_H
#define CALLS_H

#include <stdbool.h>
#include <stdint.h>
#include <sys/epoll.h>
#include <sys/socket.h>
#include <sys/syscall.h>
#include <sys/uio.h>
#include <unistd.h>

#if defined __SANITIZE_ADDRESS__ || defined __SANITIZE_THREAD__ || !defined SYS_recvfrom || !defined SYS_sendto

static inline ssize_t call_receive(int file, void *to, size_t bytes) { return recv(file, to, bytes, 0); }
static inline ssize_t call_send(int file, const void *from, size_t bytes) {
  return send(file, from, bytes, MSG_NOSIGNAL);
}
static inline int call_wait(int events, struct epoll_event *event, int most, int milliseconds) {
  return epoll_wait(events, event, most, milliseconds);
}

#else

static inline ssize_t call_receive(int file, void *to, size_t bytes) {
  return syscall(SYS_recvfrom, file, to, bytes, 0, NULL, NULL);
}
static inline ssize_t call_send(int file, const void *from, size_t bytes) {
  return syscall(SYS_sendto, file, from, bytes, MSG_NOSIGNAL, NULL, 0);
}
static inline int call_wait(int events, struct epoll_event *event, int most, int milliseconds) {
  return (int)syscall(SYS_epoll_pwait, events, event, most, milliseconds, NULL, 0);
}

#endif

struct connection;

/* So many are made at once; and of so many parts is one that sends. */
enum { CALLS_MOST = 12, PARTS_MOST = 33 };

/* What a call receives to, or sends from: one place, or several parts of one message. */
struct call {
  struct connection *connection;
  int file;
  bool sends;
  void *at;
  size_t bytes;
  size_t parts; /* 0: it is that place */
  struct iovec part[PARTS_MOST];
  struct msghdr message; /* of these */
  ssize_t result;        /* bytes; or below 0 an errno */
};

/* Calls that are to be made: all receive, or all send. */
struct calls {
  uint32_t count;
  struct call call[CALLS_MOST];
};

static inline bool calls_are_full(const struct calls *calls) { return calls->count == CALLS_MOST; }
static inline struct call *calls_place(struct calls *calls) { return &calls->call[calls->count]; }
static inline struct call *calls_next(struct calls *calls) { return &calls->call[calls->count++]; }

/* io_uring's queues. NULL: the kernel has none for this process. By the thread that makes the calls. */
struct queues;
struct queues *queues_open(void);
void queues_close(struct queues *queues);

/* Makes all of them: each has its result then, and none waited. How many were made together: all, or without queues
 * none. Where io_uring fails and fails, the rest is made one by one, as all are from then on, by each thread. */
uint32_t calls_make(struct calls *calls, struct queues *queues);

#endif
