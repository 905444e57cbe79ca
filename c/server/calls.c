#define _GNU_SOURCE
#include "calls.h"
#include <errno.h>
#include <poll.h>
#include <stdatomic.h>
#include <stdio.h>
#include <stdlib.h>
#include <string.h>
#include <sys/mman.h>

static ssize_t answer(ssize_t result) { return result < 0 ? -errno : result; }

static void call_alone(struct call *call) {
  if (!call->sends) call->result = answer(call_receive(call->file, call->at, call->bytes));
  else if (call->parts == 0) call->result = answer(call_send(call->file, call->at, call->bytes));
  else call->result = answer(sendmsg(call->file, &call->message, MSG_NOSIGNAL));
}

/* Makes those from this number on, each by itself. */
static void make_each(struct calls *calls, uint32_t from) {
  for (uint32_t i = from; i < calls->count; i++) call_alone(&calls->call[i]);
}

#ifdef SYS_io_uring_setup
#include <linux/io_uring.h>
#endif

#if defined __SANITIZE_ADDRESS__ || defined __SANITIZE_THREAD__ || !defined IORING_FEAT_LINKED_FILE

struct queues *queues_open(void) { return NULL; }
void queues_close(struct queues *queues) { (void)queues; }
uint32_t calls_make(struct calls *calls, struct queues *queues) {
  (void)queues;
  make_each(calls, 0);
  return 0;
}

#else

/* Linux 6.0 and later have both. Earlier ones may wait for a client who doesn't read, though they are told not to. */
enum { FEATURES = IORING_FEAT_SINGLE_MMAP | IORING_FEAT_LINKED_FILE };

/* So many failures in a row are one that stays. Some may pass, as when others are done, or the system has memory again.
 * Of any other three are enough: each counts as a third of them. And how long is waited at once for what is done. */
enum { FAILURES_MOST = 300, FAILURE_STAYS = FAILURES_MOST / 3, WAIT_MILLISECONDS = 10 };

/* Once io_uring failed for good, no thread uses it any more. */
static _Atomic bool is_given_up;

/* What is to be done, and what was done: two rings that the kernel has, too, in one mapping, and in another one the
 * places of the first ring. */
struct queues {
  int file;
  void *rings;
  size_t rings_bytes;
  struct io_uring_sqe *wanted;
  size_t wanted_bytes;
  _Atomic uint32_t *wanted_head, *wanted_tail;
  uint32_t *wanted_order;
  uint32_t wanted_mask;
  _Atomic uint32_t *done_head, *done_tail;
  const struct io_uring_cqe *done;
  uint32_t done_mask;
  uint32_t failures; /* in a row */
};

static bool map(struct queues *queues, const struct io_uring_params *given) {
  const int access = PROT_READ | PROT_WRITE;
  size_t wanted = given->sq_off.array + given->sq_entries * sizeof(uint32_t);
  size_t done = given->cq_off.cqes + given->cq_entries * sizeof(struct io_uring_cqe);
  queues->rings_bytes = wanted > done ? wanted : done;
  queues->rings = mmap(NULL, queues->rings_bytes, access, MAP_SHARED, queues->file, IORING_OFF_SQ_RING);
  if (queues->rings == MAP_FAILED) return false;
  queues->wanted_bytes = given->sq_entries * sizeof *queues->wanted;
  queues->wanted = mmap(NULL, queues->wanted_bytes, access, MAP_SHARED, queues->file, IORING_OFF_SQES);
  if (queues->wanted != MAP_FAILED) return true;
  munmap(queues->rings, queues->rings_bytes);
  return false;
}

static void find_places(struct queues *queues, const struct io_uring_params *given) {
  char *rings = queues->rings;
  queues->wanted_head = (void *)(rings + given->sq_off.head);
  queues->wanted_tail = (void *)(rings + given->sq_off.tail);
  queues->wanted_order = (void *)(rings + given->sq_off.array);
  queues->wanted_mask = given->sq_entries - 1;
  queues->done_head = (void *)(rings + given->cq_off.head);
  queues->done_tail = (void *)(rings + given->cq_off.tail);
  queues->done = (void *)(rings + given->cq_off.cqes);
  queues->done_mask = given->cq_entries - 1;
}

/* Hands over what is wanted, and waits until so much of it is done. 0, or an errno: then some may be taken or done all
 * the same, which the rings tell. */
static int enter(const struct queues *queues, uint32_t handed, uint32_t done) {
  return syscall(SYS_io_uring_enter, queues->file, handed, done, IORING_ENTER_GETEVENTS, NULL, 0) < 0 ? errno : 0;
}

/* A filter of system calls may refuse the second one alone: so it is tried. */
struct queues *queues_open(void) {
  struct io_uring_params given = { 0 };
  struct queues *queues = calloc(1, sizeof *queues);
  if (queues == NULL) return NULL;
  queues->file = (int)syscall(SYS_io_uring_setup, CALLS_MOST, &given);
  if (queues->file < 0) return free(queues), NULL;
  bool is_there = (given.features & FEATURES) == FEATURES && enter(queues, 0, 0) == 0;
  if (!is_there || !map(queues, &given)) {
    close(queues->file);
    return free(queues), NULL;
  }
  find_places(queues, &given);
  return queues;
}

void queues_close(struct queues *queues) {
  if (queues == NULL) return;
  munmap(queues->wanted, queues->wanted_bytes);
  munmap(queues->rings, queues->rings_bytes);
  close(queues->file);
  free(queues);
}

/* None waits: what can't be done at once is answered EAGAIN. */
static void want(struct queues *queues, struct call *call, uint32_t number) {
  uint32_t tail = atomic_load_explicit(queues->wanted_tail, memory_order_relaxed), place = tail & queues->wanted_mask;
  struct io_uring_sqe *wanted = &queues->wanted[place];
  memset(wanted, 0, sizeof *wanted);
  wanted->opcode = !call->sends ? IORING_OP_RECV : call->parts == 0 ? IORING_OP_SEND : IORING_OP_SENDMSG;
  wanted->fd = call->file;
  wanted->addr = call->parts == 0 ? (uintptr_t)call->at : (uintptr_t)&call->message;
  wanted->len = call->parts == 0 ? (uint32_t)call->bytes : 1;
  wanted->msg_flags = MSG_DONTWAIT | (call->sends ? MSG_NOSIGNAL : 0);
  wanted->user_data = number;
  queues->wanted_order[place] = place;
  atomic_store_explicit(queues->wanted_tail, tail + 1, memory_order_release);
}

/* Takes the results that are there, and answers how many. */
static uint32_t take_results(struct queues *queues, struct calls *calls) {
  uint32_t head = atomic_load_explicit(queues->done_head, memory_order_relaxed), taken = 0;
  for (; head != atomic_load_explicit(queues->done_tail, memory_order_acquire); head++, taken++) {
    const struct io_uring_cqe *done = &queues->done[head & queues->done_mask];
    calls->call[done->user_data].result = done->res;
  }
  atomic_store_explicit(queues->done_head, head, memory_order_release);
  return taken;
}

/* Of those that were wanted from this place on: the kernel took so many, the first ones. */
static uint32_t taken_since(const struct queues *queues, uint32_t first) {
  return atomic_load_explicit(queues->wanted_head, memory_order_acquire) - first;
}

/* Counts a failure; 0: nothing came of the call, though it told none. Whether io_uring is given up for it. */
static bool gives_up_for(struct queues *queues, int fault) {
  bool may_pass = fault == 0 || fault == EINTR || fault == EAGAIN || fault == EBUSY;
  queues->failures += may_pass ? 1 : FAILURE_STAYS;
  if (queues->failures < FAILURES_MOST) return false;
  if (!atomic_exchange(&is_given_up, true))
    fprintf(stderr, "bump-server: io_uring fails (%s): each call is made by itself from now on\n",
            fault != 0 ? strerror(fault) : "nothing comes of it");
  return true;
}

/* The kernel takes them in turn, and may take some alone, where memory is short: then the others are handed to it
 * again. How many it took: all, unless io_uring was given up meanwhile. What it took then will be done without a call,
 * since none waits, and is waited for. What it didn't take it never will, as nothing is handed over any more. */
static uint32_t make_together(struct calls *calls, struct queues *queues) {
  uint32_t first = atomic_load_explicit(queues->wanted_tail, memory_order_relaxed), taken = 0, done = 0;
  for (uint32_t i = 0; i < calls->count; i++) want(queues, &calls->call[i], i);
  while (done < calls->count) {
    int fault = enter(queues, calls->count - taken, calls->count - done);
    uint32_t before = taken + done;
    taken = taken_since(queues, first);
    done += take_results(queues, calls);
    if (fault == 0 && taken + done > before) queues->failures = 0;
    else if (gives_up_for(queues, fault)) break;
  }
  for (struct pollfd wait = { queues->file, POLLIN, 0 }; done < taken; done += take_results(queues, calls))
    poll(&wait, 1, WAIT_MILLISECONDS); /* whatever it tells: the results themselves are looked for */
  return taken;
}

uint32_t calls_make(struct calls *calls, struct queues *queues) {
  bool is_usable = queues != NULL && !atomic_load_explicit(&is_given_up, memory_order_relaxed);
  uint32_t together = is_usable && calls->count > 1 ? make_together(calls, queues) : 0;
  make_each(calls, together);
  return together;
}

#endif
