/* bump-server: memcached's protocol over bump. Start, signals, and end. */
#define _GNU_SOURCE
#include <inttypes.h>
#include <signal.h>
#include <stdio.h>
#include <stdlib.h>
#include <unistd.h>
#include "clock.h"
#include "maintainer.h"
#include "memory.h"
#include "network.h"
#include "prefixes.h"
#include "process.h"
#include "settings.h"
#include "shelf.h"
#include "sizes.h"
#include "table.h"
#include "thread.h"

static void on_signal(int number) {
  (void)number;
  atomic_store(&is_ending, true);
}

/* The first thread alone is told of signals, and only while it waits for connections. */
static void take_signals(sigset_t *before) {
  static const int ENDING[] = { SIGTERM, SIGINT, SIGUSR1 };
  struct sigaction action = { .sa_handler = on_signal };
  sigset_t ours;
  sigemptyset(&ours);
  for (size_t i = 0; i < sizeof ENDING / sizeof *ENDING; i++) {
    sigaddset(&ours, ENDING[i]);
    sigaction(ENDING[i], &action, NULL);
  }
  signal(SIGPIPE, SIG_IGN);
  signal(SIGHUP, SIG_IGN);
  pthread_sigmask(SIG_BLOCK, &ours, before);
}

/* A thread's stack: it needs some tens of kilobytes. Where memory is locked (-k) the process has all of it, and the
 * usual one has eight megabytes. */
enum { STACK_BYTES = 1 << 19 };

/* The name is what tools show of a thread: at most 15 letters. */
static void start_thread(struct thread *thread, uint32_t number, const char *name, void *(*run)(void *)) {
  pthread_attr_t attributes;
  thread->number = number;
  if (!network_prepare(thread)) process_fail("can't wait for connections");
  if (pthread_attr_init(&attributes) != 0 || pthread_attr_setstacksize(&attributes, STACK_BYTES) != 0 ||
      pthread_create(&thread->id, &attributes, run, thread) != 0)
    process_fail("can't start a thread");
  pthread_attr_destroy(&attributes);
  pthread_setname_np(thread->id, name);
}

static void end_thread(struct thread *thread) {
  pthread_join(thread->id, NULL);
  close(thread->events);
  close(thread->wake);
}

/* Ports are taken before, as root alone may take those below 1024; the file of -s is made after, and is the user's. */
static void listen_and_become(void) {
  const bool by_file = settings.socket_path != NULL;
  if (!by_file && !network_listen()) exit(EXIT_NO_START);
  process_become_user();
  if (by_file && !network_listen()) exit(EXIT_NO_START);
}

/* Signals are taken before anybody can connect: so one that comes at once ends it as any later one does. */
static void prepare(sigset_t *before) {
  process_find_user();
  process_become_daemon();
  clock_begin();
  process_raise_files();
  process_allow_cores();
  process_look_at_pages();
  process_lock_memory();
  memory_begin();
  classes_make();
  if (!shelves_make() || !table_make() || !network_make())
    process_fail("no memory, or more than the shelves can have: choose a smaller -m");
  if (settings.counts_sizes && !sizes_begin()) process_fail("no memory for sizes");
  atomic_store(&prefixes_are_counted, settings.counts_prefixes);
  take_signals(before);
  listen_and_become();
  process_write_number();
}

/* Settles each worker, says what was left, and answers the program's status. */
static int settle(uint64_t connections) {
  struct shelf_rest all = shelves_rest();
  uint32_t open = 0;
  for (uint32_t number = 0; number < shelf_count(); number++) {
    if (!shelf_is_open(shelf_at(number))) continue;
    struct shelf_rest rest = shelf_close(shelf_at(number));
    all.items += rest.items;
    all.applied += rest.applied;
    all.unsettled += rest.unsettled;
    all.held += rest.held;
    all.charged += rest.charged;
    open++;
  }
  uint64_t charged = memory_of(MEMORY_items) - all.charged; /* of items that are in no shelf: nobody would find them */
  bool right = all.unsettled == 0 && all.held == 0 && charged == 0;
  fprintf(stderr,
          "bump-server: ended with %" PRIu64 " connections and %" PRIu64 " items; %" PRIu64
          " bumps were applied at the end; "
          "%" PRIu64 " of %" PRIu64 " workers weren't settled, %" PRIu64 " chunks were still held, %" PRIu64
          " bytes left\n",
          connections, all.items, all.applied, all.unsettled, (uint64_t)open * (uint64_t)settings.threads, all.held,
          charged);
  return right ? EXIT_SETTLED : EXIT_LEFT;
}

int main(int count, char **words) {
  sigset_t before;
  settings_read(count, words);
  prepare(&before);
  for (int i = 0; i < settings.threads; i++) start_thread(&threads[i], (uint32_t)i, "bump-serves", network_serve);
  start_thread(MAINTAINER, 0, "bump-maintains", maintainer_run);
  process_detach();
  if (settings.verbosity > 0) fprintf(stderr, "bump-server: serves with %d threads\n", settings.threads);
  network_accept(&before);
  uint64_t connections = network_measure().current;
  for (int i = 0; i < settings.threads; i++) network_wake(&threads[i]); /* all at once: each may take a second */
  for (int i = 0; i < settings.threads; i++) end_thread(&threads[i]);
  end_thread(MAINTAINER);
  network_unlisten();
  int status = settle(connections);
  if (settings.walks) {
    shelves_free();
    table_free();
    network_free();
    prefixes_forget();
  }
  process_forget_number();
  return status;
}
