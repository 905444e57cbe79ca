#define _GNU_SOURCE
#include "sizes.h"
#include <pthread.h>
#include <sys/mman.h>

/* STEP: bytes between two sizes, as in memcached. */
enum { STEP = 32, TOLD_AT_ONCE = 1024, ROUNDS = 200 };

_Atomic uint8_t sizes_round;
static pthread_mutex_t beginning = PTHREAD_MUTEX_INITIALIZER;
static _Atomic uint32_t *counts; /* NULL: never begun; it stays, since others may be about to count */
static uint8_t last_round;

static size_t places(void) { return settings.item_most / STEP + 1; }

void sizes_add(const struct item *item, uint32_t number) {
  size_t place = (item_reckoned(item->key_bytes, item->flags, item->bytes) + STEP - 1) / STEP;
  if (place < places()) atomic_fetch_add_explicit(&counts[place], number, memory_order_relaxed);
}

/* Noughts for all sizes, at once, and however many these are: pages that nothing was written to. */
static bool clear(void) {
  size_t bytes = places() * sizeof *counts;
  if (counts != NULL) return madvise((void *)counts, bytes, MADV_DONTNEED) == 0;
  void *at = mmap(NULL, bytes, PROT_READ | PROT_WRITE, MAP_PRIVATE | MAP_ANONYMOUS, -1, 0);
  if (at != MAP_FAILED) counts = at;
  return at != MAP_FAILED;
}

bool sizes_begin(void) {
  pthread_mutex_lock(&beginning);
  bool counted = atomic_load(&sizes_round) != 0;
  if (!counted && clear()) {
    last_round = (uint8_t)(last_round % ROUNDS + 1);
    atomic_store(&sizes_round, last_round);
    counted = true;
  }
  pthread_mutex_unlock(&beginning);
  return counted;
}

void sizes_end(void) { atomic_store(&sizes_round, 0); }

/* A count below nought is that of an item which went while the round began. */
bool sizes_tell(struct connection *connection) {
  struct walk *walk = &connection->walk;
  for (int i = 0; i < TOLD_AT_ONCE && walk->number < places(); i++, walk->number++) {
    int32_t count = (int32_t)atomic_load_explicit(&counts[walk->number], memory_order_relaxed);
    if (count <= 0) continue;
    connection_print(connection, "STAT %u %d\r\n", walk->number * STEP, count);
    connection->work -= WORK_TOLD;
  }
  connection->work -= TOLD_AT_ONCE;
  return walk->number == places();
}
