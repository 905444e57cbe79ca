/* A hit of an item that is marked already, over 1,024 items, to be counted and timed: by four calls; by four that ask
 * first, and so need no touch; and by bump_hit.
 *
 *   counted four|asking|one ROUNDS      makes 1,024 x ROUNDS hits, and prints nothing
 *   counted time                        prints nanoseconds of a hit each way: the best of 60 passes of 64 rounds */
#define _POSIX_C_SOURCE 200809L
#include "bump.h"
#include "counting.h"

static bump_worker worker;
static bump_book book;
static uint32_t chunk[ITEMS];

static uint64_t four(uint64_t rounds) {
  uint64_t sum = 0;
  for (uint64_t round = 0; round < rounds; round++)
    for (int i = 0; i < ITEMS; i++) {
      if (bump_get(&worker, 0, chunk[i], 1) != BUMP_GET_HELD) return 0;
      sum += bump_touch(&worker, 0, 5).answer == BUMP_TOUCH_ALREADY;
      sum += bump_label(&worker, 0).label;
      bump_release(&worker, 0);
    }
  return sum;
}

static uint64_t asking(uint64_t rounds) {
  uint64_t sum = 0;
  for (uint64_t round = 0; round < rounds; round++)
    for (int i = 0; i < ITEMS; i++) {
      if (bump_get(&worker, 0, chunk[i], 1) != BUMP_GET_HELD) return 0;
      if (bump_marked(&worker, 0))
        sum++;
      else
        bump_touch(&worker, 0, 5);
      sum += bump_label(&worker, 0).label;
      bump_release(&worker, 0);
    }
  return sum;
}

static uint64_t one(uint64_t rounds) {
  uint64_t sum = 0;
  for (uint64_t round = 0; round < rounds; round++)
    for (int i = 0; i < ITEMS; i++) {
      bump_whole_hit hit = bump_hit(&worker, chunk[i], 1, 5);
      if (hit.got != BUMP_GET_HELD) return 0;
      sum += (hit.touch == BUMP_TOUCH_ALREADY) + hit.label;
    }
  return sum;
}

static bool open_all(void) {
  bump_store store = { 0 };
  const bump_config config = { 1, 1, 16, 65535, 1, 4, 0 };
  const bump_class_config class = { ITEMS, ITEMS, ITEMS };
  if (bump_open(&store, &config, &class, 1) != BUMP_OPEN_DONE) return false;
  bool all = bump_take_worker(&store, 0, &worker) && bump_take_book(&store, 0, &book);
  bump_close(store);
  for (uint32_t i = 0; i < ITEMS && all; i++) {
    bump_linked l = bump_link(&book, i, 0);
    all = l.answer == BUMP_LINK_DONE;
    /* in no order of memory */
    chunk[i * 2654435761u % ITEMS] = l.chunk;
    for (int hits = 0; hits < 2; hits++) bump_hit(&worker, l.chunk, l.generation, 1);
  }
  return all;
}

/* The labels of all items, and one for each hit. */
static const uint64_t EACH_ROUND = (uint64_t)ITEMS * (ITEMS - 1) / 2 + ITEMS;

static const struct way WAY[] = { { "four", four }, { "asking", asking }, { "one", one } };
enum { WAYS = 3 };

int main(int count, char **words) {
  if (!open_all()) return 1;
  int status = count_or_time(count, words, WAY, WAYS, EACH_ROUND);
  bump_worker_free(worker);
  bump_book_free(book);
  return status;
}
