/* What `stats sizes` tells: how many items there are of each size, of those that were stored since it was asked to
 * count. */
#ifndef SIZES_H
#define SIZES_H

#include <stdatomic.h>
#include "connection.h"
#include "item.h"

/* Each time that it is asked to count anew has a number, so that what was counted before isn't taken from what is
 * counted now. 0: nothing is counted. */
extern _Atomic uint8_t sizes_round;

void sizes_add(const struct item *item, uint32_t number);

/* An item comes into the table; and one goes out that came in such a round. */
static inline uint8_t sizes_take_in(const struct item *item) {
  uint8_t round = atomic_load_explicit(&sizes_round, memory_order_relaxed);
  if (round != 0) sizes_add(item, 1);
  return round;
}

static inline void sizes_take_out(const struct item *item, uint8_t round) {
  if (round != 0 && round == atomic_load_explicit(&sizes_round, memory_order_relaxed)) sizes_add(item, UINT32_MAX);
}

/* Begins to count, unless it counts. false: no memory. */
bool sizes_begin(void);
void sizes_end(void);

/* One step of a walk that tells how many items there are of each size. */
bool sizes_tell(struct connection *connection);

#endif
