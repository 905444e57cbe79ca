/* What soak.c and cache_soak.c share: what their threads find wrong is counted; and numbers by chance. */
#ifndef SOAKING_H
#define SOAKING_H

#include <stdatomic.h>
#include <stdbool.h>
#include <stdint.h>

static _Atomic uint64_t wrong; /* answers that can't be */

static void want(bool holds) {
  if (!holds) atomic_fetch_add(&wrong, 1);
}

static uint64_t random_from(uint64_t *state) {
  *state = *state * 6364136223846793005u + 1442695040888963407u;
  return *state >> 33;
}

#endif
