/* The maintainer: a thread that applies bumps, ages lists, and looks for what expired. */
#ifndef MAINTAINER_H
#define MAINTAINER_H

#include <stdint.h>

/* The thread's function; it is given its struct thread. */
void *maintainer_run(void *thread);

struct maintainer_rounds {
  uint64_t juggles;
  uint64_t crawls;
};
struct maintainer_rounds maintainer_rounds(void);

#endif
