/* What counted.c and cache_counted.c share: ways of a hit of 1,024 items, which are made to be counted, or timed. */
#ifndef COUNTING_H
#define COUNTING_H

#include <stdint.h>
#include <stdio.h>
#include <stdlib.h>
#include <string.h>
#include <time.h>

enum { ITEMS = 1024, PASSES = 60, ROUNDS = 64, MOST_WAYS = 4 };

/* A name, and what makes so many rounds of hits, and sums them up. */
struct way {
  const char *name;
  uint64_t (*hits)(uint64_t rounds);
};

static double now(void) {
  struct timespec t;
  clock_gettime(CLOCK_MONOTONIC, &t);
  return (double)t.tv_sec * 1e9 + (double)t.tv_nsec;
}

/* Prints nanoseconds of a hit each way. */
static int time_all(const struct way *ways, int count, uint64_t each_round) {
  double best[MOST_WAYS] = { 1e18, 1e18, 1e18, 1e18 };
  for (int pass = 0; pass < PASSES; pass++)
    for (int i = 0; i < count; i++) {
      double start = now();
      if (ways[i].hits(ROUNDS) != each_round * ROUNDS) return 1;
      double took = now() - start;
      if (took < best[i]) best[i] = took;
    }
  for (int i = 0; i < count; i++) printf("%s %.1f\n", ways[i].name, best[i] / ITEMS / ROUNDS);
  return 0;
}

/* Does what the words say: `time`, or a way's name with a number of rounds. Status 1 where a sum is another one, and 2
 * where the words are no such ones. */
static int count_or_time(int word_count, char **words, const struct way *ways, int count, uint64_t each_round) {
  if (word_count == 2 && strcmp(words[1], "time") == 0) return time_all(ways, count, each_round);
  for (int i = 0; i < count && word_count == 3; i++) {
    if (strcmp(words[1], ways[i].name) != 0) continue;
    uint64_t rounds = strtoull(words[2], NULL, 10);
    return ways[i].hits(rounds) != each_round * rounds;
  }
  return 2;
}

#endif
