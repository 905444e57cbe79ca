/* A plain LRU over an access log, to measure bump_replay beside: a key in each line, and the sizes of caches.
 *
 *   gcc -O2 bench/plain_lru.c -o plain_lru && ./plain_lru LOG ITEMS..
 *
 * It numbers the keys, runs the numbers through an LRU of each size, and prints for each the hits, the misses, and the
 * seconds that this and the reading took together. */
#include <stdbool.h>
#include <stdint.h>
#include <stdio.h>
#include <stdlib.h>
#include <string.h>
#include <time.h>

struct name {
  const char *at;
  size_t bytes;
  uint32_t number;
};

struct node {
  uint32_t newer, older;
  bool is_in;
};

struct log {
  uint32_t *keys;
  size_t accesses, keys_count;
};

static double seconds(void) {
  struct timespec now;
  clock_gettime(CLOCK_MONOTONIC, &now);
  return (double)now.tv_sec + (double)now.tv_nsec / 1e9;
}

static char *text_of(const char *file, size_t *bytes) {
  FILE *opened = fopen(file, "rb");
  if (opened == NULL) return NULL;
  fseek(opened, 0, SEEK_END);
  *bytes = (size_t)ftell(opened);
  rewind(opened);
  char *text = malloc(*bytes + 1);
  if (text != NULL && fread(text, 1, *bytes, opened) != *bytes) *bytes = 0;
  fclose(opened);
  return text;
}

static uint64_t hash_of(const char *at, size_t bytes) {
  uint64_t hash = 0x9e3779b97f4a7c15;
  for (size_t i = 0; i < bytes; i++) hash = (hash ^ (unsigned char)at[i]) * 0x100000001b3;
  return hash ^ hash >> 32;
}

/* The number of a key: a new one gets the next. The table is a power of two, and never more than half full. */
static uint32_t number_of(struct name *table, size_t mask, const char *at, size_t bytes, size_t *count) {
  size_t place = hash_of(at, bytes) & mask;
  for (; table[place].at != NULL; place = (place + 1) & mask)
    if (table[place].bytes == bytes && memcmp(table[place].at, at, bytes) == 0) return table[place].number;
  table[place] = (struct name){ at, bytes, (uint32_t)*count };
  return (uint32_t)(*count)++;
}

static struct log numbered(char *text, size_t bytes) {
  size_t lines = 0, size = 2;
  for (size_t i = 0; i < bytes; i++) lines += text[i] == '\n';
  while (size < 2 * lines) size *= 2;
  struct log log = { malloc((lines + 1) * sizeof *log.keys), 0, 0 };
  struct name *table = calloc(size, sizeof *table);
  for (char *at = text, *end; (end = memchr(at, '\n', (size_t)(text + bytes - at))) != NULL; at = end + 1)
    log.keys[log.accesses++] = number_of(table, size - 1, at, (size_t)(end - at), &log.keys_count);
  free(table);
  return log;
}

static void unlink_node(struct node *nodes, uint32_t key) {
  nodes[nodes[key].newer].older = nodes[key].older;
  nodes[nodes[key].older].newer = nodes[key].newer;
}

/* The list's ends meet at a node behind those of all keys. */
static void link_newest(struct node *nodes, uint32_t ends, uint32_t key) {
  nodes[key] = (struct node){ ends, nodes[ends].older, true };
  nodes[nodes[ends].older].newer = key;
  nodes[ends].older = key;
}

static size_t hits_of(const struct log *log, size_t items) {
  uint32_t ends = (uint32_t)log->keys_count;
  struct node *nodes = calloc(log->keys_count + 1, sizeof *nodes);
  nodes[ends] = (struct node){ ends, ends, false };
  size_t hits = 0, held = 0;
  for (size_t i = 0; i < log->accesses; i++) {
    uint32_t key = log->keys[i];
    if (nodes[key].is_in) {
      hits++;
      unlink_node(nodes, key);
    } else if (held == items) {
      uint32_t oldest = nodes[ends].newer;
      unlink_node(nodes, oldest);
      nodes[oldest].is_in = false;
    } else {
      held++;
    }
    link_newest(nodes, ends, key);
  }
  free(nodes);
  return hits;
}

int main(int count, char **words) {
  for (int word = 2; word < count; word++) {
    double begun = seconds();
    size_t bytes = 0, items = strtoul(words[word], NULL, 10);
    char *text = text_of(words[1], &bytes);
    if (text == NULL || items == 0) return 1;
    struct log log = numbered(text, bytes);
    size_t hits = hits_of(&log, items);
    printf("%zu items: %zu hits, %zu misses, %.3f seconds\n", items, hits, log.accesses - hits, seconds() - begun);
    free(log.keys);
    free(text);
  }
  return 0;
}
