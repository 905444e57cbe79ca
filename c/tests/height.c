/* What an opening takes of the system's memory at its height is what it keeps, and a little: a table's slice of zeros is
 * given back before the table is filled. Both are looked at in processes of their own, whose height nothing else raises. */
#include "bump_cache.h"
#include "resident.h"
#include <stdio.h>
#include <stdlib.h>
#include <sys/resource.h>
#include <sys/wait.h>
#include <unistd.h>

enum { ITEMS = 100000, BYTES = 2000, KB = 1 << 10, MB = 1 << 20 };

static bool open_cache(void) {
  static bump_cache cache;
  bump_cache_config config = bump_cache_defaults(ITEMS, 1, 16, BYTES);
  return bump_cache_open(&cache, &config) == BUMP_CACHE_OPEN_DONE;
}

static bool open_store(void) {
  static bump_store store;
  static const bump_class_config classes[2] = { { ITEMS / 2, ITEMS, ITEMS }, { ITEMS / 2, ITEMS, ITEMS } };
  bump_config config = { 1, 1, 8192, 1000, 1, 1, BYTES / 8 };
  return bump_open(&store, &config, classes, 2) == BUMP_OPEN_DONE;
}

/* Whether it opens, and how much it takes. */
static int look(bool (*open)(void), const char *what) {
  size_t before = resident();
  if (!open()) return 3;
  size_t keeps = resident() - before;
  struct rusage used;
  getrusage(RUSAGE_SELF, &used);
  size_t height = (size_t)used.ru_maxrss * KB - before;
  printf("%s keeps %zu MB, and takes %zu MB at its height\n", what, keeps / MB, height / MB);
  fflush(stdout);
  return keeps < (size_t)ITEMS * BYTES || height > keeps + keeps / 10;
}

static int look_in_child(bool (*open)(void), const char *what) {
  int status = 0;
  pid_t child = fork();
  if (child == 0) _exit(look(open, what));
  if (child < 0 || waitpid(child, &status, 0) != child) return 4;
  return WIFEXITED(status) ? WEXITSTATUS(status) : 5;
}

int main(void) {
  int cache = look_in_child(open_cache, "a cache"), store = look_in_child(open_store, "a store");
  if (cache || store) fprintf(stderr, "status %d of a cache, %d of a store\n", cache, store);
  return cache || store;
}
