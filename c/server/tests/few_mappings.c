/* Has the system refuse each second mmap, mremap and munmap of a value's size, as it does where a process has as many
 * mappings as it may; or by FEW_MAPPINGS=kept each munmap, and nothing else.
 *
 *   gcc -shared -fPIC few_mappings.c -o few_mappings.so; LD_PRELOAD=few_mappings.so bump-server */
#define _GNU_SOURCE
#include <errno.h>
#include <stdatomic.h>
#include <stdbool.h>
#include <stdlib.h>
#include <sys/mman.h>
#include <sys/syscall.h>
#include <unistd.h>

enum { LEAST = 1 << 14, MOST = 1 << 20 };

static bool is_refused(size_t bytes, bool gives_up) {
  static _Atomic unsigned calls;
  if (bytes < LEAST || bytes > MOST) return false;
  if (getenv("FEW_MAPPINGS") != NULL ? !gives_up : atomic_fetch_add(&calls, 1) % 2 == 0) return false;
  errno = ENOMEM;
  return true;
}

void *mmap(void *at, size_t bytes, int access, int flags, int file, off_t from) {
  bool is_value = (flags & MAP_ANONYMOUS) != 0;
  if (is_value && is_refused(bytes, false)) return MAP_FAILED;
  return (void *)syscall(SYS_mmap, at, bytes, access, flags, file, from);
}

void *mremap(void *at, size_t had, size_t bytes, int flags, ...) {
  return is_refused(bytes, false) ? MAP_FAILED : (void *)syscall(SYS_mremap, at, had, bytes, flags, NULL);
}

int munmap(void *at, size_t bytes) { return is_refused(bytes, true) ? -1 : (int)syscall(SYS_munmap, at, bytes); }
