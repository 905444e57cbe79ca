/* Has io_uring_enter fail, as where a filter of system calls comes later, or the kernel has a fault: from the call with
 * a number on, which FAILING_CALLS begins with, and in the way that is named there.
 *
 *   gcc -shared -fPIC failing_calls.c -o failing_calls.so
 *   FAILING_CALLS=100:refused LD_PRELOAD=failing_calls.so bump-server
 *
 * refused: nothing is done. done: all is done, but a failure is told. half: half of what is handed over is taken, and a
 * failure is told. part: a half is taken, and told, by the first one alone. short: there is no memory, and never again.
 * passing: the same, but each second time there is. Who asks again and again for what fails is ended. */
#define _GNU_SOURCE
#include <dlfcn.h>
#include <errno.h>
#include <stdarg.h>
#include <stdatomic.h>
#include <stdbool.h>
#include <stdlib.h>
#include <string.h>
#include <sys/syscall.h>

enum { ARGUMENTS = 6, HANDED = 1, DONE = 2, LASTING_MOST = 20, SHORT_MOST = 2000 };

static const char *way_of(unsigned long *from) {
  char *behind = "";
  const char *says = getenv("FAILING_CALLS");
  *from = says != NULL ? strtoul(says, &behind, 10) : 0;
  return *behind == ':' ? behind + 1 : "";
}

/* Whether a failure is told; then what is left to be done before is in the arguments. */
static bool fails(long *given) {
  static _Atomic unsigned long calls, failed;
  unsigned long from, number;
  const char *way = way_of(&from);
  if ((given[HANDED] == 0 && given[DONE] == 0) || from == 0 || (number = ++calls) < from) return false;
  if (strcmp(way, "passing") == 0) return errno = EAGAIN, number % 2 == 0;
  bool is_short = strcmp(way, "short") == 0, is_part = strcmp(way, "part") == 0;
  errno = is_short ? EAGAIN : EPERM;
  if (++failed > (is_short ? SHORT_MOST : LASTING_MOST)) abort();
  if (strcmp(way, "half") == 0 || (is_part && number == from)) given[HANDED] /= 2, given[DONE] = 0;
  else if (strcmp(way, "done") != 0) given[HANDED] = given[DONE] = 0;
  return !is_part || number > from;
}

long syscall(long number, ...) {
  static long (*_Atomic real)(long, ...);
  long given[ARGUMENTS];
  va_list rest;
  va_start(rest, number);
  for (int i = 0; i < ARGUMENTS; i++) given[i] = va_arg(rest, long);
  va_end(rest);
  if (real == NULL) real = (long (*)(long, ...))dlsym(RTLD_NEXT, "syscall");
  bool is_failure = number == SYS_io_uring_enter && fails(given);
  int fault = errno;
  bool is_done = !is_failure || given[HANDED] > 0 || given[DONE] > 0;
  long answer = is_done ? real(number, given[0], given[1], given[2], given[3], given[4], given[5]) : 0;
  if (!is_failure) return answer;
  errno = fault;
  return -1;
}
