/* What calls.c, cache_calls.c and cache_lists.c share: how an answer is looked at and printed, as `bump_get
 * BUMP_GET_HELD`, and how large a struct is. */
#ifndef ANSWERS_H
#define ANSWERS_H

#include <stdbool.h>
#include <stdio.h>

static int failed;

static void see(bool right, const char *file, int line, const char *call, const char *answer) {
  if (right) {
    printf("%s %s\n", call, answer);
  } else {
    fprintf(stderr, "%s:%d: %s doesn't answer %s\n", file, line, call, answer);
    failed = 1;
  }
}
/* The call answers this. */
#define ANSWERS(call, given, answer) see((given) == (answer), __FILE__, __LINE__, #call, #answer)
/* It is so. */
#define HOLDS_THAT(call, condition) see(condition, __FILE__, __LINE__, #call, #condition)

/* Two layouts of one struct would pass other bytes. */
#define SIZE(type, bytes) typedef char type##_has_##bytes##_bytes[sizeof(type) == (bytes) ? 1 : -1]

#endif
