#define _GNU_SOURCE
#include "words.h"
#include <ctype.h>
#include <errno.h>
#include <limits.h>
#include <stdlib.h>
#include <string.h>

/* Of a number of 64 bits, and of a short one. */
enum { DIGITS_MOST = 20, SHORT_MOST = 9 };

/* The digits of all numbers below 100. */
static const char PAIRS[] = "00010203040506070809101112131415161718192021222324252627282930313233343536373839"
                            "40414243444546474849505152535455565758596061626364656667686970717273747576777879"
                            "8081828384858687888990919293949596979899";

void words_cut(struct words *words, char *line) {
  words->count = 0;
  for (char *at = line; words->count < WORDS_MOST;) {
    at = word_begin(at);
    if (*at == 0) break;
    struct word *word = &words->word[words->count++];
    word->at = at;
    at = word_end(at);
    word->bytes = (size_t)(at - word->at);
    if (*at == 0) break;
    *at++ = 0;
  }
  words->word[words->count] = (struct word){ line + strlen(line), 0 };
}

bool word_is(const struct word *word, const char *text) { return strcmp(word->at, text) == 0; }

/* Whether a conversion that began at `text` and stopped at `end` read a number. */
static bool is_read(const char *text, const char *end) {
  return errno != ERANGE && end != text && (*end == 0 || isspace((unsigned char)*end));
}

/* Whether a number is a few digits and no more, as most are: then it needn't be converted by C's own conversion. */
static bool is_short(const char *text, uint32_t *number) {
  const char *at = text;
  uint32_t sum = 0;
  for (; *at >= '0' && *at <= '9' && at < text + SHORT_MOST; at++) sum = sum * 10 + (uint32_t)(*at - '0');
  *number = sum;
  return at != text && (*at == 0 || *at == ' ');
}

bool number_u64(const char *text, uint64_t *number) {
  char *end;
  uint32_t few;
  if (is_short(text, &few)) return *number = few, true;
  errno = 0;
  *number = strtoull(text, &end, 10);
  return is_read(text, end) && ((int64_t)*number >= 0 || strchr(text, '-') == NULL);
}

bool number_u32(const char *text, uint32_t *number) {
  uint64_t wide;
  bool right = number_u64(text, &wide);
  *number = (uint32_t)wide;
  return right;
}

bool number_i32(const char *text, int32_t *number) {
  char *end;
  uint32_t few;
  if (is_short(text, &few)) return *number = (int32_t)few, true;
  errno = 0;
  long wide = strtol(text, &end, 10);
  *number = (int32_t)wide;
  return is_read(text, end);
}

bool number_length(const char *text, size_t *length) {
  char *end;
  uint32_t few;
  if (is_short(text, &few)) return *length = few, true;
  errno = 0;
  long wide = strtol(text, &end, 10);
  *length = (size_t)wide;
  return is_read(text, end) && wide >= 0 && wide <= INT_MAX - 2;
}

bool number_real(const char *text, double *number) {
  char *end;
  errno = 0;
  *number = strtod(text, &end);
  return is_read(text, end);
}

char *put_encoded(char *at, const char *key, size_t bytes) {
  static const char DIGITS[] = "0123456789ABCDEF";
  for (size_t i = 0; i < bytes; i++) {
    unsigned char byte = (unsigned char)key[i];
    if (byte != 0 && (isalnum(byte) || strchr("-._~", byte) != NULL)) {
      *at++ = (char)byte;
      continue;
    }
    *at++ = '%';
    *at++ = DIGITS[byte >> 4];
    *at++ = DIGITS[byte & 15];
  }
  return at;
}

char *put_u64(char *at, uint64_t number) {
  if (number < 10) { /* as most flags are */
    *at = (char)('0' + number);
    return at + 1;
  }
  char *end = at + 2;
  for (uint64_t least = 100; number >= least && end < at + DIGITS_MOST; least *= 10) end++;
  for (at = end; number >= 100; number /= 100) memcpy(at -= 2, PAIRS + number % 100 * 2, 2);
  if (number >= 10) memcpy(at - 2, PAIRS + number * 2, 2);
  else at[-1] = (char)('0' + number);
  return end;
}
