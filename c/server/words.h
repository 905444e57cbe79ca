/* A line of the protocol as its words, and words as numbers: with memcached's leniency, so that clients are answered as
 * it answers them. */
#ifndef WORDS_H
#define WORDS_H

#include <stdbool.h>
#include <stddef.h>
#include <stdint.h>

/* More words than that no command reads, but for the gets, which cut their line themselves. */
enum { WORDS_MOST = 23 };

struct word {
  char *at; /* ends with a 0 */
  size_t bytes;
};

struct words {
  struct word word[WORDS_MOST + 1]; /* the one behind the last is empty */
  size_t count;
};

/* Where the next word begins, and where this one ends: at a blank, or at the line's 0. Keys are found by these. */
static inline char *word_begin(char *at) {
  while (*at == ' ') at++;
  return at;
}

static inline char *word_end(char *at) {
  while (*at != 0 && *at != ' ') at++;
  return at;
}

/* Cuts a line at its blanks, in place. */
void words_cut(struct words *words, char *line);

bool word_is(const struct word *word, const char *text);

/* Decimal numbers, ended by the word's end or by a blank. A number of 32 bits is what C's own conversion gives, cut to
 * them. */
bool number_u64(const char *text, uint64_t *number);
bool number_u32(const char *text, uint32_t *number);
bool number_i32(const char *text, int32_t *number);
bool number_real(const char *text, double *number);

/* A value's length, from 0 to what an int has room for beside the end of its line. It isn't cut: else 4294967301 would
 * be 5, and the rest of the value commands. */
bool number_length(const char *text, size_t *length);

/* Writes a key of any bytes as a part of one line, and answers the place behind it: what is no letter, digit, or one of
 * four signs is told by its number, in three bytes. */
char *put_encoded(char *at, const char *key, size_t bytes);

/* Writes a number's digits, and answers the place behind them: at most 20, and no 0 is put there. */
char *put_u64(char *at, uint64_t number);

#endif
