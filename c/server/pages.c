#define _GNU_SOURCE
#include "pages.h"
#include <stddef.h>
#include <stdint.h>
#include <stdlib.h>
#include <unistd.h>
#include "memory.h"

/* What is given back in one step, and how many pieces are freed in one. */
enum { PIECES_AT_ONCE = 64, BYTES_AT_ONCE = 1 << 20, FREED_AT_ONCE = 64, PAGE = 4096 };

/* A piece of memory that nobody else had. Its first page stays, for what malloc and this have there. */
struct piece {
  struct piece *next;
};

/* From the largest pieces on: so few pages stay. */
static const size_t SIZES[] = { 256 << 10, 124 << 10, 60 << 10, 28 << 10, 14 << 10, 8 << 10, 6 << 10 };
enum { SIZES_COUNT = sizeof SIZES / sizeof *SIZES };

/* Behind the program's data (man 3 end). There the heap begins, and what is mapped lies behind the heap. */
extern char end;

static uintptr_t heap_end; /* as it was when the round began */
static bool has_begun;
static size_t size_at; /* SIZES_COUNT: no more pieces are looked for */
static struct piece *taken;

/* Asks for a piece, and gives back its pages. It is kept, since malloc would find the same one again. false: no such
 * piece is free in the heap, and malloc would make the heap larger. */
static bool take(size_t bytes) {
  struct piece *piece = malloc(bytes);
  uintptr_t first = (uintptr_t)piece, behind = first + bytes;
  if (piece == NULL) return false;
  if (first < (uintptr_t)&end || behind > heap_end) return free(piece), false;
  piece->next = taken;
  taken = piece;
  first = (first + sizeof *piece + PAGE - 1) / PAGE * PAGE;
  behind = behind / PAGE * PAGE;
  if (first < behind) memory_give_pages((void *)first, behind - first);
  return true;
}

/* Whether more may be looked for. */
static bool take_some(void) {
  size_t bytes = 0;
  for (int i = 0; i < PIECES_AT_ONCE && bytes < BYTES_AT_ONCE && size_at < SIZES_COUNT; i++) {
    if (take(SIZES[size_at])) bytes += SIZES[size_at];
    else size_at++;
  }
  return size_at < SIZES_COUNT;
}

/* Whether more are to be freed. */
static bool free_some(void) {
  for (int i = 0; i < FREED_AT_ONCE && taken != NULL; i++) {
    struct piece *next = taken->next;
    memory_free(taken);
    taken = next;
  }
  return taken != NULL;
}

bool pages_give_back(bool is_enough) {
  if (!has_begun) {
    has_begun = true;
    heap_end = (uintptr_t)sbrk(0);
    size_at = 0;
  }
  if (is_enough) size_at = SIZES_COUNT;
  if (take_some() || free_some()) return false;
  has_begun = false;
  return true;
}
