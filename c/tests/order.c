/* Tells ThreadSanitizer what the library's words order, since it doesn't look into the library: whoever is told that a
 * chunk is free, or links an item in it, comes behind each reader that held the chunk and gave it back. Link with
 * -Wl,--wrap= and the name, for each call that is wrapped here. A thread may have several workers. */
#include "bump.h"

enum { CHUNKS = 1000000, HELD = 1 << 16 };
static char order[CHUNKS];
/* By worker and hold, the chunk that was held last. The first place that fits lies where their hash says, or behind. */
static __thread struct {
  const bump_worker *worker;
  uint32_t hold, chunk;
} held[HELD];

static uint32_t *chunk_of(const bump_worker *worker, uint32_t hold) {
  size_t at = ((uintptr_t)worker >> 3) * 0x9E3779B1u + hold;
  for (;; at++) {
    at %= HELD;
    if (held[at].worker && (held[at].worker != worker || held[at].hold != hold)) continue;
    held[at].worker = worker, held[at].hold = hold;
    return &held[at].chunk;
  }
}

void __tsan_acquire(void *at);
void __tsan_release(void *at);

static void is_free(bool is, uint32_t chunk) {
  if (is) __tsan_acquire(&order[chunk]);
}

static void are_free(const uint32_t *chunks, uint32_t count) {
  for (uint32_t i = 0; i < count; i++) is_free(true, chunks[i]);
}

/* Before the call, since behind it another thread may have the chunk. */
bool __real_bump_release(bump_worker *worker, uint32_t hold);
bool __wrap_bump_release(bump_worker *worker, uint32_t hold);
bool __wrap_bump_release(bump_worker *worker, uint32_t hold) {
  __tsan_release(&order[*chunk_of(worker, hold)]);
  return __real_bump_release(worker, hold);
}

/* The other ones do something behind the library's call, by its answer. */
#define WRAPPED(type, call, parameters, arguments, behind) \
  type __real_##call parameters;                           \
  type __wrap_##call parameters;                           \
  type __wrap_##call parameters {                          \
    type answer = __real_##call arguments;                 \
    behind;                                                \
    return answer;                                         \
  }

WRAPPED(enum bump_get_answer, bump_get, (bump_worker *w, uint32_t hold, uint32_t chunk, uint32_t generation),
        (w, hold, chunk, generation), if (answer == BUMP_GET_HELD) *chunk_of(w, hold) = chunk)
WRAPPED(bump_linked, bump_link, (bump_book *b, uint64_t label, uint64_t now), (b, label, now),
        is_free(answer.answer == BUMP_LINK_DONE, answer.chunk))
WRAPPED(bump_linked, bump_link_temp, (bump_book *b, uint64_t label, uint64_t now), (b, label, now),
        is_free(answer.answer == BUMP_LINK_DONE, answer.chunk))
WRAPPED(bump_linked, bump_link_words, (bump_book *b, uint64_t label, const uint64_t *words, size_t n, uint64_t now),
        (b, label, words, n, now), is_free(answer.answer == BUMP_LINK_DONE, answer.chunk))
WRAPPED(bump_linked, bump_link_temp_words,
        (bump_book *b, uint64_t label, const uint64_t *words, size_t n, uint64_t now), (b, label, words, n, now),
        is_free(answer.answer == BUMP_LINK_DONE, answer.chunk))
WRAPPED(bump_unlinked, bump_unlink, (bump_book *b, uint32_t chunk, uint32_t generation), (b, chunk, generation),
        is_free(answer.answer == BUMP_UNLINK_FREED, chunk))
WRAPPED(bump_pulled, bump_pull, (bump_book *b, uint32_t tail, uint32_t limit), (b, tail, limit),
        is_free(answer.answer == BUMP_PULL_FREED, answer.chunk))
WRAPPED(bump_freed, bump_sweep_told, (bump_book *b), (b), are_free(answer.chunks, answer.count))
WRAPPED(bump_ran_told, bump_apply_run_told, (bump_book *b, bump_lane *l, uint64_t now, uint32_t limit),
        (b, l, now, limit), are_free(answer.chunks, answer.freed))
