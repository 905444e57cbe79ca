/* Makes each call of bump.h once with each of its answers that one thread can bring about, and prints each answer that
 * it saw, as `bump_get BUMP_GET_HELD`. Status 1, and a line on standard error, where an answer was another one.
 *
 * Want of memory is refused.c's. Not made are the two answers that want another thread at the right moment
 * (BUMP_GET_BUSY, BUMP_TOUCH_DROPPED_BUSY), and BUMP_TOUCH_EXHAUSTED and BUMP_REST_UNSEEN, which no program can bring
 * about by will.
 *
 * With -DBUMP_DEBUG and bump_debug.c it makes the same calls by the build with checks, which has to come to the same,
 * and to tell of those calls alone whose handles are of two stores. */
#include "bump.h"
#include "answers.h"
#include <stdio.h>
#include <stdlib.h>
#include <string.h>

enum { HOLDS = 4, NO_HOLD = 9, WORDS = 11 };
#define NOW 1000
#define LABEL UINT64_C(0xfedcba9876543210)

/* What the build with checks is to tell of the next call that breaks a promise. */
static const char *expected = "";

static void tells(const char *what) {
  if (expected[0]) fprintf(stderr, "calls.c: the build with checks doesn't tell: %s\n", expected);
  failed |= expected[0] != '\0';
#ifdef BUMP_DEBUG
  expected = what;
#else
  (void)what;
#endif
}

#ifdef BUMP_DEBUG
static void hear(const char *what) {
  bool is_expected = expected[0] && strstr(what, expected);
  if (!is_expected) fprintf(stderr, "calls.c: the build with checks tells: %s\n", what);
  failed |= !is_expected;
  expected = "";
}
#endif

#ifndef BUMP_DEBUG
SIZE(bump_worker, 8);
#endif
SIZE(bump_config, 32);
SIZE(bump_class_config, 12);
SIZE(bump_touched, 16);
SIZE(bump_labelled, 16);
SIZE(bump_marks_of, 16);
SIZE(bump_timed, 16);
SIZE(bump_words_of, 72);
SIZE(bump_whole_hit, 16);
SIZE(bump_counts, 40);
SIZE(bump_linked, 12);
SIZE(bump_unlinked, 16);
SIZE(bump_freed, 132);
SIZE(bump_pulled, 24);
SIZE(bump_limits_of, 8);
SIZE(bump_seen, 48);
SIZE(bump_walked, 140);
SIZE(bump_ran, 8);
SIZE(bump_ran_told, 140);
SIZE(bump_rested, 64);

/* All parts of a store with two workers and two classes. */
struct all {
  bump_worker worker[2];
  bump_lane lane[2];
  bump_book book[2];
};
static const struct all NONE = { { { 0 }, { 0 } }, { { 0 }, { 0 } }, { { 0 }, { 0 } } };

/* Whether numbers are all 0, from this one on. */
static bool is_zero(const uint32_t *chunks, uint32_t from) {
  while (from < BUMP_MOST_CHUNKS && chunks[from] == 0) from++;
  return from == BUMP_MOST_CHUNKS;
}

/* Whether these are numbers that go down from `first`, and then 0. */
static bool goes_down(const uint32_t *chunks, uint32_t first, uint32_t count) {
  for (uint32_t i = 0; i < count; i++)
    if (chunks[i] != first - i) return false;
  return is_zero(chunks, count);
}

static const bump_config CONFIG = { 7, 2, 1, 4, 1, HOLDS, WORDS };
static const bump_class_config CLASSES[2] = { { 3, 0, 1 }, { 2, 4, 5 } };

/* ------------------------------------------------------------------------------------------------------- opening */

static enum bump_open_answer open_with(uint32_t workers, uint32_t capacity, uint32_t refs, uint32_t generation,
                                       uint32_t chunks, size_t classes) {
  bump_store store = { 0 };
  bump_config config = { 8, workers, capacity, refs, generation, HOLDS, 1 };
  bump_class_config class[17];
  for (int i = 0; i < 17; i++) class[i] = (bump_class_config){ chunks, 0, 0 };
  enum bump_open_answer answer = bump_open(&store, &config, class, classes);
  if (store.p) bump_close(store);
  if ((store.p != NULL) != (answer == BUMP_OPEN_DONE)) failed = 1;
  return answer;
}

static void configurations(void) {
  ANSWERS(bump_version, bump_version(), BUMP_VERSION);
  ANSWERS(bump_open, open_with(0, 0, 0, 0, 0, 0), BUMP_OPEN_WORKERS);
  ANSWERS(bump_open, open_with(65, 1, 2, 1, 1, 1), BUMP_OPEN_WORKERS);
  ANSWERS(bump_open, open_with(1, 0, 0, 0, 0, 0), BUMP_OPEN_CAPACITY);
  ANSWERS(bump_open, open_with(1, 65537, 2, 1, 1, 1), BUMP_OPEN_CAPACITY);
  ANSWERS(bump_open, open_with(1, 1, 1, 0, 0, 0), BUMP_OPEN_REFS_LIMIT);
  ANSWERS(bump_open, open_with(1, 1, 1048576, 1, 1, 1), BUMP_OPEN_REFS_LIMIT);
  ANSWERS(bump_open, open_with(1, 1, 2, 0, 0, 0), BUMP_OPEN_GENERATION);
  ANSWERS(bump_open, open_with(1, 1, 2, 1, 0, 0), BUMP_OPEN_CLASSES);
  ANSWERS(bump_open, open_with(1, 1, 2, 1, 1, 17), BUMP_OPEN_CLASSES);
  ANSWERS(bump_open, open_with(1, 1, 2, 1, 0, 1), BUMP_OPEN_CHUNKS);
  ANSWERS(bump_open, open_with(1, 1, 2, 1, 500001, 2), BUMP_OPEN_CHUNKS);
  ANSWERS(bump_open, open_with(64, 1, 2, UINT32_MAX, 1, 16), BUMP_OPEN_DONE);
  ANSWERS(bump_open, open_with(1, 65536, 1048575, 1, 500000, 2), BUMP_OPEN_DONE);
}

/* No part has this number, or it is taken already. */
static void none_of(bump_store *store, uint32_t number) {
  struct all none = NONE;
  ANSWERS(bump_take_worker, bump_take_worker(store, number, &none.worker[0]), false);
  ANSWERS(bump_take_book, bump_take_book(store, number, &none.book[0]), false);
  ANSWERS(bump_take_lane, bump_take_lane(store, number, &none.lane[0]), false);
  HOLDS_THAT(bump_take_worker, none.worker[0].p == NULL && none.book[0].p == NULL && none.lane[0].p == NULL);
}

/* A store with all its parts taken out, the last ones first. */
static struct all open_all(bump_config config, uint64_t number, const bump_class_config *classes) {
  struct all a = NONE;
  bump_store store = { 0 };
  config.store = number;
  ANSWERS(bump_open, bump_open(&store, &config, classes, 2), BUMP_OPEN_DONE);
  none_of(&store, 2);
  none_of(&store, BUMP_NONE);
  for (uint32_t i = 2; i-- > 0;) {
    ANSWERS(bump_take_worker, bump_take_worker(&store, i, &a.worker[i]), true);
    ANSWERS(bump_take_book, bump_take_book(&store, i, &a.book[i]), true);
    ANSWERS(bump_take_lane, bump_take_lane(&store, i, &a.lane[i]), true);
    HOLDS_THAT(bump_take_worker, a.worker[i].p && a.book[i].p && a.lane[i].p);
    none_of(&store, i);
  }
  none_of(&store, 1);
  bump_close(store);
  printf("bump_close void\n");
  return a;
}

static void free_all(struct all *a) {
  for (int i = 0; i < 2; i++) {
    if (a->worker[i].p) bump_worker_free(a->worker[i]);
    bump_book_free(a->book[i]);
    bump_lane_free(a->lane[i]);
  }
  printf("bump_worker_free void\nbump_book_free void\nbump_lane_free void\n");
}

/* ------------------------------------------------------------------------------------------------------- readers */

/* Whether these words are told, and 0 behind them. */
static bool are_words(bump_words_of told, const uint64_t *words, int count) {
  for (int i = 0; i < BUMP_MOST_WORDS; i++)
    if (told.words[i] != (i < count ? words[i] : 0)) return false;
  return true;
}

/* Calls by a hold that holds nothing: of a number that is there, and of one that isn't. */
static void nothing_held(bump_worker *w) {
  static const uint32_t HOLD[] = { 0, NO_HOLD };
  for (int i = 0; i < 2; i++) {
    ANSWERS(bump_touch, bump_touch(w, HOLD[i], NOW).answer, BUMP_TOUCH_NO_HOLD);
    bump_labelled label = bump_label(w, HOLD[i]);
    ANSWERS(bump_label, label.answer, BUMP_HOLD_NOTHING);
    bump_marks_of marks = bump_marks(w, HOLD[i]);
    ANSWERS(bump_marks, marks.answer, BUMP_HOLD_NOTHING);
    bump_timed timed = bump_time(w, HOLD[i]);
    ANSWERS(bump_time, timed.answer, BUMP_HOLD_NOTHING);
    bump_words_of all = bump_words(w, HOLD[i], 0);
    ANSWERS(bump_words, all.answer, BUMP_HOLD_NOTHING);
    HOLDS_THAT(bump_label, label.label == 0 && timed.time == 0 && all.count == 0 && are_words(all, NULL, 0));
    HOLDS_THAT(bump_marks, !marks.refs && !marks.segment && !marks.linked && !marks.fetched && !marks.active);
    ANSWERS(bump_marked, bump_marked(w, HOLD[i]), false);
    ANSWERS(bump_release, bump_release(w, HOLD[i]), false);
  }
}

/* An item that stays in HOT: gets, hits, labels, holds. It is left held by hold 0, with both marks. */
static void reads(struct all *a) {
  bump_worker *w = &a->worker[0];
  bump_linked item = bump_link(&a->book[0], LABEL, 5);
  ANSWERS(bump_link, item.answer, BUMP_LINK_DONE);
  HOLDS_THAT(bump_link, item.chunk == 0 && item.generation == 1);
  ANSWERS(bump_get, bump_get(w, HOLDS, item.chunk, 1), BUMP_GET_NO_PLACE);
  ANSWERS(bump_get, bump_get(w, UINT32_MAX, item.chunk, 1), BUMP_GET_NO_PLACE);
  ANSWERS(bump_get, bump_get(w, 0, 5, 1), BUMP_GET_NO_SUCH_CHUNK);
  ANSWERS(bump_get, bump_get(w, 0, UINT32_MAX, 1), BUMP_GET_NO_SUCH_CHUNK);
  ANSWERS(bump_get, bump_get(w, 0, item.chunk, 2), BUMP_GET_STALE);
  ANSWERS(bump_get, bump_get(w, 0, 1, 0), BUMP_GET_STALE);
  nothing_held(w);
  ANSWERS(bump_get, bump_get(w, 0, item.chunk, 1), BUMP_GET_HELD);
  bump_marks_of m = bump_marks(w, 0);
  ANSWERS(bump_marks, m.answer, BUMP_HOLD_READ);
  HOLDS_THAT(bump_marks, m.refs == 2 && m.segment == BUMP_PLACE_HOT && m.linked && !m.fetched && !m.active);
  ANSWERS(bump_get, bump_get(w, 0, item.chunk, 1), BUMP_GET_NO_PLACE);
  ANSWERS(bump_get, bump_get(w, 1, item.chunk, 1), BUMP_GET_HELD);
  ANSWERS(bump_get, bump_get(w, 2, item.chunk, 1), BUMP_GET_HELD);
  ANSWERS(bump_get, bump_get(w, 3, item.chunk, 1), BUMP_GET_REFS_FULL);
  bump_whole_hit hit = bump_hit(w, item.chunk, 1, NOW);
  ANSWERS(bump_hit, hit.got, BUMP_GET_REFS_FULL);
  HOLDS_THAT(bump_hit, hit.touch == BUMP_TOUCH_NO_HOLD && hit.label == 0);
  ANSWERS(bump_hit, bump_hit(w, 5, 1, NOW).got, BUMP_GET_NO_SUCH_CHUNK);
  ANSWERS(bump_hit, bump_hit(w, item.chunk, 7, NOW).got, BUMP_GET_STALE);
  ANSWERS(bump_release, bump_release(w, 2), true);
  ANSWERS(bump_touch, bump_touch(w, 0, NOW).answer, BUMP_TOUCH_FIRST);
  ANSWERS(bump_marked, bump_marked(w, 0), false);
  bump_timed timed = bump_time(w, 0);
  ANSWERS(bump_time, timed.answer, BUMP_HOLD_READ);
  HOLDS_THAT(bump_time, timed.time == 5);
  hit = bump_hit(w, item.chunk, 1, NOW + 1);
  ANSWERS(bump_hit, hit.got, BUMP_GET_HELD);
  ANSWERS(bump_hit, hit.touch, BUMP_TOUCH_MARKED);
  HOLDS_THAT(bump_hit, hit.label == LABEL);
  ANSWERS(bump_touch, bump_touch(w, 1, NOW + 2).answer, BUMP_TOUCH_ALREADY);
  ANSWERS(bump_marked, bump_marked(w, 0), true);
  m = bump_marks(w, 1);
  HOLDS_THAT(bump_marks, m.refs == 3 && m.segment == BUMP_PLACE_HOT && m.linked && m.fetched && m.active);
  HOLDS_THAT(bump_time, bump_time(w, 1).time == NOW + 1);
  bump_labelled label = bump_label(w, 1);
  ANSWERS(bump_label, label.answer, BUMP_HOLD_READ);
  HOLDS_THAT(bump_label, label.label == LABEL);
  ANSWERS(bump_release, bump_release(w, 1), true);
}

static bool is_nothing(bump_seen s) {
  return !s.chunk && !s.generation && !s.refs && !s.segment && !s.time && !s.label && !s.linked && !s.fetched &&
         !s.active;
}

/* That item, seen by its class. */
static void sees(struct all *a) {
  bump_seen s = bump_see(&a->book[0], 0);
  ANSWERS(bump_see, s.answer, BUMP_SEE_SEEN);
  HOLDS_THAT(bump_see, s.chunk == 0 && s.generation == 1 && s.refs == 2 && s.segment == BUMP_PLACE_HOT);
  HOLDS_THAT(bump_see, s.time == NOW + 1 && s.label == LABEL && s.linked && s.fetched && s.active);
  s = bump_see(&a->book[1], 4);
  ANSWERS(bump_see, s.answer, BUMP_SEE_SEEN);
  HOLDS_THAT(bump_see, s.chunk == 4 && s.generation == 0 && s.refs == 0 && !s.linked && !s.fetched && !s.active);
  s = bump_see(&a->book[1], 0);
  ANSWERS(bump_see, s.answer, BUMP_SEE_NO_SUCH_CHUNK);
  HOLDS_THAT(bump_see, is_nothing(s));
  ANSWERS(bump_see, bump_see(&a->book[0], 3).answer, BUMP_SEE_NO_SUCH_CHUNK);
  ANSWERS(bump_see, bump_see(&a->book[1], UINT32_MAX).answer, BUMP_SEE_NO_SUCH_CHUNK);
}

/* Words that are refused: too many. */
static void too_many_words(bump_book *b) {
  const uint64_t given[WORDS + 1] = { 1 };
  bump_linked item = bump_link_words(b, 1, given, WORDS + 1, 1);
  ANSWERS(bump_link_words, item.answer, BUMP_LINK_TOO_MANY_WORDS);
  HOLDS_THAT(bump_link_words, item.chunk == 0 && item.generation == 0 && bump_size(b, BUMP_PLACE_UNUSED) == 2);
  item = bump_link_temp_words(b, 1, given, WORDS + 1, 1);
  ANSWERS(bump_link_temp_words, item.answer, BUMP_LINK_TOO_MANY_WORDS);
  HOLDS_THAT(bump_link_temp_words, item.chunk == 0 && item.generation == 0 && bump_size(b, BUMP_PLACE_UNUSED) == 2);
}

/* Items with words beside the label, in class 1, which is left empty. Those that aren't given are what they were. */
static void words(struct all *a) {
  bump_book *b = &a->book[1];
  bump_worker *w = &a->worker[0];
  uint64_t given[WORDS], kept[3] = { 13, UINT64_MAX, 0 };
  for (uint64_t i = 0; i < WORDS; i++) given[i] = UINT64_MAX - i * i;
  too_many_words(b);
  bump_linked item = bump_link_words(b, 1, given, 2, 1);
  ANSWERS(bump_link_words, item.answer, BUMP_LINK_DONE);
  HOLDS_THAT(bump_link_words, item.chunk == 3 && item.generation == 1 && bump_size(b, BUMP_PLACE_HOT) == 1);
  ANSWERS(bump_get, bump_get(w, 1, item.chunk, item.generation), BUMP_GET_HELD);
  bump_words_of all = bump_words(w, 1, 0);
  ANSWERS(bump_words, all.answer, BUMP_HOLD_READ);
  HOLDS_THAT(bump_words, all.count == WORDS && are_words(all, given, 2));
  ANSWERS(bump_release, bump_release(w, 1), true);
  ANSWERS(bump_unlink, bump_unlink(b, item.chunk, item.generation).answer, BUMP_UNLINK_FREED);
  item = bump_link_temp_words(b, 2, kept, 1, 2);
  ANSWERS(bump_link_temp_words, item.answer, BUMP_LINK_DONE);
  HOLDS_THAT(bump_link_temp_words, item.chunk == 3 && item.generation == 2 && bump_size(b, BUMP_PLACE_TEMP) == 1);
  ANSWERS(bump_get, bump_get(w, 1, item.chunk, item.generation), BUMP_GET_HELD);
  kept[1] = given[1];
  HOLDS_THAT(bump_words, are_words(bump_words(w, 1, 0), kept, 3) && bump_label(w, 1).label == 2);
  ANSWERS(bump_release, bump_release(w, 1), true);
  bump_linked wide = bump_link_words(b, 3, given, WORDS, 3);
  ANSWERS(bump_link_words, wide.answer, BUMP_LINK_DONE);
  ANSWERS(bump_get, bump_get(w, 1, wide.chunk, wide.generation), BUMP_GET_HELD);
  for (uint32_t first = 0; first <= WORDS; first++) {
    int left = WORDS - (int)first;
    all = bump_words(w, 1, first);
    HOLDS_THAT(bump_words, all.answer == BUMP_HOLD_READ && all.count == WORDS);
    HOLDS_THAT(bump_words, are_words(all, given + first, left < BUMP_MOST_WORDS ? left : BUMP_MOST_WORDS));
  }
  all = bump_words(w, 1, UINT32_MAX);
  HOLDS_THAT(bump_words, all.answer == BUMP_HOLD_READ && all.count == WORDS && are_words(all, NULL, 0));
  ANSWERS(bump_release, bump_release(w, 1), true);
  ANSWERS(bump_link_words, bump_link_words(b, 4, given, 0, 4).answer, BUMP_LINK_NO_FREE_CHUNK);
  ANSWERS(bump_link_temp_words, bump_link_temp_words(b, 4, given, 1, 4).answer, BUMP_LINK_NO_FREE_CHUNK);
  ANSWERS(bump_unlink, bump_unlink(b, item.chunk, item.generation).answer, BUMP_UNLINK_FREED);
  ANSWERS(bump_unlink, bump_unlink(b, wide.chunk, wide.generation).answer, BUMP_UNLINK_FREED);
}

/* ------------------------------------------------------------------------------------------------------- a class */

/* Pulls that have no item. */
static void no_pulls(bump_book *b) {
  bump_pulled p = bump_pull(b, 4, 0);
  ANSWERS(bump_pull, p.answer, BUMP_PULL_NO_SUCH_TAIL);
  HOLDS_THAT(bump_pull, p.chunk == 0 && p.generation == 0 && p.label == 0);
  ANSWERS(bump_pull, bump_pull(b, UINT32_MAX, BUMP_LIMIT_OF_CLASS).answer, BUMP_PULL_NO_SUCH_TAIL);
  p = bump_pull(b, BUMP_TAIL_WARM, 0);
  ANSWERS(bump_pull, p.answer, BUMP_PULL_EMPTY);
  HOLDS_THAT(bump_pull, p.chunk == 0 && p.generation == 0 && p.label == 0);
  ANSWERS(bump_pull, bump_pull(b, BUMP_TAIL_COLD, BUMP_LIMIT_OF_CLASS).answer, BUMP_PULL_EMPTY);
  ANSWERS(bump_pull, bump_pull(b, BUMP_TAIL_EVICT, 0).answer, BUMP_PULL_EMPTY);
}

/* The item that is held by hold 0 goes on: from HOT to WARM, to COLD by limits, and back to WARM. */
static void pulls(struct all *a) {
  bump_book *b = &a->book[0];
  bump_worker *w = &a->worker[0];
  bump_limits_of limits = bump_limits(&a->book[1]);
  HOLDS_THAT(bump_limits, limits.hot == 4 && limits.warm == 5);
  no_pulls(b);
  bump_pulled p = bump_pull(b, BUMP_TAIL_HOT, 100);
  ANSWERS(bump_pull, p.answer, BUMP_PULL_WARM);
  HOLDS_THAT(bump_pull, p.chunk == 0 && p.generation == 1 && p.label == LABEL);
  p = bump_pull(b, BUMP_TAIL_WARM, BUMP_LIMIT_OF_CLASS);
  ANSWERS(bump_pull, p.answer, BUMP_PULL_STAY);
  HOLDS_THAT(bump_pull, p.chunk == 0 && p.generation == 1 && p.label == LABEL);
  ANSWERS(bump_pull, bump_pull(b, BUMP_TAIL_WARM, 1).answer, BUMP_PULL_STAY);
  ANSWERS(bump_touch, bump_touch(w, 0, NOW).answer, BUMP_TOUCH_MARKED);
  p = bump_pull(b, BUMP_TAIL_WARM, 100);
  ANSWERS(bump_pull, p.answer, BUMP_PULL_AGAIN);
  HOLDS_THAT(bump_pull, p.chunk == 0 && p.generation == 1 && p.label == LABEL);
  HOLDS_THAT(bump_size, bump_size(b, BUMP_PLACE_WARM) == 1 && bump_size(b, BUMP_PLACE_UNUSED) == 2);
  ANSWERS(bump_size, bump_size(b, 7), BUMP_NONE);
  p = bump_pull(b, BUMP_TAIL_WARM, 0);
  ANSWERS(bump_pull, p.answer, BUMP_PULL_COLD);
  HOLDS_THAT(bump_pull, p.label == LABEL && bump_size(b, BUMP_PLACE_COLD) == 1);
  ANSWERS(bump_pull, bump_pull(b, BUMP_TAIL_COLD, 0).answer, BUMP_PULL_STAY);
  ANSWERS(bump_touch, bump_touch(w, 0, NOW + 3).answer, BUMP_TOUCH_QUEUED);
  ANSWERS(bump_pull, bump_pull(b, BUMP_TAIL_COLD, 0).answer, BUMP_PULL_WARM);
  bump_ran ran = bump_apply_run(b, &a->lane[0], NOW + 4, 1);
  HOLDS_THAT(bump_apply_run, ran.applied == 1 && bump_time(w, 0).time == NOW + 4);
  HOLDS_THAT(bump_moves, bump_moves(b, 0) == 0);
}

/* Other items end, and it too, while it is held. */
static void ends(struct all *a) {
  bump_book *b = &a->book[0];
  bump_worker *w = &a->worker[0];
  bump_linked second = bump_link(b, 8, 6);
  HOLDS_THAT(bump_link, second.chunk == 1 && second.generation == 1);
  ANSWERS(bump_pull, bump_pull(b, BUMP_TAIL_HOT, 1).answer, BUMP_PULL_STAY);
  ANSWERS(bump_pull, bump_pull(b, BUMP_TAIL_HOT, BUMP_LIMIT_OF_CLASS).answer, BUMP_PULL_COLD);
  bump_linked third = bump_link_temp(b, 9, 7);
  ANSWERS(bump_link_temp, third.answer, BUMP_LINK_DONE);
  ANSWERS(bump_link, bump_link(b, 9, 7).answer, BUMP_LINK_NO_FREE_CHUNK);
  ANSWERS(bump_link_temp, bump_link_temp(b, 9, 7).answer, BUMP_LINK_NO_FREE_CHUNK);
  HOLDS_THAT(bump_size, bump_size(b, BUMP_PLACE_TEMP) == 1 && bump_size(b, BUMP_PLACE_COLD) == 1);
  bump_unlinked u = bump_unlink(b, third.chunk, third.generation);
  ANSWERS(bump_unlink, u.answer, BUMP_UNLINK_FREED);
  HOLDS_THAT(bump_unlink, u.label == 9);
  u = bump_unlink(b, third.chunk, third.generation);
  ANSWERS(bump_unlink, u.answer, BUMP_UNLINK_NOT_LINKED);
  HOLDS_THAT(bump_unlink, u.label == 0);
  u = bump_unlink(b, 3, 1);
  ANSWERS(bump_unlink, u.answer, BUMP_UNLINK_NO_SUCH_CHUNK);
  HOLDS_THAT(bump_unlink, u.label == 0);
  ANSWERS(bump_unlink, bump_unlink(&a->book[1], 0, 1).answer, BUMP_UNLINK_NO_SUCH_CHUNK);
  u = bump_unlink(b, 0, 1);
  ANSWERS(bump_unlink, u.answer, BUMP_UNLINK_DEFERRED);
  HOLDS_THAT(bump_unlink, u.label == LABEL && !bump_marks(w, 0).linked && bump_label(w, 0).label == LABEL);
  ANSWERS(bump_sweep, bump_sweep(b), 0);
  HOLDS_THAT(bump_size, bump_size(b, BUMP_PLACE_DYING) == 1);
  ANSWERS(bump_release, bump_release(w, 0), true);
  ANSWERS(bump_sweep, bump_sweep(b), 1);
  HOLDS_THAT(bump_size, bump_size(b, BUMP_PLACE_DYING) == 0);
  ANSWERS(bump_get, bump_get(w, 0, second.chunk, second.generation), BUMP_GET_HELD);
  bump_pulled p = bump_pull(b, BUMP_TAIL_EVICT, 100);
  ANSWERS(bump_pull, p.answer, BUMP_PULL_DEFERRED);
  HOLDS_THAT(bump_pull, p.chunk == 1 && p.generation == 1 && p.label == 8);
  ANSWERS(bump_release, bump_release(w, 0), true);
  ANSWERS(bump_sweep, bump_sweep(b), 1);
  bump_linked fourth = bump_link(b, 10, 8);
  ANSWERS(bump_pull, bump_pull(b, BUMP_TAIL_HOT, 0).answer, BUMP_PULL_COLD);
  p = bump_pull(b, BUMP_TAIL_EVICT, BUMP_LIMIT_OF_CLASS);
  ANSWERS(bump_pull, p.answer, BUMP_PULL_FREED);
  HOLDS_THAT(bump_pull, p.chunk == fourth.chunk && p.generation == fourth.generation && p.label == 10);
  HOLDS_THAT(bump_link, fourth.chunk == 1 && fourth.generation == 2);
}

/* Which chunks a sweep frees: items of class 1 in the chunks 2 to 37, which are held, ended, and given back. */
static void sweeps(uint64_t number) {
  enum { ITEMS = 36 };
  static const bump_class_config classes[2] = { { 2, 1, 1 }, { ITEMS + 1, 1, 1 } };
  bump_config config = CONFIG;
  config.holds = ITEMS;
  struct all a = open_all(config, number, classes);
  bump_book *b = &a.book[1];
  bump_worker *w = &a.worker[0];
  bool right = true;
  for (uint32_t i = 0; i < ITEMS; i++) {
    bump_linked item = bump_link(b, i, 1);
    right &= item.chunk == 2 + i && bump_get(w, i, item.chunk, item.generation) == BUMP_GET_HELD;
    right &= bump_unlink(b, item.chunk, item.generation).answer == BUMP_UNLINK_DEFERRED;
  }
  HOLDS_THAT(bump_unlink, right && bump_size(b, BUMP_PLACE_DYING) == ITEMS);
  bump_freed f = bump_sweep_told(b);
  ANSWERS(bump_sweep_told, f.count, 0);
  HOLDS_THAT(bump_sweep_told, is_zero(f.chunks, 0) && bump_release(w, 0) && bump_release(w, 2));
  f = bump_sweep_told(b);
  ANSWERS(bump_sweep_told, f.count, 2);
  HOLDS_THAT(bump_sweep_told, f.chunks[0] == 4 && f.chunks[1] == 2 && is_zero(f.chunks, 2));
  for (uint32_t i = 3; i < ITEMS; i++) right &= bump_release(w, i);
  f = bump_sweep_told(b);
  ANSWERS(bump_sweep_told, f.count, BUMP_MOST_CHUNKS);
  HOLDS_THAT(bump_sweep_told, goes_down(f.chunks, 37, BUMP_MOST_CHUNKS) && bump_size(b, BUMP_PLACE_DYING) == 2);
  f = bump_sweep_told(b);
  HOLDS_THAT(bump_sweep_told, f.count == 1 && f.chunks[0] == 5 && is_zero(f.chunks, 1));
  HOLDS_THAT(bump_sweep_told, bump_sweep_told(b).count == 0 && right && bump_release(w, 1));
  f = bump_sweep_told(b);
  HOLDS_THAT(bump_sweep_told, f.count == 1 && f.chunks[0] == 3 && bump_size(b, BUMP_PLACE_DYING) == 0);
  HOLDS_THAT(bump_link, bump_link(b, 9, 9).chunk == 3 && bump_link(b, 9, 9).chunk == 5);
  free_all(&a);
}

/* ------------------------------------------------------------------------------------------------ looks and walks */

/* Items of class 1 in each list, by chunks of one life: 2 in COLD, 3 in WARM, 4 in DYING, held, 5 in RETIRED, 6 in
 * TEMP, 7 to 46 in HOT, and 47 in UNUSED. */
static struct all open_listed(uint64_t number) {
  static const bump_class_config classes[2] = { { 2, 1, 1 }, { 46, 1, 1 } };
  bump_config config = CONFIG;
  config.first_generation = UINT32_MAX;
  struct all a = open_all(config, number, classes);
  bump_book *b = &a.book[1];
  bump_worker *w = &a.worker[0];
  for (uint32_t chunk = 2; chunk <= 46; chunk++) {
    bump_linked item = chunk == 6 ? bump_link_temp(b, 100 + chunk, chunk) : bump_link(b, 100 + chunk, chunk);
    HOLDS_THAT(bump_link, item.chunk == chunk && item.generation == UINT32_MAX);
    if (chunk == 2) ANSWERS(bump_pull, bump_pull(b, BUMP_TAIL_HOT, 0).answer, BUMP_PULL_COLD);
    if (chunk == 3) {
      ANSWERS(bump_hit, bump_hit(w, chunk, UINT32_MAX, 3).touch, BUMP_TOUCH_FIRST);
      ANSWERS(bump_hit, bump_hit(w, chunk, UINT32_MAX, 3).touch, BUMP_TOUCH_MARKED);
      ANSWERS(bump_pull, bump_pull(b, BUMP_TAIL_HOT, 100).answer, BUMP_PULL_WARM);
    }
    if (chunk == 4) ANSWERS(bump_get, bump_get(w, 0, chunk, UINT32_MAX), BUMP_GET_HELD);
    if (chunk == 4) ANSWERS(bump_unlink, bump_unlink(b, chunk, UINT32_MAX).answer, BUMP_UNLINK_DEFERRED);
    if (chunk == 5) ANSWERS(bump_unlink, bump_unlink(b, chunk, UINT32_MAX).answer, BUMP_UNLINK_FREED);
  }
  return a;
}

static void looks(bump_book *b, bump_book *other) {
  static const uint32_t LAST[] = { 7, 3, 2, 6, 4, 47, 5 };
  for (uint32_t place = 0; place <= BUMP_PLACE_RETIRED; place++) {
    bump_seen s = bump_look(b, place, BUMP_NONE);
    bool is_item = place <= BUMP_PLACE_TEMP, was = place != BUMP_PLACE_UNUSED;
    ANSWERS(bump_look, s.answer, BUMP_SEE_SEEN);
    HOLDS_THAT(bump_look, s.chunk == LAST[place] && s.linked == is_item && (!is_item || s.segment == place));
    HOLDS_THAT(bump_look, s.label == (was ? 100 + LAST[place] : 0) && s.time == (was ? LAST[place] : 0));
    HOLDS_THAT(bump_look, s.generation == UINT32_MAX - !was && s.refs == (is_item || place == BUMP_PLACE_DYING));
    HOLDS_THAT(bump_look, s.fetched == (place == BUMP_PLACE_WARM) && !s.active);
    if (place != BUMP_PLACE_HOT) ANSWERS(bump_look, bump_look(b, place, LAST[place]).answer, BUMP_SEE_NOTHING);
  }
  for (uint32_t behind = 7; behind < 46; behind++) {
    bump_seen s = bump_look(b, BUMP_PLACE_HOT, behind);
    ANSWERS(bump_look, s.answer, BUMP_SEE_SEEN);
    HOLDS_THAT(bump_look, s.chunk == behind + 1 && s.label == 101 + behind);
  }
  bump_seen s = bump_look(b, BUMP_PLACE_HOT, 46);
  ANSWERS(bump_look, s.answer, BUMP_SEE_NOTHING);
  HOLDS_THAT(bump_look, is_nothing(s));
  s = bump_look(other, BUMP_PLACE_TEMP, BUMP_NONE);
  ANSWERS(bump_look, s.answer, BUMP_SEE_NOTHING);
  HOLDS_THAT(bump_look, is_nothing(s));
  s = bump_look(b, BUMP_PLACE_HOT, 6);
  ANSWERS(bump_look, s.answer, BUMP_SEE_NO_SUCH_CHUNK);
  HOLDS_THAT(bump_look, is_nothing(s));
  ANSWERS(bump_look, bump_look(b, BUMP_PLACE_UNUSED, 0).answer, BUMP_SEE_NO_SUCH_CHUNK);
  ANSWERS(bump_look, bump_look(b, BUMP_PLACE_HOT, 48).answer, BUMP_SEE_NO_SUCH_CHUNK);
  s = bump_look(b, 7, 7);
  ANSWERS(bump_look, s.answer, BUMP_SEE_NO_SUCH_PLACE);
  HOLDS_THAT(bump_look, is_nothing(s));
  ANSWERS(bump_look, bump_look(b, UINT32_MAX, BUMP_NONE).answer, BUMP_SEE_NO_SUCH_PLACE);
}

static void walks(bump_book *b, bump_book *other) {
  bump_walked n = bump_walk(b, BUMP_PLACE_HOT, BUMP_NONE);
  ANSWERS(bump_walk, n.answer, BUMP_WALK_DONE);
  HOLDS_THAT(bump_walk, n.count == BUMP_MOST_CHUNKS && n.next == 14 && goes_down(n.chunks, 46, BUMP_MOST_CHUNKS));
  n = bump_walk(b, BUMP_PLACE_HOT, n.next);
  ANSWERS(bump_walk, n.answer, BUMP_WALK_DONE);
  HOLDS_THAT(bump_walk, n.count == 8 && n.next == BUMP_NONE && goes_down(n.chunks, 14, 8));
  n = bump_walk(b, BUMP_PLACE_HOT, 39);
  HOLDS_THAT(bump_walk, n.count == BUMP_MOST_CHUNKS && n.next == 7 && goes_down(n.chunks, 39, BUMP_MOST_CHUNKS));
  n = bump_walk(b, BUMP_PLACE_HOT, 38);
  HOLDS_THAT(bump_walk, n.count == BUMP_MOST_CHUNKS && n.next == BUMP_NONE && goes_down(n.chunks, 38, n.count));
  n = bump_walk(b, BUMP_PLACE_HOT, 7);
  HOLDS_THAT(bump_walk, n.count == 1 && n.next == BUMP_NONE && goes_down(n.chunks, 7, 1));
  n = bump_walk(b, BUMP_PLACE_TEMP, BUMP_NONE);
  HOLDS_THAT(bump_walk, n.count == 1 && n.next == BUMP_NONE && goes_down(n.chunks, 6, 1));
  n = bump_walk(other, BUMP_PLACE_WARM, BUMP_NONE);
  ANSWERS(bump_walk, n.answer, BUMP_WALK_DONE);
  HOLDS_THAT(bump_walk, n.count == 0 && n.next == BUMP_NONE && is_zero(n.chunks, 0));
  n = bump_walk(b, BUMP_PLACE_HOT, 6);
  ANSWERS(bump_walk, n.answer, BUMP_WALK_NOT_THERE);
  HOLDS_THAT(bump_walk, n.count == 0 && n.next == BUMP_NONE && is_zero(n.chunks, 0));
  ANSWERS(bump_walk, bump_walk(b, BUMP_PLACE_UNUSED, 0).answer, BUMP_WALK_NOT_THERE);
  ANSWERS(bump_walk, bump_walk(b, BUMP_PLACE_HOT, 48).answer, BUMP_WALK_NOT_THERE);
  n = bump_walk(b, 7, BUMP_NONE);
  ANSWERS(bump_walk, n.answer, BUMP_WALK_NO_SUCH_PLACE);
  HOLDS_THAT(bump_walk, n.count == 0 && n.next == BUMP_NONE && is_zero(n.chunks, 0));
  ANSWERS(bump_walk, bump_walk(b, UINT32_MAX, 7).answer, BUMP_WALK_NO_SUCH_PLACE);
}

static void lists(uint64_t number) {
  struct all a = open_listed(number);
  looks(&a.book[1], &a.book[0]);
  walks(&a.book[1], &a.book[0]);
  ANSWERS(bump_release, bump_release(&a.worker[0], 0), true);
  bump_freed f = bump_sweep_told(&a.book[1]);
  HOLDS_THAT(bump_sweep_told, f.count == 1 && goes_down(f.chunks, 4, 1));
  HOLDS_THAT(bump_size, bump_size(&a.book[1], BUMP_PLACE_RETIRED) == 2);
  free_all(&a);
}

/* --------------------------------------------------------------------------------------------------------- bumps */

/* Bumps of worker 1, of two items in COLD: queued, dropped, applied. One is left queued, and y held by hold 0. */
static bump_linked bumps(struct all *a, struct all *other) {
  bump_book *b = &a->book[0];
  bump_worker *w = &a->worker[1];
  bump_lane *l = &a->lane[1];
  bump_linked x = bump_link(b, 20, 1), y = bump_link(b, 21, 2);
  for (int i = 0; i < 2; i++) ANSWERS(bump_pull, bump_pull(b, BUMP_TAIL_HOT, 0).answer, BUMP_PULL_COLD);
  ANSWERS(bump_lane_class, bump_lane_class(l), BUMP_NONE);
  ANSWERS(bump_apply_run, bump_apply_run(b, l, NOW, 9).applied, 0);
  ANSWERS(bump_apply_run, bump_apply_run(&a->book[1], l, NOW, 9).answer, BUMP_RUN_DONE);
  ANSWERS(bump_hit, bump_hit(w, x.chunk, x.generation, NOW).touch, BUMP_TOUCH_FIRST);
  ANSWERS(bump_hit, bump_hit(w, y.chunk, y.generation, NOW).touch, BUMP_TOUCH_FIRST);
  ANSWERS(bump_get, bump_get(w, 0, y.chunk, y.generation), BUMP_GET_HELD);
  ANSWERS(bump_get, bump_get(w, 1, y.chunk, y.generation), BUMP_GET_HELD);
  ANSWERS(bump_get, bump_get(w, 2, y.chunk, y.generation), BUMP_GET_HELD);
  ANSWERS(bump_touch, bump_touch(w, 0, NOW).answer, BUMP_TOUCH_DROPPED_REFS_FULL);
  ANSWERS(bump_release, bump_release(w, 2), true);
  ANSWERS(bump_hit, bump_hit(w, x.chunk, x.generation, NOW).touch, BUMP_TOUCH_QUEUED);
  ANSWERS(bump_hit, bump_hit(w, x.chunk, x.generation, NOW).touch, BUMP_TOUCH_ALREADY);
  ANSWERS(bump_touch, bump_touch(w, 0, NOW).answer, BUMP_TOUCH_DROPPED_FULL);
  ANSWERS(bump_hit, bump_hit(w, y.chunk, y.generation, NOW).touch, BUMP_TOUCH_DROPPED_REFS_FULL);
  ANSWERS(bump_release, bump_release(w, 1), true);
  ANSWERS(bump_hit, bump_hit(w, y.chunk, y.generation, NOW).touch, BUMP_TOUCH_DROPPED_FULL);
  bump_counts c = bump_worker_counts(w);
  HOLDS_THAT(bump_worker_counts, c.attempted == 5 && c.accepted == 1 && c.full == 2 && c.busy == 0 && c.refs == 2);
  ANSWERS(bump_lane_class, bump_lane_class(l), 0);
  ANSWERS(bump_apply_run, bump_apply_run(b, l, NOW, 0).applied, 0);
  bump_ran ran = bump_apply_run(&a->book[1], l, NOW, 9);
  ANSWERS(bump_apply_run, ran.answer, BUMP_RUN_OTHER_CLASS);
  HOLDS_THAT(bump_apply_run, ran.applied == 0);
  tells("the two handles are of two stores");
  ran = bump_apply_run(&other->book[0], l, NOW, 9);
  ANSWERS(bump_apply_run, ran.answer, BUMP_RUN_OTHER_STORE);
  HOLDS_THAT(bump_apply_run, ran.applied == 0 && bump_see(b, x.chunk).segment == BUMP_PLACE_COLD);
  ran = bump_apply_run(b, l, NOW + 5, 9);
  ANSWERS(bump_apply_run, ran.answer, BUMP_RUN_DONE);
  HOLDS_THAT(bump_apply_run, ran.applied == 1);
  bump_seen s = bump_see(b, x.chunk);
  HOLDS_THAT(bump_see, s.segment == BUMP_PLACE_WARM && s.time == NOW + 5 && s.fetched && !s.active && s.refs == 1);
  HOLDS_THAT(bump_moves, bump_moves(b, 1) == 1 && bump_moves(b, 0) == 0 && bump_moves(&a->book[1], 1) == 0);
  ANSWERS(bump_moves, bump_moves(b, 2), UINT64_MAX);
  bump_touched queued = bump_touch(w, 0, NOW);
  ANSWERS(bump_touch, queued.answer, BUMP_TOUCH_QUEUED);
  HOLDS_THAT(bump_touch, queued.number == 1);
  ANSWERS(bump_rest, bump_rest(l).answer, BUMP_REST_OPEN);
  return y;
}

/* A close that is refused: the worker comes back. */
static void refused(bump_lane *lane, bump_worker *worker, enum bump_close_answer why, const char *answer) {
  bump_worker back = { 0 };
  enum bump_close_answer is = bump_worker_close(lane, *worker, &back);
  see(is == why && back.p != NULL, __FILE__, __LINE__, "bump_worker_close", answer);
  *worker = back;
}
#define REFUSED(lane, worker, why) refused(lane, worker, why, #why)

/* That worker is closed, and settled. */
static void closes(struct all *a, struct all *other, bump_linked y) {
  bump_book *b = &a->book[0];
  bump_worker *w = &a->worker[1], back = { 0 };
  bump_lane *l = &a->lane[1];
  tells("the two handles are of two stores");
  REFUSED(&other->lane[1], w, BUMP_CLOSE_OTHER_STORE);
  REFUSED(&a->lane[0], w, BUMP_CLOSE_OTHER_WORKER);
  REFUSED(l, w, BUMP_CLOSE_HOLDS_OUT);
  HOLDS_THAT(bump_release, bump_release(w, 0) && !bump_release(w, 1) && !bump_release(w, 2));
  ANSWERS(bump_worker_close, bump_worker_close(l, *w, &back), BUMP_CLOSE_DONE);
  HOLDS_THAT(bump_worker_close, back.p == NULL);
  w->p = NULL;
  bump_rested r = bump_rest(l);
  ANSWERS(bump_rest, r.answer, BUMP_REST_LEFT);
  HOLDS_THAT(bump_rest, r.left == 1 && r.applied == 1 && r.counts.attempted == 6 && r.counts.accepted == 2);
  HOLDS_THAT(bump_rest, r.counts.full == 2 && r.counts.busy == 0 && r.counts.refs == 2);
  HOLDS_THAT(bump_rest, bump_lane_class(l) == 0 && bump_rest(l).left == 1);
  ANSWERS(bump_unlink, bump_unlink(b, y.chunk, y.generation).answer, BUMP_UNLINK_DEFERRED);
  ANSWERS(bump_apply_run, bump_apply_run(b, l, NOW, 9).applied, 1);
  HOLDS_THAT(bump_size, bump_size(b, BUMP_PLACE_DYING) == 0 && bump_size(b, BUMP_PLACE_UNUSED) == 2);
  r = bump_rest(l);
  ANSWERS(bump_rest, r.answer, BUMP_REST_SETTLED);
  HOLDS_THAT(bump_rest, r.left == 0 && r.applied == 2 && r.counts.accepted == 2);
}

/* A run that does nothing. */
static bool did_nothing(bump_ran_told ran) {
  return ran.applied == 0 && ran.freed == 0 && is_zero(ran.chunks, 0);
}

/* Which chunks a run frees: items of class 1 in the chunks 2 to 38, which are in COLD, each with a bump. All but the
 * first are ended, and the second is still held. */
static void runs(uint64_t number, struct all *other) {
  enum { ITEMS = 37 };
  static const bump_class_config classes[2] = { { 2, 1, 1 }, { ITEMS, 0, 1 } };
  bump_config config = CONFIG;
  config.capacity = ITEMS;
  struct all a = open_all(config, number, classes);
  bump_book *b = &a.book[1];
  bump_worker *w = &a.worker[0];
  bump_lane *l = &a.lane[0];
  bool right = true;
  for (uint32_t i = 0; i < ITEMS; i++) {
    bump_linked item = bump_link(b, i, 1);
    right &= item.chunk == 2 + i && bump_pull(b, BUMP_TAIL_HOT, 0).answer == BUMP_PULL_COLD;
    right &= bump_hit(w, item.chunk, 1, 1).touch == BUMP_TOUCH_FIRST;
    right &= bump_hit(w, item.chunk, 1, 1).touch == BUMP_TOUCH_QUEUED;
    if (i == 1) right &= bump_get(w, 0, item.chunk, 1) == BUMP_GET_HELD;
    if (i > 0) right &= bump_unlink(b, item.chunk, 1).answer == BUMP_UNLINK_DEFERRED;
  }
  HOLDS_THAT(bump_unlink, right && bump_size(b, BUMP_PLACE_DYING) == ITEMS - 1);
  bump_ran_told ran = bump_apply_run_told(&a.book[0], l, 2, 9);
  ANSWERS(bump_apply_run_told, ran.answer, BUMP_RUN_OTHER_CLASS);
  HOLDS_THAT(bump_apply_run_told, did_nothing(ran));
  tells("the two handles are of two stores");
  ran = bump_apply_run_told(&other->book[0], l, 2, 9);
  ANSWERS(bump_apply_run_told, ran.answer, BUMP_RUN_OTHER_STORE);
  HOLDS_THAT(bump_apply_run_told, did_nothing(ran));
  ran = bump_apply_run_told(b, l, 2, 0);
  ANSWERS(bump_apply_run_told, ran.answer, BUMP_RUN_DONE);
  HOLDS_THAT(bump_apply_run_told, did_nothing(ran) && bump_apply_run(b, l, 2, 0).applied == 0);
  ran = bump_apply_run_told(b, l, 2, 1);
  HOLDS_THAT(bump_apply_run_told, ran.applied == 1 && ran.freed == 0 && bump_moves(b, 0) == 1);
  ran = bump_apply_run_told(b, l, 2, 2);
  HOLDS_THAT(bump_apply_run_told, ran.applied == 2 && ran.freed == 1 && ran.chunks[0] == 4 && is_zero(ran.chunks, 1));
  ran = bump_apply_run_told(b, l, 2, 100);
  ANSWERS(bump_apply_run_told, ran.answer, BUMP_RUN_DONE);
  HOLDS_THAT(bump_apply_run_told, ran.applied == BUMP_MOST_CHUNKS && ran.freed == BUMP_MOST_CHUNKS);
  for (uint32_t i = 0; i < BUMP_MOST_CHUNKS; i++) right &= ran.chunks[i] == 5 + i;
  ran = bump_apply_run_told(b, l, 2, 100);
  HOLDS_THAT(bump_apply_run_told, ran.applied == 2 && ran.freed == 2 && ran.chunks[0] == 37 && ran.chunks[1] == 38);
  HOLDS_THAT(bump_apply_run_told, right && is_zero(ran.chunks, 2) && did_nothing(bump_apply_run_told(b, l, 2, 100)));
  ANSWERS(bump_release, bump_release(w, 0), true);
  bump_freed f = bump_sweep_told(b);
  HOLDS_THAT(bump_sweep_told, f.count == 1 && f.chunks[0] == 3 && bump_size(b, BUMP_PLACE_UNUSED) == ITEMS - 1);
  free_all(&a);
}

/* ----------------------------------------------------------------------------------------------------------- ends */

/* A worker that is freed and not closed, with a bump in its ring. */
static void gone(uint64_t number) {
  struct all a = open_all(CONFIG, number, CLASSES);
  bump_linked x = bump_link(&a.book[0], 1, 1);
  ANSWERS(bump_pull, bump_pull(&a.book[0], BUMP_TAIL_HOT, 0).answer, BUMP_PULL_COLD);
  ANSWERS(bump_hit, bump_hit(&a.worker[1], x.chunk, x.generation, 2).touch, BUMP_TOUCH_FIRST);
  ANSWERS(bump_hit, bump_hit(&a.worker[1], x.chunk, x.generation, 2).touch, BUMP_TOUCH_QUEUED);
  ANSWERS(bump_get, bump_get(&a.worker[1], 0, x.chunk, x.generation), BUMP_GET_HELD);
  ANSWERS(bump_rest, bump_rest(&a.lane[1]).answer, BUMP_REST_OPEN);
  bump_worker_free(a.worker[1]);
  a.worker[1].p = NULL;
  bump_rested r = bump_rest(&a.lane[1]);
  ANSWERS(bump_rest, r.answer, BUMP_REST_GONE);
  HOLDS_THAT(bump_rest, r.left == 0 && r.applied == 0 && r.counts.attempted == 0 && r.counts.accepted == 0);
  HOLDS_THAT(bump_see, bump_see(&a.book[0], x.chunk).refs == 2);
  ANSWERS(bump_lane_class, bump_lane_class(&a.lane[1]), 0);
  ANSWERS(bump_apply_run, bump_apply_run(&a.book[0], &a.lane[1], 3, 9).applied, 1);
  r = bump_rest(&a.lane[1]);
  ANSWERS(bump_rest, r.answer, BUMP_REST_GONE);
  HOLDS_THAT(bump_rest, r.left == 0 && r.applied == 1 && r.counts.accepted == 0 && bump_moves(&a.book[0], 1) == 1);
  ANSWERS(bump_rest, bump_rest(&a.lane[0]).answer, BUMP_REST_OPEN);
  free_all(&a);
}

/* A lane has a closed worker already. Two stores of one number break a promise, and are the only way to it: the second
 * worker is refused before anything is done with it. */
static void twice(uint64_t number) {
  struct all a = open_all(CONFIG, number, CLASSES);
  tells("a store that is open has this number");
  struct all other = open_all(CONFIG, number, CLASSES);
  bump_worker back = { 0 };
  ANSWERS(bump_worker_close, bump_worker_close(&a.lane[0], a.worker[0], &back), BUMP_CLOSE_DONE);
  a.worker[0].p = NULL;
  tells("the two handles are of two stores");
  REFUSED(&a.lane[0], &other.worker[0], BUMP_CLOSE_TWICE);
  ANSWERS(bump_rest, bump_rest(&a.lane[0]).answer, BUMP_REST_SETTLED);
  free_all(&other);
  free_all(&a);
}

/* The last generation: its chunk is retired. And a store that is given back with all its parts in it. */
static void last_generation(void) {
  bump_store store = { 0 };
  bump_config config = { 9, 1, 1, 2, UINT32_MAX, 0, 0 };
  bump_class_config class = { 1, 1, 1 };
  bump_book b = { 0 };
  bump_worker w = { 0 };
  bump_lane l = { 0 };
  const uint64_t word = 1;
  ANSWERS(bump_open, bump_open(&store, &config, &class, 1), BUMP_OPEN_DONE);
  HOLDS_THAT(bump_take_book, bump_take_book(&store, 0, &b) && bump_take_lane(&store, 0, &l));
  ANSWERS(bump_rest, bump_rest(&l).answer, BUMP_REST_OPEN);
  HOLDS_THAT(bump_take_worker, bump_take_worker(&store, 0, &w));
  bump_close(store);
  bump_linked item = bump_link_words(&b, 1, &word, 0, 1);
  HOLDS_THAT(bump_link_words, item.answer == BUMP_LINK_DONE && item.chunk == 0 && item.generation == UINT32_MAX);
  ANSWERS(bump_get, bump_get(&w, 0, 0, UINT32_MAX), BUMP_GET_NO_PLACE);
  ANSWERS(bump_words, bump_words(&w, 0, 0).answer, BUMP_HOLD_NOTHING);
  ANSWERS(bump_hit, bump_hit(&w, 0, UINT32_MAX, 1).touch, BUMP_TOUCH_FIRST);
  ANSWERS(bump_unlink, bump_unlink(&b, 0, UINT32_MAX).answer, BUMP_UNLINK_FREED);
  HOLDS_THAT(bump_size, bump_size(&b, BUMP_PLACE_RETIRED) == 1);
  ANSWERS(bump_link, bump_link(&b, 1, 1).answer, BUMP_LINK_NO_FREE_CHUNK);
  ANSWERS(bump_link_words, bump_link_words(&b, 1, &word, 1, 1).answer, BUMP_LINK_TOO_MANY_WORDS);
  bump_book_free(b);
  bump_worker_free(w);
  ANSWERS(bump_rest, bump_rest(&l).answer, BUMP_REST_GONE);
  bump_lane_free(l);
}

/* Parts that nobody takes are given back with the store: a lane sees that its worker is. */
static void left_in(void) {
  bump_store store = { 0 };
  bump_lane l = { 0 };
  ANSWERS(bump_open, bump_open(&store, &CONFIG, CLASSES, 2), BUMP_OPEN_DONE);
  HOLDS_THAT(bump_take_lane, bump_take_lane(&store, 1, &l) && bump_rest(&l).answer == BUMP_REST_OPEN);
  bump_close(store);
  ANSWERS(bump_rest, bump_rest(&l).answer, BUMP_REST_GONE);
  bump_lane_free(l);
}

int main(void) {
#ifdef BUMP_DEBUG
  bump_debug_broken = hear;
#endif
  configurations();
  struct all a = open_all(CONFIG, CONFIG.store, CLASSES), other = open_all(CONFIG, CONFIG.store + 1, CLASSES);
  reads(&a);
  sees(&a);
  words(&a);
  pulls(&a);
  ends(&a);
  closes(&a, &other, bumps(&a, &other));
  runs(CONFIG.store + 2, &other);
  free_all(&other);
  free_all(&a);
  sweeps(20);
  lists(21);
  gone(22);
  twice(23);
  last_generation();
  left_in();
  tells("");
  return failed;
}
