/* Eight readers, two threads that drain, and two that store, age and end, on one store. Then all has to add up.
 *
 *   soak [READS]       so many reads of all readers together: 1,000,000 unless it is said
 *
 * Each reader makes half of its reads by bump_hit, and half by calls between which it holds items for a while, and
 * counts itself among the chunk's holders. A chunk that a call tells as free may have no holder. The second of those
 * that store drains lanes too, and its sweeps and runs tell it which chunks came free. */
#define _POSIX_C_SOURCE 200809L
#include "bump.h"
#include "soaking.h"
#include <inttypes.h>
#include <pthread.h>
#include <sched.h>
#include <stdatomic.h>
#include <stdio.h>
#include <stdlib.h>

enum { READERS = 8, DRAINERS = 2, SHARES = DRAINERS + 1, HOLDS = 8, ANSWERS = 9 };
enum { CLASSES = 3, CHUNKS = 1200, KEYS = 3000 };

static const bump_class_config CLASS[CLASSES] = { { 400, 4, 8 }, { 500, 8, 16 }, { 300, 0, 0 } };
static const bump_config CONFIG = { 1, READERS, 256, 6, 1, HOLDS, 2 };

static bump_worker worker[READERS];
static bump_lane lane[READERS];
static bump_book book[CLASSES];
static pthread_mutex_t class_lock[CLASSES];
static _Atomic uint64_t item[KEYS]; /* generation << 32 | chunk; 0: none */
static _Atomic int holders[CHUNKS];
static _Atomic int readers_left = READERS;
static _Atomic uint64_t told_free; /* chunks told as free */
static uint64_t reads = 1000000;

struct tally {
  uint64_t touched[ANSWERS], got[ANSWERS], next_number;
};
static struct tally tally[READERS];

/* Some keys are asked for much more often. */
static uint32_t some_key(uint64_t *state) {
  uint64_t r = random_from(state);
  return (uint32_t)(r % 4 ? r / 4 % 64 : r / 4 % KEYS);
}

/* --------------------------------------------------------------------------------------------------------- readers */

struct held {
  uint32_t key, chunk; /* key BUMP_NONE: nothing */
};

static void count_touch(struct tally *t, uint32_t answer) {
  want(answer < ANSWERS && answer != BUMP_TOUCH_NO_HOLD);
  if (answer < ANSWERS) t->touched[answer]++;
}

/* What a hold reads is of its key, as long as it is there. */
static void read_held(bump_worker *w, uint32_t hold, uint32_t key) {
  bump_words_of all = bump_words(w, hold, 0);
  bump_labelled label = bump_label(w, hold);
  bump_marks_of marks = bump_marks(w, hold);
  want(label.answer == BUMP_HOLD_READ && label.label == key);
  want(all.answer == BUMP_HOLD_READ && all.count == 2);
  want(all.words[0] == 3 * (uint64_t)key + 1 && all.words[1] == ~(uint64_t)key && all.words[2] == 0);
  want(marks.answer == BUMP_HOLD_READ && marks.refs >= 1 && marks.segment <= BUMP_PLACE_TEMP);
  want(marks.fetched || !marks.active);
  want(bump_time(w, hold).answer == BUMP_HOLD_READ);
}

static void let_go(bump_worker *w, uint32_t hold, struct held *h) {
  read_held(w, hold, h->key);
  atomic_fetch_sub(&holders[h->chunk], 1);
  want(bump_release(w, hold));
  h->key = BUMP_NONE;
}

static void read_by_hold(size_t n, struct held *held, uint32_t key, uint64_t id, uint64_t now) {
  struct tally *t = &tally[n];
  bump_worker *w = &worker[n];
  uint32_t hold = (uint32_t)(now / 2 % HOLDS);
  struct held *h = &held[hold];
  if (h->key != BUMP_NONE) let_go(w, hold, h);
  enum bump_get_answer got = bump_get(w, hold, (uint32_t)id, (uint32_t)(id >> 32));
  t->got[got]++;
  if (got != BUMP_GET_HELD) return;
  h->key = key;
  h->chunk = (uint32_t)id;
  atomic_fetch_add(&holders[h->chunk], 1);
  read_held(w, hold, key);
  if (now % 4 == 1 && bump_marked(w, hold)) {
    t->touched[BUMP_TOUCH_ALREADY]++;
    return;
  }
  bump_touched touched = bump_touch(w, hold, now);
  if (touched.answer == BUMP_TOUCH_QUEUED) want(touched.number == t->next_number++);
  count_touch(t, (uint32_t)touched.answer);
}

static void read_by_hit(size_t n, uint32_t key, uint64_t id, uint64_t now) {
  struct tally *t = &tally[n];
  bump_whole_hit hit = bump_hit(&worker[n], (uint32_t)id, (uint32_t)(id >> 32), now);
  t->got[hit.got]++;
  if (hit.got != BUMP_GET_HELD) return;
  want(hit.label == key);
  t->next_number += hit.touch == BUMP_TOUCH_QUEUED;
  count_touch(t, (uint32_t)hit.touch);
}

static void *read_all(void *p) {
  size_t n = (size_t)p;
  uint64_t state = 7 + n;
  struct held held[HOLDS];
  for (int i = 0; i < HOLDS; i++) held[i].key = BUMP_NONE;
  for (uint64_t now = 1; now <= reads / READERS; now++) {
    uint32_t key = some_key(&state);
    uint64_t id = atomic_load(&item[key]);
    if (now % 2 == 0)
      read_by_hit(n, key, id, now);
    else
      read_by_hold(n, held, key, id, now);
    if (now % 256 == 0) sched_yield(); /* so that few processors make all threads' calls by turns */
  }
  for (uint32_t i = 0; i < HOLDS; i++) {
    if (held[i].key != BUMP_NONE) let_go(&worker[n], i, &held[i]);
    want(!bump_release(&worker[n], i));
  }
  atomic_fetch_sub(&readers_left, 1);
  return NULL;
}

/* ---------------------------------------------------------------------------------------------- drainers, storers */

/* Who is told this has the lock of the class: so no other item is in the chunk yet. */
static void is_free(uint32_t chunk) {
  want(chunk < CHUNKS && atomic_load(&holders[chunk]) == 0);
  atomic_fetch_add(&told_free, 1);
}

static void are_free(const uint32_t *chunks, uint32_t count) {
  want(count <= BUMP_MOST_CHUNKS);
  for (uint32_t i = 0; i < count && i < BUMP_MOST_CHUNKS; i++) is_free(chunks[i]);
}

/* A run of bumps of a class, whose lock is taken: how many. */
static uint32_t run(uint32_t c, size_t r, uint64_t now, bool tells) {
  if (!tells) {
    bump_ran ran = bump_apply_run(&book[c], &lane[r], now, 256);
    want(ran.answer == BUMP_RUN_DONE && ran.applied > 0);
    return ran.applied;
  }
  bump_ran_told ran = bump_apply_run_told(&book[c], &lane[r], now, 256);
  want(ran.answer == BUMP_RUN_DONE && ran.applied > 0 && ran.freed <= ran.applied);
  are_free(ran.chunks, ran.freed);
  return ran.applied;
}

/* Applies all bumps that a lane knows of. */
static uint32_t drain(size_t r, uint64_t now, bool tells) {
  uint32_t c, all = 0;
  while ((c = bump_lane_class(&lane[r])) != BUMP_NONE) {
    pthread_mutex_lock(&class_lock[c]);
    all += run(c, r, now, tells);
    pthread_mutex_unlock(&class_lock[c]);
  }
  return all;
}

/* A thread that drains has each third lane, and so has the second one that stores. */
static void *drain_all(void *p) {
  for (uint64_t now = 1; atomic_load(&readers_left) > 0; now++)
    for (size_t r = (size_t)p; r < READERS; r += SHARES) drain(r, now, false);
  return NULL;
}

static void pull(uint32_t c, uint32_t tail, uint32_t limit) {
  bump_pulled p = bump_pull(&book[c], tail, limit);
  if (p.answer == BUMP_PULL_EMPTY) return;
  want(p.label < KEYS && p.label % CLASSES == c && p.generation > 0);
  if (p.answer == BUMP_PULL_FREED) is_free(p.chunk);
}

static void unlink_item(uint32_t c, uint32_t chunk, uint32_t generation, uint64_t label) {
  bump_unlinked u = bump_unlink(&book[c], chunk, generation);
  if (u.answer <= BUMP_UNLINK_DEFERRED) want(u.label == label);
  if (u.answer == BUMP_UNLINK_FREED) is_free(chunk);
}

/* Sweeps, and where no chunk is free then ends the last item of COLD: by a pull, or as it is seen. */
static void make_room(uint32_t c, bool tells) {
  bump_book *b = &book[c];
  bump_freed f = { 0, { 0 } };
  if (!tells) bump_sweep(b);
  do {
    if (tells) f = bump_sweep_told(b);
    are_free(f.chunks, f.count);
  } while (f.count == BUMP_MOST_CHUNKS);
  if (bump_size(b, BUMP_PLACE_UNUSED) > 0) return;
  if (!tells) {
    pull(c, BUMP_TAIL_EVICT, 0);
    return;
  }
  bump_seen s = bump_look(b, BUMP_PLACE_COLD, BUMP_NONE);
  want(s.answer == BUMP_SEE_NOTHING || (s.linked && s.refs > 0 && s.segment == BUMP_PLACE_COLD));
  if (s.answer == BUMP_SEE_SEEN) unlink_item(c, s.chunk, s.generation, s.label);
}

/* A walk in pieces finds as many chunks as the list has, each of them in it. */
static void walk(uint32_t c, uint32_t place) {
  uint32_t from = BUMP_NONE, all = 0;
  do {
    bump_walked n = bump_walk(&book[c], place, from);
    want(n.answer == BUMP_WALK_DONE && (n.count == BUMP_MOST_CHUNKS || n.next == BUMP_NONE));
    for (uint32_t i = 0; i < n.count; i++)
      want(bump_see(&book[c], n.chunks[i]).linked == (place <= BUMP_PLACE_TEMP) && n.chunks[i] != n.next);
    all += n.count;
    from = n.next;
  } while (from != BUMP_NONE);
  want(all == bump_size(&book[c], place));
}

static void store(uint32_t key, uint64_t now, bool tells) {
  uint32_t c = key % CLASSES, limit = tells ? (uint32_t)(now % 20) : BUMP_LIMIT_OF_CLASS;
  bump_book *b = &book[c];
  const uint64_t words[2] = { 3 * (uint64_t)key + 1, ~(uint64_t)key };
  pthread_mutex_lock(&class_lock[c]);
  for (int i = 0; i < 4; i++) {
    pull(c, BUMP_TAIL_HOT, limit);
    pull(c, BUMP_TAIL_WARM, limit);
  }
  pull(c, BUMP_TAIL_COLD, limit);
  make_room(c, tells);
  uint64_t old = atomic_load(&item[key]);
  unlink_item(c, (uint32_t)old, (uint32_t)(old >> 32), key);
  bump_linked l = now % 16 ? bump_link_words(b, key, words, 2, now) : bump_link_temp_words(b, key, words, 2, now);
  atomic_store(&item[key], l.answer == BUMP_LINK_DONE ? (uint64_t)l.generation << 32 | l.chunk : 0);
  if (tells && now % 64 == 0) walk(c, (uint32_t)(now / 64 % (BUMP_PLACE_RETIRED + 1)));
  pthread_mutex_unlock(&class_lock[c]);
}

/* The second thread that stores. */
static void *store_all(void *p) {
  uint64_t state = (size_t)p;
  for (uint64_t now = 1; atomic_load(&readers_left) > 0; now++) {
    store(some_key(&state), now, true);
    for (size_t r = DRAINERS; r < READERS; r += SHARES) drain(r, now, true);
  }
  return NULL;
}

/* --------------------------------------------------------------------------------------------------- start and end */

static bool open_all(void) {
  bump_store s = { 0 };
  if (bump_open(&s, &CONFIG, CLASS, CLASSES) != BUMP_OPEN_DONE) return false;
  bool all = true;
  for (uint32_t r = READERS; r-- > 0;) all &= bump_take_worker(&s, r, &worker[r]) && bump_take_lane(&s, r, &lane[r]);
  for (uint32_t c = CLASSES; c-- > 0;) {
    all &= bump_take_book(&s, c, &book[c]);
    pthread_mutex_init(&class_lock[c], NULL);
  }
  bump_close(s);
  return all;
}

/* Closes and settles a worker: whether its counts are those of its answers, and its lane applied what was accepted. */
static bool settle(size_t r) {
  bump_worker back = { 0 };
  const uint64_t *t = tally[r].touched;
  if (bump_worker_close(&lane[r], worker[r], &back) != BUMP_CLOSE_DONE) return false;
  bump_rested rest = bump_rest(&lane[r]);
  uint64_t left = rest.answer == BUMP_REST_LEFT ? rest.left : 0;
  bool right = left == drain(r, reads, r % 2 == 0);
  rest = bump_rest(&lane[r]);
  bump_counts c = rest.counts;
  uint64_t moves = 0;
  for (int k = 0; k < CLASSES; k++) moves += bump_moves(&book[k], (uint32_t)r);
  printf("worker %zu: attempted %" PRIu64 " accepted %" PRIu64 " full %" PRIu64, r, c.attempted, c.accepted, c.full);
  printf(" busy %" PRIu64 " refs %" PRIu64 " applied %" PRIu64 " moves %" PRIu64, c.busy, c.refs, rest.applied, moves);
  printf(" got busy %" PRIu64 "\n", tally[r].got[BUMP_GET_BUSY]);
  bump_lane_free(lane[r]);
  return right && rest.answer == BUMP_REST_SETTLED && rest.applied == c.accepted &&
         c.attempted == c.accepted + c.full + c.busy + c.refs && c.accepted == t[BUMP_TOUCH_QUEUED] &&
         c.full == t[BUMP_TOUCH_DROPPED_FULL] && c.busy == t[BUMP_TOUCH_DROPPED_BUSY] &&
         c.refs == t[BUMP_TOUCH_DROPPED_REFS_FULL] && moves <= rest.applied;
}

/* Whether a class's lists have all its chunks, and nobody holds one. */
static bool adds_up(uint32_t c) {
  uint32_t sum = 0, first = 0, held = 0;
  bump_sweep(&book[c]);
  for (uint32_t place = 0; place <= BUMP_PLACE_RETIRED; place++) {
    sum += bump_size(&book[c], place);
    walk(c, place);
  }
  for (uint32_t k = 0; k < c; k++) first += CLASS[k].chunks;
  for (uint32_t i = 0; i < CLASS[c].chunks; i++) {
    bump_seen s = bump_see(&book[c], first + i);
    held += s.answer != BUMP_SEE_SEEN || s.refs != (s.linked ? 1 : 0) || (s.active && !s.fetched);
  }
  printf("class %u: %u of %u chunks in its lists, %u held\n", c, sum, CLASS[c].chunks, held);
  bool right = sum == CLASS[c].chunks && held == 0 && bump_size(&book[c], BUMP_PLACE_DYING) == 0;
  bump_book_free(book[c]);
  return right;
}

int main(int count, char **words) {
  if (count > 1) reads = strtoull(words[1], NULL, 10);
  if (!open_all()) return 1;
  for (uint32_t key = 0; key < KEYS; key++) store(key, key, key % 2 == 0);
  pthread_t thread[READERS + SHARES];
  for (size_t i = 0; i < READERS + SHARES; i++) {
    int fault = i < READERS              ? pthread_create(&thread[i], NULL, read_all, (void *)i)
                : i < READERS + DRAINERS ? pthread_create(&thread[i], NULL, drain_all, (void *)(i - READERS))
                                         : pthread_create(&thread[i], NULL, store_all, (void *)i);
    if (fault) return 1;
  }
  uint64_t state = 3;
  for (uint64_t now = 1; atomic_load(&readers_left) > 0; now++) store(some_key(&state), now, false);
  for (int i = 0; i < READERS + SHARES; i++) pthread_join(thread[i], NULL);
  uint64_t held = 0, asked = 0, firsts = 0;
  bool right = true;
  for (size_t r = 0; r < READERS; r++) {
    for (int a = 0; a < ANSWERS; a++) asked += tally[r].got[a];
    held += tally[r].got[BUMP_GET_HELD];
    firsts += tally[r].touched[BUMP_TOUCH_FIRST];
    right &= settle(r);
  }
  for (uint32_t c = 0; c < CLASSES; c++) right &= adds_up(c);
  right &= atomic_load(&wrong) == 0 && atomic_load(&told_free) > 0;
  printf("%" PRIu64 " reads, %" PRIu64 " hits, %" PRIu64 " first ones", asked, held, firsts);
  printf(", %" PRIu64 " chunks told as free, %" PRIu64 " wrong", atomic_load(&told_free), atomic_load(&wrong));
  printf(": %s\n", right ? "all adds up" : "FAILED");
  return right ? 0 : 1;
}
