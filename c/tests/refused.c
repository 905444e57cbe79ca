/* Refuses each request for memory of bump_open in turn, alone, and then all from it on: it answers want of memory,
 * nothing is changed and nothing leaks. No other call asks for memory.
 *
 * Link with -Wl,--wrap=malloc,--wrap=calloc,--wrap=realloc,--wrap=free. */
#include "bump.h"
#include "refusing.h"

enum { WORKERS = 3, CLASSES = 2, HOLDS = 2 };

/* Reads of an item of class 1 with two words, which is then held by worker 1. */
static void read_it(bump_worker *worker, bump_linked a) {
  bump_words_of all = { BUMP_HOLD_NOTHING, 0, { 0 } };
  enum bump_get_answer got = BUMP_GET_BUSY;
  ASKS_NOTHING(got = bump_get(worker, 1, a.chunk, a.generation));
  want(got == BUMP_GET_HELD, "no hold");
  ASKS_NOTHING(bump_touch(worker, 1, 3));
  ASKS_NOTHING(bump_label(worker, 1));
  ASKS_NOTHING(bump_marks(worker, 1));
  ASKS_NOTHING(bump_marked(worker, 1));
  ASKS_NOTHING(bump_time(worker, 1));
  ASKS_NOTHING(all = bump_words(worker, 1, 0));
  want(all.answer == BUMP_HOLD_READ && all.count == 2 && all.words[0] == 5 && all.words[1] == 6, "other words");
  ASKS_NOTHING(bump_worker_counts(worker));
}

/* Looks at the item of COLD and at the chunks of UNUSED of class 1, whose first chunk is 2. */
static void look_at(bump_book *book, bump_linked a) {
  bump_walked walked = { BUMP_WALK_NOT_THERE, 0, 0, { 0 } };
  bump_seen seen = { BUMP_SEE_NOTHING, 0, 0, 0, 0, 0, 0, false, false, false };
  ASKS_NOTHING(walked = bump_walk(book, BUMP_PLACE_UNUSED, BUMP_NONE));
  want(walked.answer == BUMP_WALK_DONE && walked.count == 3 && walked.chunks[0] == 3, "another walk");
  ASKS_NOTHING(seen = bump_look(book, BUMP_PLACE_COLD, BUMP_NONE));
  want(seen.answer == BUMP_SEE_SEEN && seen.chunk == a.chunk && seen.label == 7, "another look");
  ASKS_NOTHING(seen = bump_see(book, a.chunk));
  want(seen.answer == BUMP_SEE_SEEN && seen.generation == a.generation, "another sight");
  ASKS_NOTHING(bump_size(book, BUMP_PLACE_COLD));
  ASKS_NOTHING(bump_limits(book));
  ASKS_NOTHING(bump_moves(book, 0));
}

/* Worker 0 is closed, and its bump applied. */
static void settle(bump_worker *worker, bump_lane *lane, bump_book *book) {
  bump_worker back = { 0 };
  enum bump_close_answer closed = BUMP_CLOSE_TWICE;
  ASKS_NOTHING(closed = bump_worker_close(lane, *worker, &back));
  want(closed == BUMP_CLOSE_DONE && back.p == NULL, "no close");
  worker->p = NULL;
  uint32_t class = BUMP_NONE;
  ASKS_NOTHING(class = bump_lane_class(lane));
  want(class == 1, "another class");
  bump_ran ran = { BUMP_RUN_DONE, 0 };
  ASKS_NOTHING(ran = bump_apply_run(book, lane, 4, 8));
  want(ran.applied == 1, "no bump");
  bump_rested rest = { BUMP_REST_OPEN, 0, { 0, 0, 0, 0, 0 }, 0 };
  ASKS_NOTHING(rest = bump_rest(lane));
  want(rest.answer == BUMP_REST_SETTLED, "not settled");
}

static void use(bump_worker *worker, bump_lane *lane, bump_book *book) {
  static const uint64_t words[2] = { 5, 6 };
  bump_freed swept = { 0, { 0 } };
  bump_linked a = { BUMP_LINK_DONE, 0, 0 }, b = a, c = a, d = a;
  bump_whole_hit hit = { BUMP_GET_HELD, BUMP_TOUCH_NO_HOLD, 0 };
  ASKS_NOTHING(a = bump_link_words(&book[1], 7, words, 2, 1));
  ASKS_NOTHING(b = bump_link_temp_words(&book[0], 8, words, 1, 1));
  ASKS_NOTHING(c = bump_link(&book[0], 9, 1));
  ASKS_NOTHING(d = bump_link_temp(&book[0], 10, 1));
  want(a.answer == BUMP_LINK_DONE && b.answer == BUMP_LINK_DONE && c.answer == BUMP_LINK_DONE, "no link");
  want(d.answer == BUMP_LINK_NO_FREE_CHUNK, "a link without a chunk");
  ASKS_NOTHING(bump_pull(&book[1], BUMP_TAIL_HOT, BUMP_LIMIT_OF_CLASS));
  for (int i = 0; i < 2; i++) ASKS_NOTHING(hit = bump_hit(&worker[0], a.chunk, a.generation, 2));
  want(hit.got == BUMP_GET_HELD && hit.touch == BUMP_TOUCH_QUEUED && hit.label == 7, "no hit");
  read_it(&worker[1], a);
  look_at(&book[1], a);
  settle(&worker[0], &lane[0], &book[1]);
  ASKS_NOTHING(bump_unlink(&book[0], b.chunk, b.generation));
  ASKS_NOTHING(bump_pull(&book[1], BUMP_TAIL_WARM, 0));
  ASKS_NOTHING(bump_pull(&book[1], BUMP_TAIL_EVICT, 0));
  ASKS_NOTHING(bump_apply_run_told(&book[1], &lane[1], 5, 8));
  ASKS_NOTHING(bump_release(&worker[1], 1));
  ASKS_NOTHING(swept = bump_sweep_told(&book[1]));
  want(swept.count == 1 && swept.chunks[0] == a.chunk, "another sweep");
  ASKS_NOTHING(bump_sweep(&book[1]));
  ASKS_NOTHING(bump_version());
}

/* From opening to the end. */
static void whole(void) {
  static const bump_config config = { 1, WORKERS, 4, 8, 1, HOLDS, 2 };
  static const bump_class_config classes[CLASSES] = { { 2, 0, 1 }, { 4, 0, 1 } };
  bump_store store = { 0 };
  bump_worker worker[WORKERS] = { { 0 } };
  bump_lane lane[WORKERS] = { { 0 } };
  bump_book book[CLASSES] = { { 0 } };
  enum bump_open_answer opened = bump_open(&store, &config, classes, CLASSES);
  if (opened != BUMP_OPEN_DONE) {
    want(opened == BUMP_OPEN_NO_MEMORY && refuse_at != 0, "another answer of bump_open");
    want(store.p == NULL && live == 0, "a store that isn't opened leaves something");
    open_no_memory = true;
    return;
  }
  for (uint32_t i = WORKERS; i-- > 0;) TAKE(bump_take_worker, &store, bump_worker, i, worker);
  for (uint32_t i = WORKERS; i-- > 0;) TAKE(bump_take_lane, &store, bump_lane, i, lane);
  for (uint32_t i = CLASSES; i-- > 0;) TAKE(bump_take_book, &store, bump_book, i, book);
  use(worker, lane, book);
  ASKS_NOTHING(bump_close(store));
  for (int i = 0; i < WORKERS; i++) {
    if (worker[i].p) ASKS_NOTHING(bump_worker_free(worker[i]));
    if (lane[i].p) ASKS_NOTHING(bump_lane_free(lane[i]));
  }
  for (int i = 0; i < CLASSES; i++)
    if (book[i].p) ASKS_NOTHING(bump_book_free(book[i]));
  want(live == 0, "a leak");
}

int main(void) { return refuse_each(whole, "bump_open BUMP_OPEN_NO_MEMORY"); }
