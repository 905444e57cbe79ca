/* Runs a trace of bumpsim's language by calls from C, and prints what `bumpsim serial` prints of it.
 *
 *   replay FILE        status 0; 2: a line that it doesn't know; 3: a call answered what it shouldn't; 4: a worker hits
 *                      by another one's hold, which can't be said in C
 *
 * The trace has no fault; the lines behind `par` are run one by one. What a bump did isn't told by bump_apply_run: it
 * is read off the item and the lists, before and behind a run of one bump. Where two ways have to come to the same, now
 * this one is gone and now that: gets by four calls and by bump_hit, links with words and without, pulls by the class's
 * limit and by one that is given, sweeps and runs that tell which chunks came free and that don't. */
#define _POSIX_C_SOURCE 200809L
#include "bump.h"
#include <inttypes.h>
#include <stdio.h>
#include <stdlib.h>
#include <string.h>

enum { MOST_WORKERS = 64, MOST_CLASSES = 16, MOST_CHUNKS = 1000000, HOLDS = 64, NAMES = 4096, WORDS = 8, LINE = 300 };
enum { ITEM_WORDS = 1 };

struct item {
  uint32_t chunk, generation;
};
struct name {
  char text[40];
  struct item item;
};
struct kept {
  char text[40];
  uint32_t worker, hold;
  bool used;
};
struct queue {
  struct item *items; /* of the worker's accepted bumps, by number */
  uint64_t count, room, applied;
};

static bump_config config = { 1, 0, 0, 0, 0, HOLDS, ITEM_WORDS };
static bump_class_config classes[MOST_CLASSES];
static uint32_t class_count;
static bool opened;
static bump_worker worker[MOST_WORKERS];
static bump_lane lane[MOST_WORKERS];
static bump_book book[MOST_CLASSES];
static bool closed[MOST_WORKERS], given_to_lane[MOST_WORKERS];
static bool hold_used[MOST_WORKERS][HOLDS];
static struct queue queue[MOST_WORKERS];
static struct name name[NAMES];
static size_t names;
static struct kept kept[NAMES];
static size_t kepts;
static uint64_t word_of[MOST_CHUNKS]; /* what was given last by a link with words, or 0 */
static uint64_t line_number;

/* Which of two ways is gone: the same in each run. */
static bool is_first_way(void) {
  static uint64_t state = 1;
  state = state * 6364136223846793005u + 1442695040888963407u;
  return state >> 63;
}

static void wrong(const char *what) {
  fflush(stdout);
  fprintf(stderr, "line %" PRIu64 ": %s\n", line_number, what);
  exit(3);
}

static void want(bool holds, const char *what) {
  if (!holds) wrong(what);
}

static uint32_t class_of(uint32_t chunk) {
  uint32_t c = 0;
  while (chunk >= classes[c].chunks) chunk -= classes[c++].chunks;
  return c;
}

static void open_store(void) {
  bump_store store = { 0 };
  want(bump_open(&store, &config, classes, class_count) == BUMP_OPEN_DONE, "the store isn't opened");
  for (uint32_t w = config.workers; w-- > 0;) {
    want(bump_take_worker(&store, w, &worker[w]), "no worker");
    want(bump_take_lane(&store, w, &lane[w]), "no lane");
  }
  for (uint32_t c = class_count; c-- > 0;) want(bump_take_book(&store, c, &book[c]), "no book");
  bump_worker none = { 0 };
  want(!bump_take_worker(&store, config.workers, &none) && none.p == NULL, "a worker too many");
  want(!bump_take_worker(&store, 0, &none) && none.p == NULL, "a worker is taken twice");
  bump_close(store);
  opened = true;
}

static struct name *find_name(const char *text) {
  for (size_t i = 0; i < names; i++)
    if (strcmp(name[i].text, text) == 0) return &name[i];
  return NULL;
}

static struct item item_of(const char *text) {
  struct name *n = find_name(text);
  if (!n) wrong("no such name");
  return n->item;
}

static struct kept *find_kept(const char *text) {
  for (size_t i = 0; i < kepts; i++)
    if (kept[i].used && strcmp(kept[i].text, text) == 0) return &kept[i];
  wrong("no such hold");
  return NULL;
}

static void bind(const char *text, struct item item) {
  struct name *n = find_name(text);
  if (!n) {
    want(names < NAMES, "too many names");
    n = &name[names++];
    snprintf(n->text, sizeof n->text, "%s", text);
  }
  n->item = item;
}

static void note_queued(uint32_t w, struct item item, uint64_t number) {
  struct queue *q = &queue[w];
  want(number == q->count, "another number of a bump");
  if (q->count == q->room) {
    q->room = q->room ? 2 * q->room : 64;
    q->items = realloc(q->items, q->room * sizeof *q->items);
    want(q->items != NULL, "no memory");
  }
  q->items[q->count++] = item;
}

static void print_touch(uint32_t w, struct item item, bump_touched t) {
  want(t.answer == BUMP_TOUCH_QUEUED || t.number == 0, "a number that isn't queued");
  switch (t.answer) {
    case BUMP_TOUCH_FIRST: printf(" first\n"); break;
    case BUMP_TOUCH_ALREADY: printf(" already\n"); break;
    case BUMP_TOUCH_MARKED: printf(" marked\n"); break;
    case BUMP_TOUCH_QUEUED:
      note_queued(w, item, t.number);
      printf(" queued %" PRIu64 "\n", t.number);
      break;
    case BUMP_TOUCH_DROPPED_FULL: printf(" dropped full\n"); break;
    case BUMP_TOUCH_DROPPED_BUSY: printf(" dropped busy\n"); break;
    case BUMP_TOUCH_DROPPED_REFS_FULL: printf(" dropped refs\n"); break;
    case BUMP_TOUCH_EXHAUSTED: printf(" exhausted\n"); break;
    case BUMP_TOUCH_NO_HOLD: wrong("a touch without a hold");
  }
}

/* What is printed in place of a hit: NULL where the item is held. */
static const char *refusal(enum bump_get_answer got) {
  switch (got) {
    case BUMP_GET_HELD: return NULL;
    case BUMP_GET_STALE: return "miss";
    case BUMP_GET_REFS_FULL: return "refs";
    case BUMP_GET_BUSY: return "busy";
    case BUMP_GET_NO_PLACE:
    case BUMP_GET_NO_SUCH_CHUNK: break;
  }
  wrong("a get of a chunk or a hold that there isn't");
  return NULL;
}

/* ------------------------------------------------------------------------------------------------ readers' lines */

/* What the worker reads of an item that it holds is what its class sees, and its word is what a link gave last. */
static void see_held(uint32_t w, uint32_t hold, struct item item) {
  bump_seen s = bump_see(&book[class_of(item.chunk)], item.chunk);
  bump_marks_of m = bump_marks(&worker[w], hold);
  bump_timed t = bump_time(&worker[w], hold);
  bump_words_of words = bump_words(&worker[w], hold, 0);
  want(m.answer == BUMP_HOLD_READ && m.refs == s.refs && m.segment == s.segment, "another head");
  want(m.linked == s.linked && m.fetched == s.fetched && m.active == s.active, "other marks");
  want(t.answer == BUMP_HOLD_READ && t.time == s.time, "another time");
  want(words.answer == BUMP_HOLD_READ && words.count == ITEM_WORDS && words.words[0] == word_of[item.chunk],
       "another word");
}

static void get_by_four(uint32_t w, struct item item, uint64_t now, const char *words) {
  uint32_t hold = 0;
  while (hold < HOLDS && hold_used[w][hold]) hold++;
  enum bump_get_answer got = bump_get(&worker[w], hold, item.chunk, item.generation);
  const char *refused = refusal(got);
  if (refused) {
    printf("%s %s\n", words, refused);
    want(!bump_release(&worker[w], hold), "a refused get left a hold");
    return;
  }
  want(bump_get(&worker[w], hold, item.chunk, item.generation) == BUMP_GET_NO_PLACE, "a hold is taken twice");
  bool is_marked = bump_marked(&worker[w], hold);
  bump_touched touched = bump_touch(&worker[w], hold, now);
  want(is_marked == (touched.answer == BUMP_TOUCH_ALREADY), "both marks are seen, and a touch finds others");
  bump_labelled label = bump_label(&worker[w], hold);
  want(label.answer == BUMP_HOLD_READ, "no label");
  see_held(w, hold, item);
  want(bump_release(&worker[w], hold) && !bump_release(&worker[w], hold), "a hold is given back twice");
  want(bump_label(&worker[w], hold).answer == BUMP_HOLD_NOTHING, "a label of a hold that was given back");
  printf("%s %" PRIu64, words, label.label);
  print_touch(w, item, touched);
}

static void get_by_one(uint32_t w, struct item item, uint64_t now, const char *words) {
  bump_whole_hit hit = bump_hit(&worker[w], item.chunk, item.generation, now);
  const char *refused = refusal(hit.got);
  if (refused) {
    want(hit.touch == BUMP_TOUCH_NO_HOLD && hit.label == 0, "a refused hit tells more");
    printf("%s %s\n", words, refused);
    return;
  }
  bump_touched touched = { hit.touch, 0 };
  if (hit.touch == BUMP_TOUCH_QUEUED) touched.number = bump_worker_counts(&worker[w]).accepted - 1;
  printf("%s %" PRIu64, words, hit.label);
  print_touch(w, item, touched);
}

static void hold_item(uint32_t w, const char *item_name, const char *hold_name) {
  struct item item = item_of(item_name);
  uint32_t hold = 0;
  while (hold < HOLDS && hold_used[w][hold]) hold++;
  want(kepts < NAMES && hold < HOLDS, "too many holds");
  const char *refused = closed[w] ? "closed" : refusal(bump_get(&worker[w], hold, item.chunk, item.generation));
  printf("hold %" PRIu32 " %s %s %s\n", w, item_name, hold_name, refused ? refused : "held");
  if (refused) return;
  hold_used[w][hold] = true;
  struct kept *k = &kept[kepts++];
  snprintf(k->text, sizeof k->text, "%s", hold_name);
  k->worker = w;
  k->hold = hold;
  k->used = true;
  /* its item is found again by its name */
  char bound[80];
  snprintf(bound, sizeof bound, "/%s", hold_name);
  bind(bound, item);
}

static void hit_hold(uint32_t w, const char *hold_name, uint64_t now) {
  struct kept *k = find_kept(hold_name);
  char bound[80];
  snprintf(bound, sizeof bound, "/%s", hold_name);
  printf("hit %" PRIu32 " %s", w, hold_name);
  if (closed[w]) {
    printf(" closed\n");
    return;
  }
  if (k->worker != w) {
    fprintf(stderr, "a hold of another worker: this trace can't be run from C\n");
    exit(4);
  }
  print_touch(w, item_of(bound), bump_touch(&worker[w], k->hold, now));
}

/* -------------------------------------------------------------------------------------------------------- drains */

static uint32_t free_chunks(uint32_t c) {
  return bump_size(&book[c], BUMP_PLACE_UNUSED) + bump_size(&book[c], BUMP_PLACE_RETIRED);
}

/* A run of a lane's next bumps: by the call that tells chunks, or by the one that doesn't. */
static bump_ran_told run(uint32_t c, uint32_t w, uint64_t now, uint32_t limit, bool tells) {
  if (tells) return bump_apply_run_told(&book[c], &lane[w], now, limit);
  bump_ran ran = bump_apply_run(&book[c], &lane[w], now, limit);
  return (bump_ran_told){ ran.answer, ran.applied, 0, { 0 } };
}

/* Of a lane's next bump, which is of this class and chunk. */
static void run_one(uint32_t w, uint32_t c, uint32_t chunk, uint64_t now) {
  uint32_t free_before = free_chunks(c);
  for (int tells = 0; tells < 2; tells++) {
    want(run(c, w, now, 0, tells).applied == 0, "a run of none applied one");
    for (uint32_t other = 0; other < class_count; other++) {
      if (other == c) continue;
      bump_ran_told none = run(other, w, now, 1, tells);
      want(none.answer == BUMP_RUN_OTHER_CLASS && none.applied == 0 && none.freed == 0, "a bump of another class");
    }
  }
  bool tells = is_first_way();
  bump_ran_told ran = run(c, w, now, 1, tells);
  want(ran.answer == BUMP_RUN_DONE && ran.applied == 1, "the bump isn't applied");
  want(ran.freed == (tells ? free_chunks(c) - free_before : 0), "other chunks are told than came free");
  want(ran.chunks[0] == (ran.freed ? chunk : 0) && ran.chunks[1] == 0, "another chunk is told");
}

/* Applies a lane's next bump, and prints what it did. False: there is none. */
static bool apply_one(uint32_t w, uint64_t now) {
  uint32_t c = bump_lane_class(&lane[w]);
  struct queue *q = &queue[w];
  want((c == BUMP_NONE) == (q->applied == q->count), "a lane knows other bumps than were queued");
  if (c == BUMP_NONE) return false;
  struct item item = q->items[q->applied];
  want(c == class_of(item.chunk), "the next bump is of another class");
  want(bump_lane_class(&lane[w]) == c, "the class of the next bump changes");
  bump_seen before = bump_see(&book[c], item.chunk);
  bool linked = before.linked && before.generation == item.generation;
  uint32_t free_before = free_chunks(c);
  uint64_t moves_before = bump_moves(&book[c], w);
  run_one(w, c, item.chunk, now);
  bump_seen after = bump_see(&book[c], item.chunk);
  uint64_t moved = bump_moves(&book[c], w) - moves_before;
  const char *did = "time";
  bool is_freed = free_chunks(c) > free_before;
  if (!linked) {
    did = is_freed ? "gone freed" : "gone deferred";
    want(moved == 0, "a bump of an item that is gone moved one");
  } else {
    want(!is_freed, "a chunk came free whose item is linked");
    want(after.time == now && after.refs == before.refs - 1, "the time isn't stored, or the reference not given back");
    if (moved) did = "warm";
    want(moved == (before.segment == BUMP_PLACE_COLD && before.active ? 1u : 0u), "another bump moves an item");
    want(after.segment == (moved ? (uint32_t)BUMP_PLACE_WARM : before.segment), "it is elsewhere");
  }
  printf("bump %" PRIu32 " %" PRIu64, w, q->applied++);
  printf(" %" PRIu32 ".%" PRIu32 " %s\n", item.chunk, item.generation, did);
  return true;
}

static void drain_all(uint64_t now) {
  uint64_t all = 0;
  for (uint32_t w = 0; w < config.workers; w++)
    if (!closed[w])
      for (uint32_t i = 0; i < config.capacity && apply_one(w, now); i++) all++;
  printf("drain %" PRIu64 "\n", all);
}

static void print_counts(bump_counts a, uint64_t applied) {
  printf(" attempted %" PRIu64 " accepted %" PRIu64 " full %" PRIu64, a.attempted, a.accepted, a.full);
  printf(" busy %" PRIu64 " refs %" PRIu64 " applied %" PRIu64 "\n", a.busy, a.refs, applied);
}

static bump_counts counts_of(uint32_t w) {
  if (!given_to_lane[w]) return bump_worker_counts(&worker[w]);
  bump_rested rest = bump_rest(&lane[w]);
  want(rest.answer == BUMP_REST_SETTLED && rest.applied == queue[w].applied, "a closed worker isn't settled");
  return rest.counts;
}

/* Gives a closed worker to its lane, once it holds nothing. */
static void give_to_lane(uint32_t w) {
  bump_worker back = { 0 };
  want(bump_rest(&lane[w]).answer == BUMP_REST_OPEN, "a lane is closed before its worker");
  enum bump_close_answer answer = bump_worker_close(&lane[w], worker[w], &back);
  bool holds = false;
  for (uint32_t i = 0; i < HOLDS; i++) holds |= hold_used[w][i];
  want(answer == (holds ? BUMP_CLOSE_HOLDS_OUT : BUMP_CLOSE_DONE), "another answer of a close");
  want((back.p != NULL) == holds, "a refused worker doesn't come back, or another one does");
  worker[w] = back;
  given_to_lane[w] = !holds;
}

static void close_worker(uint32_t w, uint64_t now) {
  if (closed[w]) {
    printf("close %" PRIu32 " closed\n", w);
    return;
  }
  closed[w] = true;
  give_to_lane(w);
  uint64_t left = queue[w].count - queue[w].applied;
  if (given_to_lane[w]) {
    bump_rested rest = bump_rest(&lane[w]);
    want(rest.answer == (left ? BUMP_REST_LEFT : BUMP_REST_SETTLED) && rest.left == left, "another rest");
  }
  while (apply_one(w, now)) {}
  printf("close %" PRIu32, w);
  bump_counts counts = counts_of(w);
  print_counts(counts, queue[w].applied);
}

/* --------------------------------------------------------------------------------------------------------- shows */

/* Fills in the chunks of a list, by a walk in pieces: how many. */
static uint32_t walk(uint32_t c, uint32_t place, uint32_t *chunks) {
  uint32_t from = BUMP_NONE, all = 0, size = bump_size(&book[c], place);
  do {
    bump_walked n = bump_walk(&book[c], place, from);
    want(n.answer == BUMP_WALK_DONE && n.count <= BUMP_MOST_CHUNKS && n.count <= size - all, "a walk is too long");
    want(n.count == BUMP_MOST_CHUNKS || n.next == BUMP_NONE, "a walk ends before the list does");
    want(from == BUMP_NONE || n.chunks[0] == from, "a walk begins elsewhere");
    memcpy(chunks + all, n.chunks, n.count * sizeof *chunks);
    all += n.count;
    from = n.next;
  } while (from != BUMP_NONE);
  want(all == size, "a walk is too short");
  return size;
}

/* Looks from the end on find these chunks too. */
static void look_back(uint32_t c, uint32_t place, const uint32_t *chunks, uint32_t size) {
  uint32_t behind = BUMP_NONE;
  for (uint32_t i = size; i-- > 0; behind = chunks[i]) {
    bump_seen s = bump_look(&book[c], place, behind);
    want(s.answer == BUMP_SEE_SEEN && s.chunk == chunks[i], "a look finds another chunk");
  }
  want(bump_look(&book[c], place, behind).answer == BUMP_SEE_NOTHING, "a look finds a chunk before the first");
}

static void show_list(uint32_t c, uint32_t place, const char *word) {
  static uint32_t chunks[MOST_CHUNKS];
  uint32_t size = walk(c, place, chunks);
  look_back(c, place, chunks, size);
  if (place == BUMP_PLACE_TEMP && size == 0) return;
  printf("class %" PRIu32 " %s %" PRIu32, c, word, size);
  for (uint32_t i = 0; i < size; i++) {
    bump_seen s = bump_see(&book[c], chunks[i]);
    want(s.answer == BUMP_SEE_SEEN && s.linked == (place <= BUMP_PLACE_TEMP), "another chunk");
    want(!s.linked || s.segment == place, "another segment");
    if (place >= BUMP_PLACE_UNUSED)
      printf(" %" PRIu32, chunks[i]);
    else
      printf(" %" PRIu32 ".%" PRIu32 ":%" PRIu32 ":%s:%" PRIu64, chunks[i], s.generation, s.refs,
             s.active ? "fa" : s.fetched ? "f" : "-", s.time);
  }
  printf("\n");
}

static void show(void) {
  static const char *const WORD[] = { "hot", "warm", "cold", "temp", "dying", "unused", "retired" };
  for (uint32_t c = 0; c < class_count; c++)
    for (uint32_t place = 0; place <= BUMP_PLACE_RETIRED; place++) show_list(c, place, WORD[place]);
  for (uint32_t w = 0; w < config.workers; w++) {
    printf("worker %" PRIu32, w);
    print_counts(counts_of(w), queue[w].applied);
  }
}

/* ----------------------------------------------------------------------------------------------- a class's lines */

static bump_linked link_item(uint32_t c, bool temp, uint64_t label, uint64_t now) {
  uint64_t words[ITEM_WORDS + 1] = { ~label, 0 };
  bump_book *b = &book[c];
  bump_linked l = temp ? bump_link_temp_words(b, label, words, ITEM_WORDS + 1, now)
                       : bump_link_words(b, label, words, ITEM_WORDS + 1, now);
  want(l.answer == BUMP_LINK_TOO_MANY_WORDS && l.chunk == 0 && l.generation == 0, "too many words are linked");
  if (is_first_way()) return temp ? bump_link_temp(b, label, now) : bump_link(b, label, now);
  l = temp ? bump_link_temp_words(b, label, words, ITEM_WORDS, now) : bump_link_words(b, label, words, ITEM_WORDS, now);
  if (l.answer == BUMP_LINK_DONE) word_of[l.chunk] = words[0];
  return l;
}

static void set(char **word, bool temp, uint64_t now) {
  uint32_t c = (uint32_t)strtoul(word[2], NULL, 10);
  bump_linked l = link_item(c, temp, strtoull(word[3], NULL, 10), now);
  if (l.answer == BUMP_LINK_NO_FREE_CHUNK) {
    want(l.chunk == 0 && l.generation == 0 && bump_size(&book[c], BUMP_PLACE_UNUSED) == 0, "a refused link tells more");
    printf("%s %s full\n", word[0], word[1]);
    return;
  }
  want(l.answer == BUMP_LINK_DONE, "another answer of a link");
  bind(word[1], (struct item){ l.chunk, l.generation });
  printf("%s %s %" PRIu32 ".%" PRIu32 "\n", word[0], word[1], l.chunk, l.generation);
}

static void del(const char *item_name) {
  struct item item = item_of(item_name);
  static const char *const ANSWER[] = { "freed", "deferred", NULL, "gone" };
  for (uint32_t c = 0; c < class_count; c++)
    if (c != class_of(item.chunk))
      want(bump_unlink(&book[c], item.chunk, item.generation).answer == BUMP_UNLINK_NO_SUCH_CHUNK,
           "a chunk of another class");
  bump_book *b = &book[class_of(item.chunk)];
  uint64_t label = bump_see(b, item.chunk).label;
  bump_unlinked u = bump_unlink(b, item.chunk, item.generation);
  want(u.answer != BUMP_UNLINK_NO_SUCH_CHUNK, "no such chunk");
  want(u.label == (u.answer == BUMP_UNLINK_NOT_LINKED ? 0 : label), "an unlink tells another label");
  printf("del %s %s\n", item_name, ANSWER[u.answer]);
}

static void pull(uint32_t c, const char *word) {
  static const char *const TAIL[] = { "hot", "warm", "cold", "evict" };
  static const char *const ANSWER[] = { "empty", "stay", "warm", "again", "cold", "freed", "deferred" };
  uint32_t tail = 0;
  while (tail < 3 && strcmp(TAIL[tail], word) != 0) tail++;
  bump_limits_of limits = bump_limits(&book[c]);
  bump_seen last = bump_look(&book[c], tail == BUMP_TAIL_EVICT ? (uint32_t)BUMP_PLACE_COLD : tail, BUMP_NONE);
  bump_pulled p = bump_pull(&book[c], tail, is_first_way() ? BUMP_LIMIT_OF_CLASS : tail ? limits.warm : limits.hot);
  want(p.answer != BUMP_PULL_NO_SUCH_TAIL, "no such tail");
  want((p.answer == BUMP_PULL_EMPTY) == (last.answer == BUMP_SEE_NOTHING), "a pull of another list");
  want(p.chunk == last.chunk && p.generation == last.generation && p.label == last.label, "a pull of another item");
  printf("pull %" PRIu32 " %s %s", c, word, ANSWER[p.answer]);
  if (p.answer == BUMP_PULL_EMPTY)
    printf("\n");
  else
    printf(" %" PRIu32 ".%" PRIu32 "\n", p.chunk, p.generation);
}

static void sweep(uint32_t c) {
  uint32_t all = 0, free_before = free_chunks(c);
  if (is_first_way()) {
    all = bump_sweep(&book[c]);
  } else {
    bump_freed f;
    do {
      f = bump_sweep_told(&book[c]);
      for (uint32_t i = 0; i < f.count; i++) {
        bump_seen s = bump_see(&book[c], f.chunks[i]);
        want(s.answer == BUMP_SEE_SEEN && s.refs == 0 && !s.linked, "a chunk is told that isn't free");
      }
      all += f.count;
    } while (f.count == BUMP_MOST_CHUNKS);
  }
  want(free_chunks(c) == free_before + all, "a sweep tells another number");
  printf("sweep %" PRIu32 " %" PRIu32 "\n", c, all);
}

static void print_moves(void) {
  for (uint32_t c = 0; c < class_count; c++)
    for (uint32_t w = 0; w < config.workers; w++)
      printf("moves %" PRIu32 " %" PRIu32 " %" PRIu64 "\n", c, w, bump_moves(&book[c], w));
}

/* --------------------------------------------------------------------------------------------------------- lines */

static void run_line(char *line) {
  uint64_t now = line_number;
  char whole[LINE], *word[WORDS] = { line }, *rest = NULL;
  snprintf(whole, sizeof whole, "%s", line);
  int count = 0;
  for (char *w = strtok_r(line, " ", &rest); w && count < WORDS; w = strtok_r(NULL, " ", &rest)) word[count++] = w;
  uint32_t first = count > 1 ? (uint32_t)strtoul(word[1], NULL, 10) : 0;
#define IS(text, words) (strcmp(word[0], text) == 0 && count == (words))
  if (IS("store", 5)) {
    config.workers = first;
    config.capacity = (uint32_t)strtoul(word[2], NULL, 10);
    config.refs_limit = (uint32_t)strtoul(word[3], NULL, 10);
    config.first_generation = (uint32_t)strtoul(word[4], NULL, 10);
    return;
  }
  if (IS("class", 4)) {
    want(class_count < MOST_CLASSES, "too many classes");
    classes[class_count++] = (bump_class_config){ first, (uint32_t)strtoul(word[2], NULL, 10),
                                                  (uint32_t)strtoul(word[3], NULL, 10) };
    return;
  }
  if (!opened) open_store();
  if (IS("set", 4) || IS("temp", 4)) set(word, word[0][0] == 't', now);
  else if (IS("get", 3) && closed[first]) printf("%s closed\n", whole);
  else if (IS("get", 3) && is_first_way()) get_by_four(first, item_of(word[2]), now, whole);
  else if (IS("get", 3)) get_by_one(first, item_of(word[2]), now, whole);
  else if (IS("hold", 4)) hold_item(first, word[2], word[3]);
  else if (IS("hit", 3)) hit_hold(first, word[2], now);
  else if (IS("read", 2)) {
    struct kept *k = find_kept(word[1]);
    printf("read %s %" PRIu64 "\n", word[1], bump_label(&worker[k->worker], k->hold).label);
  } else if (IS("drop", 2)) {
    struct kept *k = find_kept(word[1]);
    want(bump_release(&worker[k->worker], k->hold), "nothing was held");
    hold_used[k->worker][k->hold] = k->used = false;
    printf("drop %s\n", word[1]);
    if (closed[k->worker] && !given_to_lane[k->worker]) give_to_lane(k->worker);
  } else if (IS("del", 2)) del(word[1]);
  else if (IS("pull", 3)) pull(first, word[2]);
  else if (IS("sweep", 2)) sweep(first);
  else if (IS("drain", 1)) drain_all(now);
  else if (IS("close", 2)) close_worker(first, now);
  else if (IS("show", 1)) show();
  else if (IS("par", 1)) return;
  else if (IS("moves", 1)) print_moves();
  else {
    fflush(stdout);
    fprintf(stderr, "line %" PRIu64 ": not known: %s\n", line_number, whole);
    exit(2);
  }
}

static void free_all(void) {
  for (uint32_t w = 0; w < config.workers; w++) {
    if (!given_to_lane[w]) bump_worker_free(worker[w]);
    bump_lane_free(lane[w]);
    free(queue[w].items);
  }
  for (uint32_t c = 0; c < class_count; c++) bump_book_free(book[c]);
}

int main(int count, char **words) {
  if (count != 2) return fprintf(stderr, "usage: replay FILE\n"), 2;
  FILE *file = fopen(words[1], "r");
  if (!file) return fprintf(stderr, "replay: %s can't be read\n", words[1]), 2;
  char line[LINE];
  while (fgets(line, sizeof line, file)) {
    line_number++;
    line[strcspn(line, "\n")] = '\0';
    if (line[0] != '\0' && line[0] != '#') run_line(line);
  }
  fclose(file);
  if (opened) free_all();
  return 0;
}
