/* The build with checks: see bump_debug.h. A table beside the library has each handle's address, kind and store, and
 * whether a thread is in a call with it. A handle's second word says which entry is its own, and which of the entry's
 * uses: so an entry is found without a lock, and a copy of a handle that is gone finds another use.
 *
 * This file sees the library's own declarations, and the calls that bump_cache.h makes of others. Those that the
 * program sees, with two parameters more, are of the functions here, by their symbols: so these have to have the same
 * parameters. */
#undef BUMP_DEBUG
#define BUMP_DEBUG_ITSELF
#include "bump_cache.h"
#pragma GCC diagnostic ignored "-Wmissing-prototypes"
#pragma GCC diagnostic ignored "-Wmissing-declarations"

#include <pthread.h>
#include <stdio.h>
#include <stdlib.h>

/* A handle of the program, of any kind. The library is given its first word alone. */
struct handle {
  void *p;
  uint64_t check;
};

static bump_store *store_of(struct handle *h) { return (bump_store *)h; }
static bump_worker *worker_of(struct handle *h) { return (bump_worker *)h; }
static bump_book *book_of(struct handle *h) { return (bump_book *)h; }
static bump_lane *lane_of(struct handle *h) { return (bump_lane *)h; }
static bump_cache *cache_of(struct handle *h) { return (bump_cache *)h; }
static bump_cache_part *part_of(struct handle *h) { return (bump_cache_part *)h; }
static bump_cache_reader *reader_of(struct handle *h) { return (bump_cache_reader *)h; }

enum kind { GONE, STORE, WORKER, BOOK, LANE, CACHE, CACHE_PART, CACHE_READER };
static const char *const KIND[] = {
  "gone", "store", "worker", "book", "lane", "cache", "cache's part", "cache's reader"
};

struct known {
  void *p;
  uint64_t check;     /* its handle's second word: the number of this entry, and 2^32 x its uses */
  int kind;
  int busy;           /* a thread is in a call with the handle */
  uint64_t opening;   /* of which bump_open or bump_cache_open it is, from 1 */
  uint64_t number;    /* the number that its store was given; a cache has none */
  const char *file;   /* the last call with it */
  int line;
  struct known *next; /* of the entries that are free */
};

/* Entries never move. A block is made where no entry is free: so all blocks have room for 16,777,215 handles at a time.
 * A handle for which there is no room isn't checked. */
enum { BLOCK = 1 << 12, BLOCKS = 1 << 12 };
#define UNCHECKED UINT64_MAX
static struct known first_block[BLOCK];
static struct known *block[BLOCKS] = { first_block };
static uint32_t used = 1; /* entry 0 is nobody's: so no handle's second word is 0 */
static struct known *free_first, *free_last;
static uint64_t openings;
static pthread_mutex_t changing = PTHREAD_MUTEX_INITIALIZER; /* which entries there are, and whose */

static void say_and_abort(const char *what) {
  fprintf(stderr, "%s\n", what);
  abort();
}

extern void (*bump_debug_broken)(const char *what);
void (*bump_debug_broken)(const char *what) = say_and_abort;

struct call {
  const char *name, *file;
  int line;
  struct known *in[2]; /* the handles that are busy by it */
};

static void set_busy(const struct call *c, int busy) {
  for (int i = 0; i < 2; i++)
    if (c->in[i]) __atomic_store_n(&c->in[i]->busy, busy, __ATOMIC_SEQ_CST);
}

/* Tells of a broken promise, and of the last call with the handle. Whoever is told may jump out of the call: so its
 * handles aren't busy meanwhile. */
static void broken(const struct call *c, const char *what, const struct known *last) {
  char text[512];
  if (last && last->file)
    snprintf(text, sizeof text, "%s at %s:%d: %s; the last call with it: %s:%d", c->name, c->file, c->line, what,
             last->file, last->line);
  else
    snprintf(text, sizeof text, "%s at %s:%d: %s", c->name, c->file, c->line, what);
  set_busy(c, 0);
  bump_debug_broken(text);
  set_busy(c, 1);
}

/* bump.h has this in a file that is compiled without the checks. */
extern const char bump_without_checks __attribute__((weak));

static struct call begin(const char *name, const char *file, int line) {
  static int begun;
  struct call c = { name, file, line, { NULL, NULL } };
  if (!__atomic_load_n(&begun, __ATOMIC_RELAXED) && !__atomic_exchange_n(&begun, 1, __ATOMIC_SEQ_CST) &&
      &bump_without_checks)
    broken(&c, "a file of this program was compiled without -DBUMP_DEBUG", NULL);
  return c;
}

/* The entry with this number, which was in use once. NULL: there is none. */
static struct known *entry_of(uint64_t number) {
  if (number == 0 || number >= (uint64_t)BLOCK * BLOCKS) return NULL;
  struct known *entries = __atomic_load_n(&block[number / BLOCK], __ATOMIC_ACQUIRE);
  if (!entries) return NULL;
  struct known *e = &entries[number % BLOCK];
  return __atomic_load_n(&e->check, __ATOMIC_ACQUIRE) ? e : NULL;
}

/* An entry that is nobody's: the one that was given back first, so that it tells of its handle as long as it can, or
 * one that never was in use. Whoever calls it has the mutex. NULL: there is no more. */
static struct known *free_entry(void) {
  struct known *e = free_first;
  if (used % BLOCK == 0) {
    if (e) {
      free_first = e->next;
      return e;
    }
    struct known *made = used / BLOCK < BLOCKS ? calloc(BLOCK, sizeof *made) : NULL;
    if (!made) return NULL;
    __atomic_store_n(&block[used / BLOCK], made, __ATOMIC_RELEASE);
  }
  e = &block[used / BLOCK][used % BLOCK];
  e->check = used++;
  return e;
}

/* Notes a handle that the library gave, of the same store as another one, and gives it its second word. */
static void give(const struct call *c, struct handle *h, enum kind kind, const struct known *other) {
  h->check = UNCHECKED;
  if (!other) return;
  pthread_mutex_lock(&changing);
  struct known *e = free_entry();
  if (e) {
    e->p = h->p;
    e->opening = other->opening;
    e->number = other->number;
    e->file = c->file;
    e->line = c->line;
    __atomic_store_n(&e->busy, 0, __ATOMIC_SEQ_CST);
    __atomic_store_n(&e->kind, (int)kind, __ATOMIC_SEQ_CST);
    h->check = e->check + ((uint64_t)1 << 32);
    __atomic_store_n(&e->check, h->check, __ATOMIC_SEQ_CST);
  }
  pthread_mutex_unlock(&changing);
  if (!e) broken(c, "there is no room to note one more handle: the one that it gives isn't checked", NULL);
}

/* A handle is gone, and no call with it is left: its entry is free, unless its uses are all counted. */
static void retire(struct known *e) {
  if (!e || e->check >> 32 == UINT32_MAX) return;
  pthread_mutex_lock(&changing);
  e->next = NULL;
  if (free_first)
    free_last->next = e;
  else
    free_first = e;
  free_last = e;
  pthread_mutex_unlock(&changing);
}

/* A handle of another opening than this one, whose store was given the same number. */
static const struct known *same_number(uint64_t number, uint64_t opening) {
  const struct known *found = NULL;
  pthread_mutex_lock(&changing);
  for (uint32_t i = 1; i < used && !found; i++) {
    const struct known *e = &block[i / BLOCK][i % BLOCK];
    int kind = __atomic_load_n(&e->kind, __ATOMIC_SEQ_CST);
    bool is_open = kind != GONE && kind < CACHE;
    if (is_open && e->number == number && e->opening != opening) found = e;
  }
  pthread_mutex_unlock(&changing);
  return found;
}

/* A call begins with a handle. */
static struct known *enter(struct call *c, const struct handle *h, enum kind kind) {
  char text[128];
  if (!h || !h->p) return broken(c, "the handle is empty: {0}, or NULL", NULL), (struct known *)NULL;
  if (h->check == UNCHECKED) return NULL;
  struct known *e = entry_of(h->check & UINT32_MAX);
  uint64_t now = e ? __atomic_load_n(&e->check, __ATOMIC_SEQ_CST) : 0;
  if (h->check >> 32 == 0 || h->check > now || (h->check == now && e->p != h->p))
    return broken(c, "it is no handle that bump gave", NULL), (struct known *)NULL;
  int is = h->check == now ? __atomic_load_n(&e->kind, __ATOMIC_SEQ_CST) : GONE;
  if (is != (int)kind) {
    snprintf(text, sizeof text, is == GONE ? "the handle, once a %s, was given back" : "the handle is of a %s",
             is == GONE ? KIND[kind] : KIND[is]);
    return broken(c, text, h->check == now ? e : NULL), (struct known *)NULL;
  }
  if (__atomic_exchange_n(&e->busy, 1, __ATOMIC_SEQ_CST)) broken(c, "another thread is in a call with this handle", e);
  e->file = c->file;
  e->line = c->line;
  c->in[c->in[0] != NULL] = e;
  return e;
}

static void leave(const struct call *c) { set_busy(c, 0); }

/* The library takes the handle by value, and no other call is made with it. */
static void end(struct known *e) {
  if (e) __atomic_store_n(&e->kind, (int)GONE, __ATOMIC_SEQ_CST);
}

static void same_store(const struct call *c, const struct known *a, const struct known *b) {
  if (a && b && a->opening != b->opening) broken(c, "the two handles are of two stores", NULL);
}

static void is_there(const struct call *c, const void *pointer) {
  if (!pointer) broken(c, "a pointer is NULL", NULL);
}

static void is_array(const struct call *c, const void *array, size_t length) {
  if (length > 0) is_there(c, array);
}

static void is_empty(const struct call *c, const struct handle *h) {
  is_there(c, h);
  if (h && h->p) broken(c, "what the call fills isn't {0}", NULL);
}

#define AT const char *file, int line
#define CALL(call_name) struct call c = begin("bump_" #call_name, file, line)
/* The rest of a call that answers, with one handle. */
#define WITH(handle, kind, type, made) \
  enter(&c, handle, kind);             \
  type answer = made;                  \
  leave(&c);                           \
  return answer
/* The same with two: a book and a lane. */
#define WITH_BOTH(book, lane, type, made)                              \
  struct known *b = enter(&c, book, BOOK), *l = enter(&c, lane, LANE); \
  same_store(&c, b, l);                                                \
  type answer = made;                                                  \
  leave(&c);                                                           \
  return answer

/* The number is looked for behind the opening, so that of two openings at once the later one finds it. */
enum bump_open_answer bump_debug_open(struct handle *store, const bump_config *config, const bump_class_config *classes,
                                      size_t count, AT) {
  CALL(open);
  is_empty(&c, store);
  is_there(&c, config);
  is_array(&c, classes, count);
  enum bump_open_answer answer = bump_open(store_of(store), config, classes, count);
  if (answer != BUMP_OPEN_DONE) return answer;
  struct known its = { .opening = __atomic_add_fetch(&openings, 1, __ATOMIC_SEQ_CST), .number = config->store };
  give(&c, store, STORE, &its);
  const struct known *same = same_number(its.number, its.opening);
  if (same) broken(&c, "a store that is open has this number (bump_config.store)", same);
  return answer;
}

#define TAKE(call_name, from, from_of, kind, kind_of)                                           \
  bool bump_debug_##call_name(struct handle *whole, uint32_t number, struct handle *part, AT) { \
    CALL(call_name);                                                                            \
    is_empty(&c, part);                                                                         \
    struct known *e = enter(&c, whole, from);                                                   \
    bool answer = bump_##call_name(from_of(whole), number, kind_of(part));                      \
    leave(&c);                                                                                  \
    if (answer) give(&c, part, kind, e);                                                        \
    return answer;                                                                              \
  }
TAKE(take_worker, STORE, store_of, WORKER, worker_of)
TAKE(take_book, STORE, store_of, BOOK, book_of)
TAKE(take_lane, STORE, store_of, LANE, lane_of)

/* ------------------------------------------------------------------------------------------------ a worker's calls */

enum bump_get_answer bump_debug_get(struct handle *w, uint32_t hold, uint32_t chunk, uint32_t generation, AT) {
  CALL(get);
  WITH(w, WORKER, enum bump_get_answer, bump_get(worker_of(w), hold, chunk, generation));
}
bump_touched bump_debug_touch(struct handle *w, uint32_t hold, uint64_t now, AT) {
  CALL(touch);
  WITH(w, WORKER, bump_touched, bump_touch(worker_of(w), hold, now));
}
bump_labelled bump_debug_label(struct handle *w, uint32_t hold, AT) {
  CALL(label);
  WITH(w, WORKER, bump_labelled, bump_label(worker_of(w), hold));
}
bump_marks_of bump_debug_marks(struct handle *w, uint32_t hold, AT) {
  CALL(marks);
  WITH(w, WORKER, bump_marks_of, bump_marks(worker_of(w), hold));
}
bool bump_debug_marked(struct handle *w, uint32_t hold, AT) {
  CALL(marked);
  WITH(w, WORKER, bool, bump_marked(worker_of(w), hold));
}
bump_timed bump_debug_time(struct handle *w, uint32_t hold, AT) {
  CALL(time);
  WITH(w, WORKER, bump_timed, bump_time(worker_of(w), hold));
}
bump_words_of bump_debug_words(struct handle *w, uint32_t hold, uint32_t first, AT) {
  CALL(words);
  WITH(w, WORKER, bump_words_of, bump_words(worker_of(w), hold, first));
}
bool bump_debug_release(struct handle *w, uint32_t hold, AT) {
  CALL(release);
  WITH(w, WORKER, bool, bump_release(worker_of(w), hold));
}
bump_whole_hit bump_debug_hit(struct handle *w, uint32_t chunk, uint32_t generation, uint64_t now, AT) {
  CALL(hit);
  WITH(w, WORKER, bump_whole_hit, bump_hit(worker_of(w), chunk, generation, now));
}
bump_counts bump_debug_worker_counts(struct handle *w, AT) {
  CALL(worker_counts);
  WITH(w, WORKER, bump_counts, bump_worker_counts(worker_of(w)));
}

/* A worker that comes back is another handle. */
enum bump_close_answer bump_debug_worker_close(struct handle *lane, struct handle worker, struct handle *back, AT) {
  CALL(worker_close);
  is_empty(&c, back);
  struct known *l = enter(&c, lane, LANE), *w = enter(&c, &worker, WORKER);
  same_store(&c, l, w);
  end(w);
  enum bump_close_answer answer = bump_worker_close(lane_of(lane), (bump_worker){ worker.p }, worker_of(back));
  leave(&c);
  if (answer != BUMP_CLOSE_DONE) give(&c, back, WORKER, w);
  retire(w);
  return answer;
}

/* -------------------------------------------------------------------------------------------------- a book's calls */

bump_linked bump_debug_link(struct handle *b, uint64_t label, uint64_t now, AT) {
  CALL(link);
  WITH(b, BOOK, bump_linked, bump_link(book_of(b), label, now));
}
bump_linked bump_debug_link_temp(struct handle *b, uint64_t label, uint64_t now, AT) {
  CALL(link_temp);
  WITH(b, BOOK, bump_linked, bump_link_temp(book_of(b), label, now));
}
bump_linked bump_debug_link_words(struct handle *b, uint64_t label, const uint64_t *words, size_t count, uint64_t now,
                                  AT) {
  CALL(link_words);
  is_array(&c, words, count);
  WITH(b, BOOK, bump_linked, bump_link_words(book_of(b), label, words, count, now));
}
bump_linked bump_debug_link_temp_words(struct handle *b, uint64_t label, const uint64_t *words, size_t count,
                                       uint64_t now, AT) {
  CALL(link_temp_words);
  is_array(&c, words, count);
  WITH(b, BOOK, bump_linked, bump_link_temp_words(book_of(b), label, words, count, now));
}
bump_unlinked bump_debug_unlink(struct handle *b, uint32_t chunk, uint32_t generation, AT) {
  CALL(unlink);
  WITH(b, BOOK, bump_unlinked, bump_unlink(book_of(b), chunk, generation));
}
bump_pulled bump_debug_pull(struct handle *b, uint32_t tail, uint32_t limit, AT) {
  CALL(pull);
  WITH(b, BOOK, bump_pulled, bump_pull(book_of(b), tail, limit));
}
uint32_t bump_debug_sweep(struct handle *b, AT) {
  CALL(sweep);
  WITH(b, BOOK, uint32_t, bump_sweep(book_of(b)));
}
bump_freed bump_debug_sweep_told(struct handle *b, AT) {
  CALL(sweep_told);
  WITH(b, BOOK, bump_freed, bump_sweep_told(book_of(b)));
}
uint32_t bump_debug_size(struct handle *b, uint32_t place, AT) {
  CALL(size);
  WITH(b, BOOK, uint32_t, bump_size(book_of(b), place));
}
bump_seen bump_debug_see(struct handle *b, uint32_t chunk, AT) {
  CALL(see);
  WITH(b, BOOK, bump_seen, bump_see(book_of(b), chunk));
}
bump_seen bump_debug_look(struct handle *b, uint32_t place, uint32_t behind, AT) {
  CALL(look);
  WITH(b, BOOK, bump_seen, bump_look(book_of(b), place, behind));
}
bump_walked bump_debug_walk(struct handle *b, uint32_t place, uint32_t from, AT) {
  CALL(walk);
  WITH(b, BOOK, bump_walked, bump_walk(book_of(b), place, from));
}
uint64_t bump_debug_moves(struct handle *b, uint32_t worker, AT) {
  CALL(moves);
  WITH(b, BOOK, uint64_t, bump_moves(book_of(b), worker));
}
bump_limits_of bump_debug_limits(struct handle *b, AT) {
  CALL(limits);
  WITH(b, BOOK, bump_limits_of, bump_limits(book_of(b)));
}

/* -------------------------------------------------------------------------------------------------- a lane's calls */

uint32_t bump_debug_lane_class(struct handle *l, AT) {
  CALL(lane_class);
  WITH(l, LANE, uint32_t, bump_lane_class(lane_of(l)));
}
bump_ran bump_debug_apply_run(struct handle *book, struct handle *lane, uint64_t now, uint32_t limit, AT) {
  CALL(apply_run);
  WITH_BOTH(book, lane, bump_ran, bump_apply_run(book_of(book), lane_of(lane), now, limit));
}
bump_ran_told bump_debug_apply_run_told(struct handle *book, struct handle *lane, uint64_t now, uint32_t limit, AT) {
  CALL(apply_run_told);
  WITH_BOTH(book, lane, bump_ran_told, bump_apply_run_told(book_of(book), lane_of(lane), now, limit));
}
bump_rested bump_debug_rest(struct handle *l, AT) {
  CALL(rest);
  WITH(l, LANE, bump_rested, bump_rest(lane_of(l)));
}

#define FREE(call_name, kind, type)                       \
  void bump_debug_##call_name(struct handle handle, AT) { \
    CALL(call_name);                                      \
    struct known *e = enter(&c, &handle, kind);           \
    end(e);                                               \
    bump_##call_name((type){ handle.p });                 \
    leave(&c);                                            \
    retire(e);                                            \
  }
FREE(close, STORE, bump_store)
FREE(worker_free, WORKER, bump_worker)
FREE(book_free, BOOK, bump_book)
FREE(lane_free, LANE, bump_lane)

/* ------------------------------------------------------------------------------------------------------- a cache */

enum bump_cache_open_answer bump_debug_cache_open(struct handle *cache, const bump_cache_config *config, AT) {
  CALL(cache_open);
  is_empty(&c, cache);
  is_there(&c, config);
  enum bump_cache_open_answer answer = bump_cache_open(cache_of(cache), config);
  if (answer != BUMP_CACHE_OPEN_DONE) return answer;
  struct known its = { .opening = __atomic_add_fetch(&openings, 1, __ATOMIC_SEQ_CST) };
  give(&c, cache, CACHE, &its);
  return answer;
}
TAKE(cache_take_part, CACHE, cache_of, CACHE_PART, part_of)
TAKE(cache_take_reader, CACHE, cache_of, CACHE_READER, reader_of)

uint64_t bump_debug_cache_bytes_taken(const bump_cache_config *config, AT) {
  CALL(cache_bytes_taken);
  is_there(&c, config);
  return bump_cache_bytes_taken(config);
}
bump_cache_config bump_debug_cache_for_bytes(uint64_t limit, uint32_t readers, uint32_t key_bytes, uint32_t value_bytes,
                                             AT) {
  (void)file, (void)line; /* it has no pointer that could be wrong */
  return bump_cache_for_bytes(limit, readers, key_bytes, value_bytes);
}

uint32_t bump_debug_cache_part_of(const bump_cache_config *config, const void *key, size_t key_length, AT) {
  CALL(cache_part_of);
  is_there(&c, config);
  is_array(&c, key, key_length);
  return bump_cache_part_of(config, key, key_length);
}

bump_cache_got bump_debug_cache_get(struct handle *r, const void *key, size_t key_length, void *value, size_t room,
                                    uint64_t now, AT) {
  CALL(cache_get);
  is_array(&c, key, key_length);
  is_array(&c, value, room);
  WITH(r, CACHE_READER, bump_cache_got, bump_cache_get(reader_of(r), key, key_length, value, room, now));
}
bump_cache_got_words bump_debug_cache_get_words(struct handle *r, const void *key, size_t key_length, uint64_t now,
                                                AT) {
  CALL(cache_get_words);
  is_array(&c, key, key_length);
  WITH(r, CACHE_READER, bump_cache_got_words, bump_cache_get_words(reader_of(r), key, key_length, now));
}
bump_cache_got bump_debug_cache_hold(struct handle *r, uint32_t hold, const void *key, size_t key_length, uint64_t now,
                                     AT) {
  CALL(cache_hold);
  is_array(&c, key, key_length);
  WITH(r, CACHE_READER, bump_cache_got, bump_cache_hold(reader_of(r), hold, key, key_length, now));
}
void bump_debug_cache_read(struct handle *r, uint32_t hold, uint32_t from, void *bytes, size_t count, AT) {
  CALL(cache_read);
  is_array(&c, bytes, count);
  enter(&c, r, CACHE_READER);
  bump_cache_read(reader_of(r), hold, from, bytes, count);
  leave(&c);
}
bump_cache_words_of bump_debug_cache_read_words(struct handle *r, uint32_t hold, uint32_t from, AT) {
  CALL(cache_read_words);
  WITH(r, CACHE_READER, bump_cache_words_of, bump_cache_read_words(reader_of(r), hold, from));
}
bool bump_debug_cache_release(struct handle *r, uint32_t hold, AT) {
  CALL(cache_release);
  WITH(r, CACHE_READER, bool, bump_cache_release(reader_of(r), hold));
}
bump_cache_counts bump_debug_cache_reader_counts(struct handle *r, AT) {
  CALL(cache_reader_counts);
  WITH(r, CACHE_READER, bump_cache_counts, bump_cache_reader_counts(reader_of(r)));
}

#define PUT(call_name)                                                                                                \
  bump_cache_put_told bump_debug_##call_name(struct handle *p, const void *key, size_t key_length, const void *value, \
                                             size_t value_length, uint32_t flags, uint64_t expires, uint64_t now,     \
                                             AT) {                                                                    \
    CALL(call_name);                                                                                                  \
    is_array(&c, key, key_length);                                                                                    \
    is_array(&c, value, value_length);                                                                                \
    WITH(p, CACHE_PART, bump_cache_put_told,                                                                          \
         bump_##call_name(part_of(p), key, key_length, value, value_length, flags, expires, now));                    \
  }
PUT(cache_put)
PUT(cache_add)
PUT(cache_replace)

bump_cache_put_told bump_debug_cache_update(struct handle *p, const void *key, size_t key_length, const void *value,
                                            size_t value_length, uint64_t now, AT) {
  CALL(cache_update);
  is_array(&c, key, key_length);
  is_array(&c, value, value_length);
  WITH(p, CACHE_PART, bump_cache_put_told,
       bump_cache_update(part_of(p), key, key_length, value, value_length, now));
}
bump_cache_put_told bump_debug_cache_touch(struct handle *p, const void *key, size_t key_length, uint64_t expires,
                                           uint64_t now, AT) {
  CALL(cache_touch);
  is_array(&c, key, key_length);
  WITH(p, CACHE_PART, bump_cache_put_told, bump_cache_touch(part_of(p), key, key_length, expires, now));
}
bump_cache_looked bump_debug_cache_look(struct handle *p, const void *key, size_t key_length, void *value, size_t room,
                                        uint64_t now, AT) {
  CALL(cache_look);
  is_array(&c, key, key_length);
  is_array(&c, value, room);
  WITH(p, CACHE_PART, bump_cache_looked, bump_cache_look(part_of(p), key, key_length, value, room, now));
}
bump_cache_looked bump_debug_cache_find(struct handle *p, const void *key, size_t key_length, uint64_t now, AT) {
  CALL(cache_find);
  is_array(&c, key, key_length);
  WITH(p, CACHE_PART, bump_cache_looked, bump_cache_find(part_of(p), key, key_length, now));
}
bump_cache_words_of bump_debug_cache_found_words(struct handle *p, uint32_t from, AT) {
  CALL(cache_found_words);
  WITH(p, CACHE_PART, bump_cache_words_of, bump_cache_found_words(part_of(p), from));
}
bool bump_debug_cache_remove(struct handle *p, const void *key, size_t key_length, uint64_t now, AT) {
  CALL(cache_remove);
  is_array(&c, key, key_length);
  WITH(p, CACHE_PART, bool, bump_cache_remove(part_of(p), key, key_length, now));
}
void bump_debug_cache_tend(struct handle *p, uint64_t now, AT) {
  CALL(cache_tend);
  enter(&c, p, CACHE_PART);
  bump_cache_tend(part_of(p), now);
  leave(&c);
}
void bump_debug_cache_clear(struct handle *p, AT) {
  CALL(cache_clear);
  enter(&c, p, CACHE_PART);
  bump_cache_clear(part_of(p));
  leave(&c);
}
uint32_t bump_debug_cache_chunks(struct handle *p, AT) {
  CALL(cache_chunks);
  WITH(p, CACHE_PART, uint32_t, bump_cache_chunks(part_of(p)));
}
bump_cache_entry_of bump_debug_cache_each(struct handle *p, uint32_t number, void *key, size_t key_room, void *value,
                                          size_t value_room, uint64_t now, AT) {
  CALL(cache_each);
  is_array(&c, key, key_room);
  is_array(&c, value, value_room);
  WITH(p, CACHE_PART, bump_cache_entry_of,
       bump_cache_each(part_of(p), number, key, key_room, value, value_room, now));
}
bump_cache_entry_of bump_debug_cache_entry(struct handle *p, uint32_t number, uint64_t now, AT) {
  CALL(cache_entry);
  WITH(p, CACHE_PART, bump_cache_entry_of, bump_cache_entry(part_of(p), number, now));
}
bump_cache_words_of bump_debug_cache_entry_key(struct handle *p, uint32_t from, AT) {
  CALL(cache_entry_key);
  WITH(p, CACHE_PART, bump_cache_words_of, bump_cache_entry_key(part_of(p), from));
}
bump_cache_words_of bump_debug_cache_entry_value(struct handle *p, uint32_t from, AT) {
  CALL(cache_entry_value);
  WITH(p, CACHE_PART, bump_cache_words_of, bump_cache_entry_value(part_of(p), from));
}
bump_cache_stats_of bump_debug_cache_stats(struct handle *p, AT) {
  CALL(cache_stats);
  WITH(p, CACHE_PART, bump_cache_stats_of, bump_cache_stats(part_of(p)));
}

FREE(cache_close, CACHE, bump_cache)
FREE(cache_part_free, CACHE_PART, bump_cache_part)
FREE(cache_reader_free, CACHE_READER, bump_cache_reader)
