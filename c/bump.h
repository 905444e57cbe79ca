/* bump from C: the recency lists, reference counts and reads' marks of a cache whose readers take no lock.
 *
 * Link with libbump.a, or libbump.so: docs/C.md shows how. This header is C99 to C23, and C++98 to C++20.
 *
 * An ITEM is a chunk and a generation: the chunk is a place for one item, and the generation tells its items apart.
 * Which item a key has, and where its value lies, the caller keeps; an item's label, 64 bits, is the place for that. A
 * CLASS has chunks of its own and seven lists: HOT, WARM, COLD and TEMP of items, DYING of ended items that somebody
 * still held, UNUSED of free chunks, RETIRED of those whose generations are used up. A reader's hit leaves marks on the
 * item, and in COLD it may queue a BUMP, by which the worker's LANE moves the item to WARM later. Classes, workers and
 * lanes are numbered from 0. The chunks of class 0 are 0, 1, 2 and so on, and those of each further class begin where
 * those of the class before end. Times are the caller's ticks, any number: they are stored, and never compared.
 *
 * WHAT C PROMISES. Nothing checks it, but for the build with checks (bump_debug.h):
 * 1. A handle is one value, of which no copy is used; one thread at a time is in a call with it.
 * 2. It goes to another thread by what orders both: a mutex, a thread's start or join, a seq_cst atomic.
 * 3. What a call takes by value is gone: no call is made with it any more. What a call fills is {0} before.
 * 4. Stores that are open have different numbers (bump_config.store). Pointers aren't NULL, arrays as long as is said.
 * 5. malloc, realloc, free are one allocator's. No call from a signal handler, or a forked child of a threaded process.
 *
 * WHAT BUMP ANSWERS. Every other argument is tested: a number out of range is an answer, and changes nothing. No call
 * aborts. No call waits for another thread, and a reader's calls take no lock at all. Only bump_open asks for memory: a
 * refusal of it is an answer, nothing leaks, and nothing is changed.
 *
 * ORDER OF MEMORY. What was written before an item was linked, whoever gets the item sees. What a reader read before it
 * released an item comes before the call that tells the item's chunk as FREED, frees it in a sweep or a run, or links
 * the chunk's next item: so whoever sees that may reuse the value. What is written behind the link, as a value at the
 * place of the chunk, a reader sees by the lock under which the program names the item to readers.
 *
 * COSTS are steps on an item's words (one atomic load, store, exchange, addition each), or what they grow with. What
 * they come to in instructions docs/BENCH.md tells. */
#ifndef BUMP_H
#define BUMP_H

#include <stdbool.h>
#include <stddef.h>
#include <stdint.h>

/* In a build with checks the declarations below read each call's place in the program, and a handle has a word more. */
#ifdef BUMP_DEBUG
#define BUMP_DECLARES
#include "bump_debug.h"
#else
#define BUMP_CHECK
#endif

/* The version of this header, and by bump_version() of the library: 10000 x major + 100 x minor + patch. */
#define BUMP_VERSION 100

#ifdef __cplusplus
extern "C" {
#endif

uint32_t bump_version(void);

/* ------------------------------------------------------------------------------------------------- handles */

/* What is still to be taken out of a store that was opened. */
typedef struct bump_store { void *p; BUMP_CHECK } bump_store;

/* A reading thread's: what it holds and hits items by, with numbered holds, and a ring for its bumps. */
typedef struct bump_worker { void *p; BUMP_CHECK } bump_worker;

/* A class's lists. Each call with it is made under one lock, which is the caller's: a mutex for each class. */
typedef struct bump_book { void *p; BUMP_CHECK } bump_book;

/* What applies the bumps of one worker's ring: one thread's, or under a lock of its own. */
typedef struct bump_lane { void *p; BUMP_CHECK } bump_lane;

/* In place of a class, a chunk or a size that there isn't. */
#define BUMP_NONE UINT32_MAX

/* The most chunks, and the most words, that one call tells. */
#define BUMP_MOST_CHUNKS 32
#define BUMP_MOST_WORDS 8

/* In place of a limit: that of the class. */
#define BUMP_LIMIT_OF_CLASS UINT32_MAX

/* A class's lists. */
enum bump_place {
  BUMP_PLACE_HOT,
  BUMP_PLACE_WARM,
  BUMP_PLACE_COLD,
  BUMP_PLACE_TEMP,
  BUMP_PLACE_DYING,
  BUMP_PLACE_UNUSED,
  BUMP_PLACE_RETIRED
};

/* ----------------------------------------------------------------------------------------- opening a store */

/* What a store is made from. */
typedef struct bump_config {
  uint64_t store;            /* a number of the caller's, which no other open store has: by it calls tell them apart */
  uint32_t workers;          /* 1 to 64: one for each reading thread, with a ring and a lane */
  uint32_t capacity;         /* bumps that a ring has room for: 1 to 65,536 */
  uint32_t refs_limit;       /* references to an item (its link, each hold, each bump): 2 to 1,048,575 */
  uint32_t first_generation; /* of each chunk's first item: 1 to 4,294,967,295 */
  uint32_t holds;            /* numbered holds of each worker: any number; bump_hit needs none */
  uint32_t words;            /* words that each item has beside its label: any number */
} bump_config;

/* What a class is made from. BUMP_TAIL_EVICT ends items of COLD alone: so choose hot + warm, and the most items that
 * TEMP will have, below chunks. Items that readers mark again and again stay in WARM, whatever its limit: where COLD
 * is empty all the same, end WARM's last item by bump_look and bump_unlink. */
typedef struct bump_class_config {
  uint32_t chunks; /* 1 or more, and all classes together at most 1,000,000 */
  uint32_t hot;    /* a pull takes items from HOT where it has more than this: any number */
  uint32_t warm;   /* the same of WARM */
} bump_class_config;

/* Whether a store was opened; or the first fault of its configuration, in this order; or want of memory. */
enum bump_open_answer {
  BUMP_OPEN_DONE,
  BUMP_OPEN_WORKERS,    /* not 1 to 64 workers */
  BUMP_OPEN_CAPACITY,   /* not room for 1 to 65,536 bumps */
  BUMP_OPEN_REFS_LIMIT, /* not 2 to 1,048,575 */
  BUMP_OPEN_GENERATION, /* 0 */
  BUMP_OPEN_CLASSES,    /* not 1 to 16 classes */
  BUMP_OPEN_CHUNKS,     /* a class without chunks, or more than 1,000,000 together */
  BUMP_OPEN_NO_MEMORY   /* malloc or realloc refused: what was taken is given back */
};

/* Opens a store, and puts it into `store`, which is {0} before and stays so where it answers anything but
 * BUMP_OPEN_DONE. `classes` is an array of `count`. Any thread. Cost: grows with the chunks and their words, with
 * workers x capacity and with workers x holds. It asks for memory, and where blocks are large for huge pages. */
enum bump_open_answer bump_open(bump_store *store, const bump_config *config, const bump_class_config *classes,
                                size_t count);

/* Each takes the part with this number out of the store and puts it into `part`, which is {0} before. false: there
 * is no such number, or its part is taken already; nothing is changed. Whoever has the store. Cost: constant. */
bool bump_take_worker(bump_store *store, uint32_t worker, bump_worker *part);
bool bump_take_book(bump_store *store, uint32_t number, bump_book *part); /* of the class with this number */
bool bump_take_lane(bump_store *store, uint32_t worker, bump_lane *part); /* of the worker with this number */

/* ---------------------------------------------------------------- readers: the one thread that has the worker */

/* What became of a get. A refusal changes nothing. */
enum bump_get_answer {
  BUMP_GET_HELD,          /* the item is held, by the worker's hold of that number */
  BUMP_GET_NO_PLACE,      /* the worker has no hold of that number, or it holds an item already */
  BUMP_GET_NO_SUCH_CHUNK, /* the store has no such chunk */
  BUMP_GET_STALE,         /* the item ended, or was never linked */
  BUMP_GET_REFS_FULL,     /* the item has as many references as it may have */
  BUMP_GET_BUSY           /* eight exchanges failed, since other threads were in the way: try again */
};

/* What became of a hit. */
enum bump_touch_answer {
  BUMP_TOUCH_FIRST,             /* the item's first hit, told to one worker alone: it is marked FETCHED */
  BUMP_TOUCH_ALREADY,           /* it was ACTIVE already */
  BUMP_TOUCH_MARKED,            /* it is marked ACTIVE in HOT, WARM or TEMP, and the time is stored */
  BUMP_TOUCH_QUEUED,            /* it is marked ACTIVE in COLD, and a bump is queued */
  BUMP_TOUCH_DROPPED_FULL,      /* its bump was dropped: the ring has no room; drain more often */
  BUMP_TOUCH_DROPPED_BUSY,      /* its bump was dropped: eight exchanges failed */
  BUMP_TOUCH_DROPPED_REFS_FULL, /* its bump was dropped: the item has as many references as it may have */
  BUMP_TOUCH_EXHAUSTED,         /* the worker attempted 4,611,686,018,427,387,903 bumps: it makes no further hit */
  BUMP_TOUCH_NO_HOLD            /* the hold of that number holds nothing: given back before, or never taken */
};

typedef struct bump_touched {
  enum bump_touch_answer answer;
  uint64_t number; /* of the bump among the worker's accepted ones, from 0, where it is QUEUED; else 0 */
} bump_touched;

/* Whether there was a hold to read by. */
enum bump_hold_answer {
  BUMP_HOLD_READ,
  BUMP_HOLD_NOTHING /* the hold of that number holds nothing: all else is 0 */
};

typedef struct bump_labelled {
  enum bump_hold_answer answer;
  uint64_t label; /* what the item was linked with */
} bump_labelled;

/* What one load found of the item that is held. */
typedef struct bump_marks_of {
  enum bump_hold_answer answer;
  uint32_t refs;    /* its link, its holds, its bumps */
  uint32_t segment; /* BUMP_PLACE_HOT, _WARM, _COLD or _TEMP: where the item is, or was last */
  bool linked;      /* it hasn't ended */
  bool fetched;     /* it was hit */
  bool active;      /* it was hit again, since this mark was cleared last */
} bump_marks_of;

typedef struct bump_timed {
  enum bump_hold_answer answer;
  uint64_t time; /* what was stored last, by a link, a touch or a bump */
} bump_timed;

typedef struct bump_words_of {
  enum bump_hold_answer answer;
  uint32_t count;                  /* how many words each item has, whatever `first` is */
  uint64_t words[BUMP_MOST_WORDS]; /* those that were asked for; 0 behind the last one */
} bump_words_of;

/* What became of a whole hit. */
typedef struct bump_whole_hit {
  enum bump_get_answer got;     /* never BUMP_GET_NO_PLACE */
  enum bump_touch_answer touch; /* where `got` is BUMP_GET_HELD; else BUMP_TOUCH_NO_HOLD */
  uint64_t label;               /* where `got` is BUMP_GET_HELD; else 0 */
} bump_whole_hit;

/* A worker's counts of bumps. attempted = accepted + full + busy + refs. */
typedef struct bump_counts {
  uint64_t attempted;
  uint64_t accepted; /* put into the ring */
  uint64_t full;     /* dropped: the ring had no room */
  uint64_t busy;     /* dropped: eight exchanges failed */
  uint64_t refs;     /* dropped: the item had as many references as it may have */
} bump_counts;

/* What became of a worker that was to be closed. */
enum bump_close_answer {
  BUMP_CLOSE_DONE,
  BUMP_CLOSE_OTHER_STORE,  /* the lane is of another store */
  BUMP_CLOSE_OTHER_WORKER, /* the lane is another worker's */
  BUMP_CLOSE_HOLDS_OUT,    /* a hold of the worker holds an item: release it before */
  BUMP_CLOSE_TWICE         /* the lane has a closed worker already: only where two stores have one number */
};

/* Takes a hold of an item, by the worker's hold of that number. While an item is held, its chunk isn't used for
 * another one, even if this one is ended: so read its value before the release. Cost: a load, and an exchange, up to
 * 8 of them where other threads are in the way. */
enum bump_get_answer bump_get(bump_worker *worker, uint32_t hold, uint32_t chunk, uint32_t generation);

/* A hit of the item that is held. Cost: a step for FIRST and ALREADY, three for MARKED; in COLD a load, up to 8
 * exchanges and 4 steps at most, and a place in the ring. */
bump_touched bump_touch(bump_worker *worker, uint32_t hold, uint64_t now);

/* The label of the item that is held. Cost: a load. */
bump_labelled bump_label(bump_worker *worker, uint32_t hold);

/* The marks of the item that is held, its list and its references, which other threads may change behind it. Cost: a
 * load. */
bump_marks_of bump_marks(bump_worker *worker, uint32_t hold);

/* Whether an item is held that has both marks. A touch of it would change nothing: so asking first saves its locked
 * step, where most hits find it so. Cost: a load. */
bool bump_marked(bump_worker *worker, uint32_t hold);

/* The time of the item that is held. Cost: two loads. */
bump_timed bump_time(bump_worker *worker, uint32_t hold);

/* The words of the item that is held, from the one with the number `first` on, at most BUMP_MOST_WORDS: they stay what
 * they are while it is held. Cost: a load for each. */
bump_words_of bump_words(bump_worker *worker, uint32_t hold, uint32_t first);

/* Gives back what the hold holds. false: it holds nothing. A chunk comes free by a sweep, not by this. Cost: a step. */
bool bump_release(bump_worker *worker, uint32_t hold);

/* bump_get, bump_touch, bump_label and bump_release as one. It needs no numbered hold. For values that lie in the
 * label, or that the caller keeps from being reused in another way. Cost: as the four. */
bump_whole_hit bump_hit(bump_worker *worker, uint32_t chunk, uint32_t generation, uint64_t now);

/* The worker's counts of bumps. Cost: constant, no step. */
bump_counts bump_worker_counts(bump_worker *worker);

/* Closes the worker's ring, which accepts nothing more, and gives the worker to its lane: bump_rest tells of it from
 * then on. The worker is gone; or, where it answers anything but BUMP_CLOSE_DONE, it is in `back`, which is {0}
 * before, and nothing is done. Whoever has both, worker and lane. Cost: grows with the worker's holds. */
enum bump_close_answer bump_worker_close(bump_lane *lane, bump_worker worker, bump_worker *back);

/* -------------------------------------------------------------- a class: whoever has the caller's lock of it */

/* What became of a link. A refusal changes nothing. */
enum bump_link_answer {
  BUMP_LINK_DONE,
  BUMP_LINK_NO_FREE_CHUNK, /* UNUSED is empty: evict; or sweep, once holds were given back */
  BUMP_LINK_TOO_MANY_WORDS /* more than bump_config.words */
};

typedef struct bump_linked {
  enum bump_link_answer answer;
  uint32_t chunk;      /* the item, where it is BUMP_LINK_DONE; else 0 */
  uint32_t generation; /* the same; an item has 1 or more */
} bump_linked;

/* What became of an unlink. */
enum bump_unlink_answer {
  BUMP_UNLINK_FREED,         /* the item ended, and its chunk is free; RETIRED ones are told so too */
  BUMP_UNLINK_DEFERRED,      /* the item ended; somebody holds its chunk, which waits in DYING for a sweep */
  BUMP_UNLINK_NO_SUCH_CHUNK, /* the class has no such chunk */
  BUMP_UNLINK_NOT_LINKED     /* the item ended before, or was never linked */
};

typedef struct bump_unlinked {
  enum bump_unlink_answer answer;
  uint64_t label; /* the item's, where it ended; else 0 */
} bump_unlinked;

/* Chunks that came free by a call, in the order in which they did: the last one is the front of UNUSED. Those whose
 * generations are used up are told too, and are RETIRED. */
typedef struct bump_freed {
  uint32_t count;
  uint32_t chunks[BUMP_MOST_CHUNKS]; /* 0 behind the last one */
} bump_freed;

/* The list whose last item a pull looks at. */
enum bump_tail {
  BUMP_TAIL_HOT,
  BUMP_TAIL_WARM,
  BUMP_TAIL_COLD,
  BUMP_TAIL_EVICT /* COLD again: its last item is ended, whatever its marks */
};

/* What a pull did with the last item of its list. */
enum bump_pull_answer {
  BUMP_PULL_EMPTY,    /* there was none */
  BUMP_PULL_STAY,     /* it stays */
  BUMP_PULL_WARM,     /* it was ACTIVE: it went to the front of WARM */
  BUMP_PULL_AGAIN,    /* it was ACTIVE in WARM: it went to the front of WARM again */
  BUMP_PULL_COLD,     /* there were more than the limit: it went to the front of COLD */
  BUMP_PULL_FREED,    /* it was evicted, and its chunk is free, or RETIRED */
  BUMP_PULL_DEFERRED, /* it was evicted; somebody holds its chunk, which waits in DYING for a sweep */
  BUMP_PULL_NO_SUCH_TAIL
};

typedef struct bump_pulled {
  enum bump_pull_answer answer;
  uint32_t chunk;      /* the item; 0 where it is BUMP_PULL_EMPTY or BUMP_PULL_NO_SUCH_TAIL */
  uint32_t generation; /* the same */
  uint64_t label;      /* the same */
} bump_pulled;

/* When a pull takes items from HOT and from WARM: where there are more. */
typedef struct bump_limits_of {
  uint32_t hot;
  uint32_t warm;
} bump_limits_of;

/* Whether a chunk was looked at. */
enum bump_see_answer {
  BUMP_SEE_SEEN,
  BUMP_SEE_NO_SUCH_CHUNK, /* the class has no such chunk; or it isn't in the list that bump_look was given */
  BUMP_SEE_NOTHING,       /* bump_look: the list is empty, or there is nothing before the chunk */
  BUMP_SEE_NO_SUCH_PLACE
};

/* What three loads found of a chunk. All is 0 where it wasn't seen. */
typedef struct bump_seen {
  enum bump_see_answer answer;
  uint32_t chunk;
  uint32_t generation;
  uint32_t refs;    /* its link, its holds, its bumps */
  uint32_t segment; /* BUMP_PLACE_HOT, _WARM, _COLD or _TEMP: where the item is, or was last */
  uint64_t time;
  uint64_t label;
  bool linked;
  bool fetched; /* it was hit */
  bool active;  /* it was hit again, since this mark was cleared last */
} bump_seen;

/* Whether a list was walked. */
enum bump_walk_answer {
  BUMP_WALK_DONE,
  BUMP_WALK_NOT_THERE, /* the chunk to begin with isn't in the list */
  BUMP_WALK_NO_SUCH_PLACE
};

typedef struct bump_walked {
  enum bump_walk_answer answer;
  uint32_t count;                    /* how many chunks are told; 0 where it isn't BUMP_WALK_DONE */
  uint32_t next;                     /* the chunk behind them; BUMP_NONE: there is none, or it isn't BUMP_WALK_DONE */
  uint32_t chunks[BUMP_MOST_CHUNKS]; /* 0 behind the last one */
} bump_walked;

/* Links an item with a label at the front of HOT. It evicts nothing. The label, and the words, stay what they are
 * until the item's chunk is used for another one: a value that changes is a new item, linked before the old one is
 * unlinked. Cost: constant, three steps. */
bump_linked bump_link(bump_book *book, uint64_t label, uint64_t now);

/* The same at the front of TEMP: no pull looks there, and the item stays until it is unlinked. */
bump_linked bump_link_temp(bump_book *book, uint64_t label, uint64_t now);

/* The same two with words beside the label, `count` of them: whoever holds the item reads them. Words that aren't
 * given are what the chunk's last item had, or 0. Cost: a step more for each word. */
bump_linked bump_link_words(bump_book *book, uint64_t label, const uint64_t *words, size_t count, uint64_t now);
bump_linked bump_link_temp_words(bump_book *book, uint64_t label, const uint64_t *words, size_t count, uint64_t now);

/* Ends an item: nobody gets it any more, and who holds it holds it on. Cost: constant, three steps. */
bump_unlinked bump_unlink(bump_book *book, uint32_t chunk, uint32_t generation);

/* Looks at the last item of a list, and moves or ends it. `tail` is one of enum bump_tail. An item of HOT, WARM or
 * COLD that is ACTIVE goes to WARM, whatever the limit. Else HOT's and WARM's goes to COLD where the list has more
 * items than `limit`, or with BUMP_LIMIT_OF_CLASS than the class's. A call looks at one item: so call it a few times
 * for each link. Cost: constant, three steps at most. */
bump_pulled bump_pull(bump_book *book, uint32_t tail, uint32_t limit);

/* Frees those chunks of DYING that nobody holds any more, and tells how many. Cost: a load for each chunk of DYING. */
uint32_t bump_sweep(bump_book *book);

/* The same, and it tells the chunks that came free: at most BUMP_MOST_CHUNKS, and it stops there. So call it again
 * while it tells as many. */
bump_freed bump_sweep_told(bump_book *book);

/* How many chunks a list has. `place` is one of enum bump_place; BUMP_NONE: it is none. Cost: constant, no step. */
uint32_t bump_size(bump_book *book, uint32_t place);

/* What a chunk's word says, its time and its label. Readers go on meanwhile: marks, references and time may change
 * between. Cost: three loads. */
bump_seen bump_see(bump_book *book, uint32_t chunk);

/* The same of the last chunk of a list, for BUMP_NONE; or of the one before the chunk `behind`, which is in the
 * list. Nothing is moved: so a program can decide by ages or by what expires, and then pull, or unlink, what it saw.
 * `place` is one of enum bump_place. Cost: three loads. */
bump_seen bump_look(bump_book *book, uint32_t place, uint32_t behind);

/* The chunks of a list, front first: from the front on for BUMP_NONE, or from the chunk `from` on, which is in the
 * list; at most BUMP_MOST_CHUNKS. To go on, call it with `next`. `place` is one of enum bump_place. Cost: constant
 * for each chunk; no step, no memory. */
bump_walked bump_walk(bump_book *book, uint32_t place, uint32_t from);

/* How many items a worker's bumps brought to WARM in this class. UINT64_MAX: there is no such worker. Cost:
 * constant. */
uint64_t bump_moves(bump_book *book, uint32_t worker);

/* The limits that the class was made with. Cost: constant. */
bump_limits_of bump_limits(bump_book *book);

/* ------------------------------------------------------------------------------ draining: whoever has the lane */

/* Whether a run of bumps was applied. */
enum bump_run_answer {
  BUMP_RUN_DONE,
  BUMP_RUN_OTHER_STORE, /* book and lane are of two stores: nothing is done */
  BUMP_RUN_OTHER_CLASS  /* the lane's next bump is of another class than the book: nothing is applied */
};

typedef struct bump_ran {
  enum bump_run_answer answer;
  uint32_t applied;
} bump_ran;

typedef struct bump_ran_told {
  enum bump_run_answer answer;
  uint32_t applied;
  uint32_t freed;                    /* how many chunks came free by it */
  uint32_t chunks[BUMP_MOST_CHUNKS]; /* 0 behind the last one */
} bump_ran_told;

/* What is left of a worker's bumps. */
enum bump_rest_answer {
  BUMP_REST_SETTLED, /* its worker is closed, and all that was accepted is applied: applied = counts.accepted */
  BUMP_REST_OPEN,    /* its worker isn't closed */
  BUMP_REST_LEFT,    /* its worker is closed; `left` bumps are to be applied, and no other will come */
  BUMP_REST_UNSEEN,  /* its worker is closed; the ring can't show its end now */
  BUMP_REST_GONE     /* its worker was freed and not closed: what it accepted can be drained, and is never settled */
};

typedef struct bump_rested {
  enum bump_rest_answer answer;
  uint64_t left;      /* where it is BUMP_REST_LEFT; else 0 */
  bump_counts counts; /* the closed worker's, which stay; {0} where it is BUMP_REST_OPEN or BUMP_REST_GONE */
  uint64_t applied;   /* how many the lane ever applied */
} bump_rested;

/* The class of the lane's next bump; BUMP_NONE: none is known. Cost: constant. To drain a lane:
 *   while ((n = bump_lane_class(lane)) != BUMP_NONE) {
 *     lock(n); bump_apply_run(&book[n], lane, now, limit); unlock(n); } */
uint32_t bump_lane_class(bump_lane *lane);

/* Applies the lane's next bumps as long as they are of the book's class, at most `limit`, and tells how many: an
 * item that is ACTIVE in COLD goes to the front of WARM, one in another list has its time stored, one that ended is
 * let go. applied = 0: none is known, or `limit` is 0. Whoever has the lane and the class's lock. Cost: constant for
 * each bump, five steps at most. */
bump_ran bump_apply_run(bump_book *book, bump_lane *lane, uint64_t now, uint32_t limit);

/* The same, and it tells the chunks that came free by it: at most BUMP_MOST_CHUNKS, and it stops there. */
bump_ran_told bump_apply_run_told(bump_book *book, bump_lane *lane, uint64_t now, uint32_t limit);

/* What is left of the bumps of a worker. To settle one: bump_worker_close, then drain its lane until this answers
 * BUMP_REST_SETTLED. Cost: constant. */
bump_rested bump_rest(bump_lane *lane);

/* --------------------------------------------------------------------------------------------- giving it back */

/* Each ends a handle, which is gone, and gives back what it has; bump_close also what wasn't taken out of the store.
 * What all parts share is given back with the last of them. A worker that is freed gives back what it holds, but
 * isn't closed: bump_rest of its lane answers BUMP_REST_GONE from then on. A lane that is freed before it is drained
 * leaves the chunks of its bumps in DYING for good, once their items end. In any order; whoever has the handle.
 * Cost: grows with what is given back. */
void bump_close(bump_store store);
void bump_worker_free(bump_worker worker);
void bump_book_free(bump_book book);
void bump_lane_free(bump_lane lane);

/* The library's answers have 32 bits. */
typedef char bump_answers_have_32_bits[sizeof(enum bump_get_answer) == 4 ? 1 : -1];

/* By this a build with checks finds a file that was compiled without them. */
#if defined __GNUC__ && !defined BUMP_DEBUG && !defined BUMP_DEBUG_ITSELF
extern const char bump_without_checks __attribute__((weak));
const char bump_without_checks = 1;
#endif

#ifdef __cplusplus
}
#endif

#ifdef BUMP_DEBUG
#undef BUMP_DECLARES
#include "bump_debug.h"
#endif
#undef BUMP_CHECK

#endif
