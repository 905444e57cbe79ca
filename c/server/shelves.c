/* Which shelves a class has, and which of them are open. Items come, and so shelves are opened; where items went, as to
 * make room for those of other sizes, their chunks go back. Which shelves are open changes under a lock of the class's,
 * which is taken before a shelf's. */
#include <stdlib.h>
#include <string.h>
#include "memory.h"
#include "network.h"
#include "shelf.h"
#include "thread.h"

/* A store has at most so many chunks. The next shelf is opened where less than a FREE_PART-th of all chunks is free.
 * The last one gets no more items where a STARVED_PART-th of the others' chunks would be enough. */
enum {
  CHUNKS_FIRST = 2048,
  CHUNKS_MOST = 1000000,
  SPARE_LEAST = 1024,
  FREE_PART = 8,
  STARVED_PART = 2,
  LEAVING_MOST = 64 /* shelves that are closed at a time */
};

struct shelf *shelves;
static uint32_t shelves_count;

/* The shelves of a class. The next class's first one comes behind its last. */
static struct of_class {
  uint32_t first;
  _Atomic uint32_t open; /* so many are open: the first ones */
  _Atomic uint32_t fed;  /* and so many of these get new items */
  pthread_mutex_t changing; /* of whoever changes these two */
} of_class[CLASSES_MOST + 2];

/* As many chunks as the memory has room for, and a quarter more: since items may be smaller than their class says, for
 * ended ones that are still held, and for a limit that is raised. */
static uint64_t chunks_of(uint32_t class) {
  uint64_t chunks = atomic_load(&settings.memory) / class_size(class);
  return chunks + chunks / 4 + SPARE_LEAST;
}

/* The chunks of a class's next shelf, behind those that have so many together: a third of them. So what a class takes
 * grows with its items, and not much ahead of them, and some dozens of shelves are enough. No small one comes last. */
static uint32_t chunks_of_next(uint64_t before, uint64_t all) {
  uint64_t chunks = before / 3 < CHUNKS_FIRST ? CHUNKS_FIRST : before / 3;
  if (before + chunks + chunks / 4 > all) chunks = all - before;
  return chunks < CHUNKS_MOST ? (uint32_t)chunks : CHUNKS_MOST;
}

/* Numbers a class's shelves from one on, and answers the number behind them. Without a place for shelves it counts. */
static uint32_t number_shelves(struct shelf *at, uint32_t class, uint32_t number) {
  uint64_t all = chunks_of(class);
  for (uint64_t before = 0; before < all; number++) {
    uint32_t chunks = chunks_of_next(before, all);
    if (at != NULL) {
      at[number].number = number;
      at[number].class = class;
      at[number].before = before;
      at[number].chunks = chunks;
      pthread_mutex_init(&at[number].lock, NULL);
    }
    before += chunks;
  }
  return number;
}

bool shelves_make(void) {
  for (uint32_t class = 1; class <= class_count(); class++) {
    pthread_mutex_init(&of_class[class].changing, NULL);
    of_class[class + 1].first = number_shelves(NULL, class, of_class[class].first);
  }
  shelves_count = of_class[class_count() + 1].first;
  if (shelves_count > UINT16_MAX) return false;
  shelves = aligned_alloc(alignof(struct shelf), shelves_count * sizeof *shelves);
  if (shelves == NULL) return false;
  memset(shelves, 0, shelves_count * sizeof *shelves);
  for (uint32_t class = 1; class <= class_count(); class++) number_shelves(shelves, class, of_class[class].first);
  return true;
}

uint32_t shelf_count(void) { return shelves_count; }

uint32_t shelf_first(uint32_t class) { return of_class[class].first; }

uint32_t shelf_behind_open(uint32_t class) { return of_class[class].first + atomic_load(&of_class[class].open); }

static uint32_t behind_fed(uint32_t class) { return of_class[class].first + atomic_load(&of_class[class].fed); }

/* Each of those that are fed has its share of the keys, by its chunks. */
uint16_t shelf_number(uint32_t class, uint32_t hash) {
  uint32_t first = shelf_first(class), last = behind_fed(class);
  if (last-- < first + 2) return (uint16_t)first;
  uint64_t chunk = (uint64_t)hash * (shelves[last].before + shelves[last].chunks) >> 32;
  while (first < last) {
    uint32_t middle = (first + last + 1) / 2;
    if (shelves[middle].before <= chunk) first = middle;
    else last = middle - 1;
  }
  return (uint16_t)first;
}

uint64_t shelf_class_charged(uint32_t class) {
  uint64_t sum = 0;
  for (uint32_t number = shelf_first(class); number < shelf_behind_open(class); number++)
    sum += atomic_load_explicit(&shelves[number].charged, memory_order_relaxed);
  return sum;
}

/* ----------------------------------------------------------------------------------------------------- opening */

/* Opens it, where those before it are open. Whether it is open. Under its class's lock. */
static bool open_next(struct shelf *shelf) {
  if (shelf_is_open(shelf)) return true;
  shelf_lock(shelf);
  bool may_be = shelf->number == shelf_behind_open(shelf->class) && !shelf->is_leaving;
  bool is_made = may_be && shelf_make(shelf);
  if (is_made) {
    atomic_store(&shelf->is_nearly_full, false);
    atomic_store(&shelf->was_open, true);
    atomic_store(&shelf->is_open, true);
    atomic_fetch_add(&of_class[shelf->class].open, 1);
  }
  shelf_unlock(shelf);
  return is_made;
}

/* Lets a shelf get new items, and opens it for that: the first of its class, or the one behind those that are open. Of
 * those who store none waits for it, but others of this class that find no chunk. false: no memory. */
static bool feed(struct shelf *shelf) {
  struct of_class *class = &of_class[shelf->class];
  if (shelf->number < behind_fed(shelf->class)) return true;
  pthread_mutex_lock(&class->changing);
  bool is_fed = open_next(shelf);
  uint32_t fed = shelf->number + 1 - class->first;
  if (is_fed && atomic_load(&class->fed) < fed) atomic_store(&class->fed, fed);
  pthread_mutex_unlock(&class->changing);
  return is_fed;
}

bool shelf_choose(struct item *item) {
  uint32_t class = shelves[item->shelf].class;
  if (item->shelf < behind_fed(class)) return true;
  item->shelf = shelf_number(class, item->hash);
  return feed(&shelves[item->shelf]);
}

/* What the chunks of other classes take that go back where their items go: each class keeps its first shelf. */
static uint64_t chunks_of_others(uint32_t own) {
  uint64_t sum = 0;
  for (uint32_t class = 1; class <= class_count(); class++)
    for (uint32_t number = shelf_first(class) + 1; class != own && number < shelf_behind_open(class); number++)
      sum += shelf_bytes(&shelves[number]);
  return sum;
}

/* Whether a class gains by one more shelf: not where memory is full, and nearly all that could go is its own. Then it
 * would lose more items by the shelf's memory than it could have more. But where others have few items, much may come
 * free with these: as chunks go back once the last item of a shelf went. Where the process has more than -m, the shelf
 * counts twice: as what is taken, and as what is exceeded. */
static bool gains_by(const struct shelf *next) {
  uint64_t bytes = shelf_bytes(next), own = shelf_class_charged(next->class);
  if (memory_used() + bytes <= atomic_load(&settings.memory)) return true;
  uint64_t all = memory_of(MEMORY_items) + chunks_of_others(next->class);
  return own < all / 8 * 7 && own + bytes * (memory_is_exceeded() ? 2 : 1) < all;
}

/* The first of a class's shelves that isn't fed, where it may be; NULL: there is none. */
static struct shelf *next_to_feed(uint32_t class) {
  uint32_t number = behind_fed(class);
  if (number == shelf_first(class + 1)) return NULL;
  struct shelf *next = &shelves[number];
  return number == shelf_first(class) || shelf_is_open(next) || gains_by(next) ? next : NULL;
}

static uint32_t unused_of(struct shelf *shelf) {
  shelf_lock(shelf);
  uint32_t unused = bump_size(&shelf->book, BUMP_PLACE_UNUSED);
  shelf_unlock(shelf);
  return unused;
}

/* Whether few chunks are free in all of a class's shelves that are fed, of which the last one was nearly full. */
static bool is_nearly_full(const struct shelf *last) {
  uint64_t unused = 0;
  for (uint32_t number = shelf_first(last->class); number <= last->number; number++)
    unused += unused_of(&shelves[number]);
  return unused < (last->before + last->chunks) / FREE_PART;
}

/* Opens a class's next shelf where its last one is nearly full, as was noted in this second: it isn't opened for items
 * that came long ago. */
static void open_ahead(uint32_t class, bool forgets) {
  uint32_t behind = behind_fed(class);
  if (behind == shelf_first(class) || !atomic_load(&shelves[behind - 1].is_nearly_full)) return;
  struct shelf *next = next_to_feed(class);
  if (next != NULL && is_nearly_full(&shelves[behind - 1])) feed(next);
  else if (forgets) atomic_store(&shelves[behind - 1].is_nearly_full, false);
}

/* From then on the class needs its next shelf soon: the maintainer opens it, so that nobody waits for it. */
void shelf_note_full(struct shelf *shelf) {
  if (shelf->number + 1 != behind_fed(shelf->class) || shelf->number + 1 == shelf_first(shelf->class + 1)) return;
  if (bump_size(&shelf->book, BUMP_PLACE_UNUSED) > shelf->chunks / FREE_PART) return;
  atomic_store(&shelf->is_nearly_full, true);
  network_wake(MAINTAINER);
}

/* Locks a shelf if it is open and has a free chunk. */
static bool lock_with_chunk(struct shelf *shelf) {
  shelf_lock(shelf);
  if (shelf_is_open(shelf)) {
    if (bump_size(&shelf->book, BUMP_PLACE_UNUSED) == 0) shelf_reap(shelf);
    if (bump_size(&shelf->book, BUMP_PLACE_UNUSED) > 0) return true;
  }
  shelf_unlock(shelf);
  return false;
}

/* Most have one in the key's own shelf. While a class grows it is the last one that has chunks. A class's first shelf
 * is never closed. */
struct shelf *shelf_lock_for(struct item *item) {
  shelf_choose(item);
  struct shelf *own = &shelves[item->shelf], *next;
  if (lock_with_chunk(own)) return own;
  uint32_t class = own->class, first = shelf_first(class), number = behind_fed(class);
  while (number > first)
    if (lock_with_chunk(&shelves[--number])) return &shelves[item->shelf = (uint16_t)number];
  while ((next = next_to_feed(class)) != NULL && feed(next))
    if (lock_with_chunk(next)) return &shelves[item->shelf = (uint16_t)next->number];
  for (;; own = &shelves[item->shelf = (uint16_t)first]) {
    shelf_lock(own);
    if (shelf_is_open(own)) return own;
    shelf_unlock(own);
  }
}

/* ----------------------------------------------------------------------------------------------------- closing */

/* Those that are about to be closed: they are empty, and nobody finds them any more. But a thread may still be in a
 * call with its worker: so the maintainer waits until each thread that was serving then has ended that turn. */
static struct {
  struct shelf *shelf[LEAVING_MOST];
  uint32_t count;
  uint64_t turns[THREADS_MOST];
  struct shelf_rest rest; /* of all that were closed */
} leaving;

/* An odd number is that of a turn. */
static bool are_turns_over(void) {
  for (int i = 0; i < settings.threads; i++)
    if (leaving.turns[i] % 2 != 0 && atomic_load(&threads[i].turns) == leaving.turns[i]) return false;
  return true;
}

static void end_leaving(void) {
  for (uint32_t i = 0; i < leaving.count; i++) {
    struct shelf_rest rest = shelf_unmake(leaving.shelf[i]);
    leaving.rest.unsettled += rest.unsettled;
  }
  leaving.count = 0;
}

/* Where no chunk is in use, none of its items is named or held. */
static bool leave_if_empty(struct shelf *shelf) {
  shelf_lock(shelf);
  shelf_reap(shelf);
  uint32_t unused = bump_size(&shelf->book, BUMP_PLACE_UNUSED) + bump_size(&shelf->book, BUMP_PLACE_RETIRED);
  bool is_empty = unused == shelf->chunks;
  if (is_empty) {
    shelf->is_leaving = true;
    atomic_store(&shelf->is_open, false);
  }
  shelf_unlock(shelf);
  return is_empty;
}

static uint64_t used_of_class(uint32_t class) {
  uint64_t used = 0;
  for (uint32_t number = shelf_first(class); number < shelf_behind_open(class); number++)
    used += shelves[number].chunks - unused_of(&shelves[number]);
  return used;
}

/* Where few of a class's chunks are in use its last shelf gets no more items, and once it is empty it is closed. */
static void shrink(uint32_t class) {
  struct of_class *of = &of_class[class];
  if (atomic_load(&of->open) < 2 || pthread_mutex_trylock(&of->changing) != 0) return;
  uint64_t used = used_of_class(class);
  while (atomic_load(&of->fed) > 1 && used < shelves[behind_fed(class) - 1].before / STARVED_PART)
    atomic_fetch_sub(&of->fed, 1);
  while (leaving.count < LEAVING_MOST && atomic_load(&of->open) > atomic_load(&of->fed)) {
    struct shelf *last = &shelves[shelf_behind_open(class) - 1];
    if (!leave_if_empty(last)) break;
    atomic_fetch_sub(&of->open, 1);
    leaving.shelf[leaving.count++] = last;
  }
  pthread_mutex_unlock(&of->changing);
}

void shelves_tend(bool is_another_tick) {
  for (uint32_t class = 1; class <= class_count(); class++) open_ahead(class, is_another_tick);
  if (leaving.count > 0 && are_turns_over()) end_leaving();
  if (!is_another_tick || leaving.count > 0) return;
  for (uint32_t class = 1; class <= class_count(); class++) shrink(class);
  for (int i = 0; i < settings.threads; i++) leaving.turns[i] = atomic_load(&threads[i].turns);
}

struct shelf_rest shelves_rest(void) {
  end_leaving();
  return leaving.rest;
}

void shelves_free(void) {
  for (uint32_t number = 0; number < shelves_count; number++) {
    free(shelves[number].reader);
    free(shelves[number].lane);
  }
  free(shelves);
}
