#include "aging.h"
#include "clock.h"
#include "memory.h"
#include "network.h"
#include "table.h"
#include "watchers.h"

/* memcached's numbers: of pulls while a lock is kept, and of tries to find an item that may be ended. And how many
 * items are evicted in one turn, unless more than an OWED_MOST-th of the memory would be owed then. */
enum {
  PULLS_MOST = 500,
  PULLS_WITH_LOCK = 10,
  TRIES = 5,
  EVICTIONS_MOST = 100000,
  EVICTED_WITH_LOCK = 10,
  EVICTED_AT_ONCE = 40,
  OWED_MOST = 16,
  SPARED_PART = 200, /* of the memory */
  SPARED_AT_ONCE = 2000,
  FEW = 8, /* items of a class, if they take less than a FEW_PART-th of the memory */
  FEW_PART = 16
};

/* A pull names a list by the number that the list has. */
_Static_assert((int)BUMP_TAIL_HOT == (int)BUMP_PLACE_HOT && (int)BUMP_TAIL_WARM == (int)BUMP_PLACE_WARM &&
                   (int)BUMP_TAIL_COLD == (int)BUMP_PLACE_COLD,
               "lists and pulls have the same numbers");

/* The shelf whose next item to be evicted has the greatest weight. */
static _Atomic(struct shelf *) heaviest;

static struct item *item_of(const bump_seen *seen) { return (struct item *)(uintptr_t)seen->label; }

/* Ends an item that was met at a list's end, or by the crawler, where it expired or was flushed. It is linked. */
static bool reclaim(struct shelf *shelf, struct counters *counters, struct item *item, uint32_t now) {
  if (!item_is_expired(item, now) && !item_is_flushed(item, now)) return false;
  if (!table_forget(item)) return false; /* who took it out of the table is about to end it */
  if (!bump_see(&shelf->book, item->chunk).fetched) {
    shelf->counts.expired_unfetched++;
    count(counters, COUNT_expired_unfetched, 1);
  }
  shelf->counts.reclaimed++;
  count(counters, COUNT_reclaimed, 1);
  shelf_end(shelf, item_name(item));
  return true;
}

/* One pull at the end of a list. Whether something changed. */
static bool pull(struct shelf *shelf, struct counters *counters, uint32_t tail, uint32_t limit, uint32_t now) {
  bump_pulled pulled = bump_pull(&shelf->book, tail, limit);
  switch (pulled.answer) {
    case BUMP_PULL_WARM: shelf->counts.moves_to_warm++; break;
    case BUMP_PULL_AGAIN: shelf->counts.moves_within_lru++; break;
    case BUMP_PULL_COLD: shelf->counts.moves_to_cold++; break;
    case BUMP_PULL_STAY: break;
    default: return false;
  }
  struct item *item = (struct item *)(uintptr_t)pulled.label;
  return reclaim(shelf, counters, item, now) || pulled.answer != BUMP_PULL_STAY;
}

/* What a list may have: so many items, and its last one may be so old. */
struct measure {
  uint64_t items;
  double age;
};

/* Begins to bring the row of the item before into the processor's cache, which is looked at when the list is looked at
 * next: most of what a move takes is waiting for rows. */
static void fetch_before(struct shelf *shelf, uint32_t tail, const bump_seen *last) {
  bump_seen before = bump_look(&shelf->book, tail, last->chunk);
  if (before.answer == BUMP_SEE_SEEN) __builtin_prefetch(item_of(&before));
}

/* A look at the end of a list, and a pull where that would move or end its last item. Whether something changed. */
static bool shorten(struct shelf *shelf, struct counters *counters, uint32_t tail, struct measure most, uint32_t now) {
  bump_seen last = bump_look(&shelf->book, tail, BUMP_NONE);
  if (last.answer != BUMP_SEE_SEEN) return false;
  bool is_past = bump_size(&shelf->book, tail) > most.items || (double)clock_since((uint32_t)last.time, now) > most.age;
  if (is_past || last.active) fetch_before(shelf, tail, &last);
  if (reclaim(shelf, counters, item_of(&last), now)) return true;
  return (is_past || last.active) && pull(shelf, counters, tail, 0, now);
}

/* Ends expired items at the end of TEMP, where no pull looks. */
static bool shorten_temp(struct shelf *shelf, struct counters *counters, uint32_t now) {
  bump_seen last = bump_look(&shelf->book, BUMP_PLACE_TEMP, BUMP_NONE);
  return last.answer == BUMP_SEE_SEEN && reclaim(shelf, counters, item_of(&last), now);
}

/* What HOT and WARM may have now: a share of the class, and a part of COLD's age. */
static struct measure measure(struct shelf *shelf, int percent, double factor, uint32_t now) {
  bump_seen last = bump_look(&shelf->book, BUMP_PLACE_COLD, BUMP_NONE);
  double age = last.answer == BUMP_SEE_SEEN ? (double)clock_since((uint32_t)last.time, now) : 0;
  uint64_t all = (uint64_t)bump_size(&shelf->book, BUMP_PLACE_HOT) + bump_size(&shelf->book, BUMP_PLACE_WARM) +
                 bump_size(&shelf->book, BUMP_PLACE_COLD);
  return (struct measure){ all * (uint64_t)percent / 100, age * factor };
}

/* Some looks at the end of each list; answers how many rounds changed something. Under the shelf's lock. */
static uint32_t juggle(struct shelf *shelf, struct counters *counters, uint32_t now) {
  static const struct measure ANY = { UINT64_MAX, 1e18 }; /* only what is ACTIVE leaves COLD */
  static const struct measure NOTHING = { 0, 0 };
  const bool is_flat = atomic_load(&settings.is_flat);
  const struct measure hot = measure(shelf, atomic_load(&settings.hot_percent), atomic_load(&settings.hot_factor), now);
  const struct measure warm =
      measure(shelf, atomic_load(&settings.warm_percent), atomic_load(&settings.warm_factor), now);
  /* A list whose last item stays isn't looked at again: what moves comes to the fronts of lists. */
  bool temp_moves = true, hot_moves = true, warm_moves = true, cold_moves = !is_flat;
  for (uint32_t moves = 0; moves < PULLS_WITH_LOCK; moves++) {
    temp_moves = temp_moves && shorten_temp(shelf, counters, now);
    hot_moves = hot_moves && shorten(shelf, counters, BUMP_TAIL_HOT, is_flat ? NOTHING : hot, now);
    warm_moves = warm_moves && shorten(shelf, counters, BUMP_TAIL_WARM, is_flat ? NOTHING : warm, now);
    cold_moves = cold_moves && shorten(shelf, counters, BUMP_TAIL_COLD, ANY, now);
    if (!temp_moves && !hot_moves && !warm_moves && !cold_moves) return moves;
  }
  return PULLS_WITH_LOCK;
}

/* Fills an empty COLD, from HOT or else from WARM. Items there that are ACTIVE move within WARM. */
static void fill_cold(struct shelf *shelf, struct counters *counters, uint32_t now) {
  for (int tries = 0; tries < TRIES && bump_size(&shelf->book, BUMP_PLACE_COLD) == 0; tries++)
    if (!pull(shelf, counters, BUMP_TAIL_HOT, 0, now)) pull(shelf, counters, BUMP_TAIL_WARM, 0, now);
}

/* The last item of a list that nobody holds; or, where the last few are held, the last one. */
static bump_seen last_unheld(struct shelf *shelf, uint32_t place) {
  bump_seen last = bump_look(&shelf->book, place, BUMP_NONE), seen = last;
  for (int tries = 0; tries < TRIES && seen.answer == BUMP_SEE_SEEN; tries++) {
    if (seen.refs <= 1) return seen;
    shelf->counts.lrutail_reflocked++;
    seen = bump_look(&shelf->book, place, seen.chunk);
  }
  return last;
}

/* The item to be evicted: COLD's, or where it is empty all the same, that of another list. */
static bump_seen to_be_evicted(struct shelf *shelf) {
  static const uint32_t PLACES[] = { BUMP_PLACE_COLD, BUMP_PLACE_WARM, BUMP_PLACE_HOT, BUMP_PLACE_TEMP };
  bump_seen seen = { 0 };
  for (int i = 0; i < 4; i++) {
    seen = last_unheld(shelf, PLACES[i]);
    if (seen.answer == BUMP_SEE_SEEN) break;
  }
  return seen;
}

bool shelf_evict(struct shelf *shelf, struct counters *counters, uint32_t now) {
  uint64_t reclaimed = shelf->counts.reclaimed;
  if (!settings.maintains) juggle(shelf, counters, now); /* else what comes to WARM never leaves it */
  for (int tries = 0; tries < TRIES && pull(shelf, counters, BUMP_TAIL_COLD, 0, now);) tries++;
  fill_cold(shelf, counters, now);
  if (shelf->counts.reclaimed != reclaimed) return true;
  bump_seen seen = to_be_evicted(shelf);
  if (seen.answer != BUMP_SEE_SEEN) return false;
  struct item *item = item_of(&seen);
  shelf->counts.evicted++;
  shelf->counts.direct_reclaims++;
  shelf->counts.evicted_time = clock_since((uint32_t)seen.time, now);
  shelf->counts.evicted_nonzero += atomic_load(&item->expires) != 0;
  shelf->counts.evicted_unfetched += !seen.fetched;
  shelf->counts.evicted_active += seen.active;
  count(counters, COUNT_evictions, 1);
  count(counters, COUNT_evicted_unfetched, !seen.fetched);
  count(counters, COUNT_evicted_active, seen.active);
  if (seen.refs > 1) count(counters, COUNT_lrutail_reflocked, 1);
  watchers_tell_eviction(item, seen.fetched, clock_since((uint32_t)seen.time, now), now);
  table_forget(item);
  shelf_end(shelf, item_name(item));
  return true;
}

static uint64_t part_of_memory(uint64_t part) {
  return atomic_load_explicit(&settings.memory, memory_order_relaxed) / part;
}

/* Whether less of the memory is free than that. */
static bool lacks(uint64_t bytes) {
  return memory_used() + settings.bytes_before + bytes > part_of_memory(1);
}

/* Whether more is taken than the memory, and that part of it where it isn't 0. */
static bool is_over(uint64_t part) {
  return memory_used() + settings.bytes_before > part_of_memory(1) + (part != 0 ? part_of_memory(part) : 0);
}

bool room_is_owed(void) { return settings.evicts && is_over(0); }

static void note_age(struct shelf *shelf, uint32_t now) {
  bump_seen last = bump_look(&shelf->book, BUMP_PLACE_COLD, BUMP_NONE);
  if (last.answer != BUMP_SEE_SEEN) last = bump_look(&shelf->book, BUMP_PLACE_HOT, BUMP_NONE);
  atomic_store(&shelf->age, last.answer == BUMP_SEE_SEEN ? clock_since((uint32_t)last.time, now) : 0);
}

/* Gives back what ended items still had, and where that isn't enough evicts some. Whether something came of it: also
 * where nothing was to be evicted then, though others may have taken since what came free. */
static bool relieve(struct shelf *shelf, struct counters *counters, uint32_t now) {
  if (!shelf_is_open(shelf)) return false;
  int evicted = 0;
  bool has_more = settings.evicts;
  shelf_lock(shelf);
  shelf_reap(shelf);
  while (has_more && room_is_owed() && evicted < EVICTED_WITH_LOCK) {
    has_more = shelf_evict(shelf, counters, now);
    if (has_more) evicted++;
  }
  if (!has_more) note_age(shelf, now);
  shelf_unlock(shelf);
  return has_more || evicted > 0 || !is_over(0);
}

/* What speaks for evicting a shelf's next item: its age, and its size, of a large one by a root. By ages alone a large
 * value takes the room of thousands of small ones that are asked for as often; by bytes alone small ones that nobody
 * asks for any more would keep the room for days. */
static double weight(struct shelf *shelf) {
  return ((double)atomic_load(&shelf->age) + 1) * class_weight(shelf->class);
}

/* The shelf that gives: this one, unless another one's next item has a much greater weight. */
static struct shelf *giver(struct shelf *shelf) {
  struct shelf *other = atomic_load(&heaviest);
  if (other == NULL || other == shelf) return shelf;
  return weight(shelf) < weight(other) * atomic_load(&settings.balance) ? other : shelf;
}

static struct shelf *largest(void) {
  struct shelf *found = shelf_at(0);
  for (uint32_t class = 1; class <= class_count(); class++)
    for (uint32_t number = shelf_first(class); number < shelf_behind_open(class); number++)
      if (atomic_load(&shelf_at(number)->charged) > atomic_load(&found->charged)) found = shelf_at(number);
  return found;
}

/* Where the shelf that is to give has nothing more, it is looked for another one at once: until the maintainer looks,
 * those items would go that came last. */
static bool relieve_by_weight(struct shelf *shelf, struct counters *counters, uint32_t now) {
  if (relieve(giver(shelf), counters, now)) return true;
  shelves_compare();
  return relieve(giver(shelf), counters, now);
}

bool room_make(struct counters *counters, struct shelf *shelf, uint32_t now) {
  for (int evicted = 0; is_over(0); evicted += EVICTED_WITH_LOCK) {
    if (evicted >= EVICTED_AT_ONCE && settings.evicts && !is_over(OWED_MOST)) return network_wake(MAINTAINER), true;
    if (evicted >= EVICTIONS_MOST) return false;
    if (!relieve_by_weight(shelf, counters, now) && !relieve(shelf, counters, now) &&
        !relieve(largest(), counters, now))
      return !is_over(0);
  }
  return true;
}

/* Evicts some of a shelf's items, until so much is free. false: there are no more. */
static bool evict_for(struct shelf *shelf, struct counters *counters, uint64_t bytes, uint32_t now) {
  bool has_more = true;
  shelf_lock(shelf);
  shelf_reap(shelf);
  for (int i = 0; i < EVICTED_WITH_LOCK && has_more && lacks(bytes); i++) has_more = shelf_evict(shelf, counters, now);
  shelf_unlock(shelf);
  shelf_make_way(shelf);
  return has_more;
}

/* Whoever evicts just what he needs leaves a hole that the next small items fill: so no page comes free for other sizes
 * or for chunks. What goes together often lies together. */
void room_spare(struct counters *counters, uint32_t now) {
  struct shelf *shelf = atomic_load(&heaviest);
  uint64_t spared = part_of_memory(SPARED_PART);
  if (!settings.evicts || !memory_is_exceeded() || !lacks(spared) || shelf == NULL || !shelf_is_open(shelf)) return;
  for (int evicted = 0; evicted < SPARED_AT_ONCE && lacks(2 * spared); evicted += EVICTED_WITH_LOCK)
    if (!evict_for(shelf, counters, 2 * spared, now)) return;
}

uint32_t shelf_juggle(struct shelf *shelf, struct counters *counters, uint32_t now) {
  uint32_t moves = 0, more = PULLS_WITH_LOCK;
  while (more == PULLS_WITH_LOCK && moves < PULLS_MOST) {
    shelf_lock(shelf);
    more = juggle(shelf, counters, now);
    moves += more;
    shelf_reap(shelf);
    note_age(shelf, now);
    shelf_unlock(shelf);
    shelf_make_way(shelf);
  }
  return moves;
}

/* Then it gives nothing to others: so what was stored last isn't evicted for being large. But where few are left of
 * many, these go, too: with the last one of a shelf its chunks go back. */
static bool has_few(uint32_t class) {
  uint64_t charged = shelf_class_charged(class);
  bool is_rest = shelf_behind_open(class) > shelf_first(class) + 1;
  return !is_rest && charged < (uint64_t)class_size(class) * FEW && charged < part_of_memory(FEW_PART);
}

void shelves_compare(void) {
  struct shelf *found = NULL;
  for (uint32_t class = 1; class <= class_count(); class++) {
    if (shelf_behind_open(class) == shelf_first(class) || has_few(class)) continue;
    for (uint32_t number = shelf_first(class); number < shelf_behind_open(class); number++) {
      struct shelf *shelf = shelf_at(number);
      bool has_items = atomic_load_explicit(&shelf->charged, memory_order_relaxed) > 0;
      if (has_items && (found == NULL || weight(shelf) > weight(found))) found = shelf;
    }
  }
  atomic_store(&heaviest, found);
}

/* Applies some bumps of a ring. Where all items are in one list, nobody sees that they were in WARM. */
static bump_ran_told apply_some(struct shelf *shelf, struct shelf_lane *lane, uint32_t now) {
  const bool is_flat = atomic_load(&settings.is_flat);
  uint64_t moves = is_flat ? shelf_moves(shelf) : 0;
  bump_ran_told ran = bump_apply_run_told(&shelf->book, &lane->lane, now, BUMP_MOST_CHUNKS);
  shelf_give_back(shelf, ran.chunks, ran.freed);
  if (!is_flat) return ran;
  shelf_flatten(shelf);
  shelf->forgotten_moves += shelf_moves(shelf) - moves;
  return ran;
}

static void tell_applied(struct shelf_lane *lane) {
  atomic_store_explicit(&lane->applied, lane->before + bump_rest(&lane->lane).applied, memory_order_relaxed);
}

uint32_t shelf_drain(struct shelf *shelf, uint32_t now) {
  uint32_t applied = 0;
  for (uint32_t thread = 0; thread < (uint32_t)settings.threads; thread++) {
    struct shelf_lane *lane = &shelf->lane[thread];
    uint32_t before = applied;
    while (bump_lane_class(&lane->lane) != BUMP_NONE) {
      shelf_lock(shelf);
      bump_ran_told ran = apply_some(shelf, lane, now);
      shelf_unlock(shelf);
      shelf_make_way(shelf);
      applied += ran.applied;
      if (ran.applied == 0) break;
    }
    if (applied != before) tell_applied(lane);
  }
  return applied;
}

uint32_t shelf_crawl(struct shelf *shelf, struct counters *counters, uint32_t from, uint32_t most, uint32_t now) {
  shelf_lock(shelf);
  uint32_t chunk = from;
  for (; chunk < shelf->used && chunk - from < most; chunk++) {
    shelf->counts.crawler_items_checked++;
    count(counters, COUNT_crawler_items_checked, 1);
    bump_seen seen = bump_see(&shelf->book, chunk);
    if (!seen.linked || !reclaim(shelf, counters, item_of(&seen), now)) continue;
    shelf->counts.crawler_reclaimed++;
    count(counters, COUNT_crawler_reclaimed, 1);
  }
  bool more = chunk < shelf->used;
  shelf_unlock(shelf);
  shelf_make_way(shelf);
  return more ? chunk : BUMP_NONE;
}
