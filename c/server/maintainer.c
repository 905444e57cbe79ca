#define _GNU_SOURCE
#include "maintainer.h"
#include <poll.h>
#include <sys/eventfd.h>
#include <time.h>
#include "aging.h"
#include "clock.h"
#include "memory.h"
#include "thread.h"
#include "watchers.h"

/* It sleeps for a millisecond while there is MUCH to do: bumps, moves of items. While there is less it sleeps longer
 * and longer, up to PAUSE_FEW, and while there is nothing up to PAUSE_MOST: since a round looks at each list's end, and
 * so waits for memory some hundreds of times. A ring has room for four times as many as are MUCH. */
enum { PAUSE_LEAST = 1000000, PAUSE_FEW = 8000000, PAUSE_MOST = 100000000, MUCH = 256 };

/* In a shelf it is a SHARE_PART-th of the items, so that its lists keep their shares; but no less than some. */
enum { SHARE_PART = 8, SOME = 8 };

/* Chunks of a shelf that are looked at in one go, and in one round of a second. */
enum { CRAWLED_WITH_LOCK = 50, CRAWLED_AT_ONCE = 5000 };

/* Where less than a WORTH_PART-th expired, a shelf rests longer and longer, up to so many seconds. */
enum { WORTH_PART = 100, CRAWL_REST_MOST = 60 };

/* How often it makes room in one round, before it looks at the rings again. */
enum { PAYS_AT_ONCE = 20 };

static _Atomic uint64_t juggles;
static _Atomic uint64_t crawls;

struct maintainer_rounds maintainer_rounds(void) {
  return (struct maintainer_rounds){ atomic_load(&juggles), atomic_load(&crawls) };
}

/* Looks at some chunks. Whether a round is over. */
static bool crawl_some(struct shelf *shelf, struct counters *counters, uint32_t now) {
  struct crawled *crawled = &shelf->crawled;
  uint64_t examined = counted(counters, COUNT_crawler_items_checked);
  uint64_t reclaimed = counted(counters, COUNT_crawler_reclaimed);
  if (crawled->begins == 0) {
    crawled->begins = now;
    crawled->examined = crawled->reclaimed = 0;
  }
  uint32_t next = shelf_crawl(shelf, counters, shelf->crawled_to, CRAWLED_WITH_LOCK, now);
  shelf->crawled_to = next == BUMP_NONE ? 0 : next;
  crawled->examined += counted(counters, COUNT_crawler_items_checked) - examined;
  crawled->reclaimed += counted(counters, COUNT_crawler_reclaimed) - reclaimed;
  return next == BUMP_NONE;
}

/* A round is over. To look at 100,000 items a second takes a hundredth of a processor's time, though none expires. */
static void rest_from_crawling(struct crawled *crawled, uint32_t now) {
  bool was_worth_it = crawled->reclaimed > 0 && crawled->reclaimed * WORTH_PART >= crawled->examined;
  uint32_t longer = crawled->rests * 2 + 1;
  crawled->rests = was_worth_it ? 0 : longer < CRAWL_REST_MOST ? longer : CRAWL_REST_MOST;
  crawled->rests_since = now;
}

/* Goes on with looking for expired items, from where it stopped in the second before. */
static void crawl(struct shelf *shelf, struct counters *counters, uint32_t now) {
  struct crawled *crawled = &shelf->crawled;
  if (crawled->begins == 0 && clock_since(crawled->rests_since, now) < crawled->rests) return;
  for (uint32_t looked = 0; looked < CRAWLED_AT_ONCE; looked += CRAWLED_WITH_LOCK) {
    if (!crawl_some(shelf, counters, now)) continue;
    rest_from_crawling(crawled, now);
    watchers_tell_crawl(shelf->class, crawled, now);
    crawled->begins = 0;
    atomic_fetch_add(&crawls, 1);
    return;
  }
}

/* Sleeps, until it is woken or the time is over. */
static void rest(const struct thread *thread, long nanoseconds) {
  const struct timespec time = { 0, nanoseconds };
  struct pollfd wait = { .fd = thread->wake, .events = POLLIN };
  eventfd_t times;
  if (ppoll(&wait, 1, &time, NULL) > 0) eventfd_read(thread->wake, &times);
}

static bool is_much(const struct shelf *shelf, uint32_t did) {
  uint64_t items = atomic_load_explicit(&shelf->charged, memory_order_relaxed) / class_size(shelf->class);
  return did >= SOME && (uint64_t)did * SHARE_PART >= items;
}

/* What comes again and again of a shelf. How much there was to do. */
static uint32_t attend_shelf(struct thread *thread, struct shelf *shelf, uint32_t now, bool crawls_now) {
  uint32_t did = shelf_drain(shelf, now);
  if (settings.maintains) did += shelf_juggle(shelf, &thread->counters, now);
  if (crawls_now) crawl(shelf, &thread->counters, now);
  return is_much(shelf, did) ? MUCH : did;
}

/* One round. How much there was to do. */
static uint32_t attend(struct thread *thread, uint32_t now, bool is_another_tick) {
  const bool crawls_now = is_another_tick && atomic_load(&settings.crawls);
  uint32_t did = memory_look() ? MUCH : 0;
  shelves_tend(is_another_tick);
  room_spare(&thread->counters, now);
  for (int times = 0; times < PAYS_AT_ONCE && room_is_owed(); times++) {
    if (!room_make(&thread->counters, shelf_at(0), now)) break;
    did += MUCH;
  }
  for (uint32_t class = 1; class <= class_count(); class++)
    for (uint32_t number = shelf_first(class); number < shelf_behind_open(class); number++)
      did += attend_shelf(thread, shelf_at(number), now, crawls_now);
  shelves_compare();
  return did;
}

void *maintainer_run(void *given) {
  struct thread *thread = given;
  long pause = PAUSE_LEAST;
  uint32_t looked = 0;
  while (!atomic_load(&is_ending)) {
    rest(thread, pause);
    uint32_t now = clock_now();
    uint32_t did = attend(thread, now, now != looked);
    looked = now;
    atomic_fetch_add(&juggles, 1);
    if (did >= MUCH) pause = PAUSE_LEAST;
    else if (did > 0 && pause > PAUSE_FEW) pause = PAUSE_FEW;
    else if (pause < (did > 0 ? PAUSE_FEW : PAUSE_MOST)) pause += pause / 8;
  }
  return NULL;
}
