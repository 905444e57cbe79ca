/* What becomes of items by and by: they move between a shelf's lists, are evicted to make room, and are ended once they
 * expired. How an item moves is bump's to decide, by its marks; when lists are looked at, and how many items they may
 * have, is decided here, by memcached's rules. */
#ifndef AGING_H
#define AGING_H

#include "shelf.h"

/* Makes room for an item of this shelf that is charged already: until what is charged fits into the memory, or so many
 * items were evicted that others should have their turn. What is owed then is little, and is paid by whoever stores
 * next, by those who go on with a large value, and by the maintainer. false: room can't be made. Takes shelves' locks.
 */
bool room_make(struct counters *counters, struct shelf *shelf, uint32_t now);

/* Whether more is charged than fits, and items can be evicted. */
bool room_is_owed(void);

/* Where the process has more than -m, keeps a little room free ahead of those who store, by evicting many items of one
 * shelf at a time. Takes the shelf's lock. The maintainer's. */
void room_spare(struct counters *counters, uint32_t now);

/* Ends one item, so that memory and a chunk come free: the last of COLD that nobody holds. Under the shelf's lock.
 * false: there is none. */
bool shelf_evict(struct shelf *shelf, struct counters *counters, uint32_t now);

/* Looks at the ends of a shelf's lists: a while, or until nothing moves. Answers how many items moved or were ended.
 * Takes the shelf's lock. */
uint32_t shelf_juggle(struct shelf *shelf, struct counters *counters, uint32_t now);

/* Applies the bumps of all rings of a shelf, and answers how many. Takes the shelf's lock. The maintainer's. */
uint32_t shelf_drain(struct shelf *shelf, uint32_t now);

/* Ends expired items among so many chunks from one on, and answers the chunk behind them; BUMP_NONE: there are no
 * more. Takes the shelf's lock. */
uint32_t shelf_crawl(struct shelf *shelf, struct counters *counters, uint32_t from, uint32_t count, uint32_t now);

/* Tells which shelf's items are to go first, by age and size: it gives its memory to the others. The maintainer's, and
 * of whoever finds that this shelf has none any more. */
void shelves_compare(void);

#endif
