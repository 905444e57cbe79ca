/* What memory the process takes, by what it is for, and how much of it counts against -m. */
#ifndef MEMORY_H
#define MEMORY_H

#include <stdbool.h>
#include <stddef.h>
#include <stdint.h>

/* What is counted when it is taken, by the names that `stats bump` tells it by, behind bytes_of_. */
#define MEMORY_KINDS(X) X(items) X(shelves) X(table) X(connections)

#define MEMORY_KIND_AS_NAME(name) MEMORY_##name,
enum memory_kind { MEMORY_KINDS(MEMORY_KIND_AS_NAME) MEMORY_KIND_COUNT };

/* What has so many bytes is a mapping of its own. */
enum { MEMORY_MAPPED_LEAST = 1 << 17 };

/* Says how the C library is to take and give back memory. Before any other thread is there. */
void memory_begin(void);

/* How many mappings the system lets the process have, as it was at the start. */
uint64_t memory_mappings(void);

/* Gives whole pages back to the system. Their addresses stay, and have pages again when they are written to. */
void memory_give_pages(void *at, size_t bytes);

/* free, for what many come free of at a time: malloc puts what came free in order when it is called next, and takes
 * 3 milliseconds for 10,000 pieces. So this has it do that for a few at a time. */
void memory_free(void *block);

void memory_take(enum memory_kind kind, uint64_t bytes);
void memory_give(enum memory_kind kind, uint64_t bytes);
uint64_t memory_of(enum memory_kind kind);

/* What a block of malloc's takes, with what malloc keeps before it. */
size_t memory_of_block(void *block);

/* What the process has in memory, with all that isn't counted, and what lies free between pieces: as it was looked at
 * last, by the maintainer. Whether it is to look again soon, since free pages are being given back. */
bool memory_look(void);
uint64_t memory_resident(void);

/* Whether it has so much beyond -m that this counts. */
bool memory_is_exceeded(void);

/* All that counts against -m: items; what else is taken, up to half of -m, and of that what connections take up to a
 * quarter; and what the process has beyond -m, up to a quarter, or half where nothing else helps. All but items counts
 * up to three quarters: so there is always room for items. */
uint64_t memory_used(void);

/* Whether connections may take so much more for what they could do without: all together have a part of -m for that. */
bool memory_may_take(uint64_t bytes);

#endif
