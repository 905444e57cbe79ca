#include "item.h"
#include <pthread.h>
#include <stdalign.h>
#include <stdlib.h>
#include <string.h>
#include "blocks.h"
#include "memory.h"
#include "settings.h"
#include "shelf.h"

/* Of memcached's item: so that each has the class, and the bytes, that are told there. */
static const size_t RECKONED_HEADER = 48, RECKONED_UNIQUE = 8, RECKONED_FLAGS = 4;

static uint32_t size_of[CLASSES_MOST];
static double weight_of[CLASSES_MOST];
static uint32_t classes;

/* Parts of the memory: as long as all values under way take no more than the one, each may grow; and new ones begin as
 * long as they take no more than the other. */
enum { GROWING_PART = 16, BEGINNING_PART = 8 };

/* What those are charged whose values are still to come, the one of them that may grow whatever the others take, NULL
 * for none, and the last number for cas. In a line of the processor's cache of their own, as each store changes it, and
 * each get reads what stands below. */
static struct {
  alignas(64) _Atomic uint64_t bytes;
  _Atomic(struct item *) favoured;
  _Atomic uint64_t unique;
} stored;

/* What flush_all says. The one that is to come doesn't undo the one that came. */
_Atomic bool items_were_flushed;
static pthread_mutex_t flushing = PTHREAD_MUTEX_INITIALIZER; /* of whoever changes these */
static _Atomic uint32_t flushed_until;                       /* 0: never */
static _Atomic uint64_t flushed_unique;
static _Atomic uint32_t flush_to_come; /* 0: none; once it came it counts as the other */

/* Small values take so little that they may grow much older than others. Of larger ones not many are there anyway. */
enum { SMALL_MOST = 4096 };

/* Up to SMALL_MOST the size, and from there on its fifth root. */
static double weight_for(double size) {
  double small = size < SMALL_MOST ? size : SMALL_MOST, root = 1;
  while (root * root * root * root * root < size / small) root *= 1.01;
  return small * root;
}

void classes_make(void) {
  uint32_t size = (uint32_t)RECKONED_HEADER + settings.chunk_least;
  uint32_t class = 1;
  while (class < CLASSES_MOST - 1 && size < settings.chunk_most / settings.growth_factor) {
    size = (size + 7) / 8 * 8;
    size_of[class++] = size;
    size = (uint32_t)(size * settings.growth_factor);
  }
  size_of[class] = settings.chunk_most;
  classes = class;
  for (class = 1; class <= classes; class++) weight_of[class] = weight_for(size_of[class]);
}

uint32_t class_count(void) { return classes; }

uint32_t class_size(uint32_t class) { return size_of[class]; }

double class_weight(uint32_t class) { return weight_of[class]; }

size_t item_reckoned(size_t key_bytes, uint32_t flags, size_t bytes) {
  size_t fixed = RECKONED_HEADER + (settings.has_unique ? RECKONED_UNIQUE : 0) + (flags != 0 ? RECKONED_FLAGS : 0);
  return fixed + key_bytes + 1 + bytes + 2;
}

uint32_t class_for(size_t reckoned) {
  if (reckoned > settings.item_most) return 0;
  uint32_t least = 1;
  for (uint32_t most = classes; least < most;) {
    uint32_t middle = (least + most) / 2;
    if (reckoned <= size_of[middle]) most = middle;
    else least = middle + 1;
  }
  return least;
}

/* Sizes in steps of an eighth: so the place that a row leaves is right for others, and pieces between them are few. */
static size_t row_bytes(size_t bytes) {
  size_t step = 16;
  while (step * 16 < bytes) step *= 2;
  return (bytes + 8 + step - 1) / step * step - 8;
}

struct item *item_begin(const struct key *key, uint32_t flags, uint32_t expires, size_t bytes, size_t room) {
  bool in_row = bytes <= ROW_VALUE_MOST;
  struct item *item = malloc(row_bytes(offsetof(struct item, key) + key->bytes + (in_row ? bytes + 2 : 0)));
  if (item == NULL) return NULL;
  char *value = in_row ? item->key + key->bytes : block_new(room);
  if (value == NULL) return free(item), NULL;
  *item = (struct item){ .value = value,
                         .hash = key->hash,
                         .flags = flags,
                         .bytes = (uint32_t)bytes,
                         .shelf = shelf_number(class_for(item_reckoned(key->bytes, flags, bytes)), key->hash),
                         .key_bytes = (uint8_t)key->bytes };
  atomic_init(&item->expires, expires);
  memcpy(item->key, key->at, key->bytes);
  return item;
}

static void charge(struct item *item, uint32_t bytes) {
  memory_take(MEMORY_items, bytes);
  item->charge += bytes;
}

/* What an item is charged whose value is all there: what it takes. */
static uint32_t whole_charge(struct item *item) {
  return (uint32_t)(memory_of_block(item) + (item_is_apart(item) ? block_takes(item->value) : 0));
}

struct item *item_new(const struct key *key, uint32_t flags, uint32_t expires, size_t bytes) {
  struct item *item = item_begin(key, flags, expires, bytes, bytes + 2);
  if (item == NULL) return NULL;
  memcpy(item->value + bytes, "\r\n", 2);
  charge(item, whole_charge(item));
  return item;
}

void item_free(struct item *item) {
  memory_give(MEMORY_items, item->charge);
  if (item_is_apart(item)) block_free(item->value);
  memory_free(item);
}

static uint64_t part_of_memory(int part) {
  return atomic_load_explicit(&settings.memory, memory_order_relaxed) / (uint64_t)part;
}

/* Charges an item that is under way for so much of its value, where all together are charged so much at most. */
static bool charge_up_to(struct item *item, size_t room, uint64_t most) {
  uint32_t more = (uint32_t)(memory_of_block(item) + (item_is_apart(item) ? room : 0)) - item->charge;
  if (atomic_fetch_add_explicit(&stored.bytes, more, memory_order_relaxed) + more > most) {
    atomic_fetch_sub_explicit(&stored.bytes, more, memory_order_relaxed);
    return false;
  }
  charge(item, more);
  return true;
}

bool item_may_begin(struct item *item, size_t room) {
  return charge_up_to(item, room, part_of_memory(BEGINNING_PART));
}

bool items_have_share(uint64_t bytes) { return items_under_way() + bytes <= part_of_memory(GROWING_PART); }

bool items_may_grow(void) { return items_have_share(1) || atomic_load(&stored.favoured) == NULL; }

/* Without the favoured one, values that have a part of the share each could wait for one another for ever. */
bool item_may_grow(struct item *item, size_t room) {
  if (charge_up_to(item, room, part_of_memory(GROWING_PART))) return true;
  struct item *favoured = NULL;
  bool is_favoured = atomic_compare_exchange_strong(&stored.favoured, &favoured, item) || favoured == item;
  return is_favoured && charge_up_to(item, room, UINT64_MAX);
}

/* It isn't under way any more. */
static void leave_share(struct item *item) {
  atomic_fetch_sub_explicit(&stored.bytes, item->charge, memory_order_relaxed);
  if (atomic_load(&stored.favoured) == item) atomic_store(&stored.favoured, NULL);
}

bool item_grow(struct item *item, size_t room) {
  char *value = block_grow(item->value, room);
  if (value != NULL) item->value = value;
  return value != NULL;
}

void item_complete(struct item *item) {
  leave_share(item);
  charge(item, whole_charge(item) - item->charge);
}

void item_drop(struct item *item) {
  leave_share(item);
  item_free(item);
}

uint64_t items_under_way(void) { return atomic_load_explicit(&stored.bytes, memory_order_relaxed); }

uint64_t unique_next(void) { return settings.has_unique ? atomic_fetch_add(&stored.unique, 1) + 1 : 0; }

bool item_is_flushed_by(const struct item *item, uint32_t now) {
  uint32_t coming = atomic_load_explicit(&flush_to_come, memory_order_relaxed);
  if (coming != 0 && coming <= now && item->born <= coming) return true;
  uint32_t until = atomic_load_explicit(&flushed_until, memory_order_relaxed);
  if (until == 0) return false;
  uint64_t before = atomic_load_explicit(&flushed_unique, memory_order_relaxed);
  uint64_t unique = atomic_load_explicit(&item->unique, memory_order_relaxed);
  return item->born <= until || (before != 0 && unique != 0 && unique < before);
}

/* A tick is a second long: within one, the numbers for cas tell what was stored before. */
void items_flush(uint32_t tick, uint32_t now) {
  uint32_t until = settings.has_unique ? tick - 1 : tick;
  pthread_mutex_lock(&flushing);
  uint32_t coming = atomic_load(&flush_to_come);
  if (coming != 0 && coming <= now) atomic_store(&flushed_until, coming); /* before another takes its place */
  if (until <= now) {
    if (settings.has_unique) atomic_store(&flushed_unique, unique_next());
    atomic_store(&flushed_until, until);
    until = 0;
  }
  atomic_store(&flush_to_come, until);
  atomic_store(&items_were_flushed, true);
  pthread_mutex_unlock(&flushing);
}

uint32_t items_flushed_until(void) {
  uint32_t coming = atomic_load(&flush_to_come);
  return coming != 0 ? coming : atomic_load(&flushed_until);
}
