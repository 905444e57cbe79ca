#define _GNU_SOURCE
#include "table.h"
#include <pthread.h>
#include <stdalign.h>
#include <stdlib.h>
#include <string.h>
#include <sys/random.h>
#include <time.h>
#include "memory.h"
#include "sizes.h"

/* The lower bits of a hash choose the stripe, those above the bucket. */
enum { STRIPE_BITS = 12, STRIPES = 1 << STRIPE_BITS, BUCKETS_FIRST = 4 };

/* One line of a processor's cache: so who takes the lock has the rest of it too. */
struct stripe {
  alignas(64) pthread_mutex_t lock;
  _Atomic(struct item **) bucket; /* this and the mask change under the lock; table_fetch_bucket reads without it */
  _Atomic uint32_t mask;
  uint32_t items;
};

/* A row begins with what is compared, and its key; most values end in the third line of the processor's cache. */
enum { FETCHED_BYTES = 192, LINE_BYTES = 64 };

static struct stripe stripe[STRIPES];

/* So that keys meet in other buckets at each start. It doesn't keep out who means harm: of this hash keys are known
 * that meet whatever the seed is. memcached's is the same, without a seed. */
static uint32_t seed;

static struct stripe *stripe_of(uint32_t hash) { return &stripe[hash & (STRIPES - 1)]; }

bool table_make(void) {
  if (getrandom(&seed, sizeof seed, GRND_NONBLOCK) != sizeof seed) seed = (uint32_t)time(NULL);
  for (uint32_t i = 0; i < STRIPES; i++) {
    pthread_mutex_init(&stripe[i].lock, NULL);
    stripe[i].bucket = calloc(BUCKETS_FIRST, sizeof(struct item *));
    if (stripe[i].bucket == NULL) return false;
    stripe[i].mask = BUCKETS_FIRST - 1;
  }
  memory_take(MEMORY_table, STRIPES * BUCKETS_FIRST * sizeof(struct item *));
  return true;
}

void table_free(void) {
  for (uint32_t i = 0; i < STRIPES; i++) free(stripe[i].bucket);
}

static uint32_t turned(uint32_t word, unsigned by) { return word << by | word >> (32 - by); }

/* MurmurHash3 of 32 bits. */
static uint32_t hash_of(const char *key, size_t bytes) {
  uint32_t hash = seed, word;
  size_t at = 0;
  for (; at + 4 <= bytes; at += 4) {
    memcpy(&word, key + at, 4);
    hash = turned(hash ^ turned(word * 0xcc9e2d51u, 15) * 0x1b873593u, 13) * 5 + 0xe6546b64u;
  }
  for (word = 0; at < bytes; at++) word = word << 8 | (unsigned char)key[at];
  hash ^= turned(word * 0xcc9e2d51u, 15) * 0x1b873593u;
  hash ^= (uint32_t)bytes;
  hash = (hash ^ hash >> 16) * 0x85ebca6bu;
  hash = (hash ^ hash >> 13) * 0xc2b2ae35u;
  return hash ^ hash >> 16;
}

struct key table_key(const char *at, size_t bytes) {
  return (struct key){ at, bytes, hash_of(at, bytes) };
}

void table_lock(uint32_t hash) { pthread_mutex_lock(&stripe_of(hash)->lock); }

void table_unlock(uint32_t hash) { pthread_mutex_unlock(&stripe_of(hash)->lock); }

/* Without the lock it may be none of the stripe's any more, and then only its address may be used. */
static struct item **bucket_of(const struct stripe *from, uint32_t hash) {
  struct item **bucket = atomic_load_explicit(&from->bucket, memory_order_relaxed);
  return bucket + (hash >> STRIPE_BITS & atomic_load_explicit(&from->mask, memory_order_relaxed));
}

void table_fetch_stripe(uint32_t hash) { __builtin_prefetch(stripe_of(hash), 1); }

void table_fetch_bucket(uint32_t hash) { __builtin_prefetch(bucket_of(stripe_of(hash), hash)); }

/* Where another thread has the lock the key is left alone: waiting would cost more than is saved. */
void table_fetch_item(uint32_t hash) {
  struct stripe *of = stripe_of(hash);
  if (pthread_mutex_trylock(&of->lock) != 0) return;
  const char *row = (const char *)*bucket_of(of, hash);
  pthread_mutex_unlock(&of->lock);
  for (int at = 0; row != NULL && at < FETCHED_BYTES; at += LINE_BYTES) __builtin_prefetch(row + at);
}

struct item **table_find(const struct key *key) {
  struct item **at = bucket_of(stripe_of(key->hash), key->hash);
  for (; *at != NULL; at = &(*at)->next) {
    const struct item *item = *at;
    if (item->hash == key->hash && item->key_bytes == key->bytes && memcmp(item->key, key->at, key->bytes) == 0) break;
  }
  return at;
}

/* Twice as many buckets. Where there is no memory for them, the chains stay longer. */
static void grow(struct stripe *of) {
  struct stripe wider = { .mask = of->mask * 2 + 1 };
  wider.bucket = calloc((size_t)wider.mask + 1, sizeof(struct item *));
  if (wider.bucket == NULL) return;
  for (uint32_t i = 0; i <= of->mask; i++) {
    for (struct item *item = of->bucket[i], *next; item != NULL; item = next) {
      struct item **at = bucket_of(&wider, item->hash);
      next = item->next;
      item->next = *at;
      *at = item;
    }
  }
  free(of->bucket);
  memory_take(MEMORY_table, (wider.mask - of->mask) * sizeof(struct item *));
  of->bucket = wider.bucket;
  of->mask = wider.mask;
}

void table_name(struct item *item) {
  struct stripe *of = stripe_of(item->hash);
  if (of->items > of->mask && of->mask < UINT32_MAX >> (STRIPE_BITS + 1)) grow(of);
  struct item **at = bucket_of(of, item->hash);
  item->next = *at;
  *at = item;
  item->named = (uint8_t)(1 + sizes_take_in(item));
  of->items++;
}

void table_take_out(struct item **at) {
  struct item *item = *at;
  *at = item->next;
  sizes_take_out(item, (uint8_t)(item->named - 1));
  item->named = 0;
  stripe_of(item->hash)->items--;
}

bool table_forget(struct item *item) {
  table_lock(item->hash);
  bool named = item->named != 0;
  if (named) {
    struct item **at = bucket_of(stripe_of(item->hash), item->hash);
    while (*at != item) at = &(*at)->next;
    table_take_out(at);
  }
  table_unlock(item->hash);
  return named;
}

struct table_measure table_measure(void) {
  struct table_measure all = { 0, 0 };
  for (uint32_t i = 0; i < STRIPES; i++) {
    pthread_mutex_lock(&stripe[i].lock);
    all.items += stripe[i].items;
    all.buckets += (uint64_t)stripe[i].mask + 1;
    pthread_mutex_unlock(&stripe[i].lock);
  }
  return all;
}
