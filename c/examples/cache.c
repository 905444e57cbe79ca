/* A cache of fixed-size values: four readers, who take no lock of a list, and one thread that stores, ages and drains.
 * The hash table, the values and the mutexes are the program's; lists, references and marks are bump's.
 *
 *   cache [READS]      how often each reader asks: 200,000 times unless it is said */
#define _POSIX_C_SOURCE 200809L
#include "bump.h"
#include <pthread.h>
#include <stdio.h>
#include <stdlib.h>
#include <string.h>

enum { READERS = 4, CLASSES = 2, CHUNKS = 1500 + 1000, KEYS = 6000, BUCKETS = 4096, STRIPES = 64, NONE = -1 };
enum { TRIES = 8 }; /* how often a reader looks again, and how many items are evicted for one that is stored */

/* Keys that are even have small values, odd ones large values: a class for each size. */
static const bump_class_config CLASS[CLASSES] = { { 1500, 300, 600 }, { 1000, 200, 400 } };
static const size_t SIZE[CLASSES] = { 64, 512 };

/* What the program knows of a chunk's item: its key, its generation, and who is next in the key's bucket. */
struct entry {
  uint32_t key, generation;
  int next;
};

static bump_worker worker[READERS];
static bump_lane lane[READERS];
static bump_book book[CLASSES];
static pthread_mutex_t class_lock[CLASSES]; /* one for each book */

static struct entry entry[CHUNKS];
static int bucket[BUCKETS];
static pthread_mutex_t stripe[STRIPES]; /* each guards some buckets, and the entries in them */
static unsigned char *value[CLASSES];   /* by chunk */

static uint64_t reads = 200000;
static int readers_left = READERS;
static pthread_mutex_t left_lock = PTHREAD_MUTEX_INITIALIZER;

struct reader {
  uint64_t hits, misses, wrong;
};
static struct reader reader[READERS];

static uint32_t class_of_key(uint32_t key) { return key % CLASSES; }

static unsigned char *value_of(uint32_t chunk) {
  uint32_t class = chunk < CLASS[0].chunks ? 0 : 1;
  return value[class] + (chunk - (class ? CLASS[0].chunks : 0)) * SIZE[class];
}

/* Each value is the key, again and again: so a reader can see that it is whole. */
static void write_value(uint32_t chunk, uint32_t key) {
  for (size_t i = 0; i < SIZE[class_of_key(key)]; i += sizeof key) memcpy(value_of(chunk) + i, &key, sizeof key);
}

static int is_value(const unsigned char *read, uint32_t key) {
  for (size_t i = 0; i < SIZE[class_of_key(key)]; i += sizeof key)
    if (memcmp(read + i, &key, sizeof key) != 0) return 0;
  return 1;
}

/* A random key: those with small numbers more often. */
static uint32_t some_key(uint64_t *state) {
  *state = *state * 6364136223846793005u + 1442695040888963407u;
  uint32_t a = (uint32_t)(*state >> 33) % KEYS;
  return (uint32_t)((uint64_t)a * a / KEYS);
}

static uint32_t bucket_of(uint32_t key) { return key * 2654435761u % BUCKETS; }
static pthread_mutex_t *lock_of(uint32_t key) { return &stripe[bucket_of(key) % STRIPES]; }

/* Where the key's entry is named, or where the bucket ends. The caller has the key's lock. */
static int *find(uint32_t key) {
  int *at = &bucket[bucket_of(key)];
  while (*at != NONE && entry[*at].key != key) at = &entry[*at].next;
  return at;
}

/* The item that a key has now. Once the lock is let go it may end: then bump_get answers BUMP_GET_STALE (see ask). */
static int look_up(uint32_t key, uint32_t *chunk, uint32_t *generation) {
  pthread_mutex_lock(lock_of(key));
  int found = *find(key);
  if (found != NONE) {
    *chunk = (uint32_t)found;
    *generation = entry[found].generation;
  }
  pthread_mutex_unlock(lock_of(key));
  return found != NONE;
}

/* Takes a key's entry out where it is this chunk's, or any chunk's for NONE. Answers the chunk; or NONE. */
static int forget(uint32_t key, int chunk) {
  pthread_mutex_lock(lock_of(key));
  int *at = find(key), found = *at;
  if (found != NONE && chunk != NONE && found != chunk) found = NONE;
  if (found != NONE) *at = entry[found].next;
  pthread_mutex_unlock(lock_of(key));
  return found;
}

/* Names this item as the key's, in place of the one that it had: answers that one's chunk, or NONE. */
static int name(uint32_t key, uint32_t chunk, uint32_t generation) {
  pthread_mutex_lock(lock_of(key));
  int *at = find(key), old = *at;
  struct entry new = { key, generation, old == NONE ? NONE : entry[old].next };
  entry[chunk] = new;
  *at = (int)chunk;
  pthread_mutex_unlock(lock_of(key));
  return old;
}

/* Asks for a key: whether it was there, with its value. No lock of a list is taken, and nothing waits for one.
 * STALE isn't a miss: the item ended after the table was asked. Mostly the key was stored anew, and the table names
 * the new item: so it asks again. It does so a few times only, since a thread may be storing this key all the time. */
static int ask(struct reader *me, bump_worker *mine, uint32_t key, uint64_t now, unsigned char *copy) {
  for (int tries = 0; tries < TRIES; tries++) {
    uint32_t chunk, generation;
    if (!look_up(key, &chunk, &generation)) return 0;
    enum bump_get_answer got = bump_get(mine, 0, chunk, generation);
    if (got == BUMP_GET_STALE || got == BUMP_GET_BUSY) continue;
    if (got != BUMP_GET_HELD) return 0;
    /* While it is held, the chunk isn't used for another item: so here its value is read. */
    me->wrong += bump_label(mine, 0).label != key;
    memcpy(copy, value_of(chunk), SIZE[class_of_key(key)]);
    bump_touch(mine, 0, now);
    bump_release(mine, 0);
    return 1;
  }
  return 0;
}

static void *read_all(void *p) {
  size_t n = (size_t)p;
  uint64_t state = 17 + n;
  unsigned char copy[512];
  for (uint64_t now = 1; now <= reads; now++) {
    uint32_t key = some_key(&state);
    if (!ask(&reader[n], &worker[n], key, now, copy)) {
      reader[n].misses++;
    } else {
      reader[n].hits++;
      reader[n].wrong += !is_value(copy, key);
    }
  }
  pthread_mutex_lock(&left_lock);
  readers_left--;
  pthread_mutex_unlock(&left_lock);
  return NULL;
}

/* Ends COLD's last item, or WARM's or HOT's where COLD is empty, and takes its key, which is its label, from the table.
 * It looks past a few that a reader holds, or a bump that waits: their chunks would come free later, by a sweep. */
static void evict(bump_book *b) {
  static const uint32_t FROM[] = { BUMP_PLACE_COLD, BUMP_PLACE_WARM, BUMP_PLACE_HOT };
  bump_seen last = { 0 };
  for (int i = 0; i < 3; i++) {
    last = bump_look(b, FROM[i], BUMP_NONE);
    for (int past = 0; past < TRIES && last.refs > 1; past++) last = bump_look(b, FROM[i], last.chunk);
    if (last.answer == BUMP_SEE_SEEN) break;
  }
  if (last.answer != BUMP_SEE_SEEN) return;
  forget((uint32_t)last.label, (int)last.chunk);
  bump_unlink(b, last.chunk, last.generation);
}

/* Ages a class a little, and evicts while no chunk is free. */
static void make_room(bump_book *b) {
  bump_sweep(b);
  for (int tries = 0; tries < TRIES; tries++) {
    bump_pull(b, BUMP_TAIL_HOT, BUMP_LIMIT_OF_CLASS);
    bump_pull(b, BUMP_TAIL_WARM, BUMP_LIMIT_OF_CLASS);
    bump_pull(b, BUMP_TAIL_COLD, BUMP_LIMIT_OF_CLASS);
    if (bump_size(b, BUMP_PLACE_UNUSED) > 0) return;
    evict(b);
  }
}

/* Stores a key in place of the item that it had. Once the class's lock is let go, another thread may evict the new item
 * and use its chunk again: so before that its value is written, and then the table names it. The old item ends last: so
 * the key is never without a value. Where no chunk is free, it answers 0 and forgets the key, whose value is out of
 * date. */
static int store(uint32_t key, uint64_t now) {
  uint32_t class = class_of_key(key);
  bump_book *b = &book[class];
  pthread_mutex_lock(&class_lock[class]);
  make_room(b);
  bump_linked item = bump_link(b, key, now);
  if (item.answer == BUMP_LINK_DONE) write_value(item.chunk, key);
  int old = item.answer == BUMP_LINK_DONE ? name(key, item.chunk, item.generation) : forget(key, NONE);
  if (old != NONE) bump_unlink(b, (uint32_t)old, entry[old].generation);
  pthread_mutex_unlock(&class_lock[class]);
  return item.answer == BUMP_LINK_DONE;
}

/* Applies what waits in a reader's ring, each run of bumps under the lock of its class. */
static void drain(bump_lane *l, uint64_t now) {
  uint32_t class;
  while ((class = bump_lane_class(l)) != BUMP_NONE) {
    pthread_mutex_lock(&class_lock[class]);
    bump_apply_run(&book[class], l, now, 64);
    pthread_mutex_unlock(&class_lock[class]);
  }
}

/* Stores keys, and drains after each sixteenth, until the readers are done. Answers how many found no chunk free. */
static uint64_t keep(void) {
  uint64_t state = 5, refused = 0;
  for (int now = 1, left = READERS; left > 0; now++) {
    refused += !store(some_key(&state), (uint64_t)now);
    for (int r = 0; r < READERS && now % 16 == 0; r++) drain(&lane[r], (uint64_t)now);
    pthread_mutex_lock(&left_lock);
    left = readers_left;
    pthread_mutex_unlock(&left_lock);
  }
  return refused;
}

static int open_all(void) {
  bump_store s = { 0 };
  bump_config config = {
    .store = 1, .workers = READERS, .capacity = 256, .refs_limit = 64, .first_generation = 1, .holds = 1
  };
  enum bump_open_answer fault = bump_open(&s, &config, CLASS, CLASSES);
  if (fault != BUMP_OPEN_DONE) return fprintf(stderr, "no store: answer %d of bump_open\n", (int)fault), 0;
  int all = 1;
  for (uint32_t r = 0; r < READERS; r++) all &= bump_take_worker(&s, r, &worker[r]) && bump_take_lane(&s, r, &lane[r]);
  for (uint32_t c = 0; c < CLASSES; c++) all &= bump_take_book(&s, c, &book[c]);
  bump_close(s);
  for (int c = 0; c < CLASSES; c++) {
    all &= (value[c] = malloc(CLASS[c].chunks * SIZE[c])) != NULL;
    pthread_mutex_init(&class_lock[c], NULL);
  }
  for (int i = 0; i < STRIPES; i++) pthread_mutex_init(&stripe[i], NULL);
  for (int i = 0; i < BUCKETS; i++) bucket[i] = NONE;
  return all;
}

/* Closes a worker, applies what is left in its ring, and tells whether all that was accepted is applied. */
static int settle(int r) {
  bump_worker back = { 0 };
  if (bump_worker_close(&lane[r], worker[r], &back) != BUMP_CLOSE_DONE) return 0;
  drain(&lane[r], reads + 1);
  bump_rested rest = bump_rest(&lane[r]);
  bump_lane_free(lane[r]);
  return rest.answer == BUMP_REST_SETTLED && rest.applied == rest.counts.accepted;
}

int main(int count, char **words) {
  if (count > 1) reads = strtoull(words[1], NULL, 10);
  if (!open_all()) return 1;
  for (uint32_t key = 0; key < KEYS; key++) store(key, 0);
  pthread_t thread[READERS];
  for (size_t r = 0; r < READERS; r++) pthread_create(&thread[r], NULL, read_all, (void *)r);
  uint64_t refused = keep();
  for (int r = 0; r < READERS; r++) pthread_join(thread[r], NULL);
  struct reader sum = { 0, 0, 0 };
  int settled = 1;
  for (int r = 0; r < READERS; r++) {
    sum.hits += reader[r].hits;
    sum.wrong += reader[r].wrong;
    settled &= settle(r);
  }
  uint32_t dying = 0;
  for (int c = 0; c < CLASSES; c++) {
    bump_sweep(&book[c]);
    dying += bump_size(&book[c], BUMP_PLACE_DYING);
    bump_book_free(book[c]);
    free(value[c]);
  }
  printf("%d readers read %llu wrong values\n", READERS, (unsigned long long)sum.wrong);
  printf("each bump that was accepted is applied: %s\n", settled ? "yes" : "no");
  printf("%u chunks wait for a sweep\n", dying);
  fprintf(stderr, "%llu of %d x %llu reads hit, %llu stores found no chunk\n", (unsigned long long)sum.hits, READERS,
          (unsigned long long)reads, (unsigned long long)refused);
  return sum.wrong == 0 && settled && dying == 0 ? 0 : 1;
}
