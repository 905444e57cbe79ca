#define _GNU_SOURCE
#include "prefixes.h"
#include <inttypes.h>
#include <pthread.h>
#include <stdlib.h>
#include <string.h>
#include "memory.h"
#include "table.h"

/* What they take at most: clients choose them, and one that isn't counted harms less than memory that isn't there. */
enum { BUCKETS = 1024, BYTES_MOST = 1 << 20, MEMORY_PART = 64 };

struct prefix {
  struct prefix *next;
  uint64_t of[PREFIX_EVENT_COUNT];
  size_t bytes;
  char text[];
};

_Atomic bool prefixes_are_counted;
static pthread_mutex_t lock = PTHREAD_MUTEX_INITIALIZER; /* of what stands below */
static struct prefix *bucket[BUCKETS];
static uint64_t taken;

/* The bytes before the first delimiter; 0: there is none, or a line can't tell what stands there. */
static size_t prefix_bytes(const struct key *key) {
  size_t bytes = 0;
  for (; bytes < key->bytes && key->at[bytes] != settings.prefix_delimiter; bytes++)
    if ((unsigned char)key->at[bytes] <= ' ') return 0;
  return bytes < key->bytes ? bytes : 0;
}

/* A new one in its bucket; NULL: no memory. */
static struct prefix *begin(struct prefix **at, const char *text, size_t bytes) {
  uint64_t most = atomic_load(&settings.memory) / MEMORY_PART, takes = sizeof(struct prefix) + bytes;
  if (taken + takes > (most < BYTES_MOST ? most : BYTES_MOST)) return NULL;
  struct prefix *prefix = calloc(1, takes);
  if (prefix == NULL) return NULL;
  prefix->bytes = bytes;
  memcpy(prefix->text, text, bytes);
  prefix->next = *at;
  *at = prefix;
  taken += takes;
  memory_take(MEMORY_table, takes);
  return prefix;
}

void prefixes_note(const struct key *key, enum prefix_event event) {
  size_t bytes = prefix_bytes(key);
  if (bytes == 0) return;
  struct prefix **at = &bucket[table_key(key->at, bytes).hash % BUCKETS];
  pthread_mutex_lock(&lock);
  struct prefix *prefix = *at;
  while (prefix != NULL && (prefix->bytes != bytes || memcmp(prefix->text, key->at, bytes) != 0)) prefix = prefix->next;
  if (prefix == NULL) prefix = begin(at, key->at, bytes);
  if (prefix != NULL) prefix->of[event]++;
  pthread_mutex_unlock(&lock);
}

void prefixes_forget(void) {
  pthread_mutex_lock(&lock);
  for (int i = 0; i < BUCKETS; i++) {
    for (struct prefix *prefix = bucket[i], *next; prefix != NULL; prefix = next) {
      next = prefix->next;
      memory_free(prefix);
    }
    bucket[i] = NULL;
  }
  memory_give(MEMORY_table, taken);
  taken = 0;
  pthread_mutex_unlock(&lock);
}

bool prefixes_tell(struct connection *connection) {
  struct walk *walk = &connection->walk;
  pthread_mutex_lock(&lock);
  for (const struct prefix *prefix = bucket[walk->number]; prefix != NULL; prefix = prefix->next) {
    const uint64_t *of = prefix->of;
    connection->work -= WORK_TOLD;
    connection_print(connection,
                     "PREFIX %.*s get %" PRIu64 " hit %" PRIu64 " set %" PRIu64 " del %" PRIu64 "\r\n",
                     (int)prefix->bytes, prefix->text, of[PREFIX_GET], of[PREFIX_HIT], of[PREFIX_SET],
                     of[PREFIX_DELETE]);
  }
  pthread_mutex_unlock(&lock);
  connection->work -= WORK_LOOKED;
  return ++walk->number == BUCKETS;
}
