/* What each protocol's commands do with a key, beside storing: with what `stats` counts then, and what watchers are
 * told. How it is told to the client is the protocol's. */
#ifndef KEYS_H
#define KEYS_H

#include "cache.h"

/* The key's item, hit and held, for who reads it: cache_release gives it back. Where `expires` isn't NULL, it expires
 * at that time from now on. NULL: the key has none. */
struct item *key_fetch(struct thread *thread, const struct key *key, uint32_t now, const uint32_t *expires);

/* Gives the key's item another time to expire. Whether it has one. */
bool key_touch(struct thread *thread, const struct key *key, uint32_t expires);

/* Ends the key's item. */
enum end_answer key_end(struct thread *thread, const struct key *key, const struct end_terms *terms);

/* The number that a key without an item begins with, where it is to begin with one. */
struct beginning {
  bool begins;
  uint64_t number;
  uint32_t expires;
  bool has_binary_key;
};

/* What became of a number. */
struct reckoned {
  enum delta_answer answer;
  struct delta_done done;
  bool is_new;
};

/* Adds to the number that is the key's value, or begins it. */
struct reckoned key_reckon(struct thread *thread, const struct key *key, const struct delta *delta,
                           const struct beginning *beginning);

#endif
