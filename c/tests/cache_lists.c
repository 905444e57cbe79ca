/* What becomes of a cache's items: which are evicted, which expire and end, and how they are counted. It prints as
 * cache_calls.c does. Status 1, and a line on standard error, where something isn't so. It runs with checks too. */
#include "cache_test.h"

/* So many tends that look at so many of six chunks end so many of four items that have expired. */
static void tends(uint32_t looks, int count, uint64_t ended) {
  static const char *const TEXT[] = { "a", "b", "c", "d" };
  bump_cache_config config = config_of(4, 2, 1);
  config.looks = looks;
  struct all a = open_all(config);
  bool right = true;
  for (int i = 0; i < 4; i++) right &= put(&a.part[0], TEXT[i], "v", 5, 1).answer == BUMP_CACHE_PUT_DONE;
  for (int i = 0; i < count; i++) bump_cache_tend(&a.part[0], 4);
  right &= bump_cache_stats(&a.part[0]).crawler_reclaimed == 0;
  for (int i = 0; i < count; i++) bump_cache_tend(&a.part[0], 5);
  HOLDS_THAT(bump_cache_tend, right && bump_cache_stats(&a.part[0]).crawler_reclaimed == ended);
  printf("bump_cache_tend void\n");
  free_all(&a);
}

/* Looks at an item in all ways that don't hit it. */
static bool only_looks(bump_cache_part *p, const char *key, const char *value, uint64_t now) {
  bool right = has(p, key, value, now), found = false;
  right &= bump_cache_find(p, key, strlen(key), now).answer == BUMP_CACHE_GET_FOUND;
  right &= bump_cache_found_words(p, 0).words[0] == (unsigned char)value[0];
  for (uint32_t i = 0; i < bump_cache_chunks(p); i++) {
    found |= bump_cache_entry(p, i, now).found && bump_cache_entry_key(p, 0).words[0] == (unsigned char)key[0] &&
             bump_cache_entry_value(p, 0).words[0] == (unsigned char)value[0];
  }
  return right && found;
}

/* What is evicted: of three items in COLD the first one; unless it is hit twice there, which a look doesn't do. What is
 * hit so is brought to WARM by the put, if it is COLD's last item, and else by the next tend. */
static void evicts(const char *is_hit, const char *gone, const char *stays) {
  bump_cache_config config = config_of(3, 2, 1);
  config.hot = 0;
  config.warm = 100;
  struct all a = open_all(config);
  bump_cache_part *p = &a.part[0];
  bump_cache_reader *r = &a.reader[0];
  HOLDS_THAT(bump_cache_put, !put(p, "a", "v", 0, 1).evicted && !put(p, "b", "2", 0, 2).evicted);
  HOLDS_THAT(bump_cache_put, !put(p, "c", "v", 0, 3).evicted && !put(p, "b", "v", 0, 3).evicted);
  bump_cache_tend(p, 4);
  for (int i = 0; i < 2; i++) HOLDS_THAT(bump_cache_look, only_looks(p, "a", "v", 4) && only_looks(p, "b", "v", 4));
  for (int i = 0; i < 2 && is_hit; i++) ANSWERS(bump_cache_get, get(r, is_hit, 4), BUMP_CACHE_GET_FOUND);
  HOLDS_THAT(bump_cache_put, put(p, "d", "v", 0, 5).evicted && has(p, "d", "v", 5) && has(p, "b", "v", 5));
  HOLDS_THAT(bump_cache_put, has(p, gone, NULL, 5) && has(p, stays, "v", 5));
  HOLDS_THAT(bump_cache_reader_counts, counted(r, is_hit ? 2 : 0, 0, 0));
  bump_cache_tend(p, 6);
  bump_cache_stats_of s = bump_cache_stats(p);
  HOLDS_THAT(bump_cache_stats, s.evicted == 1 && s.evicted_unfetched == 1 && s.number_warm == (is_hit != NULL));
  HOLDS_THAT(bump_cache_get, gets_text(r, gone, NULL, 5) && gets_text(r, stays, "v", 5));
  free_all(&a);
}

/* Each call that hits an item brings it to WARM: by one call of the library, by more, by words, by a hold. */
static void hits_of_each(int way) {
  bump_cache_config config = config_of(2, 2, 1);
  config.hot = 0;
  config.warm = 100;
  struct all a = open_all(config);
  bump_cache_part *p = &a.part[0];
  bump_cache_reader *r = &a.reader[0];
  bool right = put(p, "a", "v", 0, 1).answer == BUMP_CACHE_PUT_DONE;
  bump_cache_tend(p, 2);
  for (int i = 0; i < 2; i++) {
    if (way == 0) right &= get(r, "a", 3) == BUMP_CACHE_GET_FOUND;
    if (way == 1) right &= gets_text(r, "a", "v", 3);
    if (way == 2) right &= bump_cache_get_words(r, "a", 1, 3).got.answer == BUMP_CACHE_GET_FOUND;
    if (way == 3) right &= bump_cache_hold(r, 1, "a", 1, 3).answer == BUMP_CACHE_GET_FOUND && bump_cache_release(r, 1);
  }
  bump_cache_tend(p, 4);
  bump_cache_stats_of s = bump_cache_stats(p);
  HOLDS_THAT(bump_cache_get, right && s.number_warm == 1 && s.moves_to_warm == 1 && counted(r, 2, 0, 0));
  free_all(&a);
}

/* Bumps that a ring has no room for are counted. */
static void drops(void) {
  bump_cache_config config = config_of(2, 2, 1);
  config.hot = config.warm = 0;
  config.ring = 1;
  struct all a = open_all(config);
  put(&a.part[0], "a", "1", 0, 1);
  put(&a.part[0], "b", "2", 0, 1);
  bump_cache_tend(&a.part[0], 2);
  for (int i = 0; i < 2; i++) HOLDS_THAT(bump_cache_get, get(&a.reader[0], "a", 3) == get(&a.reader[0], "b", 3));
  HOLDS_THAT(bump_cache_reader_counts, counted(&a.reader[0], 4, 0, 1));
  HOLDS_THAT(bump_cache_get, get(&a.reader[0], "c", 3) == BUMP_CACHE_GET_NOTHING);
  HOLDS_THAT(bump_cache_get, get(&a.reader[1], "b", 3) == BUMP_CACHE_GET_FOUND && counted(&a.reader[1], 1, 0, 0));
  HOLDS_THAT(bump_cache_reader_counts, counted(&a.reader[0], 4, 1, 1));
  free_all(&a);
}

/* --------------------------------------------------------------------------------------------------- statistics */

static bool same(bump_cache_part *p, bump_cache_stats_of wanted) {
  bump_cache_stats_of told = bump_cache_stats(p);
  return memcmp(&told, &wanted, sizeof told) == 0;
}

static void hit(bump_cache_reader *r, const char *key, int times) {
  while (times-- > 0) HOLDS_THAT(bump_cache_get, get(r, key, 2) == BUMP_CACHE_GET_FOUND);
}

/* Moves and evictions. HOT is to be empty, WARM may have all. */
static void moves(void) {
  bump_cache_config config = config_of(6, 4, 1);
  config.hot = 0;
  config.warm = 100;
  config.temporary = 10;
  struct all a = open_all(config);
  bump_cache_part *p = &a.part[0];
  bump_cache_reader *r = &a.reader[0];
  put(p, "a", "1", 0, 1), put(p, "b", "2", 0, 1), put(p, "c", "3", 0, 1), put(p, "d", "4", 0, 1);
  HOLDS_THAT(bump_cache_stats, same(p, (bump_cache_stats_of){ .number_hot = 4 }));
  hit(r, "a", 2);
  bump_cache_tend(p, 2);
  HOLDS_THAT(bump_cache_stats, same(p, (bump_cache_stats_of){
    .number_warm = 1, .number_cold = 3, .moves_to_cold = 3, .moves_to_warm = 1 }));
  hit(r, "a", 1), hit(r, "b", 2), hit(r, "c", 1);
  bump_cache_tend(p, 2);
  HOLDS_THAT(bump_cache_stats, same(p, (bump_cache_stats_of){
    .number_warm = 2, .number_cold = 2, .moves_to_cold = 3, .moves_to_warm = 2, .moves_within_lru = 1 }));
  put(p, "e", "5", 12, 2), put(p, "f", "6", 0, 2);
  HOLDS_THAT(bump_cache_put, put(p, "g", "7", 13, 2).evicted && has(p, "c", NULL, 2));
  HOLDS_THAT(bump_cache_stats, same(p, (bump_cache_stats_of){
    .number_hot = 2, .number_warm = 2, .number_cold = 1, .number_temp = 1, .moves_to_cold = 3, .moves_to_warm = 2,
    .moves_within_lru = 1, .evicted = 1, .direct_reclaims = 1 }));
  bump_cache_tend(p, 12);
  HOLDS_THAT(bump_cache_stats, same(p, (bump_cache_stats_of){
    .number_warm = 2, .number_cold = 3, .moves_to_cold = 5, .moves_to_warm = 2, .moves_within_lru = 1, .evicted = 1,
    .direct_reclaims = 1, .expired_unfetched = 1, .crawler_reclaimed = 1 }));
  free_all(&a);
}

/* Ends in TEMP: of what has expired, or hasn't, and was hit or not. */
static void ends_in_temp(void) {
  bump_cache_config config = config_of(4, 4, 1);
  config.temporary = 100;
  struct all a = open_all(config);
  bump_cache_part *p = &a.part[0];
  bump_cache_reader *r = &a.reader[0];
  put(p, "a", "1", 101, 1), put(p, "b", "2", 101, 1), put(p, "c", "3", 101, 1), put(p, "d", "4", 80, 1);
  HOLDS_THAT(bump_cache_stats, same(p, (bump_cache_stats_of){ .number_temp = 4 }));
  hit(r, "a", 1), hit(r, "b", 2), hit(r, "c", 3), hit(r, "d", 1);
  put(p, "e", "5", 90, 2), put(p, "f", "6", 91, 3), put(p, "g", "7", 92, 4);
  HOLDS_THAT(bump_cache_stats, same(p, (bump_cache_stats_of){
    .number_temp = 4, .evicted = 3, .evicted_active = 2, .direct_reclaims = 3 }));
  HOLDS_THAT(bump_cache_put, put(p, "h", "8", 96, 85).evicted); /* d has expired */
  HOLDS_THAT(bump_cache_put, put(p, "i", "9", 97, 90).evicted); /* and e */
  HOLDS_THAT(bump_cache_stats, same(p, (bump_cache_stats_of){
    .number_temp = 4, .evicted = 3, .evicted_active = 2, .direct_reclaims = 3, .reclaimed = 2,
    .expired_unfetched = 1 }));
  bump_cache_tend(p, 97);
  HOLDS_THAT(bump_cache_stats, same(p, (bump_cache_stats_of){
    .evicted = 3, .evicted_active = 2, .direct_reclaims = 3, .reclaimed = 2, .expired_unfetched = 5,
    .crawler_reclaimed = 4 }));
  free_all(&a);
}

int main(void) {
  HEAR_CHECKS();
  tends(0, 9, 0);
  tends(1, 6, 4);
  tends(4, 2, 4);
  tends(UINT32_MAX, 1, 4);
  evicts(NULL, "a", "c");
  evicts("a", "c", "a");
  evicts("b", "a", "c");
  for (int way = 0; way < 4; way++) hits_of_each(way);
  drops();
  moves();
  ends_in_temp();
  return failed;
}
