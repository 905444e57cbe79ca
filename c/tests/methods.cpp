// Methods, fields and variables of C++ that are named as calls of bump.h; and the build with checks, which has to tell
// where a call stands. With -DBUMP_DEBUG it is linked with bump_debug.c. C++98 to C++20.
#include "bump.h"
#include <cstdio>
#include <cstring>

namespace {

struct cache {
  bump_book book;
  uint32_t bump_size;
  cache() : book(), bump_size(0) {}
  uint32_t bump_sweep() { return ::bump_sweep(&book); }
  uint32_t bump_size_of(uint32_t place) { return bump_size = ::bump_size(&book, place); }
  bool bump_take_book(bump_store *store, uint32_t number) { return ::bump_take_book(store, number, &book); }
  static int bump_get(int a, int b) { return a + b; }
};

template <class Book> bump_linked link_in(Book *book, uint64_t label) { return bump_link(book, label, 1); }

bump_store open_store() {
  bump_store store = {};
  bump_config config = { 1, 1, 4, 8, 1, 1, 0 };
  bump_class_config classes[1] = { { 4, 1, 1 } };
  if (bump_open(&store, &config, classes, 1) != BUMP_OPEN_DONE) std::printf("no store\n");
  return store;
}

#ifdef BUMP_DEBUG
char said[512];
extern "C" void note(const char *what) { std::strncpy(said, what, sizeof said - 1); }

// Whether the build with checks told of a call at this line of this file.
bool told(int line, const char *what) {
  char place[64];
  std::sprintf(place, "methods.cpp:%d: ", line);
  bool found = std::strstr(said, place) && std::strstr(said, what);
  std::printf("%s: %s\n", found ? "found" : "NOT FOUND", said);
  said[0] = '\0';
  return found;
}
#endif

} // namespace

int main() {
  bump_store store = open_store();
  cache a;
  bool right = a.bump_take_book(&store, 0) && cache::bump_get(1, 2) == 3 && bump_version() == BUMP_VERSION;
  right = right && link_in(&a.book, 7).answer == BUMP_LINK_DONE && a.bump_size_of(BUMP_PLACE_HOT) == 1;
  right = right && a.bump_size == 1 && a.bump_sweep() == 0 && a.bump_size_of(BUMP_PLACE_UNUSED) == 3;
  bump_worker worker = {};
  right = right && bump_take_worker(&store, 0, &worker) && bump_hit(&worker, 0, 1, 2).label == 7;
#ifdef BUMP_DEBUG
  bump_debug_broken = note;
  bump_book filled = a.book;
  bool bump_walk = false; // a variable
  int line = __LINE__ + 1;
  bump_walk = ::bump_take_book(&store, 0, &filled);
  right = told(line, "what the call fills isn't {0}") && !bump_walk && right;
  bump_lane lane = {};
  right = bump_take_lane(&store, 0, &lane) && right;
  bump_lane made_up = lane;
  made_up.check++;
  line = __LINE__ + 1;
  bump_lane_class(&made_up);
  right = told(line, "it is no handle that bump gave") && right;
  bump_lane_free(lane);
  right = said[0] == '\0' && right;
#endif
  bump_worker_free(worker);
  bump_book_free(a.book);
  bump_close(store);
  std::printf("methods and fields keep their names: %s\n", right ? "yes" : "NO");
  return right ? 0 : 1;
}
