/* The commands. Each is given a connection and its line, cut into words. */
#ifndef PROTOCOL_H
#define PROTOCOL_H

#include "connection.h"
#include "words.h"

#define WRONG_FORMAT "CLIENT_ERROR bad command line format"
#define TOO_LARGE "SERVER_ERROR object too large for cache"
#define OUT_OF_MEMORY "SERVER_ERROR out of memory storing object"
#define NO_MEMORY_TO_SEND "SERVER_ERROR out of memory writing get response"

/* A line, up to its end, where a 0 stands. What comes behind it in the buffer may be read as its value. */
void text_line(struct connection *connection, char *line, const char *end);

/* Go on with a get's keys: looking whether they are keys, and answering them, as many as one turn has work for. */
void text_check_keys(struct connection *connection);
void text_answer_keys(struct connection *connection);

/* How text and meta tell that a value isn't stored: by enum refusal. */
extern const char *const TEXT_REFUSALS[];

/* Whether the last word wants no reply, which is noted. */
bool text_wants_no_reply(struct connection *connection, const struct words *words);

/* The meta commands. */
void meta_get(struct connection *connection, struct words *words);
void meta_set(struct connection *connection, struct words *words);
void meta_delete(struct connection *connection, struct words *words);
void meta_arithmetic(struct connection *connection, struct words *words);
void meta_debug(struct connection *connection, struct words *words);
void meta_no_operation(struct connection *connection, struct words *words);

/* What isn't about one key. The first one flushes all items, at a time as clients give it. */
void administer_flush_at(int64_t given);
void administer_flush(struct connection *connection, struct words *words);
void administer_version(struct connection *connection, struct words *words);
void administer_verbosity(struct connection *connection, struct words *words);
void administer_memory(struct connection *connection, struct words *words);
void administer_lists(struct connection *connection, struct words *words);
void administer_crawler(struct connection *connection, struct words *words);
void administer_slabs(struct connection *connection, struct words *words);
void administer_watch(struct connection *connection, struct words *words);
void administer_shutdown(struct connection *connection, struct words *words);
void administer_time(struct connection *connection, struct words *words);
void administer_quit(struct connection *connection, struct words *words);

/* Walks over the items of some classes, of each of which a bit is set: one that ends what expired, and two that tell
 * what is there. The last one tells at most so many items, and of one class alone. */
void walk_crawling(struct connection *connection, uint64_t classes);
void walk_dumping(struct connection *connection, uint64_t classes);
void walk_listing(struct connection *connection, uint32_t class, uint32_t most);

/* `stats`, and what it tells of one thing. */
void statistics(struct connection *connection, struct words *words);

#endif
