/* Values that come to be stored, by whichever protocol: with memory for what came of them, and at the end what became
 * of them, which the protocol's speaker tells. */
#ifndef VALUES_H
#define VALUES_H

#include "connection.h"

/* Prepares for a value of so many bytes, which come next. What it is stored on, who tells of it, and whether it
 * outdates what the key has, stands in connection->storing. Where there is no room for it, it is to be skipped. */
void value_begin(struct connection *connection, const struct key *key, uint32_t flags, uint32_t expires, size_t bytes);

/* Makes room for more of the value than came, or for a part of that: then it is called again in the next turn; or it
 * waits for other values, and is called again when these may have ended. Where there is no room, the rest of it is to
 * be skipped. */
void value_grow(struct connection *connection);

/* The value that was to come is there, with what stands behind it. */
void value_end(struct connection *connection);

/* Whether values wait, or did in the second before; and whether it is for such as this one, of which nothing came for
 * some time, and which has more than each has. */
bool values_wait(uint32_t now);
bool value_is_stalled(const struct connection *connection, uint32_t now);

/* The value that is under way is refused, and what is still to come of it is skipped. */
void value_give_up(struct connection *connection);

/* So many bytes that come next are for nobody. */
void value_skip(struct connection *connection, uint64_t bytes);

#endif
