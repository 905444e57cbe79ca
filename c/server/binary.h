/* memcached's binary protocol: requests and answers with a head of 24 bytes. */
#ifndef BINARY_H
#define BINARY_H

#include "connection.h"

/* The first byte of each request. */
enum { BINARY_REQUEST = 0x80 };

/* Answers the request that what was received begins with; or begins it, where a value comes behind. false: it needs
 * more to be received, or ends the connection. */
bool binary_request(struct connection *connection);

/* Makes answers of the lines that were written behind so many bytes that are to be sent: for what `stats` tells, which
 * is written as lines. */
void binary_retell(struct connection *connection, size_t before);

#endif
