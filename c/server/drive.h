/* Drives a connection: receives, steps through what was received, sends. */
#ifndef DRIVE_H
#define DRIVE_H

#include "calls.h"
#include "connection.h"

/* What a connection waits for. */
enum driven {
  DRIVE_RECEIVES,
  DRIVE_SENDS,
  DRIVE_ANSWERS, /* for what it answered to be sent */
  DRIVE_YIELDS, /* for nothing: it goes on when others had their turn */
  DRIVE_PARKS,  /* for other values that are under way */
  DRIVE_ENDS
};

enum driven drive(struct connection *connection);

/* The same for several connections at once, in parts: the calls of the system that all need are made between, as one.
 * Whether its turn begins with receiving a request, as most do, and then by which call. Then its turn, with what came:
 * DRIVE_ANSWERS where nothing is left to be done but to send. Then the call for that, and what came of it. */
bool drive_prepare(struct connection *connection, struct call *call);
enum driven drive_received(struct connection *connection, const struct call *call);
enum driven drive_sent(struct connection *connection, const struct call *call);

#endif
