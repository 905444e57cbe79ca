/* Sockets: who listens, who is accepted, and the threads that serve. */
#ifndef NETWORK_H
#define NETWORK_H

#include <signal.h>
#include <stdbool.h>
#include <stdint.h>
#include "thread.h"

struct network_measure {
  uint64_t current;
  uint64_t ever;
  uint64_t rejected;
  uint64_t without_file; /* how often there was no file number for one more */
};
struct network_measure network_measure(void);

/* Listens as the settings say. false: it can't, and says why. */
bool network_listen(void);
void network_unlisten(void);

/* Room for all connections, by their files' numbers. false: no memory. */
bool network_make(void);
void network_free(void);

/* One step of a walk that tells of those who listen and of each connection: its address, what it does, since when. */
bool network_tell(struct connection *connection);

/* Makes what a thread waits by. */
bool network_prepare(struct thread *thread);

/* The function of a thread that serves; it is given its struct thread. It ends once the server is to end, and what it
 * answered was sent, if that takes no longer than a second. */
void *network_serve(void *thread);

/* Accepts connections until the server is to end. Between, signals come that aren't in this set. */
void network_accept(const sigset_t *blocked);

/* Wakes a thread, so that it sees what there is for it: that the server is to end, lines for those who watch, values
 * that wait for others; for the maintainer, room to be made, or a shelf to be opened. */
void network_wake(struct thread *thread);

#endif
