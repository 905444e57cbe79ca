/* What was received and isn't read yet, or is to be sent. An empty buffer has no memory: its block goes to the thread's
 * next one that needs one. So connections that are idle have none, however many there are. */
#ifndef BUFFER_H
#define BUFFER_H

#include <stdbool.h>
#include <stddef.h>
#include "thread.h"

struct buffer {
  char *at;
  size_t room;
  size_t begin; /* what stands before is done with */
  size_t end;
};

/* A block's first room; and what no buffer needs more of, but for a line that is long or a value that is copied: then
 * there is a bound for all of them together. */
enum { BUFFER_FIRST = 1 << 14, BUFFER_SMALL_MOST = 1 << 16 };

/* What goes back of a larger one at once: the system takes a millisecond for ten of these. */
enum { BUFFER_PART = 1 << 20 };

static inline size_t buffer_size(const struct buffer *buffer) { return buffer->end - buffer->begin; }

/* Room for so many bytes behind what is in it, and for a 0 behind them. false: no memory, or all buffers together have
 * as much as they may. buffer_make_more_room is called where neither the buffer nor the thread has it. */
bool buffer_make_more_room(struct buffer *buffer, size_t bytes);
static inline bool buffer_make_room(struct thread *thread, struct buffer *buffer, size_t bytes) {
  if (buffer->end + bytes <= buffer->room) return true;
  if (buffer->at != NULL || bytes > BUFFER_FIRST || thread->spare_blocks == 0)
    return buffer_make_more_room(buffer, bytes);
  buffer->at = thread->spare_block[--thread->spare_blocks];
  buffer->room = BUFFER_FIRST;
  return true;
}

/* Gives back a part of a large block in which nothing is. false: it isn't large. */
bool buffer_shrink(struct buffer *buffer);

/* Gives back the memory, with what is in it: to the thread, or where that has enough to the system. */
void buffer_free(struct buffer *buffer);
static inline void buffer_give_back(struct thread *thread, struct buffer *buffer) {
  if (buffer->room == BUFFER_FIRST && thread->spare_blocks < SPARE_BLOCKS_MOST)
    thread->spare_block[thread->spare_blocks++] = buffer->at;
  else if (buffer->at != NULL) buffer_free(buffer);
  *buffer = (struct buffer){ 0 };
}

/* At the end: what the thread has for its next buffers. */
void buffers_free(struct thread *thread);

#endif
