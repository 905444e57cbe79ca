#include "buffer.h"
#include <stdlib.h>
#include <string.h>
#include "memory.h"

/* With the 0 behind it. */
static size_t block_bytes(size_t room) { return room + 1; }

static char *first_block(void) {
  char *block = malloc(block_bytes(BUFFER_FIRST));
  if (block != NULL) memory_take(MEMORY_connections, block_bytes(BUFFER_FIRST));
  return block;
}

static void free_block(char *block, size_t room) {
  memory_free(block);
  memory_give(MEMORY_connections, block_bytes(room));
}

/* What is large grows by halves of what it needs, so that it isn't copied again and again. */
static bool widen(struct buffer *buffer, size_t needed) {
  size_t room = needed + (needed > BUFFER_SMALL_MOST ? needed / 2 : needed);
  if (room > BUFFER_SMALL_MOST && !memory_may_take(room - buffer->room)) return false;
  char *more = realloc(buffer->at, block_bytes(room));
  if (more == NULL) return false;
  memory_take(MEMORY_connections, room - buffer->room + (buffer->at == NULL));
  buffer->at = more;
  buffer->room = room;
  return true;
}

bool buffer_make_more_room(struct buffer *buffer, size_t bytes) {
  if (buffer->at == NULL && bytes <= BUFFER_FIRST) {
    buffer->at = first_block();
    if (buffer->at != NULL) buffer->room = BUFFER_FIRST;
    return buffer->at != NULL;
  }
  if (buffer->begin > 0) memmove(buffer->at, buffer->at + buffer->begin, buffer_size(buffer));
  buffer->end -= buffer->begin;
  buffer->begin = 0;
  return buffer->end + bytes <= buffer->room || widen(buffer, buffer->end + bytes);
}

bool buffer_shrink(struct buffer *buffer) {
  if (buffer->room <= BUFFER_PART) return false;
  char *less = realloc(buffer->at, block_bytes(buffer->room - BUFFER_PART));
  if (less == NULL) return false;
  memory_give(MEMORY_connections, BUFFER_PART);
  buffer->at = less;
  buffer->room -= BUFFER_PART;
  buffer->begin = buffer->end = 0;
  return true;
}

void buffer_free(struct buffer *buffer) { free_block(buffer->at, buffer->room); }

void buffers_free(struct thread *thread) {
  while (thread->spare_blocks > 0) free_block(thread->spare_block[--thread->spare_blocks], BUFFER_FIRST);
}
