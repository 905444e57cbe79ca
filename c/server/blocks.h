/* Blocks of memory for values that lie out of line. Those of four pages and more are mappings of their own, which go
 * back to the system by themselves: among malloc's pieces, small ones would come where a large one was, and none of its
 * pages could go back. But the system lets a process have so many mappings: where these have their part of them, malloc
 * makes further ones. */
#ifndef BLOCKS_H
#define BLOCKS_H

#include <stddef.h>

/* A block for so many bytes; NULL: no memory. */
char *block_new(size_t bytes);

/* The same block for so many bytes, maybe elsewhere; NULL: no memory, and it stays as it is. */
char *block_grow(char *block, size_t bytes);

void block_free(char *block);

/* What it takes of the memory. */
size_t block_takes(char *block);

#endif
