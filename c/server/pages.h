/* Pages of the heap in which nothing is any more. malloc_trim gives all of them back at once, while all who ask for
 * memory wait: in a large heap for a fifth of a second. Here they are given back a few at a time. */
#ifndef PAGES_H
#define PAGES_H

#include <stdbool.h>

/* Gives some pages back, which takes less than a millisecond. true: a round is over, since no more were found, or
 * enough were given. One thread's. */
bool pages_give_back(bool is_enough);

#endif
