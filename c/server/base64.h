/* Keys that aren't text, as the meta commands' flag b has them. */
#ifndef BASE64_H
#define BASE64_H

#include <stddef.h>

/* Decodes in place, and answers how many bytes it gave; 0: it is no base64. As memcached's does, it skips what is no
 * digit, and ends behind the first four digits of which one is a =. */
size_t base64_decode(char *text, size_t bytes);

/* Answers the place behind what it wrote: four characters for three bytes. */
char *base64_encode(char *to, const char *from, size_t bytes);

#endif
