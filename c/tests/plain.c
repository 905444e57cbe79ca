/* A file that is compiled without -DBUMP_DEBUG: broken.c's program tells of it. */
#include "bump.h"

uint32_t plain_version(void);
uint32_t plain_version(void) { return bump_version(); }
