/* What the two files of the plain C version share: the size of a pool, and the two ends of a list. */
#ifndef PLAIN_H
#define PLAIN_H

#include "flailreeve.h"

#include <stdbool.h>

enum end { FRONT, BACK };

static inline bool sizes_fit(size_t links_len, size_t values_len)
{
    return links_len == values_len && links_len >= FLAILREEVE_SMALLEST_POOL && links_len <= FLAILREEVE_LARGEST_POOL;
}

#endif
