/* How far off times were: the greatest, and the median, in memory that doesn't grow. */
#ifndef SPREAD_H
#define SPREAD_H

#include <stdint.h>

/* Numbers below 2^SPREAD_STEP are counted exactly, greater ones with so many leading bits. */
enum { SPREAD_STEP = 7, SPREAD_CLASSES = (64 - SPREAD_STEP + 1) << SPREAD_STEP };

struct spread {
    uint64_t count, greatest;
    uint64_t classes[SPREAD_CLASSES];
};

void spread_add(struct spread *it, uint64_t number);

/* The median, at most 1 % too small; 0 of nothing. */
uint64_t spread_median(const struct spread *it);

#endif
