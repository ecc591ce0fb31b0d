#include "spread.h"

#include <stddef.h>

static size_t class_of(uint64_t number)
{
    if (number >> SPREAD_STEP == 0)
        return (size_t)number;
    int shift = 63 - __builtin_clzll(number) - SPREAD_STEP;
    return ((size_t)(shift + 1) << SPREAD_STEP) + (size_t)(number >> shift) - (1u << SPREAD_STEP);
}

/* The least number of a class. */
static uint64_t least_of(size_t class)
{
    size_t step = class >> SPREAD_STEP, rest = class & ((1u << SPREAD_STEP) - 1);
    return step == 0 ? rest : (uint64_t)(rest + (1u << SPREAD_STEP)) << (step - 1);
}

void spread_add(struct spread *it, uint64_t number)
{
    it->count++;
    if (number > it->greatest)
        it->greatest = number;
    it->classes[class_of(number)]++;
}

uint64_t spread_median(const struct spread *it)
{
    uint64_t before = 0;
    for (size_t class = 0; class < SPREAD_CLASSES; class++) {
        before += it->classes[class];
        if (it->count && before * 2 >= it->count)
            return least_of(class);
    }
    return 0;
}
