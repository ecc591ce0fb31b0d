/* Octets of a frame, and numbers in them, the most significant octet first. */
#ifndef OCTETS_H
#define OCTETS_H

#include <stdbool.h>
#include <stddef.h>
#include <stdint.h>

/* What is left of a frame from some header on: how many octets the capture holds, and how many there were. They differ if the snapshot
   length cut the frame. */
struct slice {
    const uint8_t *octets;
    size_t held;
    size_t length;
};

static inline uint16_t number16(const uint8_t *at)
{
    return (uint16_t)(at[0] << 8 | at[1]);
}

static inline uint32_t number32(const uint8_t *at)
{
    return (uint32_t)number16(at) << 16 | number16(at + 2);
}

static inline void put16(uint8_t *at, size_t number)
{
    at[0] = (uint8_t)(number >> 8);
    at[1] = (uint8_t)number;
}

/* Goes past so many octets, if the capture holds them. */
static inline bool slice_skip(struct slice *it, size_t count)
{
    if (it->held < count)
        return false;
    it->octets += count;
    it->held -= count;
    it->length -= count;
    return true;
}

/* Leaves out what follows the first `length` octets, as the padding of a short Ethernet frame. */
static inline void slice_limit(struct slice *it, size_t length)
{
    if (it->held > length)
        it->held = length;
    it->length = length;
}

#endif
