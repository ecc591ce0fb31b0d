/* The checksum of IP and UDP: the sum of 16-bit numbers in ones' complement. */
#ifndef SUMS_H
#define SUMS_H

#include <stddef.h>
#include <stdint.h>

/* The sum of these octets and of an earlier sum. All but the last piece of what is summed have an even number of octets. */
uint16_t sum_of(const uint8_t *octets, size_t count, uint16_t before);

#endif
