#include "sums.h"

#include <arpa/inet.h>
#include <string.h>

uint16_t sum_of(const uint8_t *octets, size_t count, uint16_t before)
{
    /* The sum is the same in either order of octets, but for the order of its own two. 2^32 numbers of 32 bits fit into 64. */
    uint64_t sum = htons(before);
    while (count >= 4) {
        uint32_t number;
        memcpy(&number, octets, 4);
        sum += number;
        octets += 4;
        count -= 4;
    }
    uint8_t last[4] = {0};
    memcpy(last, octets, count);
    uint32_t number;
    memcpy(&number, last, 4);
    sum += number;
    while (sum >> 16)
        sum = (sum & 0xffff) + (sum >> 16);
    return ntohs((uint16_t)sum);
}
