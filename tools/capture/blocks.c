#include "blocks.h"

#include "octets.h"

#include <stdio.h>

long block_octets(const uint8_t *octets, size_t count)
{
    if (count < BLOCK_HEAD)
        return 0;
    long length = number16(octets + 1);
    return length < BLOCK_LEAST ? -1 : length;
}

struct framing framing_of(const uint8_t *octets, size_t count)
{
    struct framing found = {0};
    if (count == 0)
        snprintf(found.fault, sizeof found.fault, "it has no octets");
    while (found.octets < count) {
        const uint8_t *block = octets + found.octets;
        size_t left = count - found.octets;
        long length = block_octets(block, left);
        if (length == 0)
            snprintf(found.fault, sizeof found.fault, "octet %zu: it ends inside CAT and LEN", found.octets);
        else if (length < 0)
            snprintf(found.fault, sizeof found.fault, "octet %zu: LEN is %u", found.octets, number16(block + 1));
        else if ((size_t)length > left)
            snprintf(found.fault, sizeof found.fault, "octet %zu: LEN is %ld, and %zu octets are left", found.octets, length, left);
        if (found.fault[0])
            break;
        found.octets += (size_t)length;
        found.blocks++;
    }
    return found;
}
