/* The framing of data blocks: CAT, LEN, and LEN - 3 octets more. */
#ifndef BLOCKS_H
#define BLOCKS_H

#include <stddef.h>
#include <stdint.h>

enum { BLOCK_HEAD = 3, BLOCK_LEAST = 4, BLOCK_MOST = 65535 };

/* What a row of octets is found to be. */
struct framing {
    size_t blocks; /* whole data blocks before the fault, or all */
    size_t octets; /* octets in these */
    char fault[96]; /* why it isn't a row of whole data blocks; empty if it is one */
};

/* The octets of the data block that begins here, 0 if fewer than CAT and LEN are there, or -1 if LEN is too small. */
long block_octets(const uint8_t *octets, size_t count);

/* Whether the octets are whole data blocks and nothing else, one at least. */
struct framing framing_of(const uint8_t *octets, size_t count);

#endif
