/* Data blocks of standard input, sent in datagrams. */
#ifndef SEND_H
#define SEND_H

#include <stddef.h>

/* Sends until the input ends or a signal comes. `most`: octets up to which several blocks are sent in one datagram, 0: each block by
   itself. The sender is open. */
void send_blocks(size_t most);

#endif
