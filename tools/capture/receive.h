/* Datagrams of the network, written to standard output. */
#ifndef RECEIVE_H
#define RECEIVE_H

#include "sockets.h"

/* Receives until a signal comes or the reader is gone. times: the path of a table of times, or NULL. */
void receive_blocks(const struct endpoint *at, const struct ways *ways, const char *times);

#endif
