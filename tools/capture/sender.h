/* Datagrams that are sent, and what is said of those that are refused. */
#ifndef SENDER_H
#define SENDER_H

#include "sockets.h"

#include <stddef.h>

/* The longest payload of a datagram of IPv4. */
enum { PAYLOAD_MOST = 65507 };

/* Opens the one sender of a run. */
void sender_begin(const struct endpoint *to, const struct ways *ways);

/* Sends octets in a datagram, at most PAYLOAD_MOST. If that is refused, a line says so, with what it is of; of many refusals there is
   a line a second. False if it wasn't sent. */
bool sender_send(const uint8_t *octets, size_t count, const char *what, unsigned long long number);

/* Says what is left to be said of refusals. */
void sender_end(void);

#endif
