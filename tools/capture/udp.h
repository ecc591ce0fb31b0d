/* UDP datagrams. */
#ifndef UDP_H
#define UDP_H

#include "packet.h"

enum { UDP_HEADER = 8 };

/* Puts the ports of a datagram that begins here into both, if the capture holds them. */
void read_ports(const struct slice *body, struct endpoint *source, struct endpoint *destination);

/* Reads the datagram that is the packet's body: its ports come into the packet's endpoints. Returns why it is left out, or NULL; if
   NULL, *payload is what it carries. */
const char *read_udp(struct packet *packet, bool checks_sum, struct slice *payload);

#endif
