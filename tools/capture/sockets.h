/* Sockets of UDP that receive and send. What can't be done ends the run with a line. */
#ifndef SOCKETS_H
#define SOCKETS_H

#include "endpoint.h"

/* What is asked of a socket beside its address. */
struct ways {
    const char *interface; /* its name, or NULL: the one that the routes name */
    const char *source; /* the address from which alone is received, or NULL */
    int buffer; /* octets of the kernel's buffer, 0: as many as it has by itself */
    int hops; /* TTL of IPv4 or hop limit of IPv6, 0: as the system has it */
    bool is_looped; /* whether this machine gets what it sends to a group */
};

/* A socket that is bound to the address, and is in the group if it is one. It tells the times and the lost datagrams. The source is
   read into *source if there is one. */
int receiving_socket(const struct endpoint *at, const struct ways *ways, struct endpoint *source);

/* A socket that is connected to the address. */
int sending_socket(const struct endpoint *to, const struct ways *ways);

#endif
