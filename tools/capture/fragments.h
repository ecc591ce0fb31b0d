/* Fragments of IP datagrams, put together in bounded memory. */
#ifndef FRAGMENTS_H
#define FRAGMENTS_H

#include "packet.h"

#include <time.h>

/* Where in the captures a fragment stands. */
struct place {
    const char *capture;
    uint64_t frame;
    struct timespec time;
};

/* A datagram of which not all fragments came. */
struct incomplete {
    struct place place; /* of the fragment that came first */
    struct packet packet; /* the body has what is there from its beginning on; held is 0 if the first fragment lacks */
    const char *reason;
};

/* What is called for each of these, before the next datagram. */
typedef void (*incomplete_told)(const struct incomplete *it);

struct fragments;

struct fragments *fragments_new(incomplete_told tell);
void fragments_free(struct fragments *it);

/* Takes a fragment. Returns whether it was the last one of its datagram that lacked: then *packet is the datagram, until the next
   call. */
bool fragments_add(struct fragments *it, const struct place *place, struct packet *packet);

/* Tells what is left. */
void fragments_end(struct fragments *it);

#endif
