/* The UDP datagrams of captures, whole and sound. */
#ifndef DATAGRAMS_H
#define DATAGRAMS_H

#include "endpoint.h"
#include "fragments.h"

struct datagram {
    struct place place; /* of the frame with which it was whole */
    struct endpoint source, destination;
    const uint8_t *payload;
    size_t count;
};

/* What is asked of the captures. */
struct wanted {
    char **captures; /* paths, `-` for standard input; NULL ends them */
    const char *filter; /* or NULL */
    bool checks_sums;
};

/* Looks whether the captures are there and the filter is one; if not, a line says so, and the run ends. */
void datagrams_begin(const struct wanted *wanted);

/* The next datagram that the filter takes. Its payload stays until the next call. What of UDP isn't whole or sound is left out, and a
   line says so. False at the end of the last capture. */
bool datagrams_next(struct datagram *it);

void datagrams_end(void);

/* Says that a datagram is left out, and why. */
void datagram_left_out(const struct datagram *it, const char *reason);

#endif
