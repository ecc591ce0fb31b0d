/* Filters in libpcap's syntax, asked of whole IP datagrams. */
#ifndef FILTER_H
#define FILTER_H

#include "octets.h"

struct filter;

/* The filter of an expression; NULL if the expression is NULL. If libpcap refuses it, a line says why, and the run ends. */
struct filter *filter_new(const char *expression);
void filter_free(struct filter *it);

/* Whether the filter takes a datagram that begins with its IP header. No filter takes all. */
bool filter_takes(const struct filter *it, const struct slice *datagram);

#endif
