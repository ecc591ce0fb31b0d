/* The table of times: a line for each written block, with tabs between its number, time, source and destination. */
#ifndef TIMES_H
#define TIMES_H

#include "endpoint.h"

#include <stddef.h>
#include <time.h>

/* Makes the table, with its head. If it can't be made, a line says so and the run ends. */
void times_begin(const char *path);

/* Adds lines for so many blocks of one datagram. Nothing if no table was begun. */
void times_add(size_t blocks, struct timespec time, const struct endpoint *source, const struct endpoint *destination);

/* Writes what is held. If that fails, a line says so and the run ends. */
void times_flush(void);

#endif
