/* Times in UTC as text. */
#ifndef STAMP_H
#define STAMP_H

#include <time.h>

enum { STAMP_TEXT = 48 };

/* As 2026-11-26T09:00:00.123456789Z. */
const char *stamp_text(struct timespec time, char text[STAMP_TEXT]);

/* How many nanoseconds the second time is after the first; the greatest or least number if they are centuries apart. */
long long stamp_between(struct timespec first, struct timespec second);

#endif
