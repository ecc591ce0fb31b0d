#include "stamp.h"

#include <limits.h>
#include <stdbool.h>
#include <stdio.h>
#include <string.h>

/* The decimal digits of a number, with leading zeros. */
static void put_digits(char *at, int count, unsigned long number)
{
    while (count-- > 0) {
        at[count] = (char)('0' + number % 10);
        number /= 10;
    }
}

/* Many times are of the same second, so its text is kept. */
const char *stamp_text(struct timespec time, char text[STAMP_TEXT])
{
    static time_t kept;
    static char seconds[STAMP_TEXT];
    static int octets;
    struct tm at;
    if (octets == 0 || time.tv_sec != kept) {
        kept = time.tv_sec;
        /* A damaged capture may have a time that no calendar has. */
        octets = gmtime_r(&time.tv_sec, &at) ? snprintf(seconds, sizeof seconds, "%04d-%02d-%02dT%02d:%02d:%02d.", at.tm_year + 1900, at.tm_mon + 1,
                                                        at.tm_mday, at.tm_hour, at.tm_min, at.tm_sec)
                                             : snprintf(seconds, sizeof seconds, "@%lld.", (long long)time.tv_sec);
    }
    memcpy(text, seconds, (size_t)octets);
    put_digits(text + octets, 9, (unsigned long)time.tv_nsec);
    memcpy(text + octets + 9, "Z", 2);
    return text;
}

long long stamp_between(struct timespec first, struct timespec second)
{
    long long seconds, between;
    bool is_too_far = __builtin_sub_overflow((long long)second.tv_sec, (long long)first.tv_sec, &seconds) ||
                      __builtin_mul_overflow(seconds, 1000000000LL, &between) ||
                      __builtin_add_overflow(between, second.tv_nsec - first.tv_nsec, &between);
    if (is_too_far)
        return second.tv_sec < first.tv_sec ? -LLONG_MAX : LLONG_MAX;
    return between;
}
