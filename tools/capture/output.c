#include "output.h"

#include "say.h"

#include <errno.h>
#include <string.h>
#include <unistd.h>

enum { ROOM = 262144 };

static uint8_t held[ROOM];
static size_t held_octets;
static void (*call_before)(void);

void output_after(void (*before)(void))
{
    call_before = before;
}

void output_failed(int number)
{
    if (number == EPIPE)
        give_up(FAILED, "the reader of standard output is gone");
    give_up(FAILED, "standard output can't be written: %s", strerror(number));
}

void output_flush(void)
{
    size_t at = 0;
    if (call_before)
        call_before();
    while (at < held_octets) {
        ssize_t wrote = write(STDOUT_FILENO, held + at, held_octets - at);
        if (wrote < 0 && errno != EINTR)
            output_failed(errno);
        at += wrote > 0 ? (size_t)wrote : 0;
    }
    held_octets = 0;
}

void output_put(const uint8_t *octets, size_t count)
{
    if (held_octets + count > ROOM)
        output_flush();
    memcpy(held + held_octets, octets, count);
    held_octets += count;
}
