#include "sender.h"

#include "say.h"
#include "stamp.h"

#include <errno.h>
#include <string.h>
#include <time.h>
#include <unistd.h>

/* How often a datagram is offered to a queue that is full, and how long is waited between. */
enum { TRIES = 100 };
static const struct timespec rest = {.tv_nsec = 1000000};
static const long long between_lines = 1000000000;

static struct {
    int socket;
    struct endpoint to;
    unsigned long long unsaid; /* refusals of which no line spoke */
    int number; /* errno of the last of these */
    struct timespec said;
} it;

void sender_begin(const struct endpoint *to, const struct ways *ways)
{
    it.to = *to;
    it.socket = sending_socket(to, ways);
}

static const char *reason_of(int number)
{
    return number == ECONNREFUSED ? "nobody receives there (an earlier datagram came back)" : strerror(number);
}

/* Says a refusal, unless the last line is less than a second old. */
static void refused(int number, const char *what, unsigned long long at)
{
    char text[ENDPOINT_TEXT];
    struct timespec now;
    clock_gettime(CLOCK_MONOTONIC, &now);
    it.number = number;
    it.unsaid++;
    if (it.said.tv_sec && stamp_between(it.said, now) < between_lines)
        return;
    say_left_out("%s %llu: refused by the network, to %s: %s%s", what, at, endpoint_text(&it.to, text), reason_of(number),
                 it.unsaid > 1 ? " (others before it too)" : "");
    it.unsaid = 0;
    it.said = now;
}

/* Sends, and waits if the queue of the interface is full. */
static bool try_to_send(const uint8_t *octets, size_t count)
{
    for (int tries = 0; tries < TRIES; tries++) {
        if (send(it.socket, octets, count, 0) >= 0)
            return true;
        if (errno != ENOBUFS && errno != EAGAIN && errno != EINTR)
            return false;
        if (errno != EINTR)
            nanosleep(&rest, NULL);
    }
    return false;
}

/* Whether an errno may be of an earlier datagram, which came back. Then the one at hand wasn't tried. */
static bool is_of_earlier(int number)
{
    return number == ECONNREFUSED || number == EHOSTUNREACH || number == ENETUNREACH || number == EPROTO || number == ENOPROTOOPT;
}

bool sender_send(const uint8_t *octets, size_t count, const char *what, unsigned long long number)
{
    bool is_sent = try_to_send(octets, count);
    if (!is_sent && is_of_earlier(errno)) {
        int first = errno;
        is_sent = try_to_send(octets, count);
        if (is_sent)
            refused(first, what, number);
    }
    if (!is_sent)
        refused(errno, what, number);
    return is_sent;
}

void sender_end(void)
{
    int number = 0;
    socklen_t octets = sizeof number;
    char text[ENDPOINT_TEXT];
    if (getsockopt(it.socket, SOL_SOCKET, SO_ERROR, &number, &octets) == 0 && number != 0) {
        it.number = number;
        it.unsaid++;
    }
    if (it.unsaid)
        say_left_out("%llu more refused by the network, to %s: %s", it.unsaid, endpoint_text(&it.to, text), reason_of(it.number));
    close(it.socket);
}
