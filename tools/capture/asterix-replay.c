/* asterix-replay: sends what a capture has, with the capture's own gaps. */
#include "blocks.h"
#include "datagrams.h"
#include "progress.h"
#include "say.h"
#include "sender.h"
#include "spread.h"
#include "stamp.h"
#include "stopping.h"
#include "words.h"

#include <errno.h>
#include <getopt.h>
#include <stdio.h>
#include <stdlib.h>
#include <string.h>
#include <sys/prctl.h>
#include <time.h>

static const char help[] =
    "asterix-replay [OPTION...] CAPTURE ADDRESS:PORT\n"
    "Sends the payloads of the UDP datagrams of a capture again, with the gaps that the capture has.\n"
    "CAPTURE is pcap or pcapng, also packed by gzip; - is standard input.\n"
    "  -f, --filter FILTER   take only datagrams that this filter takes, in the syntax of tcpdump\n"
    "      --speed X         so many times as fast, as 10 or 0.5\n"
    "      --no-checksums    take datagrams whatever their checksums are\n"
    "      --ttl HOPS        how many routers may pass the datagrams on\n"
    "      --interface NAME  send by this interface\n"
    "      --no-loop         this machine doesn't get what it sends to a group\n"
    "      --help            write this\n"
    "An address of IPv6 stands in brackets, as [ff02::1]:8600.\n"
    "Status: 0 all is sent, 1 wrong words, 2 the filter is refused, 3 something was left out or refused, 4 something failed.\n";

enum { NANO = 1000000000 };
static const double slowest = 1e-3, fastest = 1e9, longest_wait = 1e18;

struct words {
    char *captures[2];
    struct wanted wanted;
    struct endpoint to;
    struct ways ways;
    double speed;
};

static struct {
    struct spread off; /* nanoseconds between when a datagram was due and when it was sent */
    struct timespec first, latest; /* times of the capture */
    struct timespec begun; /* of the monotonic clock, when the first one was due */
    unsigned long long sent, seen, early;
} it;

static double speed_of(const char *text)
{
    char *end;
    double speed = strtod(text, &end);
    if (end == text || *end || !(speed >= slowest && speed <= fastest))
        refuse_words("--speed: %s isn't a number above 0, from %g to %g", text, slowest, fastest);
    return speed;
}

enum { SPEED = 256, NO_CHECKSUMS, TTL, INTERFACE, NO_LOOP, HELP };
static const struct option options[] = {
    {"filter", required_argument, NULL, 'f'},
    {"speed", required_argument, NULL, SPEED},
    {"no-checksums", no_argument, NULL, NO_CHECKSUMS},
    {"ttl", required_argument, NULL, TTL},
    {"interface", required_argument, NULL, INTERFACE},
    {"no-loop", no_argument, NULL, NO_LOOP},
    {"help", no_argument, NULL, HELP},
    {0},
};

static void take_option(struct words *words, int option, char **given)
{
    switch (option) {
    case 'f':
        words->wanted.filter = optarg;
        break;
    case SPEED:
        words->speed = speed_of(optarg);
        break;
    case NO_CHECKSUMS:
        words->wanted.checks_sums = false;
        break;
    case TTL:
        words->ways.hops = (int)number_of("--ttl", optarg, 1, 255);
        break;
    case INTERFACE:
        words->ways.interface = optarg;
        break;
    case NO_LOOP:
        words->ways.is_looped = false;
        break;
    case HELP:
        write_help(help);
    default:
        refuse_option(given);
    }
}

static void read_words(struct words *words, int count, char **given)
{
    int option;
    opterr = 0;
    *words = (struct words){.wanted.checks_sums = true, .ways.is_looped = true, .speed = 1};
    while ((option = getopt_long(count, given, "f:", options, NULL)) != -1)
        take_option(words, option, given);
    if (optind + 2 != count)
        refuse_words("a capture and an address with a port are wanted");
    words->captures[0] = given[optind];
    words->wanted.captures = words->captures;
    if (!endpoint_read(given[optind + 1], &words->to))
        refuse_words("%s isn't an address with a port, as 232.1.1.1:8600 or [ff02::1]:8600", given[optind + 1]);
}

/* Notes the time of a datagram. One that is before an earlier one is due at once. */
static void note_time(const struct datagram *datagram)
{
    struct timespec time = datagram->place.time;
    if (it.seen++ == 0) {
        it.first = it.latest = time;
        clock_gettime(CLOCK_MONOTONIC, &it.begun);
    }
    long long back = stamp_between(time, it.latest);
    if (back <= 0)
        it.latest = time;
    else if (it.early++ == 0)
        say_left_out("%s: frame %llu is %lld.%09lld s before an earlier one: it is sent at once, and so are later ones of that kind",
                     datagram->place.capture, (unsigned long long)datagram->place.frame, back / NANO, back % NANO);
}

/* When the latest time of the capture is due, of the monotonic clock. */
static struct timespec due(double speed)
{
    double wanted = (double)stamp_between(it.first, it.latest) / speed;
    long long since = (long long)(wanted < longest_wait ? wanted : longest_wait);
    struct timespec time = it.begun;
    time.tv_sec += since / NANO;
    time.tv_nsec += since % NANO;
    if (time.tv_nsec >= NANO) {
        time.tv_nsec -= NANO;
        time.tv_sec++;
    }
    return time;
}

static void send_one(const struct datagram *datagram, const struct timespec *when)
{
    struct timespec now;
    if (!sender_send(datagram->payload, datagram->count, "frame", datagram->place.frame))
        return;
    clock_gettime(CLOCK_MONOTONIC, &now);
    it.sent++;
    spread_add(&it.off, (uint64_t)llabs(stamp_between(*when, now)));
}

/* Whether a datagram is one to send; else a line says why not. */
static bool is_sendable(const struct datagram *datagram)
{
    char reason[128] = "not whole data blocks: ";
    struct framing framing = framing_of(datagram->payload, datagram->count);
    if (!framing.fault[0] && datagram->count <= PAYLOAD_MOST)
        return true;
    if (framing.fault[0])
        strncat(reason, framing.fault, sizeof reason - strlen(reason) - 1);
    else
        snprintf(reason, sizeof reason, "it has %zu octets, and %d are the most that is sent", datagram->count, PAYLOAD_MOST);
    datagram_left_out(datagram, reason);
    return false;
}

static void replay(double speed)
{
    struct datagram datagram;
    while (!stopped_by && datagrams_next(&datagram)) {
        if (!is_sendable(&datagram))
            continue;
        note_time(&datagram);
        struct timespec when = due(speed);
        while (!stopped_by && clock_nanosleep(CLOCK_MONOTONIC, TIMER_ABSTIME, &when, NULL) == EINTR)
            ;
        if (!stopped_by)
            send_one(&datagram, &when);
    }
    if (stopped_by)
        say_left_out("a signal ended it: what was left of the capture isn't sent");
}

/* Says what was sent and how far off it was. */
static void say_sent(void)
{
    struct timespec now = it.begun;
    if (it.sent)
        clock_gettime(CLOCK_MONOTONIC, &now);
    progress_end();
    if (it.early > 1)
        say_left_out("%llu datagrams were before earlier ones", it.early);
    say("%llu datagrams sent in %.6f s; off by %.3f ms in the median and %.3f ms at most", it.sent, (double)stamp_between(it.begun, now) / NANO,
        (double)spread_median(&it.off) / 1e6, (double)it.off.greatest / 1e6);
}

int main(int count, char **given)
{
    struct words words;
    say_as("asterix-replay");
    read_words(&words, count, given);
    note_signals();
    prctl(PR_SET_TIMERSLACK, 1); /* waits end when they are due, and not up to 50 microseconds later */
    datagrams_begin(&words.wanted);
    sender_begin(&words.to, &words.ways);
    replay(words.speed);
    sender_end();
    say_sent();
    datagrams_end();
    return (int)status_so_far();
}
