/* asterix-net: data blocks from the network, and into it. */
#include "receive.h"
#include "say.h"
#include "send.h"
#include "sender.h"
#include "stopping.h"
#include "words.h"

#include <getopt.h>
#include <limits.h>
#include <string.h>

static const char help[] =
    "asterix-net receive GROUP:PORT [OPTION...]\n"
    "Joins the group, or listens at an address, and writes the data blocks of each datagram on standard output at once.\n"
    "      --interface NAME  receive by this interface\n"
    "      --source ADDRESS  take only what this sender sends\n"
    "      --buffer OCTETS   have the kernel hold so many octets, as 8M\n"
    "      --times FILE      write a table with number, time, source and destination of each block\n"
    "asterix-net send ADDRESS:PORT [OPTION...]\n"
    "Sends each data block of standard input in a datagram.\n"
    "      --mtu OCTETS      send several blocks in a datagram, whose packet has at most so many octets\n"
    "      --ttl HOPS        how many routers may pass the datagrams on\n"
    "      --interface NAME  send by this interface\n"
    "      --no-loop         this machine doesn't get what it sends to a group\n"
    "Both:\n"
    "      --help            write this\n"
    "An address of IPv6 stands in brackets, as [ff02::1]:8600.\n"
    "Status: 0 all is done, 1 wrong words, 3 something was left out, lost or refused, 4 something failed.\n";

enum { HEADERS_4 = 20 + 8, HEADERS_6 = 40 + 8 };

struct words {
    bool is_receive;
    struct endpoint where;
    struct ways ways;
    const char *times;
    long long mtu;
};

enum { INTERFACE = 256, SOURCE, BUFFER, TIMES, MTU, TTL, NO_LOOP, HELP };
static const struct option receive_options[] = {
    {"interface", required_argument, NULL, INTERFACE},
    {"source", required_argument, NULL, SOURCE},
    {"buffer", required_argument, NULL, BUFFER},
    {"times", required_argument, NULL, TIMES},
    {"help", no_argument, NULL, HELP},
    {0},
};
static const struct option send_options[] = {
    {"mtu", required_argument, NULL, MTU},
    {"ttl", required_argument, NULL, TTL},
    {"interface", required_argument, NULL, INTERFACE},
    {"no-loop", no_argument, NULL, NO_LOOP},
    {"help", no_argument, NULL, HELP},
    {0},
};

static void take_option(struct words *it, int option, char **given)
{
    switch (option) {
    case INTERFACE:
        it->ways.interface = optarg;
        break;
    case SOURCE:
        it->ways.source = optarg;
        break;
    case BUFFER:
        it->ways.buffer = (int)number_of("--buffer", optarg, 1, INT_MAX / 2);
        break;
    case TIMES:
        it->times = optarg;
        break;
    case MTU:
        it->mtu = number_of("--mtu", optarg, 68, 65535);
        break;
    case TTL:
        it->ways.hops = (int)number_of("--ttl", optarg, 1, 255);
        break;
    case NO_LOOP:
        it->ways.is_looped = false;
        break;
    case HELP:
        write_help(help);
    default:
        refuse_option(given);
    }
}

static struct words words_of(int count, char **given)
{
    struct words it = {.ways.is_looped = true};
    int option;
    opterr = 0;
    if (count > 1 && strcmp(given[1], "--help") == 0)
        write_help(help);
    it.is_receive = count > 1 && strcmp(given[1], "receive") == 0;
    if (!it.is_receive && (count < 2 || strcmp(given[1], "send") != 0))
        refuse_words("the first word is receive or send");
    count--;
    given++;
    while ((option = getopt_long(count, given, "", it.is_receive ? receive_options : send_options, NULL)) != -1)
        take_option(&it, option, given);
    if (optind + 1 != count)
        refuse_words("%s takes one address with a port", given[0]);
    if (!endpoint_read(given[optind], &it.where))
        refuse_words("%s isn't an address with a port, as 232.1.1.1:8600 or [ff02::1]:8600", given[optind]);
    return it;
}

/* Octets up to which blocks are sent together. */
static size_t payload_of(const struct words *it)
{
    int headers = it->where.family == AF_INET ? HEADERS_4 : HEADERS_6;
    return it->mtu > headers ? (size_t)(it->mtu - headers) : 0;
}

int main(int count, char **given)
{
    say_as("asterix-net");
    signal(SIGPIPE, SIG_IGN);
    struct words words = words_of(count, given);
    note_signals();
    if (words.is_receive)
        receive_blocks(&words.where, &words.ways, words.times);
    else {
        sender_begin(&words.where, &words.ways);
        send_blocks(payload_of(&words));
        sender_end();
    }
    return (int)status_so_far();
}
