/* asterix-pcap: the data blocks that the UDP datagrams of captures carry. */
#include "blocks.h"
#include "datagrams.h"
#include "output.h"
#include "say.h"
#include "times.h"
#include "words.h"

#include <getopt.h>
#include <signal.h>
#include <stddef.h>
#include <string.h>
#include <sys/stat.h>

static const char help[] =
    "asterix-pcap [OPTION...] CAPTURE...\n"
    "Writes the payloads of the UDP datagrams of captures as a stream of data blocks on standard output.\n"
    "CAPTURE is pcap or pcapng, also packed by gzip; - is standard input.\n"
    "  -f, --filter FILTER  take only datagrams that this filter takes, in the syntax of tcpdump\n"
    "      --times FILE     write a table with number, time, source and destination of each block\n"
    "      --as-is          pass also payloads that aren't whole data blocks\n"
    "      --no-checksums   take datagrams whatever their checksums are\n"
    "      --help           write this\n"
    "Status: 0 all is written, 1 wrong words, 2 the filter is refused, 3 something was left out, 4 something failed.\n";

struct words {
    struct wanted wanted;
    const char *times;
    bool is_as_is;
};

static struct words words_of(int count, char **given)
{
    enum { TIMES = 256, AS_IS, NO_CHECKSUMS, HELP };
    static const struct option options[] = {
        {"filter", required_argument, NULL, 'f'},
        {"times", required_argument, NULL, TIMES},
        {"as-is", no_argument, NULL, AS_IS},
        {"no-checksums", no_argument, NULL, NO_CHECKSUMS},
        {"help", no_argument, NULL, HELP},
        {0},
    };
    struct words it = {.wanted.checks_sums = true};
    int option;
    opterr = 0;
    while ((option = getopt_long(count, given, "f:", options, NULL)) != -1) {
        switch (option) {
        case 'f':
            it.wanted.filter = optarg;
            break;
        case TIMES:
            it.times = optarg;
            break;
        case AS_IS:
            it.is_as_is = true;
            break;
        case NO_CHECKSUMS:
            it.wanted.checks_sums = false;
            break;
        case HELP:
            write_help(help);
        default:
            refuse_option(given);
        }
    }
    it.wanted.captures = given + optind;
    if (!it.wanted.captures[0])
        refuse_words("no capture is named");
    if (it.times && it.is_as_is)
        refuse_words("--times needs whole data blocks, so it doesn't go with --as-is");
    return it;
}

/* A table that would be written over a capture is refused. */
static void keep_captures(const struct words *it)
{
    struct stat table, capture;
    if (!it->times || stat(it->times, &table) != 0 || !S_ISREG(table.st_mode))
        return;
    for (char **path = it->wanted.captures; *path; path++)
        if (stat(*path, &capture) == 0 && capture.st_dev == table.st_dev && capture.st_ino == table.st_ino)
            refuse_words("--times: %s is a capture", it->times);
}

static void write_datagram(const struct datagram *it, bool is_as_is)
{
    if (!is_as_is) {
        struct framing framing = framing_of(it->payload, it->count);
        if (framing.fault[0]) {
            char reason[128] = "not whole data blocks: ";
            datagram_left_out(it, strncat(reason, framing.fault, sizeof reason - strlen(reason) - 1));
            return;
        }
        times_add(framing.blocks, it->place.time, &it->source, &it->destination);
    }
    output_put(it->payload, it->count);
}

int main(int count, char **given)
{
    struct datagram it;
    say_as("asterix-pcap");
    signal(SIGPIPE, SIG_IGN);
    struct words words = words_of(count, given);
    datagrams_begin(&words.wanted);
    keep_captures(&words);
    if (words.times)
        times_begin(words.times);
    output_after(times_flush);
    while (datagrams_next(&it))
        write_datagram(&it, words.is_as_is);
    output_flush();
    datagrams_end();
    return (int)status_so_far();
}
