#include "capture.h"

#include "say.h"
#include "source.h"

#include <errno.h>
#include <pcap/pcap.h>
#include <stdlib.h>
#include <string.h>

struct capture {
    const char *path;
    struct source *source;
    FILE *stream;
    pcap_t *pcap;
    int link;
};

/* Says why a capture isn't one. */
static void say_no_capture(struct capture *it, const char *fault)
{
    bool is_cut;
    const char *first = source_fault(it->source, &is_cut);
    say_failed("%s: no capture is read: %s", it->path, first ? first : fault);
}

struct capture *capture_open(const char *path)
{
    struct capture *it = calloc(1, sizeof *it);
    if (!it)
        give_up(FAILED, "there is no memory left");
    it->path = path;
    it->source = source_open(path);
    if (!it->source) {
        say_failed("%s: no capture is read: %s", path, strerror(errno));
        free(it);
        return NULL;
    }
    char fault[PCAP_ERRBUF_SIZE];
    it->stream = source_stream(it->source);
    if (!it->stream)
        give_up(FAILED, "there is no memory left");
    it->pcap = pcap_fopen_offline_with_tstamp_precision(it->stream, PCAP_TSTAMP_PRECISION_NANO, fault);
    if (!it->pcap) {
        say_no_capture(it, fault);
        fclose(it->stream);
        source_close(it->source);
        free(it);
        return NULL;
    }
    it->link = pcap_datalink(it->pcap);
    return it;
}

/* Says why reading ended, if that isn't the end of the file. */
static void say_end(struct capture *it, int answer)
{
    bool is_cut;
    const char *fault = source_fault(it->source, &is_cut);
    if (fault && !is_cut)
        say_failed("%s: it can't be read to its end: %s", it->path, fault);
    else if (fault || answer != PCAP_ERROR_BREAK)
        say_left_out("%s: the end of the capture lacks or is damaged: %s", it->path, fault ? fault : pcap_geterr(it->pcap));
}

bool capture_next(struct capture *it, struct frame *frame)
{
    struct pcap_pkthdr *head;
    const u_char *octets;
    int answer = pcap_next_ex(it->pcap, &head, &octets);
    if (answer != 1) {
        say_end(it, answer);
        return false;
    }
    frame->time = (struct timespec){.tv_sec = head->ts.tv_sec, .tv_nsec = head->ts.tv_usec};
    frame->octets = (struct slice){octets, head->caplen, head->len < head->caplen ? head->caplen : head->len};
    frame->link = it->link;
    if (source_is_labelled(it->source)) {
        uint32_t link = 0;
        memcpy(&link, octets, head->caplen < LABEL ? 0 : LABEL);
        frame->link = (int)link;
        slice_skip(&frame->octets, LABEL);
    }
    return true;
}

void capture_close(struct capture *it)
{
    pcap_close(it->pcap);
    source_close(it->source);
    free(it);
}

off_t capture_read(const struct capture *it)
{
    return source_read(it->source);
}

off_t capture_octets(const struct capture *it)
{
    return source_octets(it->source);
}
