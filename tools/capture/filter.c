#include "filter.h"

#include "packet.h"
#include "say.h"

#include <pcap/pcap.h>
#include <stdio.h>
#include <stdlib.h>

struct filter {
    struct bpf_program program;
};

struct filter *filter_new(const char *expression)
{
    if (!expression)
        return NULL;
    struct filter *it = calloc(1, sizeof *it);
    pcap_t *raw = pcap_open_dead(DLT_RAW, PACKET_MOST);
    if (!it || !raw)
        give_up(FAILED, "there is no memory left");
    bool is_one = pcap_compile(raw, &it->program, expression, 1, PCAP_NETMASK_UNKNOWN) == 0;
    char fault[PCAP_ERRBUF_SIZE];
    snprintf(fault, sizeof fault, "%s", pcap_geterr(raw));
    pcap_close(raw);
    if (is_one)
        return it;
    free(it);
    give_up(FILTER_REFUSED, "the filter is refused: %s (it is asked of IP datagrams)", fault);
}

void filter_free(struct filter *it)
{
    if (it)
        pcap_freecode(&it->program);
    free(it);
}

bool filter_takes(const struct filter *it, const struct slice *datagram)
{
    if (!it)
        return true;
    struct pcap_pkthdr head = {.caplen = (bpf_u_int32)datagram->held, .len = (bpf_u_int32)datagram->length};
    return pcap_offline_filter(&it->program, &head, datagram->octets) != 0;
}
