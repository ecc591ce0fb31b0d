#include "packet.h"

#include "sums.h"

#include <string.h>

enum { IP4_LEAST = 20, IP6_HEADER = 40 };

/* The protocols of IPv6 that are headers with another one behind them. */
enum { HOP_BY_HOP = 0, ROUTING = 43, FRAGMENT = 44, AUTHENTICATION = 51, DESTINATION = 60 };

static struct endpoint address_at(int family, const uint8_t *octets)
{
    struct endpoint it = {.family = family};
    memcpy(it.address, octets, address_octets(family));
    return it;
}

/* Leaves out of the body what isn't of the packet. */
static void limit(struct packet *it, size_t octets)
{
    it->cut = it->body.length < octets ? "it is longer than its frame, by the IP header" : "it is cut by the snapshot length";
    slice_limit(&it->body, octets);
}

enum found read_ip4(struct slice from, bool checks_sum, struct packet *it, const char **fault)
{
    if (from.held < IP4_LEAST)
        return FOUND_CUT;
    const uint8_t *header = from.octets;
    size_t header_octets = (size_t)(header[0] & 0xf) * 4, total = number16(header + 2);
    *it = (struct packet){0};
    if (header[0] >> 4 != 4 || header_octets < IP4_LEAST || total < header_octets) {
        *fault = "the IPv4 header is wrong";
        return FOUND_BAD;
    }
    if (from.held < header_octets)
        return FOUND_CUT;
    uint16_t place = number16(header + 6);
    *it = (struct packet){
        .source = address_at(AF_INET, header + 12),
        .destination = address_at(AF_INET, header + 16),
        .header = header,
        .header_octets = header_octets,
        .protocol = header[9],
        .body = from,
        .is_fragment = (place & 0x3fff) != 0,
        .has_more = (place & 0x2000) != 0,
        .identification = number16(header + 4),
        .offset = (size_t)(place & 0x1fff) * 8,
    };
    limit(it, total);
    slice_skip(&it->body, header_octets);
    if (!checks_sum || sum_of(header, header_octets, 0) == 0xffff)
        return FOUND;
    *fault = "the checksum of the IPv4 header is wrong";
    return FOUND_BAD;
}

static bool is_extension(uint8_t protocol)
{
    return protocol == HOP_BY_HOP || protocol == ROUTING || protocol == FRAGMENT || protocol == AUTHENTICATION || protocol == DESTINATION;
}

bool may_be_udp(const struct packet *it)
{
    return it->protocol == PROTOCOL_UDP || (it->source.family == AF_INET6 && is_extension(it->protocol));
}

/* The octets of an extension header that begins here. */
static size_t extension_octets(uint8_t protocol, const uint8_t *at)
{
    return protocol == AUTHENTICATION ? ((size_t)at[1] + 2) * 4 : ((size_t)at[1] + 1) * 8;
}

static void read_fragment(struct packet *it)
{
    const uint8_t *at = it->body.octets;
    it->protocol = at[0];
    it->offset = number16(at + 2) & 0xfff8;
    it->has_more = at[3] & 1;
    it->identification = number32(at + 4);
    /* One that is a datagram of its own is none. */
    it->is_fragment = it->offset != 0 || it->has_more;
    slice_skip(&it->body, 8);
}

enum found skip_extensions(struct packet *it, const char **fault)
{
    while (!it->is_fragment) {
        uint8_t protocol = it->protocol;
        if (!is_extension(protocol))
            return FOUND;
        if (it->body.length < 8) {
            *fault = "an extension header of IPv6 is longer than its packet";
            return FOUND_BAD;
        }
        if (it->body.held < 8)
            return FOUND_CUT;
        if (protocol == FRAGMENT) {
            read_fragment(it);
            continue;
        }
        uint8_t next = it->body.octets[0];
        size_t octets = extension_octets(protocol, it->body.octets);
        if (octets > it->body.length) {
            *fault = "an extension header of IPv6 is longer than its packet";
            return FOUND_BAD;
        }
        if (!slice_skip(&it->body, octets))
            return FOUND_CUT;
        it->protocol = next;
    }
    return FOUND;
}

enum found read_ip6(struct slice from, struct packet *it, const char **fault)
{
    if (from.held < IP6_HEADER)
        return FOUND_CUT;
    const uint8_t *header = from.octets;
    *it = (struct packet){0};
    if (header[0] >> 4 != 6) {
        *fault = "the IPv6 header is wrong";
        return FOUND_BAD;
    }
    *it = (struct packet){
        .source = address_at(AF_INET6, header + 8),
        .destination = address_at(AF_INET6, header + 24),
        .header = header,
        .header_octets = IP6_HEADER,
        .protocol = header[6],
        .body = from,
    };
    limit(it, IP6_HEADER + (size_t)number16(header + 4));
    slice_skip(&it->body, IP6_HEADER);
    return skip_extensions(it, fault);
}

size_t write_header(const struct packet *it, size_t body, uint8_t header[HEADER_MOST])
{
    memcpy(header, it->header, it->header_octets);
    if (it->source.family == AF_INET6) {
        put16(header + 4, body);
        header[6] = it->protocol;
        return it->header_octets;
    }
    put16(header + 2, it->header_octets + body);
    put16(header + 6, 0);
    put16(header + 10, 0);
    put16(header + 10, (uint16_t)~sum_of(header, it->header_octets, 0));
    return it->header_octets;
}
