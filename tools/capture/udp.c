#include "udp.h"

#include "sums.h"


/* The sum of the addresses, the protocol and the length, which the checksum of UDP covers too. */
static uint16_t pseudo_sum(const struct packet *packet, size_t length)
{
    size_t octets = address_octets(packet->source.family);
    uint8_t rest[4] = {0, PROTOCOL_UDP, (uint8_t)(length >> 8), (uint8_t)length};
    uint16_t sum = sum_of(packet->source.address, octets, 0);
    sum = sum_of(packet->destination.address, octets, sum);
    return sum_of(rest, sizeof rest, sum);
}

static const char *sum_fault(const struct packet *packet, size_t length)
{
    const uint8_t *udp = packet->body.octets;
    uint16_t sum = number16(udp + 6), pseudo = pseudo_sum(packet, length);
    if (sum == 0)
        return packet->source.family == AF_INET ? NULL : "it has no checksum, which IPv6 asks for";
    if (sum_of(udp, length, pseudo) == 0xffff)
        return NULL;
    if (sum == pseudo)
        return "its checksum wasn't filled in yet, as it was captured where it was sent (--no-checksums takes it)";
    return "its checksum is wrong";
}

void read_ports(const struct slice *body, struct endpoint *source, struct endpoint *destination)
{
    if (body->held < 4)
        return;
    source->port = number16(body->octets);
    destination->port = number16(body->octets + 2);
}

const char *read_udp(struct packet *packet, bool checks_sum, struct slice *payload)
{
    const struct slice *body = &packet->body;
    read_ports(body, &packet->source, &packet->destination);
    if (body->length < UDP_HEADER)
        return "it is shorter than the header of UDP";
    if (body->held < UDP_HEADER)
        return packet->cut;
    size_t length = number16(body->octets + 4);
    if (length < UDP_HEADER || length > body->length)
        return "its length in the header of UDP is wrong";
    if (length > body->held)
        return packet->cut;
    const char *fault = checks_sum ? sum_fault(packet, length) : NULL;
    *payload = (struct slice){body->octets + UDP_HEADER, length - UDP_HEADER, length - UDP_HEADER};
    return fault;
}
