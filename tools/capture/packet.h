/* IP packets: a header, and a body that may be a fragment. */
#ifndef PACKET_H
#define PACKET_H

#include "endpoint.h"
#include "octets.h"

enum { PROTOCOL_UDP = 17, HEADER_MOST = 60, PACKET_MOST = 65535 + 40 };

struct packet {
    struct endpoint source, destination; /* their ports are 0 */
    const uint8_t *header; /* as it stands in the frame, without the extension headers of IPv6 */
    size_t header_octets;
    uint8_t protocol; /* of the body */
    struct slice body;
    const char *cut; /* why the body isn't whole, if it isn't */
    bool is_fragment, has_more;
    uint32_t identification;
    size_t offset; /* of the body, in octets */
};

enum found { FOUND, FOUND_OTHER, FOUND_CUT, FOUND_BAD };

/* Reads the packet that begins here. FOUND_CUT: the headers aren't whole in the capture. FOUND_BAD: *fault says what is wrong,
   and the packet has no header if it is none of this version. checks_sum: whether the checksum of an IPv4 header is looked at. */
enum found read_ip4(struct slice from, bool checks_sum, struct packet *it, const char **fault);
enum found read_ip6(struct slice from, struct packet *it, const char **fault);

/* Whether the body is UDP, or an extension header of IPv6 behind which UDP may follow. */
bool may_be_udp(const struct packet *it);

/* Goes on past the extension headers of IPv6 that begin a body, up to a fragment or another protocol. */
enum found skip_extensions(struct packet *it, const char **fault);

/* Writes a header for a body of so many octets that is no fragment, with nothing between them. Returns its octets. */
size_t write_header(const struct packet *it, size_t body, uint8_t header[HEADER_MOST]);

#endif
