#include "links.h"

/* Numbers of link types. Raw IP has three: the file's, and two that libpcap makes of it. */
enum {
    LINK_NULL = 0,
    LINK_ETHERNET = 1,
    LINK_RAW_LINUX = 12,
    LINK_RAW_BSD = 14,
    LINK_RAW = 101,
    LINK_LOOP = 108,
    LINK_COOKED = 113,
    LINK_IP4 = 228,
    LINK_IP6 = 229,
    LINK_COOKED_2 = 276,
};

enum { TYPE_IP4 = 0x0800, TYPE_IP6 = 0x86dd };

static bool is_tag(uint16_t type)
{
    return type == 0x8100 || type == 0x88a8 || type == 0x9100 || type == 0x9200;
}

bool link_is_read(int link)
{
    switch (link) {
    case LINK_NULL:
    case LINK_ETHERNET:
    case LINK_RAW_LINUX:
    case LINK_RAW_BSD:
    case LINK_RAW:
    case LINK_LOOP:
    case LINK_COOKED:
    case LINK_IP4:
    case LINK_IP6:
    case LINK_COOKED_2:
        return true;
    default:
        return false;
    }
}

/* A header of `count` octets in which the type stands at `at`, and any number of VLAN tags behind it. */
static enum network skip_typed(struct slice *frame, size_t count, size_t at)
{
    if (frame->held < count)
        return NETWORK_CUT;
    uint16_t type = number16(frame->octets + at);
    slice_skip(frame, count);
    while (is_tag(type)) {
        if (frame->held < 4)
            return NETWORK_CUT;
        type = number16(frame->octets + 2);
        slice_skip(frame, 4);
    }
    return type == TYPE_IP4 ? NETWORK_IP4 : type == TYPE_IP6 ? NETWORK_IP6 : NETWORK_OTHER;
}

/* Four octets with the number of an address family, in the order of the machine that captured. */
static enum network skip_family(struct slice *frame)
{
    if (frame->held < 4)
        return NETWORK_CUT;
    const uint8_t *at = frame->octets;
    unsigned family = at[0] | at[1] ? at[0] | (unsigned)at[1] << 8 : number16(at + 2);
    slice_skip(frame, 4);
    switch (family) {
    case 2:
        return NETWORK_IP4;
    case 10: /* Linux, NetBSD and OpenBSD, FreeBSD, macOS */
    case 24:
    case 28:
    case 30:
        return NETWORK_IP6;
    default:
        return NETWORK_OTHER;
    }
}

static enum network version_of(const struct slice *frame)
{
    if (frame->held == 0)
        return NETWORK_CUT;
    uint8_t version = frame->octets[0] >> 4;
    return version == 4 ? NETWORK_IP4 : version == 6 ? NETWORK_IP6 : NETWORK_OTHER;
}

enum network link_skip(int link, struct slice *frame)
{
    switch (link) {
    case LINK_ETHERNET:
        return skip_typed(frame, 14, 12);
    case LINK_COOKED:
        return skip_typed(frame, 16, 14);
    case LINK_COOKED_2:
        return skip_typed(frame, 20, 0);
    case LINK_NULL:
    case LINK_LOOP:
        return skip_family(frame);
    default:
        return version_of(frame);
    }
}
