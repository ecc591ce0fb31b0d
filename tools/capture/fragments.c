#include "fragments.h"

#include "stamp.h"

#include <stdlib.h>
#include <string.h>

/* How many datagrams may be incomplete at once, and for how long, by the times of the capture. Linux waits as long. */
enum { ASSEMBLIES = 256, BODY_MOST = 65536, UNITS = BODY_MOST / 8 };
static const long long longest_wait = 30LL * 1000000000;

struct assembly {
    bool is_open;
    struct place place;
    struct packet packet; /* of the first fragment if it is there, else of the one that came first */
    uint8_t header[HEADER_MOST];
    bool has_first;
    size_t total; /* octets of the body; 0 until the last fragment is there */
    size_t held; /* octets of it that are there */
    uint8_t has[UNITS]; /* whether these 8 octets are there */
    uint8_t body[BODY_MOST];
};

struct fragments {
    incomplete_told tell;
    struct assembly open[ASSEMBLIES];
};

struct fragments *fragments_new(incomplete_told tell)
{
    /* Pages that no datagram used take no memory. */
    struct fragments *it = calloc(1, sizeof *it);
    if (it)
        it->tell = tell;
    return it;
}

void fragments_free(struct fragments *it)
{
    free(it);
}

static void begin(struct assembly *it, const struct place *place, const struct packet *packet)
{
    memset(it->has, 0, sizeof it->has);
    it->is_open = true;
    it->place = *place;
    it->packet = *packet;
    memcpy(it->header, packet->header, packet->header_octets);
    it->packet.header = it->header;
    it->has_first = false;
    it->total = it->held = 0;
}

static void drop(struct fragments *all, struct assembly *it, const char *reason)
{
    struct incomplete told = {.place = it->place, .packet = it->packet, .reason = reason};
    size_t units = 0;
    while (it->has_first && units < UNITS && it->has[units])
        units++;
    size_t held = it->total && units * 8 > it->total ? it->total : units * 8;
    told.packet.body = (struct slice){it->body, held, it->total ? it->total : held};
    it->is_open = false;
    all->tell(&told);
}

static bool belongs(const struct assembly *it, const struct packet *packet)
{
    return it->is_open && it->packet.identification == packet->identification && same_address(&it->packet.source, &packet->source) &&
           same_address(&it->packet.destination, &packet->destination) &&
           (packet->source.family == AF_INET6 || it->packet.protocol == packet->protocol);
}

/* The datagram of a fragment: one that is open, or a new one, for which the oldest has to go if there is no other place. */
static struct assembly *assembly_of(struct fragments *all, const struct place *place, const struct packet *packet)
{
    struct assembly *free_one = NULL, *oldest = NULL, *found = NULL;
    for (size_t at = 0; at < ASSEMBLIES; at++) {
        struct assembly *it = &all->open[at];
        if (it->is_open && llabs(stamp_between(it->place.time, place->time)) > longest_wait)
            drop(all, it, "a fragment without its others");
        if (belongs(it, packet))
            found = it;
        else if (!it->is_open)
            free_one = free_one ? free_one : it;
        else if (!oldest || stamp_between(it->place.time, oldest->place.time) > 0)
            oldest = it;
    }
    if (found)
        return found;
    if (!free_one) {
        drop(all, oldest, "a fragment without its others, and too many datagrams are as incomplete");
        free_one = oldest;
    }
    begin(free_one, place, packet);
    return free_one;
}

/* Whether a fragment agrees with those that are there: the same octets where it repeats some, and the same end. */
static bool agrees(const struct assembly *it, const struct packet *packet)
{
    size_t begin = packet->offset, count = packet->body.length, end = begin + count;
    if (it->total && (packet->has_more ? end > it->total : end != it->total))
        return false;
    if (!it->total && !packet->has_more)
        for (size_t at = (end + 7) / 8; at < UNITS; at++)
            if (it->has[at])
                return false;
    for (size_t at = 0; at < count; at += 8) {
        size_t octets = count - at < 8 ? count - at : 8;
        if (it->has[(begin + at) / 8] && memcmp(it->body + begin + at, packet->body.octets + at, octets) != 0)
            return false;
    }
    return true;
}

static void put(struct assembly *it, const struct packet *packet)
{
    size_t begin = packet->offset, count = packet->body.length;
    for (size_t at = 0; at < count; at += 8) {
        size_t octets = count - at < 8 ? count - at : 8;
        if (it->has[(begin + at) / 8])
            continue;
        memcpy(it->body + begin + at, packet->body.octets + at, octets);
        it->has[(begin + at) / 8] = 1;
        it->held += octets;
    }
    if (!packet->has_more)
        it->total = begin + count;
    if (begin == 0) {
        it->packet = *packet;
        memcpy(it->header, packet->header, packet->header_octets);
        it->packet.header = it->header;
        it->has_first = true;
    }
}

/* Whether the fragment can be one: whole units of 8 octets but for the last, within the longest datagram. */
static const char *fault_of(const struct packet *packet)
{
    if (packet->body.held < packet->body.length)
        return "a fragment that is cut by the snapshot length";
    if (packet->has_more && packet->body.length % 8 != 0)
        return "a fragment whose octets aren't a multiple of 8";
    if (packet->body.length == 0)
        return "a fragment without octets";
    if (packet->offset + packet->body.length > 65535)
        return "a fragment beyond the longest datagram";
    return NULL;
}

bool fragments_add(struct fragments *all, const struct place *place, struct packet *packet)
{
    const char *fault = fault_of(packet);
    if (fault) {
        struct incomplete told = {.place = *place, .packet = *packet, .reason = fault};
        if (packet->offset != 0)
            told.packet.body.held = 0;
        all->tell(&told);
        return false;
    }
    struct assembly *it = assembly_of(all, place, packet);
    if (!agrees(it, packet)) {
        drop(all, it, "a fragment that a later one of the same number contradicts");
        begin(it, place, packet);
    }
    put(it, packet);
    if (!it->total || it->held != it->total)
        return false;
    *packet = it->packet;
    packet->is_fragment = packet->has_more = false;
    packet->offset = 0;
    packet->body = (struct slice){it->body, it->total, it->total};
    it->is_open = false;
    return true;
}

void fragments_end(struct fragments *all)
{
    for (size_t at = 0; at < ASSEMBLIES; at++)
        if (all->open[at].is_open)
            drop(all, &all->open[at], "a fragment without its others");
}
