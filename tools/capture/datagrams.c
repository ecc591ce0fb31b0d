#include "datagrams.h"

#include "capture.h"
#include "filter.h"
#include "links.h"
#include "progress.h"
#include "say.h"
#include "stamp.h"
#include "udp.h"

#include <errno.h>
#include <stdio.h>
#include <string.h>
#include <unistd.h>

/* A program reads one row of captures, so this is one. */
static struct {
    struct wanted wanted;
    struct filter *filter;
    struct fragments *fragments;
    struct capture *capture; /* that is being read, or NULL */
    size_t number; /* of the captures that were opened */
    struct place place; /* of the last frame */
    int unread_link; /* the link type that was last said not to be read */
} now;

/* Says that something at a place is left out. Frames are numbered from 1, as Wireshark numbers them. */
static void say_at(const struct place *place, const char *about, const char *reason)
{
    char time[STAMP_TEXT];
    say_left_out("%s: frame %llu %s%s: left out: %s", place->capture, (unsigned long long)place->frame, stamp_text(place->time, time), about,
                 reason);
}

static void say_between(const struct place *place, const struct endpoint *source, const struct endpoint *destination, const char *reason)
{
    char from[ENDPOINT_TEXT], to[ENDPOINT_TEXT], about[2 * ENDPOINT_TEXT + 8];
    snprintf(about, sizeof about, " %s > %s", endpoint_text(source, from), endpoint_text(destination, to));
    say_at(place, about, reason);
}

static void say_packet(const struct place *place, const struct packet *packet, const char *reason)
{
    if (!packet->header) {
        say_at(place, "", reason);
        return;
    }
    struct endpoint source = packet->source, destination = packet->destination;
    if (packet->protocol == PROTOCOL_UDP)
        read_ports(&packet->body, &source, &destination);
    say_between(place, &source, &destination, reason);
}

void datagram_left_out(const struct datagram *it, const char *reason)
{
    say_between(&it->place, &it->source, &it->destination, reason);
}

/* The octets of a packet as a filter is to see them: the IP header, and the body right behind it. */
static struct slice joined(const struct packet *packet)
{
    static uint8_t room[PACKET_MOST];
    bool is_fragmented = packet->source.family == AF_INET && (number16(packet->header + 6) & 0x3fff) != 0;
    size_t octets = packet->header_octets + packet->body.held, length = packet->header_octets + packet->body.length;
    if (!is_fragmented && packet->body.octets == packet->header + packet->header_octets)
        return (struct slice){packet->header, octets, length};
    octets = octets < sizeof room ? octets : sizeof room;
    size_t header = write_header(packet, packet->body.length, room);
    memcpy(room + header, packet->body.octets, octets - header);
    return (struct slice){room, octets, length};
}

/* Whether the filter takes it, or can't be asked: the ports aren't there. */
static bool is_taken(const struct packet *packet)
{
    if (!now.filter || !packet->header || packet->body.held < UDP_HEADER)
        return true;
    struct slice octets = joined(packet);
    return filter_takes(now.filter, &octets);
}

/* What isn't UDP isn't said; nor is what the filter doesn't take. */
static void refuse(const struct place *place, const struct packet *packet, const char *reason)
{
    bool is_udp = packet->protocol == PROTOCOL_UDP;
    if (!packet->header || (is_udp ? is_taken(packet) : may_be_udp(packet)))
        say_packet(place, packet, reason);
}

static void refuse_fragments(const struct incomplete *it)
{
    struct packet packet = it->packet;
    const char *fault;
    packet.is_fragment = false;
    bool is_known = packet.body.held > 0;
    if (is_known && packet.source.family == AF_INET6)
        is_known = skip_extensions(&packet, &fault) == FOUND;
    if (is_known)
        refuse(&it->place, &packet, it->reason);
    else /* no filter knows its ports */
        say_packet(&it->place, &it->packet, it->reason);
}

/* The packet of a frame, whole: with its fragments, if it is the last of them. */
static bool packet_of(const struct frame *frame, struct packet *packet)
{
    struct slice octets = frame->octets;
    const char *fault = NULL;
    enum found found = FOUND_OTHER;
    *packet = (struct packet){0};
    switch (link_skip(frame->link, &octets)) {
    case NETWORK_IP4:
        found = read_ip4(octets, now.wanted.checks_sums, packet, &fault);
        break;
    case NETWORK_IP6:
        found = read_ip6(octets, packet, &fault);
        break;
    case NETWORK_CUT:
        found = FOUND_CUT;
        break;
    case NETWORK_OTHER:
        break;
    }
    if (found == FOUND && packet->is_fragment) {
        if (!may_be_udp(packet) || !fragments_add(now.fragments, &now.place, packet))
            return false;
        found = packet->source.family == AF_INET6 ? skip_extensions(packet, &fault) : FOUND;
    }
    if (found == FOUND_CUT)
        say_at(&now.place, "",
               frame->octets.held < frame->octets.length ? "it is cut by the snapshot length, before its headers end" : "it ends before its headers do");
    else if (found == FOUND_BAD)
        refuse(&now.place, packet, fault);
    return found == FOUND;
}

/* The datagram of a frame, if it has or completes one that is wanted. */
static bool datagram_of(const struct frame *frame, struct datagram *it)
{
    struct packet packet;
    struct slice payload;
    if (!packet_of(frame, &packet) || packet.is_fragment || packet.protocol != PROTOCOL_UDP || !is_taken(&packet))
        return false;
    const char *fault = read_udp(&packet, now.wanted.checks_sums, &payload);
    if (fault) {
        say_packet(&now.place, &packet, fault);
        return false;
    }
    *it = (struct datagram){now.place, packet.source, packet.destination, payload.octets, payload.held};
    return true;
}

/* Says, once for each run of frames of that link type, that they aren't read. */
static bool is_read(int link)
{
    if (link_is_read(link))
        return true;
    if (link != now.unread_link)
        say_left_out("%s: from frame %llu on: left out: frames of link type %d aren't read", now.place.capture, (unsigned long long)now.place.frame,
                     link);
    now.unread_link = link;
    return false;
}

/* Opens the next capture that can be read. */
static bool open_next(void)
{
    while (!now.capture && now.wanted.captures[now.number]) {
        now.place = (struct place){.capture = now.wanted.captures[now.number]};
        now.capture = capture_open(now.wanted.captures[now.number++]);
        now.unread_link = -1;
    }
    return now.capture != NULL;
}

void datagrams_begin(const struct wanted *wanted)
{
    for (char **path = wanted->captures; *path; path++)
        if (strcmp(*path, "-") != 0 && access(*path, R_OK) != 0)
            give_up(FAILED, "%s: no capture is read: %s", *path, strerror(errno));
    now.wanted = *wanted;
    now.filter = filter_new(wanted->filter);
    now.fragments = fragments_new(refuse_fragments);
    if (!now.fragments)
        give_up(FAILED, "there is no memory left");
}

bool datagrams_next(struct datagram *it)
{
    struct frame frame;
    while (open_next()) {
        if (!capture_next(now.capture, &frame)) {
            capture_close(now.capture);
            now.capture = NULL;
            continue;
        }
        now.place.frame++;
        now.place.time = frame.time;
        progress_show(now.place.capture, capture_read(now.capture), capture_octets(now.capture));
        if (is_read(frame.link) && datagram_of(&frame, it))
            return true;
    }
    fragments_end(now.fragments);
    return false;
}

void datagrams_end(void)
{
    if (now.capture)
        capture_close(now.capture);
    fragments_free(now.fragments);
    filter_free(now.filter);
    progress_end();
}
