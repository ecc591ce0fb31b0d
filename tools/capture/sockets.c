#include "sockets.h"

#include "say.h"
#include "words.h"

#include <errno.h>
#include <net/if.h>
#include <string.h>
#include <unistd.h>

static const int on = 1, off = 0;

static void set(int socket, int level, int option, const void *value, socklen_t octets, const char *what)
{
    if (setsockopt(socket, level, option, value, octets) != 0)
        give_up(FAILED, "%s can't be set: %s", what, strerror(errno));
}

static int open_socket(const struct endpoint *at)
{
    int it = socket(at->family, SOCK_DGRAM | SOCK_CLOEXEC, 0);
    if (it < 0)
        give_up(FAILED, "there is no socket: %s", strerror(errno));
    if (at->family == AF_INET6)
        set(it, IPPROTO_IPV6, IPV6_V6ONLY, &on, sizeof on, "IPv6 alone");
    return it;
}

/* The number of an interface, 0 if none is named. */
static unsigned index_of(const char *name)
{
    unsigned index = name ? if_nametoindex(name) : 0;
    if (name && index == 0)
        give_up(FAILED, "there is no interface %s", name);
    return index;
}

static void enlarge_buffer(int socket, int octets)
{
    int given;
    socklen_t size = sizeof given;
    /* The first is allowed to the administrator, the second up to a limit of the system. The kernel counts what it needs itself too, so
       it doubles the number. */
    if (setsockopt(socket, SOL_SOCKET, SO_RCVBUFFORCE, &octets, sizeof octets) != 0)
        set(socket, SOL_SOCKET, SO_RCVBUF, &octets, sizeof octets, "--buffer");
    if (getsockopt(socket, SOL_SOCKET, SO_RCVBUF, &given, &size) == 0 && given / 2 < octets)
        say("--buffer: the kernel gives %d octets and not %d; sysctl net.core.rmem_max is the limit", given / 2, octets);
}

static void join(int socket, const struct endpoint *group, unsigned interface, const struct endpoint *source)
{
    char text[ENDPOINT_TEXT];
    int level = group->family == AF_INET ? IPPROTO_IP : IPPROTO_IPV6, answer;
    if (group->family == AF_INET)
        set(socket, level, IP_MULTICAST_ALL, &off, sizeof off, "own groups alone");
    else
        setsockopt(socket, level, IPV6_MULTICAST_ALL, &off, sizeof off); /* which kernels before 4.20 hadn't */
    if (source) {
        struct group_source_req wanted = {.gsr_interface = interface};
        endpoint_socket(group, &wanted.gsr_group);
        endpoint_socket(source, &wanted.gsr_source);
        answer = setsockopt(socket, level, MCAST_JOIN_SOURCE_GROUP, &wanted, sizeof wanted);
    } else {
        struct group_req wanted = {.gr_interface = interface};
        endpoint_socket(group, &wanted.gr_group);
        answer = setsockopt(socket, level, MCAST_JOIN_GROUP, &wanted, sizeof wanted);
    }
    if (answer == 0)
        return;
    if (errno == ENODEV && interface == 0)
        give_up(FAILED, "%s: no route leads to the group; name an interface by --interface", endpoint_text(group, text));
    give_up(FAILED, "%s: the group can't be joined: %s", endpoint_text(group, text), strerror(errno));
}

static void bind_to(int socket, const struct endpoint *at)
{
    struct sockaddr_storage address;
    char text[ENDPOINT_TEXT];
    socklen_t octets = endpoint_socket(at, &address);
    if (bind(socket, (struct sockaddr *)&address, octets) == 0)
        return;
    endpoint_text(at, text);
    if (errno == EADDRINUSE)
        give_up(FAILED, "%s: another program has the port", text);
    if (errno == EADDRNOTAVAIL)
        give_up(FAILED, "%s: no interface of this machine has the address", text);
    give_up(FAILED, "%s: it can't be received there: %s", text, strerror(errno));
}

static void read_source(const struct endpoint *at, const char *text, struct endpoint *source)
{
    if (!address_read(text, source) || source->family != at->family)
        refuse_words("--source: %s isn't an address of the same version of IP", text);
}

int receiving_socket(const struct endpoint *at, const struct ways *ways, struct endpoint *source)
{
    if (ways->source)
        read_source(at, ways->source, source);
    struct endpoint own = *at;
    unsigned interface = index_of(ways->interface);
    if (interface && own.family == AF_INET6 && !own.scope)
        own.scope = interface;
    int it = open_socket(&own);
    if (ways->buffer)
        enlarge_buffer(it, ways->buffer);
    set(it, SOL_SOCKET, SO_RXQ_OVFL, &on, sizeof on, "the count of lost datagrams");
    set(it, SOL_SOCKET, SO_TIMESTAMPNS, &on, sizeof on, "the time of datagrams");
    /* Several programs may be in a group. An address has one receiver. */
    if (is_group(&own))
        set(it, SOL_SOCKET, SO_REUSEADDR, &on, sizeof on, "a shared port");
    else if (interface)
        set(it, SOL_SOCKET, SO_BINDTODEVICE, ways->interface, (socklen_t)strlen(ways->interface) + 1, "--interface");
    bind_to(it, &own);
    if (is_group(&own))
        join(it, &own, interface ? interface : own.scope, ways->source ? source : NULL);
    return it;
}

static void set_group_ways(int socket, const struct endpoint *to, const struct ways *ways, unsigned interface)
{
    int loops = ways->is_looped, index = (int)interface;
    if (to->family == AF_INET) {
        struct ip_mreqn by = {.imr_ifindex = index};
        if (interface)
            set(socket, IPPROTO_IP, IP_MULTICAST_IF, &by, sizeof by, "--interface");
        set(socket, IPPROTO_IP, IP_MULTICAST_LOOP, &loops, sizeof loops, "--no-loop");
        if (ways->hops)
            set(socket, IPPROTO_IP, IP_MULTICAST_TTL, &ways->hops, sizeof ways->hops, "--ttl");
        return;
    }
    if (interface)
        set(socket, IPPROTO_IPV6, IPV6_MULTICAST_IF, &index, sizeof index, "--interface");
    set(socket, IPPROTO_IPV6, IPV6_MULTICAST_LOOP, &loops, sizeof loops, "--no-loop");
    if (ways->hops)
        set(socket, IPPROTO_IPV6, IPV6_MULTICAST_HOPS, &ways->hops, sizeof ways->hops, "--ttl");
}

static void set_own_ways(int socket, const struct endpoint *to, const struct ways *ways, unsigned interface)
{
    if (interface)
        set(socket, SOL_SOCKET, SO_BINDTODEVICE, ways->interface, (socklen_t)strlen(ways->interface) + 1, "--interface");
    if (ways->hops && to->family == AF_INET)
        set(socket, IPPROTO_IP, IP_TTL, &ways->hops, sizeof ways->hops, "--ttl");
    else if (ways->hops)
        set(socket, IPPROTO_IPV6, IPV6_UNICAST_HOPS, &ways->hops, sizeof ways->hops, "--ttl");
}

int sending_socket(const struct endpoint *to, const struct ways *ways)
{
    struct sockaddr_storage address;
    char text[ENDPOINT_TEXT];
    struct endpoint other = *to;
    unsigned interface = index_of(ways->interface);
    if (interface && other.family == AF_INET6 && !other.scope)
        other.scope = interface;
    int it = open_socket(&other);
    set(it, SOL_SOCKET, SO_BROADCAST, &on, sizeof on, "sending to a whole network");
    if (is_group(&other))
        set_group_ways(it, &other, ways, interface);
    else
        set_own_ways(it, &other, ways, interface);
    socklen_t octets = endpoint_socket(&other, &address);
    if (connect(it, (struct sockaddr *)&address, octets) != 0)
        give_up(FAILED, "%s: nothing can be sent there: %s", endpoint_text(&other, text), strerror(errno));
    return it;
}
