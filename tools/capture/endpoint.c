#include "endpoint.h"

#include <arpa/inet.h>
#include <net/if.h>
#include <netdb.h>
#include <stdio.h>
#include <stdlib.h>
#include <string.h>

size_t address_octets(int family)
{
    return family == AF_INET ? 4 : 16;
}

const char *endpoint_text(const struct endpoint *it, char text[ENDPOINT_TEXT])
{
    char address[INET6_ADDRSTRLEN] = "?", zone[IF_NAMESIZE + 1] = "";
    inet_ntop(it->family, it->address, address, sizeof address);
    if (it->scope && if_indextoname(it->scope, zone + 1))
        zone[0] = '%';
    if (it->port == 0)
        snprintf(text, ENDPOINT_TEXT, "%s%s", address, zone);
    else
        snprintf(text, ENDPOINT_TEXT, it->family == AF_INET ? "%s%s:%u" : "[%s%s]:%u", address, zone, it->port);
    return text;
}

bool address_read(const char *text, struct endpoint *it)
{
    struct addrinfo wanted = {.ai_flags = AI_NUMERICHOST, .ai_socktype = SOCK_DGRAM}, *found;
    struct sockaddr_storage address = {0};
    if (getaddrinfo(text, NULL, &wanted, &found) != 0)
        return false;
    memcpy(&address, found->ai_addr, found->ai_addrlen);
    freeaddrinfo(found);
    *it = endpoint_of(&address);
    return true;
}

/* A whole number of decimal digits, 1 to 65535; 0 if it is none. */
static uint16_t port_of(const char *text)
{
    char *end;
    unsigned long number = strtoul(text, &end, 10);
    return *text >= '0' && *text <= '9' && *end == '\0' && number <= 65535 ? (uint16_t)number : 0;
}

bool endpoint_read(const char *text, struct endpoint *it)
{
    char host[ENDPOINT_TEXT];
    const char *colon = strrchr(text, ':');
    size_t count = colon ? (size_t)(colon - text) : 0;
    bool is_bracketed = count > 2 && text[0] == '[' && colon[-1] == ']';
    if (count == 0 || count >= sizeof host)
        return false;
    if (is_bracketed)
        snprintf(host, sizeof host, "%.*s", (int)count - 2, text + 1);
    else
        snprintf(host, sizeof host, "%.*s", (int)count, text);
    if (!address_read(host, it) || (it->family == AF_INET6) != is_bracketed)
        return false;
    it->port = port_of(colon + 1);
    return it->port != 0;
}

bool same_address(const struct endpoint *one, const struct endpoint *other)
{
    return one->family == other->family && memcmp(one->address, other->address, address_octets(one->family)) == 0;
}

bool same_endpoint(const struct endpoint *one, const struct endpoint *other)
{
    return same_address(one, other) && one->port == other->port && one->scope == other->scope;
}

bool is_group(const struct endpoint *it)
{
    return it->family == AF_INET ? it->address[0] >> 4 == 0xe : it->address[0] == 0xff;
}

socklen_t endpoint_socket(const struct endpoint *it, struct sockaddr_storage *address)
{
    memset(address, 0, sizeof *address);
    if (it->family == AF_INET) {
        struct sockaddr_in *four = (struct sockaddr_in *)address;
        four->sin_family = AF_INET;
        four->sin_port = htons(it->port);
        memcpy(&four->sin_addr, it->address, 4);
        return sizeof *four;
    }
    struct sockaddr_in6 *six = (struct sockaddr_in6 *)address;
    six->sin6_family = AF_INET6;
    six->sin6_port = htons(it->port);
    six->sin6_scope_id = it->scope;
    memcpy(&six->sin6_addr, it->address, 16);
    return sizeof *six;
}

struct endpoint endpoint_of(const struct sockaddr_storage *address)
{
    struct endpoint it = {.family = address->ss_family};
    if (it.family == AF_INET) {
        const struct sockaddr_in *four = (const struct sockaddr_in *)address;
        it.port = ntohs(four->sin_port);
        memcpy(it.address, &four->sin_addr, 4);
    } else {
        const struct sockaddr_in6 *six = (const struct sockaddr_in6 *)address;
        it.port = ntohs(six->sin6_port);
        it.scope = six->sin6_scope_id;
        memcpy(it.address, &six->sin6_addr, 16);
    }
    return it;
}
