/* Addresses with ports, of IPv4 and IPv6. */
#ifndef ENDPOINT_H
#define ENDPOINT_H

#include <netinet/in.h>
#include <stdbool.h>
#include <stdint.h>
#include <sys/socket.h>

enum { ENDPOINT_TEXT = 80 };

struct endpoint {
    int family; /* AF_INET or AF_INET6 */
    uint8_t address[16]; /* the first 4 of them for IPv4 */
    uint16_t port;
    uint32_t scope; /* the index of the interface of a link-local IPv6 address, or 0 */
};

/* How many octets an address of this family has. */
size_t address_octets(int family);

/* As 10.0.0.1:8600 or [ff02::1]:8600, or the address alone if the port is 0. */
const char *endpoint_text(const struct endpoint *it, char text[ENDPOINT_TEXT]);

/* Reads that form; false if the text hasn't it. Names aren't looked up. */
bool endpoint_read(const char *text, struct endpoint *it);

/* Reads an address alone; the port is 0. */
bool address_read(const char *text, struct endpoint *it);

bool same_address(const struct endpoint *one, const struct endpoint *other);
bool same_endpoint(const struct endpoint *one, const struct endpoint *other);
bool is_group(const struct endpoint *it);

/* To and from the system's form. */
socklen_t endpoint_socket(const struct endpoint *it, struct sockaddr_storage *address);
struct endpoint endpoint_of(const struct sockaddr_storage *address);

#endif
