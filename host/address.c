#include "address.h"

#include <arpa/inet.h>
#include <stdio.h>
#include <string.h>

bool address_read(struct address *address, const char *text)
{
    struct sockaddr_in *v4 = (struct sockaddr_in *)&address->socket;
    struct sockaddr_in6 *v6 = (struct sockaddr_in6 *)&address->socket;

    memset(address, 0, sizeof *address);
    if (inet_pton(AF_INET, text, &v4->sin_addr) == 1) {
        v4->sin_family = AF_INET;
        address->length = sizeof *v4;
        return true;
    }
    memset(address, 0, sizeof *address);
    if (inet_pton(AF_INET6, text, &v6->sin6_addr) == 1) {
        v6->sin6_family = AF_INET6;
        address->length = sizeof *v6;
        return true;
    }
    return false;
}

bool address_number(const char *text, uint32_t *number)
{
    struct in_addr address;

    if (inet_pton(AF_INET, text, &address) != 1)
        return false;
    *number = ntohl(address.s_addr);
    return true;
}

/* The port has the same place in both kinds of address. */
void address_set_port(struct address *address, uint16_t port)
{
    ((struct sockaddr_in *)&address->socket)->sin_port = htons(port);
}

bool address_is_ipv4(const struct address *address)
{
    const struct sockaddr_in6 *v6 = (const struct sockaddr_in6 *)&address->socket;

    return address->socket.ss_family == AF_INET || IN6_IS_ADDR_V4MAPPED(&v6->sin6_addr);
}

/* The address's octets: 4 where it is IPv4, else 16. */
static const uint8_t *octets_of(const struct address *address)
{
    const struct sockaddr_in *v4 = (const struct sockaddr_in *)&address->socket;
    const struct sockaddr_in6 *v6 = (const struct sockaddr_in6 *)&address->socket;

    if (address->socket.ss_family == AF_INET)
        return (const uint8_t *)&v4->sin_addr;
    return v6->sin6_addr.s6_addr + (address_is_ipv4(address) ? 12 : 0);
}

const char *address_alone(const struct address *address, char *room, size_t size)
{
    int family = address_is_ipv4(address) ? AF_INET : AF_INET6;

    return inet_ntop(family, octets_of(address), room, (socklen_t)size) ? room : "?";
}

const char *address_text(const struct address *address, char *room, size_t size)
{
    char text[INET6_ADDRSTRLEN];
    bool v4 = address_is_ipv4(address);
    const struct sockaddr_in *port = (const struct sockaddr_in *)&address->socket;

    if (!inet_ntop(v4 ? AF_INET : AF_INET6, octets_of(address), text, sizeof text))
        return "?";
    snprintf(room, size, v4 ? "%s:%u" : "[%s]:%u", text, (unsigned)ntohs(port->sin_port));
    return room;
}

bool address_same(const struct address *one, const struct address *other)
{
    bool v4 = address_is_ipv4(one);

    return v4 == address_is_ipv4(other) &&
           memcmp(octets_of(one), octets_of(other), v4 ? 4 : 16) == 0;
}

bool address_is_any(const struct address *address)
{
    static const uint8_t zeros[16];

    return memcmp(octets_of(address), zeros, address_is_ipv4(address) ? 4 : 16) == 0;
}
