/* Addresses of control planes and of the unit: as text, and whether two are the same. */
#ifndef ADDRESS_H
#define ADDRESS_H

#include <netinet/in.h>
#include <stdbool.h>
#include <stdint.h>
#include <sys/socket.h>

/* Room for "[ADDRESS]:PORT". */
enum { ADDRESS_ROOM = INET6_ADDRSTRLEN + 10 };

/* An IPv4 or IPv6 address with a port, and the length that socket calls want. */
struct address {
    struct sockaddr_storage socket;
    socklen_t length;
};

/* Reads an address, whose port is then 0; gives false where the text is none. */
bool address_read(struct address *address, const char *text);

/* Reads an IPv4 address as a number; gives false where the text is none. */
bool address_number(const char *text, uint32_t *number);

/* Gives an address a port. */
void address_set_port(struct address *address, uint16_t port);

/* The address with its port. An IPv4 address that an IPv6 socket reports is shown as IPv4. */
const char *address_text(const struct address *address, char *room, size_t size);

/* The address without its port. */
const char *address_alone(const struct address *address, char *room, size_t size);

/* Whether two addresses are the same, whatever the ports. */
bool address_same(const struct address *one, const struct address *other);

/* Whether the address is IPv4, also as an IPv6 socket reports it; and whether it is the one that
   stands for every address of the unit. */
bool address_is_ipv4(const struct address *address);
bool address_is_any(const struct address *address);

#endif
