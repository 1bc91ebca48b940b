/* A UDP socket of the unit: it answers from the address that it was asked on. */
#ifndef DATAGRAMS_H
#define DATAGRAMS_H

#include <stdbool.h>
#include <stddef.h>
#include <stdint.h>
#include <sys/types.h>

#include "address.h"

/* The receive buffer that is asked for: some thousand requests that come at once. */
enum { WANTED_BUFFER = 4 << 20, LOCAL_ROOM = 64 };

/* Who sent a datagram, on which address it came, and how many the system has dropped until then. */
struct datagram {
    struct address sender;
    union {
        uint8_t octets[LOCAL_ROOM];
        size_t aligned;
    } local; /* the control data that makes an answer leave from that address */
    size_t local_length;
    uint32_t dropped;
};

/* Opens a socket with a raised receive buffer and binds it; buffer gets the octets that the system
   gave. Gives -1 and errno where it fails. */
int datagrams_open(const struct address *listen, size_t *buffer);

/* Receives a datagram if there is one; gives its length, or -1. */
ssize_t datagrams_receive(int socket, struct datagram *from, uint8_t *room, size_t size);

/* Answers a datagram without waiting; gives 0 or an error number. */
int datagrams_answer(int socket, struct datagram *to, const uint8_t *octets, size_t length);

#endif
