/*
 * The stores of repeated requests: one for each peer, whoever asks as that peer. They stand after the
 * table in one piece of memory, peer 1's first, so they go to the disk with the table in one write.
 * With --no-repeats there are none.
 */
#ifndef STORES_H
#define STORES_H

#include <stddef.h>
#include <stdint.h>

#include "options.h"
#include "pfcp_session.h"

/* The stores of both peers. */
enum { STORES_ROOM = PFCP_PEERS * PFCP_STORE_LENGTH };

/* The number of octets of the stores that the options ask for. */
static inline size_t stores_length(const struct options *options)
{
    return options->repeats ? STORES_ROOM : 0;
}

/* Makes these stores, both of them empty. */
void stores_make(uint8_t *stores, const struct options *options);

/* The store of a peer, 1 or 2. */
uint8_t *stores_at(uint8_t *stores, uint32_t peer);

#endif
