#include "stores.h"

uint8_t *stores_at(uint8_t *stores, uint32_t peer)
{
    return stores + (peer - 1) * PFCP_STORE_LENGTH;
}

void stores_make(uint8_t *stores, const struct options *options)
{
    for (uint32_t peer = 1; options->repeats && peer <= PFCP_PEERS; peer++)
        pfcp_make_store(stores_at(stores, peer), PFCP_STORE_LENGTH);
}
