#include "digest.h"

#include <nettle/sha2.h>
#include <stdio.h>

#include "wipe.h"

void digest(const uint8_t *octets, size_t length, uint8_t sum[DIGEST_OCTETS])
{
    struct sha256_ctx context;

    sha256_init(&context);
    sha256_update(&context, length, octets);
    sha256_digest(&context, DIGEST_OCTETS, sum);
    wipe(&context, sizeof context);
}

const char *digest_in_words(const uint8_t *octets, size_t length, char room[DIGEST_WORDS])
{
    uint8_t sum[DIGEST_OCTETS];

    digest(octets, length, sum);
    for (size_t i = 0; i < sizeof sum; i++)
        snprintf(room + 2 * i, 3, "%02x", sum[i]);
    return room;
}
