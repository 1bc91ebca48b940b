/* The SHA-256 of octets, by nettle. */
#ifndef DIGEST_H
#define DIGEST_H

#include <stddef.h>
#include <stdint.h>

/* The octets of a digest, and room for it in hexadecimal. */
enum { DIGEST_OCTETS = 32, DIGEST_WORDS = 2 * DIGEST_OCTETS + 1 };

void digest(const uint8_t *octets, size_t length, uint8_t sum[DIGEST_OCTETS]);

/* The same in hexadecimal. */
const char *digest_in_words(const uint8_t *octets, size_t length, char room[DIGEST_WORDS]);

#endif
