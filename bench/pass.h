/* Plain passes over octets, to compare a check with. */
#ifndef PASS_H
#define PASS_H

#include <stddef.h>
#include <stdint.h>

/* Their sum: sum.c, compiled octet by octet (-O2) and with vector instructions (-O3). */
uint32_t sum_by_octet(const uint8_t *octets, size_t length);
uint32_t sum_by_vector(const uint8_t *octets, size_t length);

/* The least that a check could do: every octet read once, with vector instructions (-O3). */
uint32_t floor_by_vector(const uint8_t *octets, size_t length);

#endif
