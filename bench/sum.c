/* Compiled twice, with SUM as the name that pass.h gives. */
#include "pass.h"

uint32_t SUM(const uint8_t *octets, size_t length)
{
    uint32_t total = 0;

    for (size_t i = 0; i < length; i++)
        total += octets[i];
    return total;
}
