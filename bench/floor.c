#include "pass.h"

uint32_t floor_by_vector(const uint8_t *octets, size_t length)
{
    uint8_t all = 0;

    for (size_t i = 0; i < length; i++)
        all |= octets[i];
    return all;
}
