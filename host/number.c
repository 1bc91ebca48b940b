#include "number.h"

#include <errno.h>
#include <stdlib.h>
#include <string.h>

/* A number of digits alone, in this base. */
static bool read_in(const char *text, int base, uint64_t least, uint64_t most, uint64_t *number)
{
    static const char digits[] = "0123456789abcdefABCDEF";
    char *end;

    if (text[0] == '\0' || strspn(text, digits) != strlen(text))
        return false;
    errno = 0;
    unsigned long long value = strtoull(text, &end, base);
    if (errno != 0 || *end != '\0' || value < least || value > most)
        return false;
    *number = value;
    return true;
}

bool read_number(const char *text, uint64_t least, uint64_t most, uint64_t *number)
{
    return read_in(text, 10, least, most, number);
}

bool read_any_number(const char *text, uint64_t least, uint64_t most, uint64_t *number)
{
    if (strncmp(text, "0x", 2) == 0 || strncmp(text, "0X", 2) == 0)
        return read_in(text + 2, 16, least, most, number);
    return read_in(text, 10, least, most, number);
}
