/* Numbers on a command line. */
#ifndef NUMBER_H
#define NUMBER_H

#include <stdbool.h>
#include <stdint.h>

/* A decimal number from least to most; gives false where the text is none. */
bool read_number(const char *text, uint64_t least, uint64_t most, uint64_t *number);

/* The same, or after 0x in hexadecimal. */
bool read_any_number(const char *text, uint64_t least, uint64_t most, uint64_t *number);

#endif
