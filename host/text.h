/* Text that is put together in a room of fixed length. */
#ifndef TEXT_H
#define TEXT_H

#include <stddef.h>

/* Several times as much as the longest piece takes: the line of a set deletion of 128 sessions. */
enum { TEXT_ROOM = 32768 };

struct text {
    char octets[TEXT_ROOM];
    size_t length;
};

/* Adds what printf would print; what has no room is cut. */
__attribute__((format(printf, 2, 3))) void text_add(struct text *text, const char *format, ...);

#endif
