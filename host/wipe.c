#define _DEFAULT_SOURCE /* explicit_bzero */

#include "wipe.h"

#include <string.h>

/* A request takes 67,760 octets of stack in the archive (pfcp_session.h), and the unit's own calls, with a
   text of 32 KiB at most, less than as much again. */
enum { DEEPEST = 160 << 10 };

void wipe(void *octets, size_t length)
{
    explicit_bzero(octets, length);
}

/* Not inlined, so that its room stands where that of the calls before stood. */
__attribute__((noinline)) void wipe_stack(void)
{
    char room[DEEPEST];

    explicit_bzero(room, sizeof room);
}
