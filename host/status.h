/* The exit statuses of the unit, by which a supervisor knows whether to start it again. */
#ifndef STATUS_H
#define STATUS_H

#include <errno.h>

/* 1: it could not go on. 2: the start is refused until somebody changes an option, a file or a right.
   4: the start may succeed later by itself, when another unit has gone or an address has come. */
enum { STATUS_BROKEN = 1, STATUS_REFUSED = 2, STATUS_PASSING = 4 };

/* The status of a start that a call of the system has refused with this error number. */
static inline int status_of(int error)
{
    switch (error) {
    case EADDRINUSE:
    case EADDRNOTAVAIL: /* of an interface that is not up yet */
    case EWOULDBLOCK:   /* a lock that another unit holds */
    case EINTR:
    case ENOMEM:
    case ENOBUFS:
    case ENFILE:
    case ENOSPC:
    case EDQUOT:
        return STATUS_PASSING;
    default:
        return STATUS_REFUSED;
    }
}

#endif
