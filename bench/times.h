/*
 * The measurements of time. Each prints lines for summary.c:
 *
 *   WHAT NAME LIVE LIMIT TIME TIME
 *
 * with the live sessions and the session limit of the table, and the microseconds of what is
 * measured and of what it is compared with.
 */
#ifndef TIMES_H
#define TIMES_H

#include <stddef.h>

#include "workload.h"

/* request, check: a request of the cycle and the free count, for each table and size, both sides by
   turns. */
enum { MOST_REQUESTS = 1000000 };
void time_tables(size_t requests);

/* kind: the requests of the cycle one by one, on full tables. */
void time_kinds(void);

/* eight: the free count over eight different mixed tables in turn. */
void time_eight(void);

/* pass: the archive's free count against one pass in C over the same octets, and against a copy of
   as many octets as the map of TEIDs has. */
void time_passes(void);

/* longest: the archive's requests of the greatest length against its free count of their table. */
void time_longest(void);

/* store: requests through a full store against the same work without one, on full tables, by side. */
void time_repeats(void);

void print_times(const char *what, const char *name, struct size size, double measured,
                 double other);

#endif
