/*
 * The measurements of time, once each, in one process: bench [REQUESTS]. So many accepted requests
 * (by default a ninth of 100,000) go to each side on each table. times.h has the lines that it
 * prints; the last one is the number of octets in which the sides were compared.
 */
#include <inttypes.h>
#include <stdio.h>
#include <stdlib.h>

#include "measure.h"
#include "sides.h"
#include "times.h"

void print_times(const char *what, const char *name, struct size size, double measured,
                 double other)
{
    printf("%s %s %zu %zu %.4f %.4f\n", what, name, size.live, size.limit, measured, other);
}

int main(int argc, char **argv)
{
    if (argc > 2) {
        fputs("usage: bench [REQUESTS]\n", stderr);
        return 2;
    }
    time_tables(argc > 1 ? read_count("bench", argv[1], MOST_REQUESTS) : (100000 + 8) / 9);
    time_kinds();
    time_eight();
    time_passes();
    time_longest();
    time_repeats();
    printf("compared %" PRIu64 "\n", octets_compared());
    return EXIT_SUCCESS;
}
