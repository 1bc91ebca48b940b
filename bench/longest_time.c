/* The time of the requests of longest.h, and of a check of the table that they go to. */
#include <string.h>

#include "longest.h"
#include "measure.h"
#include "times.h"

enum { REPEATS = 101 };

static struct pair pair;
static struct request r;
static double requests[REPEATS];
static double checks[REPEATS];

/* A check and a request in turn; the table is put back after each request. */
static void run(void)
{
    for (size_t i = 0; i < REPEATS; i++) {
        double start = wall_time();

        check(&pair.ours);
        double middle = wall_time();
        ask(&pair.ours, &r);
        requests[i] = wall_time() - middle;
        checks[i] = middle - start;
        memcpy(pair.ours.table, pair.theirs.table, pair.ours.length);
    }
}

void time_longest(void)
{
    double cost = wall_time_cost();

    fill_for_longest(&pair);
    for (size_t i = 0; i < LONGEST_MESSAGES; i++) {
        write_longest(&r, &longest_messages[i], &pair);
        run();
        print_times("longest", longest_messages[i].name, longest_size,
                    median(requests, REPEATS) - cost, median(checks, REPEATS) - cost);
    }
}
