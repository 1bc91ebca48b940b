/* The time of each kind of request, on full tables. */
#include <stdio.h>

#include "measure.h"
#include "times.h"
#include "workload.h"

enum { CYCLES = 2, SAMPLES = CYCLES * MOST_SESSIONS };

static struct request cycle[MOST_CYCLE];
static struct pair pair;
static double ours[KINDS][SAMPLES];
static double theirs[KINDS][SAMPLES];

/* One cycle of one side, each request timed by itself. */
static void run_cycle(struct place *place, double times[KINDS][SAMPLES], size_t first)
{
    for (size_t i = 0; i < MOST_CYCLE; i++) {
        double start = wall_time();

        must_accept(place, &cycle[i]);
        times[i % KINDS][first + i / KINDS] = wall_time() - start;
    }
}

void time_kinds(void)
{
    double cost = wall_time_cost();
    char name[64];

    for (size_t k = 0; k < WORKLOADS; k++) {
        write_cycle(cycle, &workloads[k], MOST_SESSIONS);
        fill(&pair, &workloads[k], full);
        for (size_t i = 0; i < MOST_CYCLE; i++)
            ask_both(&pair, &cycle[i]);
        for (size_t i = 0; i < CYCLES; i++) {
            run_cycle(&pair.ours, ours, i * MOST_SESSIONS);
            run_cycle(&pair.theirs, theirs, i * MOST_SESSIONS);
            compare_tables(&pair);
        }
        for (size_t kind = 0; kind < KINDS; kind++) {
            snprintf(name, sizeof name, "%s/%s", workloads[k].name, kind_names[kind]);
            print_times("kind", name, full, median(ours[kind], SAMPLES) - cost,
                        median(theirs[kind], SAMPLES) - cost);
        }
    }
}
