/* The time of the check alone over different tables in turn, so that no branch predictor knows the
   records by heart. */
#include "measure.h"
#include "times.h"
#include "workload.h"

enum { TABLES = 8, ROUNDS = 32, TURNS = 11 };

static struct pair pairs[TABLES];

static double run_checks(const struct side *side)
{
    double start = processor_time();

    for (size_t i = 0; i < ROUNDS * TABLES; i++) {
        const struct pair *pair = &pairs[i % TABLES];

        check(side == &archive ? &pair->ours : &pair->theirs);
    }
    return (processor_time() - start) / (ROUNDS * TABLES);
}

void time_eight(void)
{
    static double ours[TURNS];
    static double theirs[TURNS];
    struct workload w = workloads[MIXED];

    for (size_t i = 0; i < TABLES; i++) {
        w.seed = (uint32_t)i + 1;
        fill(&pairs[i], &w, full);
        count_both(&pairs[i]);
    }
    for (size_t turn = 0; turn < TURNS; turn++) {
        ours[turn] = run_checks(&archive);
        theirs[turn] = run_checks(&ordinary);
    }
    print_times("eight", w.name, full, median(ours, TURNS), median(theirs, TURNS));
}
