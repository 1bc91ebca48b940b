/* The time of a request and of the check alone, by table, live sessions and session limit. */
#include "measure.h"
#include "times.h"
#include "workload.h"

/* A turn of one side: whole cycles, at least so many requests, so that reading the clock is nothing
   beside it. */
enum { LEAST_TURN = 256, CHECKS_FEWER = 4, MOST_TURNS = MOST_REQUESTS / LEAST_TURN + 1 };

static struct request cycle[MOST_CYCLE];
static size_t length; /* of the cycle */
static struct pair pair;

static void run_requests(struct place *place, size_t requests)
{
    for (size_t i = 0; i < requests; i++)
        must_accept(place, &cycle[i % length]);
}

static void run_checks(struct place *place, size_t checks)
{
    for (size_t i = 0; i < checks; i++)
        check(place);
}

/* Two cycles on both sides, compared after every request. */
static void warm_up(void)
{
    for (size_t i = 0; i < 2 * length; i++) {
        ask_both(&pair, &cycle[i % length]);
        if (cause_of(&pair.ours) != 1)
            give_up("request %zu of the cycle is refused", i % length);
    }
    count_both(&pair);
}

/* Runs both sides by turns, so that both meet the same disturbance, and prints the medians of the
   turns for one call. */
static void time_turns(const char *what, const struct workload *w, struct size size, size_t turns,
                       size_t calls, void (*run)(struct place *, size_t))
{
    static double ours[MOST_TURNS];
    static double theirs[MOST_TURNS];

    for (size_t i = 0; i < turns; i++) {
        double start = processor_time();
        run(&pair.ours, calls);
        double middle = processor_time();
        run(&pair.theirs, calls);
        theirs[i] = (processor_time() - middle) / (double)calls;
        ours[i] = (middle - start) / (double)calls;
        compare_tables(&pair);
    }
    print_times(what, w->name, size, median(ours, turns), median(theirs, turns));
}

static void time_table(const struct workload *w, struct size size, size_t requests)
{
    length = write_cycle(cycle, w, size.live);
    size_t turn = length < LEAST_TURN ? LEAST_TURN / length * length : length;
    size_t turns = (requests + turn - 1) / turn;

    fill(&pair, w, size);
    warm_up();
    time_turns("request", w, size, turns, turn, run_requests);
    time_turns("check", w, size, turns / CHECKS_FEWER + 1, LEAST_TURN, run_checks);
}

void time_tables(size_t requests)
{
    for (size_t k = 0; k < WORKLOADS; k++)
        for (size_t i = 0; i < SIZES; i++)
            time_table(&workloads[k], sizes[i], requests);
}
