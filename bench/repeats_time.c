/* The time of requests through a full store, and of the same work without one. */
#include <stdio.h>

#include "measure.h"
#include "repeats.h"
#include "times.h"

/* Turns of whole cycles, or of as many other calls. */
enum { TURNS = 7, CALLS = MOST_CYCLE };

static struct pair with;    /* a store */
static struct pair without; /* one */
static struct request r;

/* Requests of one kind through the store; the time of one. */
static double run_with(struct place *place, enum repeats kind)
{
    double start = processor_time();

    for (size_t i = 0; i < CALLS; i++) {
        struct request *asked = kind == NEW ? &repeats_cycle[i] : &r;

        if (kind == NEW)
            renumber(asked);
        ask_once(place, asked);
        if (!answers_repeat(place, kind))
            give_up("%s answers %s otherwise", place->side->name, repeat_names[kind]);
    }
    return (processor_time() - start) / CALLS;
}

/* The cycle without a store, or the same long message again and again. */
static double run_without(struct place *place, enum repeats kind)
{
    double start = processor_time();

    for (size_t i = 0; i < CALLS; i++)
        must_accept(place, kind == SLOW ? &r : &repeats_cycle[i]);
    return (processor_time() - start) / CALLS;
}

static void time_side(struct place *stored, struct place *plain, enum repeats kind)
{
    double measured[TURNS];
    double other[TURNS];
    char name[64];

    for (size_t i = 0; i < TURNS; i++) {
        measured[i] = run_with(stored, kind);
        other[i] = run_without(plain, kind);
    }
    snprintf(name, sizeof name, "%s/%s", stored->side->name, repeat_names[kind]);
    print_times("store", name, full, median(measured, TURNS), median(other, TURNS));
}

void time_repeats(void)
{
    fill_for_repeats(&without);
    fill_for_repeats(&with);
    for (int kind = NEW; kind < REPEATS; kind++) {
        write_repeat(&r, &with, (enum repeats)kind);
        time_side(&with.ours, &without.ours, (enum repeats)kind);
        time_side(&with.theirs, &without.theirs, (enum repeats)kind);
        compare_tables(&without);
    }
}
