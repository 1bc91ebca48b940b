/*
 * What callgrind counts, in parts. It collects in counted_request and counted_check, and writes
 * what it has collected to a file of its own whenever part_ends returns; so the k-th line that this
 * program prints says what the k-th file holds:
 *
 *   WHAT NAME LIVE LIMIT SIDE CALLS
 *
 * with the live sessions and the session limit of the table. Instructions repeat exactly, so a few
 * calls of each do.
 */
#include <stdio.h>
#include <stdlib.h>

#include "longest.h"
#include "repeats.h"
#include "search.h"

/* So many sessions of the cycle, which are spread over the table. */
enum { COUNTED = 16 };

static struct request cycle[MOST_CYCLE];
static struct request r;
static struct pair pair;
static struct place place;

__attribute__((noinline)) void counted_request(const struct request *request);
__attribute__((noinline)) void counted_once(const struct request *request);
__attribute__((noinline)) void counted_check(void);
__attribute__((noinline)) void part_ends(void);

void counted_request(const struct request *request)
{
    ask(&place, request);
}

void counted_once(const struct request *request)
{
    ask_once(&place, request);
}

void counted_check(void)
{
    check(&place);
}

void part_ends(void)
{
    fflush(stdout);
}

static void end_part(const char *what, const char *name, struct size size, size_t calls)
{
    printf("%s %s %zu %zu %s %zu\n", what, name, size.live, size.limit, place.side->name, calls);
    part_ends();
}

/* Counts the requests of one kind, or of all (KINDS); the others are made between. Gives how many
   were counted. */
static size_t count_requests(struct size size, size_t wanted)
{
    size_t sessions = size.live < COUNTED ? size.live : COUNTED;

    for (size_t i = 0; i < KINDS * sessions; i++) {
        if (wanted == KINDS || i % KINDS == wanted)
            counted_request(&cycle[i]);
        else
            ask(&place, &cycle[i]);
        if (cause_of(&place) != 1)
            give_up("%s refuses request %zu", place.side->name, i);
    }
    return wanted == KINDS ? KINDS * sessions : sessions;
}

static void count_kinds(const struct workload *w, struct size size)
{
    char name[64];

    for (size_t kind = 0; kind < KINDS; kind++) {
        snprintf(name, sizeof name, "%s/%s", w->name, kind_names[kind]);
        end_part("request", name, size, count_requests(size, kind));
    }
}

/* Before it is counted every session has had its exchange, as after a whole cycle. A full table's
   requests are counted by kind. */
static void count_workload(const struct workload *w, struct size size)
{
    size_t length = write_cycle(cycle, w, size.live);

    fill(&pair, w, size);
    for (size_t i = EXCHANGES; i < length; i += KINDS)
        ask_both(&pair, &cycle[i]);
    for (int side = 0; side < 2; side++) {
        place = side == 0 ? pair.ours : pair.theirs;
        counted_check();
        end_part("check", w->name, size, 1);
        if (is_full(size))
            count_kinds(w, size);
        else
            end_part("request", w->name, size, count_requests(size, KINDS));
    }
}

/* The same request on a table whose first TEIDs are taken, and on one whose first is free. */
static void count_search(uint32_t taken)
{
    static const char *const names[2] = {"taken-below", "first-free"};
    char name[64];

    for (int from = FROM_FIRST; from <= FROM_SECOND; from++) {
        fill_for_search(&pair, &r, taken, (enum first_taken)from);
        for (int side = 0; side < 2; side++) {
            place = side == 0 ? pair.ours : pair.theirs;
            counted_request(&r);
            snprintf(name, sizeof name, "%u/%s", taken, names[from]);
            end_part("search", name, full, 1);
        }
    }
}

static void count_longest(void)
{
    fill_for_longest(&pair);
    for (int side = 0; side < 2; side++) {
        place = side == 0 ? pair.ours : pair.theirs;
        counted_check();
        end_part("longest", "one-check", longest_size, 1);
    }
    for (size_t i = 0; i < LONGEST_MESSAGES; i++) {
        write_longest(&r, &longest_messages[i], &pair);
        for (int side = 0; side < 2; side++) {
            place = side == 0 ? pair.ours : pair.theirs;
            counted_request(&r);
            end_part("longest", longest_messages[i].name, longest_size, 1);
        }
    }
}

/* New requests of the cycle, through a full store and without one; then one call of each other kind,
   and the slow store's long message without one. */
static void count_new(void)
{
    for (size_t i = 0; i < KINDS * COUNTED; i++) {
        renumber(&repeats_cycle[i]);
        counted_once(&repeats_cycle[i]);
        if (!answers_repeat(&place, NEW))
            give_up("%s refuses request %zu with a store", place.side->name, i);
    }
    end_part("store", repeat_names[NEW], full, KINDS * COUNTED);
}

static void count_without(const struct pair *filled)
{
    for (int side = 0; side < 2; side++) {
        place = side == 0 ? filled->ours : filled->theirs;
        for (size_t i = 0; i < KINDS * COUNTED; i++)
            counted_request(&repeats_cycle[i]);
        end_part("store", "without", full, KINDS * COUNTED);
    }
}

static void count_repeats(void)
{
    fill_for_repeats(&pair);
    for (int kind = NEW; kind < REPEATS; kind++) {
        write_repeat(&r, &pair, (enum repeats)kind);
        if (kind == NEW)
            count_without(&pair);
        for (int side = 0; side < 2; side++) {
            place = side == 0 ? pair.ours : pair.theirs;
            if (kind == NEW) {
                count_new();
                continue;
            }
            counted_once(&r);
            end_part("store", repeat_names[kind], full, 1);
            if (kind == SLOW) {
                counted_request(&r);
                end_part("store", "slow-without", full, 1);
            }
        }
    }
}

int main(void)
{
    for (size_t k = 0; k < WORKLOADS; k++)
        for (size_t i = 0; i < SIZES; i++)
            count_workload(&workloads[k], sizes[i]);
    count_search(0);
    count_search(SEARCHED_POOL / 2);
    count_search(SEARCHED_POOL - 1);
    count_longest();
    count_repeats();
    return EXIT_SUCCESS;
}
