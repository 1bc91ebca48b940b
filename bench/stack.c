/*
 * The stack that a request takes, on both sides: a thread runs one cycle of accepted requests, and
 * another one those of the greatest length, on a stack filled with one octet; the octets that
 * changed are counted from its far end. Then both again, through a store of repeated requests.
 */
#include <pthread.h>
#include <stdint.h>
#include <stdio.h>
#include <stdlib.h>
#include <string.h>

#include "longest.h"
#include "repeats.h"

enum { STACK = 1 << 20, MARK = 0xA5 };

static struct request cycle[MOST_CYCLE];
static size_t length; /* of the cycle */
static struct request longest[LONGEST_MESSAGES];
static struct pair pair;
static struct place *asked; /* of the two sides, the one that is measured */
static _Alignas(4096) uint8_t stack[STACK];

/* No request: what the thread itself takes. */
static void *idle(void *unused)
{
    return unused;
}

static void *cycle_requests(void *unused)
{
    for (size_t i = 0; i < length; i++)
        must_accept(asked, &cycle[i]);
    return unused;
}

static void *cycle_requests_once(void *unused)
{
    for (size_t i = 0; i < length; i++) {
        renumber(&cycle[i]);
        ask_once(asked, &cycle[i]);
        if (cause_of(asked) != 1)
            give_up("%s refuses request %zu with a store", asked->side->name, i);
    }
    return unused;
}

static void *longest_requests_once(void *unused)
{
    static struct place place;

    for (size_t i = 0; i < LONGEST_MESSAGES; i++) {
        place = *asked;
        if (longest[i].message.octets[1] != SET_DELETION)
            renumber(&longest[i]);
        ask_once(&place, &longest[i]);
        if (place.outcome != PFCP_ANSWERED)
            give_up("%s gives %u with a store", place.side->name, place.outcome);
    }
    return unused;
}

static void *longest_requests(void *unused)
{
    static struct place place;

    for (size_t i = 0; i < LONGEST_MESSAGES; i++) {
        place = *asked;
        ask(&place, &longest[i]);
    }
    return unused;
}

/* How many octets of the stack a thread has written, from its start to the deepest. */
static size_t depth_of(void *(*work)(void *))
{
    pthread_attr_t attributes;
    pthread_t thread;
    size_t untouched = 0;

    memset(stack, MARK, sizeof stack);
    if (pthread_attr_init(&attributes) != 0 ||
        pthread_attr_setstack(&attributes, stack, sizeof stack) != 0 ||
        pthread_create(&thread, &attributes, work, NULL) != 0 || pthread_join(thread, NULL) != 0) {
        fputs("stack: the thread does not run\n", stderr);
        exit(EXIT_FAILURE);
    }
    pthread_attr_destroy(&attributes);
    while (untouched < sizeof stack && stack[untouched] == MARK)
        untouched++;
    return sizeof stack - untouched;
}

/* What both sides take for the same requests. */
static void print_depths(const char *name, struct size size, void *(*work)(void *))
{
    size_t without = depth_of(idle);

    asked = &pair.ours;
    size_t ours = depth_of(work) - without;
    asked = &pair.theirs;
    printf("%-28s %3zu of %3zu  %10zu  %10zu\n", name, size.live, size.limit, ours,
           depth_of(work) - without);
}

static void measure_cycle(struct size size)
{
    length = write_cycle(cycle, &workloads[ALIKE], size.live);
    fill(&pair, &workloads[ALIKE], size);
    print_depths("of the cycle", size, cycle_requests);
    empty_both_stores(&pair);
    print_depths("of the cycle, with a store", size, cycle_requests_once);
}

static void measure_longest(void)
{
    fill_for_longest(&pair);
    for (size_t i = 0; i < LONGEST_MESSAGES; i++)
        write_longest(&longest[i], &longest_messages[i], &pair);
    print_depths("of the greatest length", longest_size, longest_requests);
    empty_both_stores(&pair);
    print_depths("of the greatest length, store", longest_size, longest_requests_once);
}

int main(void)
{
    printf("%-28s %-10s  %10s  %10s\n", "requests", "live", "archive", "ordinary");
    for (size_t i = 0; i < SIZES; i++)
        if (sizes[i].live == sizes[i].limit)
            measure_cycle(sizes[i]);
    measure_longest();
    return EXIT_SUCCESS;
}
