/*
 * What a request copies and clears: the linker leads the archives' calls of memcpy, memmove and
 * memset here (--wrap), where they are counted by their length while requests of the cycle run on a
 * full table. Moves and clearings of whole slots, which a deletion and an establishment make, stand
 * apart; what is left in large pieces is state that a call hands on, such as the map of TEIDs.
 */
#include <stdio.h>
#include <stdlib.h>

#include "workload.h"

/* So many sessions of the cycle, which are spread over the table; a piece is large from LARGE on. */
enum { COUNTED = 16, LARGE = 1024, MOST_LENGTHS = 64 };

enum call { COPY, MOVE, CLEAR, CALLS };
static const char *const call_names[CALLS] = {"memcpy", "memmove", "memset"};

/* The large pieces of one length. */
struct piece {
    enum call call;
    size_t length;
    size_t times;
};

static struct {
    int on;
    size_t lengths;
    struct piece pieces[MOST_LENGTHS];
    size_t slot_octets;  /* in moves and clearings of whole slots */
    size_t small_octets; /* in pieces that are not large */
} counted;

static struct request cycle[MOST_CYCLE];
static struct pair pair;

void *__real_memcpy(void *to, const void *from, size_t length);
void *__real_memmove(void *to, const void *from, size_t length);
void *__real_memset(void *to, int octet, size_t length);
void *__wrap_memcpy(void *to, const void *from, size_t length);
void *__wrap_memmove(void *to, const void *from, size_t length);
void *__wrap_memset(void *to, int octet, size_t length);

static void count_piece(enum call call, size_t length)
{
    size_t i = 0;

    while (i < counted.lengths &&
           (counted.pieces[i].call != call || counted.pieces[i].length != length))
        i++;
    if (i == MOST_LENGTHS)
        give_up("pieces of more than %d lengths are copied", MOST_LENGTHS);
    if (i == counted.lengths)
        counted.pieces[counted.lengths++] = (struct piece){call, length, 0};
    counted.pieces[i].times++;
}

static void count(enum call call, size_t length)
{
    if (!counted.on)
        return;
    if (length % SLOT == 0)
        counted.slot_octets += length;
    else if (length < LARGE)
        counted.small_octets += length;
    else
        count_piece(call, length);
}

void *__wrap_memcpy(void *to, const void *from, size_t length)
{
    count(COPY, length);
    return __real_memcpy(to, from, length);
}

void *__wrap_memmove(void *to, const void *from, size_t length)
{
    count(MOVE, length);
    return __real_memmove(to, from, length);
}

void *__wrap_memset(void *to, int octet, size_t length)
{
    count(CLEAR, length);
    return __real_memset(to, octet, length);
}

static void print_counted(const char *side, const char *kind)
{
    printf("%-10s %-14s %10zu  %10zu ", side, kind, counted.slot_octets / COUNTED,
           counted.small_octets / COUNTED);
    for (size_t i = 0; i < counted.lengths; i++)
        printf(" %s %zu x %.2f%s", call_names[counted.pieces[i].call], counted.pieces[i].length,
               (double)counted.pieces[i].times / COUNTED, i + 1 < counted.lengths ? "," : "");
    putchar('\n');
}

/* The requests of one kind are counted; the others are made between. */
static void count_kind(struct place *place, size_t kind)
{
    counted.lengths = counted.slot_octets = counted.small_octets = 0;
    for (size_t i = 0; i < KINDS * COUNTED; i++) {
        counted.on = i % KINDS == kind;
        ask(place, &cycle[i]);
        counted.on = 0;
        if (cause_of(place) != ACCEPTED)
            give_up("%s refuses request %zu", place->side->name, i);
    }
    print_counted(place->side->name, kind_names[kind]);
}

int main(void)
{
    size_t length = write_cycle(cycle, &workloads[ALIKE], full.live);

    fill(&pair, &workloads[ALIKE], full);
    for (size_t i = EXCHANGES; i < length; i += KINDS)
        ask_both(&pair, &cycle[i]);
    printf("%-10s %-14s %10s  %10s  %s\n", "", "", "slots", "small", "large, for a request");
    for (size_t kind = 0; kind < KINDS; kind++)
        count_kind(&pair.ours, kind);
    for (size_t kind = 0; kind < KINDS; kind++)
        count_kind(&pair.theirs, kind);
    return EXIT_SUCCESS;
}
