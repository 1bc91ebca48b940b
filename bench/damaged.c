/*
 * Whether both sides check the same octets: damaged [EVERY]. Damaged copies of full tables go to the
 * free counts of both, which must call the same ones broken and count the same in the others. Octets
 * are changed, those of the first sessions in many ways: each one in tables of 64 sessions, one of
 * four in tables of 256, or by EVERY fewer. Octets are copied to places nearby, so that records come
 * to share IDs, TEIDs and addresses. Tables are given with other lengths than their own, and empty
 * ones with session limits that are none.
 */
#include <stdio.h>
#include <stdlib.h>
#include <string.h>

#include "measure.h"
#include "workload.h"

/* The place of the session limit in a table. */
enum { LIMIT_AT = 37 };

enum { EACH_UP_TO = 64, THOROUGH = 2000, COPIES = 20000, MOST_COPIED = 24, MOST_DISTANCE = 64 };

static struct pair pair;
static uint8_t *table = pair.ours.table;
static uint8_t whole[PFCP_LONGEST_TABLE];
static size_t length;
static uint64_t state;
static size_t compared;
static size_t sound;

static size_t drawn(size_t below)
{
    state = state * 6364136223846793005 + 1442695040888963407;
    return (size_t)(state >> 33) % below;
}

/* Both sides on one count; gives the outcome. */
static uint32_t compare_count(uint32_t (*of_archive)(const uint8_t *, size_t, uint32_t *),
                              uint32_t (*of_ordinary)(const uint8_t *, size_t, uint32_t *))
{
    uint32_t counts[2];
    uint32_t ours = of_archive(table, length, &counts[0]);
    uint32_t theirs = of_ordinary(table, length, &counts[1]);

    if (ours != theirs || counts[0] != counts[1])
        give_up("a damaged table is told differently: %u and %u, %u and %u free", ours, theirs,
                counts[0], counts[1]);
    return ours;
}

static void compare(void)
{
    compare_count(archive.free_addresses, ordinary.free_addresses);
    sound += compare_count(archive.free_count, ordinary.free_count) == 0;
    compared++;
}

static void change_octet(size_t at)
{
    uint8_t old = whole[at];
    const uint8_t values[] = {(uint8_t)drawn(256),
                              (uint8_t)(old ^ 1u << drawn(8)),
                              (uint8_t)(old + 1),
                              (uint8_t)(old - 1),
                              0,
                              1,
                              2,
                              3,
                              MOST_FQ_CSIDS,
                              16,
                              255};
    size_t count = at < THOROUGH ? sizeof values : 2;

    for (size_t k = 0; k < count; k++) {
        table[at] = values[k];
        if (values[k] != old)
            compare();
    }
    table[at] = old;
}

static void copy_octets(void)
{
    size_t count = 1 + drawn(MOST_COPIED);
    size_t from = drawn(length - count - MOST_DISTANCE);
    size_t to = from + 1 + drawn(MOST_DISTANCE);

    memcpy(table + to, whole + from, count);
    compare();
    memcpy(table + to, whole + to, count);
}

/* Lengths that are not the table's own, among them those of other session limits. */
static void change_length(void)
{
    const size_t own = length;
    const size_t lengths[] = {0,       HEAD - 1,          HEAD, HEAD + SLOT, own - SLOT,
                              own - 1, PFCP_LONGEST_TABLE};

    for (size_t k = 0; k < sizeof lengths / sizeof lengths[0]; k++) {
        length = lengths[k];
        if (length != own)
            compare();
    }
    length = own;
}

static void damage(const struct workload *w, size_t limit, size_t every)
{
    fill(&pair, w, (struct size){limit, limit});
    length = pair.ours.length;
    memcpy(whole, table, length);
    for (size_t i = 0; i < HEAD; i++)
        change_octet(i);
    for (size_t i = HEAD; i < length; i += every)
        change_octet(i);
    for (size_t i = 0; i < COPIES / every; i++)
        copy_octets();
    change_length();
}

/* Empty tables of every session limit, and as many past the largest one, with the length that such a
   limit would have. */
static void change_limit(void)
{
    static uint8_t empty[HEAD + 2 * MOST_SESSIONS * SLOT];

    make_both_empty(&pair, POOL, MOST_SESSIONS);
    memcpy(empty, pair.ours.table, HEAD);
    table = empty;
    for (uint32_t limit = 0; limit <= 2 * MOST_SESSIONS; limit++) {
        if (archive.table_length(limit) != ordinary.table_length(limit))
            give_up("the sides have tables of different lengths for %u sessions", limit);
        empty[LIMIT_AT] = (uint8_t)(limit >> 8);
        empty[LIMIT_AT + 1] = (uint8_t)limit;
        length = HEAD + limit * SLOT;
        compare();
    }
    table = pair.ours.table;
}

int main(int argc, char **argv)
{
    if (argc > 2) {
        fputs("usage: damaged [EVERY]\n", stderr);
        return 2;
    }
    size_t every = argc > 1 ? read_count("damaged", argv[1], SLOT) : 1;
    for (size_t k = 0; k < WORKLOADS; k++) {
        damage(&workloads[k], EACH_UP_TO, every);
        damage(&workloads[k], MOST_SESSIONS, every * (MOST_SESSIONS / EACH_UP_TO));
    }
    change_limit();
    printf("damaged tables told alike by both sides: %zu, %zu of them sound\n", compared, sound);
    return EXIT_SUCCESS;
}
