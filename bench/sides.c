#include "sides.h"

#include <stdarg.h>
#include <stdio.h>
#include <stdlib.h>
#include <string.h>

#include "ordinary.h"

const struct side archive = {"archive",       pfcp_table_length,   pfcp_make_table,
                             pfcp_free_count, pfcp_free_addresses, pfcp_request,
                             pfcp_make_store, pfcp_request_once};
const struct side ordinary = {"ordinary",          ordinary_table_length,   ordinary_make_table,
                              ordinary_free_count, ordinary_free_addresses, ordinary_request,
                              ordinary_make_store, ordinary_request_once};

const uint8_t unit_ipv4[4] = {192, 0, 2, 1};
static const uint32_t home1 = 0xC0000201; /* 192.0.2.1 for peer 1, ... */
static const uint32_t home2 = 0xC0000202; /* ... and 192.0.2.2 for peer 2 */
static const uint8_t unit_ipv6[16] = {0x20, 1, 0x0D, 0xB8, [15] = 1};

static uint64_t compared;

void give_up(const char *format, ...)
{
    va_list words;

    va_start(words, format);
    fputs("bench: ", stderr);
    vfprintf(stderr, format, words);
    fputc('\n', stderr);
    va_end(words);
    exit(EXIT_FAILURE);
}

static void make_empty(struct place *place, const struct side *side, uint32_t pool, uint32_t limit)
{
    place->side = side;
    place->length = side->table_length(limit);
    if (place->length != HEAD + (size_t)limit * SLOT || place->length > sizeof place->table)
        give_up("%s has tables of %zu octets for %u sessions", side->name, place->length, limit);
    if (side->make_table(place->table, place->length, (uint32_t)number_at(unit_ipv4, 4), unit_ipv6,
                         sizeof unit_ipv6, FIRST_TEID, pool, FIRST_ADDRESS, ADDRESSES, limit, home1,
                         pool / GUARANTEED_PART, pool, home2, pool / GUARANTEED_PART, pool) != 0)
        give_up("%s makes no table", side->name);
}

void make_both_empty(struct pair *pair, uint32_t pool, size_t limit)
{
    make_empty(&pair->ours, &archive, pool, (uint32_t)limit);
    make_empty(&pair->theirs, &ordinary, pool, (uint32_t)limit);
    compare_tables(pair);
}

void ask(struct place *place, const struct request *r)
{
    place->outcome = place->side->request(place->table, place->length, r->peer, r->message.octets,
                                          r->message.length, place->reply, sizeof place->reply,
                                          &place->used, &place->fault);
}

void check(const struct place *place)
{
    uint32_t count;

    if (place->side->free_count(place->table, place->length, &count) != 0)
        give_up("%s calls a sound table broken", place->side->name);
}

uint8_t cause_of(const struct place *place)
{
    /* In the replies to an establishment and to a set deletion the Node ID (9 octets) stands before
       the Cause. */
    size_t header = place->reply[1] == SET_DELETION + 1 ? 8 : 16;
    bool has_node = place->reply[1] == ESTABLISHMENT + 1 || place->reply[1] == SET_DELETION + 1;
    size_t cause = header + (has_node ? 9 : 0) + 4;

    return place->outcome == PFCP_ANSWERED ? place->reply[cause] : 0;
}

void must_accept(struct place *place, const struct request *r)
{
    ask(place, r);
    if (cause_of(place) != 1)
        give_up("%s refuses a request of type %d: outcome %u, cause %d", place->side->name,
                r->message.octets[1], place->outcome, cause_of(place));
}

/* The answers of both sides to a request, and their tables. */
static void compare_answers(const struct pair *pair, const struct request *r)
{
    if (pair->ours.outcome != pair->theirs.outcome || pair->ours.used != pair->theirs.used ||
        pair->ours.fault != pair->theirs.fault ||
        memcmp(pair->ours.reply, pair->theirs.reply, pair->ours.used) != 0)
        give_up("the sides answer a request of type %d differently", r->message.octets[1]);
    compared += pair->ours.used;
    compare_tables(pair);
}

void ask_both(struct pair *pair, const struct request *r)
{
    ask(&pair->ours, r);
    ask(&pair->theirs, r);
    compare_answers(pair, r);
}

void empty_both_stores(struct pair *pair)
{
    for (size_t peer = 0; peer < 2; peer++)
        if (archive.make_store(pair->ours.stores[peer], PFCP_STORE_LENGTH) != 0 ||
            ordinary.make_store(pair->theirs.stores[peer], PFCP_STORE_LENGTH) != 0)
            give_up("a store is not made");
}

void ask_once(struct place *place, const struct request *r)
{
    place->outcome =
        place->side->request_once(place->table, place->length, r->peer, place->stores[r->peer - 1],
                                  PFCP_STORE_LENGTH, r->message.octets, r->message.length,
                                  place->reply, sizeof place->reply, &place->used, &place->fault);
}

void ask_both_once(struct pair *pair, const struct request *r)
{
    ask_once(&pair->ours, r);
    ask_once(&pair->theirs, r);
    compare_answers(pair, r);
    if (memcmp(pair->ours.stores, pair->theirs.stores, sizeof pair->ours.stores) != 0)
        give_up("the stores of the sides differ");
    compared += sizeof pair->ours.stores;
}

void compare_tables(const struct pair *pair)
{
    if (memcmp(pair->ours.table, pair->theirs.table, pair->ours.length) != 0)
        give_up("the tables of the sides differ");
    compared += pair->ours.length;
}

uint32_t count_both(const struct pair *pair)
{
    uint32_t ours = 0;
    uint32_t theirs = 0;

    if (archive.free_count(pair->ours.table, pair->ours.length, &ours) != 0 ||
        ordinary.free_count(pair->theirs.table, pair->theirs.length, &theirs) != 0 ||
        ours != theirs)
        give_up("the sides count the free TEIDs differently: %u and %u", ours, theirs);

    uint32_t teids = ours;

    if (archive.free_addresses(pair->ours.table, pair->ours.length, &ours) != 0 ||
        ordinary.free_addresses(pair->theirs.table, pair->theirs.length, &theirs) != 0 ||
        ours != theirs)
        give_up("the sides count the free addresses differently: %u and %u", ours, theirs);
    return teids;
}

uint64_t octets_compared(void)
{
    return compared;
}
