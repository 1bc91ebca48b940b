#include "repeats.h"

#include <string.h>

enum { ENTRIES = 8, VENDOR = 0x8000, NUMBER_AT = 12, SPARE_AT = 15 };

const char *const repeat_names[REPEATS] = {"new", "repeat", "dropped", "slow-repeat"};

struct request repeats_cycle[MOST_CYCLE];
static uint32_t number;

void renumber(struct request *r)
{
    number = (number + 1) % (1 << 24);
    for (size_t i = 0; i < 3; i++)
        r->message.octets[NUMBER_AT + i] = (uint8_t)(number >> (16 - 8 * i));
}

void fill_for_repeats(struct pair *pair)
{
    write_cycle(repeats_cycle, &workloads[ALIKE], MOST_SESSIONS);
    fill(pair, &workloads[ALIKE], full);
    empty_both_stores(pair);
}

/* An update of the greatest length, which changes nothing, with this last octet. */
static void write_slow(struct message *m, uint8_t last)
{
    static const uint8_t zeros[PFCP_LONGEST_REQUEST];

    message_start(m, MODIFICATION, seid_of(0), number);
    put_element(m, VENDOR, zeros, PFCP_LONGEST_REQUEST - m->length - 4);
    message_end(m);
    m->octets[m->length - 1] = last;
}

/* The eight entries, written as docs/layout.md has them: no peer brings such a store about. */
static void forge_slow_store(uint8_t *store)
{
    static struct message m;
    size_t at = 1;

    memset(store, 0, PFCP_STORE_LENGTH);
    store[0] = ENTRIES;
    for (uint8_t i = 0; i < ENTRIES; i++) {
        write_slow(&m, i);
        store[at] = (uint8_t)(m.length >> 8);
        store[at + 1] = (uint8_t)m.length;
        memcpy(store + at + 2, m.octets, m.length);
        at += 2 + m.length;
        store[at] = PFCP_REPLY_SPACE >> 8;
        store[at + 1] = (uint8_t)PFCP_REPLY_SPACE;
        memset(store + at + 2, 1, PFCP_REPLY_SPACE);
        at += 2 + PFCP_REPLY_SPACE;
    }
}

/* A whole cycle through the stores, so that they are full. */
static void run_cycle(struct pair *pair)
{
    empty_both_stores(pair);
    for (size_t i = 0; i < MOST_CYCLE; i++) {
        renumber(&repeats_cycle[i]);
        ask_both_once(pair, &repeats_cycle[i]);
        if (cause_of(&pair->ours) != 1)
            give_up("request %zu of the cycle is refused with a store", i);
    }
}

void write_repeat(struct request *r, struct pair *pair, enum repeats kind)
{
    if (kind == SLOW) {
        r->peer = peer_of(0);
        forge_slow_store(pair->ours.stores[r->peer - 1]);
        forge_slow_store(pair->theirs.stores[r->peer - 1]);
        write_slow(&r->message, ENTRIES - 1);
    } else {
        run_cycle(pair);
        *r = repeats_cycle[kind == NEW ? 0 : MOST_CYCLE - 1];
    }
    if (kind == DROPPED)
        r->message.octets[SPARE_AT] ^= 1;
    if (kind == NEW)
        return;
    ask_both_once(pair, r);
    if (!answers_repeat(&pair->ours, kind))
        give_up("another answer to %s: outcome %u", repeat_names[kind], pair->ours.outcome);
}

bool answers_repeat(const struct place *place, enum repeats kind)
{
    switch (kind) {
    case DROPPED:
        return place->outcome == PFCP_OLD_NUMBER;
    case SLOW:
        return place->outcome == PFCP_ANSWERED && place->used == PFCP_REPLY_SPACE;
    default:
        return cause_of(place) == 1;
    }
}
