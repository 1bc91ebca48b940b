/*
 * The archive from C: document 01's whole replies, its story of a pool of two, the errors that were
 * seen before, addresses, empty slices, lengths, session limits, broken tables, restorations, the
 * calls that read a table, repeated requests with their store, and two peers, each with its due. The
 * last line is "N passed, M failed".
 *
 * Every slice is lent from a block of its own and of exactly its length, so that a memory checker
 * sees an octet read or written outside.
 */
#include <stdint.h>
#include <stdio.h>
#include <stdlib.h>
#include <string.h>

#include "message.h"
#include "pfcp_session.h"

enum { FILLING = 0xA5 };

/* The table's layout (docs/layout.md), and the session limit of tables where no other one is asked for. */
enum {
    LIMIT_AT = 37,
    DUES_AT = 39, /* a peer's address, guarantee and limit, then the other's */
    COUNT_AT = 63,
    HEAD = 65,
    SLOT = 604,
    SESSIONS = 64,
    TABLE_LENGTH = HEAD + SESSIONS * SLOT
};

static unsigned long passed;
static unsigned long failed;

static int check_at(int line, int holds, const char *what)
{
    if (holds) {
        passed++;
    } else {
        failed++;
        printf("line %d: %s\n", line, what);
    }
    return holds;
}

#define CHECK(holds) check_at(__LINE__, (holds) ? 1 : 0, #holds)

static uint8_t *block(size_t length, int filling)
{
    uint8_t *octets = malloc(length > 0 ? length : 1);

    if (!octets) {
        fputs("no memory\n", stderr);
        exit(2);
    }
    memset(octets, filling, length);
    return octets;
}

static uint8_t *copy_of(const uint8_t *octets, size_t length)
{
    uint8_t *copy = block(length, 0);

    if (length > 0)
        memcpy(copy, octets, length);
    return copy;
}

static int all_are(const uint8_t *octets, size_t length, uint8_t octet)
{
    for (size_t i = 0; i < length; i++)
        if (octets[i] != octet)
            return 0;
    return 1;
}

/* The pool of addresses: 10.45.0.1 and 10.45.0.2. */
enum { FIRST_ADDRESS = 0x0A2D0001, ADDRESSES = 2 };

/* The number of octets of a table with this limit, also where there is no such table. */
static size_t length_for(uint32_t session_limit)
{
    return HEAD + (size_t)session_limit * SLOT;
}

/* The length of a sound table. */
static size_t length_of(const uint8_t *table)
{
    return length_for((uint32_t)number_at(table + LIMIT_AT, 2));
}

/* What a peer has of the unit. */
struct due {
    uint32_t address;
    uint32_t guarantee;
    uint32_t limit;
};

/* Who asks: peer 1 but where a test says another one. */
static uint32_t peer = 1;

/* The unit 192.0.2.1, whose peers 192.0.2.1 and 192.0.2.2 may both have the whole pool. */
static uint32_t make_with(uint8_t *table, size_t length, const uint8_t *ipv6, size_t ipv6_len,
                          uint32_t first_teid, uint32_t pool_size, uint32_t first_address,
                          uint32_t addresses, uint32_t session_limit)
{
    return pfcp_make_table(table, length, 0xC0000201, ipv6, ipv6_len, first_teid, pool_size,
                           first_address, addresses, session_limit, 0xC0000201, 0, pool_size,
                           0xC0000202, 0, pool_size);
}

/* The same with one TEID and one address, for tables that are refused for another reason. */
static uint32_t make_small(uint8_t *table, size_t length, uint32_t session_limit)
{
    return make_with(table, length, NULL, 0, 1, 1, 1, 1, session_limit);
}

/* An empty table of that unit without IPv6. */
static uint8_t *new_table_for(uint32_t session_limit, uint32_t first_teid, uint32_t pool_size)
{
    size_t length = length_for(session_limit);
    uint8_t *table = block(length, FILLING);

    CHECK(make_with(table, length, NULL, 0, first_teid, pool_size, FIRST_ADDRESS, ADDRESSES,
                    session_limit) == 0);
    return table;
}

static uint8_t *new_table(uint32_t first_teid, uint32_t pool_size)
{
    return new_table_for(SESSIONS, first_teid, pool_size);
}

/* The last answer. */
static struct {
    uint32_t outcome;
    uint8_t octets[PFCP_REPLY_SPACE];
    size_t used;
    size_t place;
} answer;

/* One request with the least reply space; checks what holds of every answer. */
static uint32_t ask_octets(uint8_t *table, const uint8_t *octets, size_t length)
{
    uint8_t *message = copy_of(octets, length);
    uint8_t *reply = block(PFCP_REPLY_SPACE, FILLING);

    answer.used = SIZE_MAX;
    answer.place = SIZE_MAX;
    answer.outcome = pfcp_request(table, length_of(table), peer, message, length, reply,
                                  PFCP_REPLY_SPACE, &answer.used, &answer.place);
    CHECK(answer.place == 0 || (answer.outcome == 0 && answer.place < length));
    if (CHECK(answer.used <= PFCP_REPLY_SPACE)) {
        CHECK((answer.outcome == 0) == (answer.used >= 16));
        CHECK(all_are(reply + answer.used, PFCP_REPLY_SPACE - answer.used, FILLING));
        memcpy(answer.octets, reply, PFCP_REPLY_SPACE);
    }
    CHECK(length == 0 || memcmp(message, octets, length) == 0);
    free(message);
    free(reply);
    return answer.outcome;
}

/* Where the Cause stands in the last answer. A set deletion's reply has a header of 8 octets; it and
   an establishment's have the Node ID (9 octets) before the Cause. */
static size_t cause_place(void)
{
    switch (answer.octets[1]) {
    case SET_DELETION + 1:
        return 8 + 9;
    case ESTABLISHMENT + 1:
        return 16 + 9;
    default:
        return 16;
    }
}

/* One request that must be answered; gives the cause. */
static unsigned ask(uint8_t *table, struct message *m)
{
    message_end(m);
    if (!CHECK(ask_octets(table, m->octets, m->length) == 0))
        return 0;
    size_t cause = cause_place();
    CHECK(number_at(answer.octets + cause, 4) == (IE_CAUSE << 16 | 1));
    return answer.octets[cause + 4];
}

/* The Offending IE of the last answer, or 65536 if it has none. */
static unsigned offending(void)
{
    size_t at = cause_place() + 5;

    if (answer.used != at + 6 || number_at(answer.octets + at, 4) != (IE_OFFENDING_IE << 16 | 2))
        return 65536;
    return (unsigned)number_at(answer.octets + at + 4, 2);
}

/* The TEID of the Created PDR or Created Traffic Endpoint with this ID in the last answer, or 0. */
static uint32_t granted(unsigned group, unsigned id)
{
    size_t at = 16;

    while (at + 4 <= answer.used) {
        unsigned type = (unsigned)number_at(answer.octets + at, 2);
        size_t length = (size_t)number_at(answer.octets + at + 2, 2);
        const uint8_t *value = answer.octets + at + 4;
        size_t id_octets = group == IE_CREATED_PDR ? 2 : 1;

        if (type == group && number_at(value + 4, id_octets) == id)
            return (uint32_t)number_at(value + 4 + id_octets + 4 + 1, 4);
        at += 4 + length;
    }
    return 0;
}

static uint32_t free_teids(const uint8_t *table)
{
    uint32_t count = 0xA5A5A5A5;

    CHECK(pfcp_free_count(table, length_of(table), &count) == 0);
    return count;
}

static uint32_t free_addresses(const uint8_t *table)
{
    uint32_t count = 0xA5A5A5A5;

    CHECK(pfcp_free_addresses(table, length_of(table), &count) == 0);
    return count;
}

static const struct tunnel choose = {.flags = CHOOSE | V4};
static const struct tunnel choose_7 = {.flags = CHOOSE | CHOOSE_ID | V4, .choose_id = 7};

static void start_establishment(struct message *m, uint64_t seid)
{
    message_start(m, ESTABLISHMENT, 0, 1);
    put_f_seid(m, seid);
}

static unsigned establish_one_pdr(uint8_t *table, uint64_t seid, const struct tunnel *tunnel)
{
    struct message m;

    start_establishment(&m, seid);
    create_pdr(&m, 1, tunnel);
    return ask(table, &m);
}

static unsigned modify_remove_pdr(uint8_t *table, uint64_t seid, uint16_t id)
{
    struct message m;

    message_start(&m, MODIFICATION, seid, 2);
    remove_pdr(&m, id);
    return ask(table, &m);
}

static unsigned delete_session(uint8_t *table, uint64_t seid)
{
    struct message m;

    message_start(&m, DELETION, seid, 1);
    return ask(table, &m);
}

/* "Deletion of an unknown session, sequence 1, whole reply", and the first establishment's. */
static void whole_replies(void)
{
    static const uint8_t unknown[] = {0x21, 0x37, 0x00, 0x11, 0, 0, 0,    0,    0,    0,   0,
                                      0,    0x00, 0x00, 0x01, 0, 0, 0x13, 0x00, 0x01, 0x41};
    static const uint8_t first[] = {
        0x21, 0x33, 0x00, 0x42, 0x00, 0x00, 0x00, 0x00, 0x00, 0x00, 0x00, 0x01, 0x00, 0x00,
        0x01, 0x00, 0x00, 0x3C, 0x00, 0x05, 0x00, 0xC0, 0x00, 0x02, 0x01, 0x00, 0x13, 0x00,
        0x01, 0x01, 0x00, 0x39, 0x00, 0x0D, 0x02, 0x00, 0x00, 0x00, 0x00, 0x00, 0x00, 0x00,
        0x01, 0xC0, 0x00, 0x02, 0x01, 0x00, 0x08, 0x00, 0x13, 0x00, 0x38, 0x00, 0x02, 0x00,
        0x01, 0x00, 0x15, 0x00, 0x09, 0x01, 0x00, 0x00, 0x10, 0x00, 0xC0, 0x00, 0x02, 0x01};
    uint8_t *table = new_table(4096, 4096);

    CHECK(delete_session(table, 1) == 65);
    CHECK(answer.used == sizeof unknown && memcmp(answer.octets, unknown, sizeof unknown) == 0);
    CHECK(free_teids(table) == 4096);
    CHECK(establish_one_pdr(table, 1, &choose) == 1);
    CHECK(answer.used == sizeof first && memcmp(answer.octets, first, sizeof first) == 0);
    CHECK(free_teids(table) == 4095);
    free(table);
}

/* "Pool 4096, 4097": session 1 with PDRs 1, 2 sharing a CHOOSE ID and PDR 3 without one. */
static uint8_t *pool_of_two(void)
{
    uint8_t *table = new_table(4096, 2);
    struct message m;

    start_establishment(&m, 1);
    create_pdr(&m, 1, &choose_7);
    create_pdr(&m, 2, &choose_7);
    create_pdr(&m, 3, &choose);
    CHECK(ask(table, &m) == 1);
    CHECK(granted(IE_CREATED_PDR, 1) == 4096);
    CHECK(granted(IE_CREATED_PDR, 2) == 4096);
    CHECK(granted(IE_CREATED_PDR, 3) == 4097);
    CHECK(free_teids(table) == 0);
    return table;
}

static void pool_story(void)
{
    uint8_t *table = pool_of_two();
    struct message m;

    /* "Another session's CHOOSE: 75." */
    CHECK(establish_one_pdr(table, 2, &choose) == 75);
    CHECK(offending() == 65536);
    /* "Removing PDR 1 keeps 4096; removing PDR 2 too frees it." */
    CHECK(modify_remove_pdr(table, 1, 1) == 1);
    CHECK(free_teids(table) == 0);
    CHECK(modify_remove_pdr(table, 1, 2) == 1);
    CHECK(free_teids(table) == 1);
    CHECK(establish_one_pdr(table, 2, &choose) == 1);
    CHECK(granted(IE_CREATED_PDR, 1) == 4096);
    free(table);

    /* "With both taken, removing PDR 3 and creating a CHOOSE PDR together: 75." */
    table = pool_of_two();
    message_start(&m, MODIFICATION, 1, 3);
    remove_pdr(&m, 3);
    create_pdr(&m, 4, &choose);
    CHECK(ask(table, &m) == 75);
    CHECK(free_teids(table) == 0);
    CHECK(modify_remove_pdr(table, 1, 3) == 1);
    message_start(&m, MODIFICATION, 1, 4);
    create_pdr(&m, 4, &choose);
    CHECK(ask(table, &m) == 1);
    CHECK(granted(IE_CREATED_PDR, 4) == 4097);
    free(table);
}

/* "A CHOOSE ID remembered into the next request" */
static void choose_id_forgotten(void)
{
    uint8_t *table = new_table(4096, 10);
    struct message m;

    CHECK(establish_one_pdr(table, 1, &choose_7) == 1);
    CHECK(granted(IE_CREATED_PDR, 1) == 4096);
    message_start(&m, MODIFICATION, 1, 2);
    create_pdr(&m, 2, &choose_7);
    CHECK(ask(table, &m) == 1);
    CHECK(granted(IE_CREATED_PDR, 2) == 4097);
    CHECK(establish_one_pdr(table, 2, &choose_7) == 1);
    CHECK(granted(IE_CREATED_PDR, 1) == 4098);
    CHECK(free_teids(table) == 7);
    free(table);
}

/* "a TEID freed with the first of two sharing PDRs" */
static void shared_teid_stays(void)
{
    uint8_t *table = new_table(4096, 10);
    struct message m;

    start_establishment(&m, 1);
    create_pdr(&m, 1, &choose_7);
    create_pdr(&m, 2, &choose_7);
    CHECK(ask(table, &m) == 1);
    CHECK(free_teids(table) == 9);
    CHECK(modify_remove_pdr(table, 1, 1) == 1);
    CHECK(free_teids(table) == 9);
    CHECK(establish_one_pdr(table, 2, &choose) == 1);
    CHECK(granted(IE_CREATED_PDR, 1) == 4097);
    free(table);
}

static unsigned establish_with_f_seid(uint8_t *table, const uint8_t *value, size_t length)
{
    struct message m;

    message_start(&m, ESTABLISHMENT, 0, 1);
    put_element(&m, IE_F_SEID, value, length);
    create_pdr(&m, 1, NULL);
    return ask(table, &m);
}

/* "F-SEID's V4 and V6 bits read in F-TEID order" */
static void f_seid_families(void)
{
    uint8_t *table = new_table(4096, 10);
    uint8_t value[29] = {0, 0, 0, 0, 0, 0, 0, 0, 5, 10, 0, 0, 1};

    value[0] = 2; /* V4: 13 octets are enough */
    CHECK(establish_with_f_seid(table, value, 13) == 1);
    value[0] = 1; /* V6: 25 are needed */
    value[8] = 6;
    CHECK(establish_with_f_seid(table, value, 13) == 68);
    CHECK(offending() == IE_F_SEID);
    CHECK(establish_with_f_seid(table, value, 24) == 68);
    CHECK(establish_with_f_seid(table, value, 25) == 1);
    value[0] = 3; /* both: 29 */
    value[8] = 7;
    CHECK(establish_with_f_seid(table, value, 28) == 68);
    CHECK(establish_with_f_seid(table, value, 29) == 1);
    value[0] = 0;
    value[8] = 8;
    CHECK(establish_with_f_seid(table, value, 29) == 69);
    CHECK(offending() == IE_F_SEID);
    free(table);
}

/* "records half made before a 75" */
static void nothing_half_made(void)
{
    uint8_t *table = new_table(4096, 3);
    struct message m;

    CHECK(establish_one_pdr(table, 1, &choose) == 1);
    uint8_t *before = copy_of(table, TABLE_LENGTH);

    start_establishment(&m, 2);
    create_endpoint(&m, 1, &choose);
    create_pdr(&m, 1, &choose);
    create_pdr(&m, 2, &choose);
    CHECK(ask(table, &m) == 75);
    CHECK(memcmp(table, before, TABLE_LENGTH) == 0);
    CHECK(free_teids(table) == 2);

    message_start(&m, MODIFICATION, 1, 1);
    for (uint16_t id = 2; id <= 17; id++)
        create_pdr(&m, id, NULL);
    CHECK(ask(table, &m) == 75);
    CHECK(memcmp(table, before, TABLE_LENGTH) == 0);
    free(before);
    free(table);
}

/* The address of the Created PDR or Created Traffic Endpoint with this ID in the last answer, where the
   group has only the ID and the address, or the F-TEID for IPv4 between them; or 0. */
static uint32_t granted_address(unsigned group, unsigned id)
{
    struct elements rest = elements_of(answer.octets, answer.used);
    struct element element;

    while (next_element(&rest, &element)) {
        struct elements members = members_of(&element);
        struct element member;
        uint32_t address = 0;
        unsigned found = 65536;

        if (element.type != group)
            continue;
        while (next_element(&members, &member)) {
            if (member.type == IE_UE_IP_ADDRESS && member.length == 5 && member.value[0] == UE_V4)
                address = (uint32_t)number_in(&member, 1, 4);
            else if (member.type == IE_PDR_ID || member.type == IE_ENDPOINT_ID)
                found = (unsigned)number_in(&member, 0, member.length);
        }
        if (found == id)
            return address;
    }
    return 0;
}

/* A modification of session 1 that creates one PDR with this UE IP Address; gives the cause. */
static unsigned give_address(uint8_t *table, uint16_t id, const void *value, size_t length)
{
    struct message m;

    message_start(&m, MODIFICATION, 1, 9);
    create_pdr_start(&m, id, 1, 0);
    put_element(&m, IE_UE_IP_ADDRESS, value, length);
    create_pdr_end(&m, -1);
    return ask(table, &m);
}

/* Session 1: PDR 1 with a TEID and an address, PDR 2 with an address alone, endpoint 3 with both; all
   share the address. */
static void start_with_addresses(uint8_t *table)
{
    struct message m;

    start_establishment(&m, 1);
    create_pdr_with_address(&m, 1, &choose);
    create_pdr_with_address(&m, 2, NULL);
    group_start(&m, IE_CREATE_ENDPOINT);
    put_number(&m, IE_ENDPOINT_ID, 3, 1);
    put_f_teid(&m, &choose);
    put_choose_address(&m);
    group_end(&m);
    CHECK(ask(table, &m) == 1);
    CHECK(granted(IE_CREATED_PDR, 1) == 4097 && granted(IE_CREATED_ENDPOINT, 3) == 4096);
    CHECK(granted_address(IE_CREATED_PDR, 1) == FIRST_ADDRESS);
    CHECK(granted_address(IE_CREATED_PDR, 2) == FIRST_ADDRESS);
    CHECK(granted_address(IE_CREATED_ENDPOINT, 3) == FIRST_ADDRESS);
    /* 16 header, 9 Node ID, 5 Cause, 17 F-SEID; groups of 4 + 6 + 13 + 9, 4 + 6 + 9, 4 + 5 + 13 + 9 */
    CHECK(answer.used == 47 + 32 + 19 + 31);
    CHECK(free_addresses(table) == ADDRESSES - 1);
}

/* 02 (v): shared within a request, the lowest that is free, kept until the last holder goes, free at
   the next call; 79 when none is left; what the control plane may give. */
static void addresses(void)
{
    static const struct {
        uint8_t octets[5];
        size_t length;
        unsigned cause;
    } values[] = {
        {{0}, 0, 68},
        {{0}, 1, 69},
        {{2 | 16, 10, 0, 0, 1}, 5, 69},
        {{4 | 128}, 1, 69},
        {{2, 203, 0, 113}, 4, 68},
        {{1}, 1, 76},
        {{8 | 2}, 1, 76},
        {{32 | 2 | 16}, 1, 76},
        {{64}, 1, 76},
        {{2, 10, 45, 0, 1}, 5, 73}, /* its own */
        {{2, 10, 45, 0, 2}, 5, 73},
        {{2, 10, 45, 0, 3}, 5, 1},
        {{2, 10, 45, 0, 0}, 5, 1},
        {{2 | 4 | 128, 203, 0, 113, 9}, 5, 1},
    };
    uint8_t *table = new_table(4096, 10);
    struct message m;
    uint16_t id = 10;

    start_with_addresses(table);
    for (size_t i = 0; i < sizeof values / sizeof values[0]; i++) {
        CHECK(give_address(table, id++, values[i].octets, values[i].length) == values[i].cause);
        CHECK(offending() ==
              (values[i].cause == 68 || values[i].cause == 69 ? IE_UE_IP_ADDRESS : 65536));
    }
    CHECK(free_addresses(table) == 1);
    /* Another session gets the next; a third finds none, and 75 comes before that. */
    start_establishment(&m, 2);
    create_pdr_with_address(&m, 1, NULL);
    CHECK(ask(table, &m) == 1 && granted_address(IE_CREATED_PDR, 1) == FIRST_ADDRESS + 1);
    CHECK(free_addresses(table) == 0);
    start_establishment(&m, 3);
    create_pdr_with_address(&m, 1, NULL);
    CHECK(ask(table, &m) == 79 && offending() == 65536);
    for (uint16_t more = 2; more <= 17; more++)
        create_pdr(&m, more, NULL);
    CHECK(ask(table, &m) == 75);
    /* The address stays until the last holder goes, and is free from the next call on. */
    CHECK(modify_remove_pdr(table, 1, 1) == 1 && modify_remove_pdr(table, 1, 2) == 1);
    CHECK(free_addresses(table) == 0);
    message_start(&m, MODIFICATION, 1, 3);
    remove_endpoint(&m, 3);
    create_pdr_with_address(&m, 4, NULL);
    CHECK(ask(table, &m) == 79);
    message_start(&m, MODIFICATION, 1, 4);
    remove_endpoint(&m, 3);
    CHECK(ask(table, &m) == 1 && free_addresses(table) == 1);
    message_start(&m, MODIFICATION, 2, 5);
    create_pdr_with_address(&m, 4, NULL);
    CHECK(ask(table, &m) == 1 && granted_address(IE_CREATED_PDR, 4) == FIRST_ADDRESS);
    CHECK(delete_session(table, 2) == 1 && free_addresses(table) == ADDRESSES);
    free(table);
}

/* Restored addresses: of the pool and outside it; one of another session; a CHOOSE. */
static void restored_addresses(void)
{
    static const struct {
        uint64_t seid;
        uint32_t address; /* 0: a CHOOSE */
        unsigned cause;
    } sessions[] = {{1, FIRST_ADDRESS, 1},
                    {2, FIRST_ADDRESS, 73},
                    {2, FIRST_ADDRESS + 1, 1},
                    {3, FIRST_ADDRESS + 1, 73},
                    {3, 0, 73},
                    {3, FIRST_ADDRESS + 2, 1},
                    {4, FIRST_ADDRESS + 2, 1}};
    uint8_t *table = new_table(4096, 10);
    struct message m;

    for (size_t i = 0; i < sizeof sessions / sizeof sessions[0]; i++) {
        start_establishment(&m, sessions[i].seid);
        put_number(&m, IE_FLAGS, 1, 1);
        for (uint16_t id = 1; id <= 2; id++) {
            create_pdr_start(&m, id, 1, 0);
            if (sessions[i].address == 0)
                put_choose_address(&m);
            else
                put_address(&m, sessions[i].address);
            create_pdr_end(&m, -1);
        }
        CHECK(ask(table, &m) == sessions[i].cause);
    }
    CHECK(free_addresses(table) == 0);
    free(table);
}

/* The longest reply and the longest restoration: a session with everything, each record with an
   F-TEID of both families and an address. */
static void longest_session(void)
{
    static const uint8_t ipv6[16] = {0x20, 1, 0x0D, 0xB8, [15] = 1};
    static const struct tunnel both = {.flags = CHOOSE | V4 | V6};
    uint8_t *table = block(TABLE_LENGTH, FILLING);
    uint8_t *request = block(PFCP_LONGEST_RESTORATION, FILLING);
    uint8_t fq_csid[20] = {0x11, 0x20, 1};
    struct message m;
    size_t used = 0;

    uint32_t of_peer = 0;

    CHECK(make_with(table, TABLE_LENGTH, ipv6, sizeof ipv6, 4096, 24, FIRST_ADDRESS, 1, SESSIONS) ==
          0);
    start_establishment(&m, 1);
    for (uint16_t id = 1; id <= 16; id++) {
        create_pdr_start(&m, id, 1, 0);
        put_f_teid(&m, &both);
        put_choose_address(&m);
        create_pdr_end(&m, 7);
    }
    for (uint8_t id = 1; id <= 8; id++) {
        group_start(&m, IE_CREATE_ENDPOINT);
        put_number(&m, IE_ENDPOINT_ID, id, 1);
        put_f_teid(&m, &both);
        put_choose_address(&m);
        group_end(&m);
    }
    for (uint8_t node_type = 0; node_type < 6; node_type++) {
        fq_csid[19] = node_type;
        put_element(&m, IE_FQ_CSID, fq_csid, sizeof fq_csid);
    }
    CHECK(ask(table, &m) == 1);
    CHECK(answer.used == 1191);
    CHECK(free_teids(table) == 0 && free_addresses(table) == 0);
    CHECK(pfcp_write_restoration(table, TABLE_LENGTH, 0, ipv6, 4, ipv6, 16, request,
                                 PFCP_LONGEST_RESTORATION, &used, &of_peer) == PFCP_WRITTEN);
    CHECK(used == PFCP_LONGEST_RESTORATION && of_peer == 1);
    free(request);
    free(table);
}

/* Empty slices may have no pointer. */
static void empty_slices(void)
{
    uint8_t *table = new_table(4096, 10);
    uint8_t *reply = block(PFCP_REPLY_SPACE, FILLING);
    uint8_t octet[16] = {0};
    uint32_t count = 7;
    size_t used = 7;
    size_t place = 7;

    CHECK(make_small(NULL, 0, SESSIONS) == 1);
    CHECK(make_small(NULL, 0, 0) == 1);
    CHECK(make_with(NULL, 0, octet, 16, 1, 1, 1, 1, SESSIONS) == 1);
    CHECK(pfcp_free_count(NULL, 0, &count) == 1 && count == 0);
    count = 7;
    CHECK(pfcp_free_addresses(NULL, 0, &count) == 1 && count == 0);
    CHECK(pfcp_request(NULL, 0, 1, NULL, 0, NULL, 0, &used, &place) == 1 && used == 0);
    CHECK(place == 0);
    used = 7;
    CHECK(pfcp_request(table, TABLE_LENGTH, 1, NULL, 0, NULL, 0, &used, &place) == 2);
    CHECK(used == 0 && place == 0);
    used = 7;
    CHECK(pfcp_request(table, TABLE_LENGTH, 1, NULL, 0, reply, PFCP_REPLY_SPACE, &used, &place) ==
          4);
    CHECK(used == 0 && all_are(reply, PFCP_REPLY_SPACE, FILLING));
    used = 7;
    CHECK(pfcp_request(NULL, 0, 1, octet, 16, reply, PFCP_REPLY_SPACE, &used, &place) == 1);
    CHECK(used == 0 && place == 0);
    CHECK(all_are(reply, PFCP_REPLY_SPACE, FILLING));
    CHECK(free_teids(table) == 10);
    free(reply);
    free(table);
}

/* The place of a fault: an F-TEID in the PDI of a Create PDR, a Create PDR that lacks its PDI, octets
   left over in a group and at the end, an overrun; and none where there is no fault of these kinds. */
static void places(void)
{
    static const struct {
        uint8_t octets[40];
        size_t length;
        unsigned cause, offending;
        size_t place;
    } faults[] = {
        {{0, 1, 0, 19, 0, 56, 0, 2, 0, 1, 0, 2, 0, 9, 0, 20, 0, 0, 0, 21, 0, 1, 4}, 23, 68, 20, 30},
        {{0, 1, 0, 20, 0, 56, 0, 2, 0, 1, 0, 2, 0, 10, 0, 20, 0, 1, 0, 0, 21, 0, 1, 4},
         24,
         69,
         21,
         35},
        {{0, 1, 0, 6, 0, 56, 0, 2, 0, 1}, 10, 66, 2, 16},
        {{0, 1, 0, 13, 0, 56, 0, 2, 0, 1, 0, 2, 0, 3, 0, 20, 0}, 17, 68, 2, 26},
        {{0, 15, 0, 12, 0, 56, 0, 2, 0, 1, 0, 56, 0, 2, 0, 1}, 16, 69, 56, 26},
        {{0, 15, 0, 6, 0, 56, 0, 2, 0, 1, 0, 1}, 12, 68, 0, 0},
        {{0, 15, 0, 6, 0, 56, 0, 3, 0, 1}, 10, 68, 56, 20},
        {{0, 15, 0, 6, 0, 56, 0, 2, 0, 9}, 10, 73, 65536, 0},
    };
    uint8_t *table = new_table(4096, 10);
    struct message m;

    CHECK(establish_one_pdr(table, 1, &choose) == 1 && answer.place == 0);
    for (size_t i = 0; i < sizeof faults / sizeof faults[0]; i++) {
        message_start(&m, MODIFICATION, 1, 1);
        memcpy(m.octets + m.length, faults[i].octets, faults[i].length);
        m.length += faults[i].length;
        CHECK(ask(table, &m) == faults[i].cause);
        CHECK(offending() == faults[i].offending);
        CHECK(answer.place == faults[i].place);
    }
    free(table);
}

/* Sessions with a TEID each, all with the CSID 5 in what they hold: 1 of node type 1, 2 of node type
   2, 3 of node type 1 and of node type 0 with the CSID 8. Session 4 holds the CSID 6. */
static uint8_t *table_of_cards(void)
{
    uint8_t *table = new_table(4096, 10);
    struct message m;

    for (uint64_t seid = 1; seid <= 4; seid++) {
        start_establishment(&m, seid);
        create_pdr(&m, 1, &choose);
        put_fq_csid(&m, seid == 2 ? 2 : 1, seid == 4 ? 6 : 5);
        if (seid == 3)
            put_fq_csid(&m, 0, 8);
        CHECK(ask(table, &m) == 1);
    }
    CHECK(free_teids(table) == 6);
    return table;
}

/* Asks for the deletion of a set: an FQ-CSID value, or none for the length 0. */
static unsigned delete_set(uint8_t *table, const uint8_t *value, size_t length)
{
    struct message m;

    plain_message_start(&m, SET_DELETION, 0x123456);
    if (length > 0)
        put_element(&m, IE_FQ_CSID, value, length);
    return ask(table, &m);
}

/* Which sessions of table_of_cards live, one bit each. */
static unsigned live_cards(uint8_t *table)
{
    unsigned live = 0;
    struct message m;

    for (unsigned seid = 1; seid <= 4; seid++) {
        message_start(&m, MODIFICATION, seid, 1);
        if (ask(table, &m) == 1)
            live |= 1u << seid;
    }
    return live;
}

/* Sets: what goes and what stays, the whole replies, the faults with their places. */
static void set_deletions(void)
{
    static const uint8_t accepted[] = {0x20, 0x0F, 0x00, 0x12, 0x12, 0x34, 0x56, 0x00,
                                       0x00, 0x3C, 0x00, 0x05, 0x00, 0xC0, 0x00, 0x02,
                                       0x01, 0x00, 0x13, 0x00, 0x01, 0x01};
    static const uint8_t refused[] = {0x20, 0x0F, 0x00, 0x18, 0x12, 0x34, 0x56, 0x00, 0x00, 0x3C,
                                      0x00, 0x05, 0x00, 0xC0, 0x00, 0x02, 0x01, 0x00, 0x13, 0x00,
                                      0x01, 0x45, 0x00, 0x28, 0x00, 0x02, 0x00, 0x41};
    static const struct {
        uint8_t value[24];
        size_t length;
        unsigned live;
    } sets[] = {
        {{0}, 0, 0x1E}, /* none at all */
        {{0x01, 192, 0, 2, 10, 0, 5, 1}, 8, 0x14},
        {{0x01, 192, 0, 2, 10, 0, 5, 2}, 8, 0x1A},
        {{0x01, 192, 0, 2, 10, 0, 8, 0}, 8, 0x16},
        {{0x03, 192, 0, 2, 10, 0, 4, 0, 6, 0, 5, 0xF1, 77}, 13, 0x04},
        {{0x01, 192, 0, 2, 10, 0, 5, 3}, 8, 0x1E}, /* another node type */
        {{0x01, 192, 0, 2, 10, 0, 8, 1}, 8, 0x1E}, /* the CSID of its other one */
        {{0x01, 192, 0, 2, 11, 0, 5, 1}, 8, 0x1E}, /* another address */
        {{0x21, 192, 0, 2, 10, 0, 5, 1}, 8, 0x1E}, /* another Node-ID type */
        {{0x11, 192, 0, 2, 10, [17] = 0, 5, 1}, 20, 0x1E},
    };
    static const struct {
        uint8_t value[8];
        size_t length;
        unsigned cause;
    } faults[] = {
        {{0x00, 0, 0, 0, 0, 1}, 6, 69},          {{0x31, 192, 0, 2, 10, 0, 5, 1}, 8, 69},
        {{0x01, 192, 0, 2, 10, 0, 5, 6}, 8, 69}, {{0x21, 0xF4, 0x24, 0, 0, 0, 5, 1}, 8, 69},
        {{0x01, 192, 0, 2, 10, 0, 5}, 7, 68},
    };
    struct message m;

    for (size_t i = 0; i < sizeof sets / sizeof sets[0]; i++) {
        uint8_t *table = table_of_cards();

        CHECK(delete_set(table, sets[i].value, sets[i].length) == 1);
        CHECK(answer.used == sizeof accepted &&
              memcmp(answer.octets, accepted, sizeof accepted) == 0);
        CHECK(live_cards(table) == sets[i].live);
        free(table);
    }
    uint8_t *table = table_of_cards();
    uint8_t *before = copy_of(table, TABLE_LENGTH);
    for (size_t i = 0; i < sizeof faults / sizeof faults[0]; i++) {
        CHECK(delete_set(table, faults[i].value, faults[i].length) == faults[i].cause);
        CHECK(offending() == IE_FQ_CSID && answer.place == 8);
        if (faults[i].cause == 69)
            CHECK(answer.used == sizeof refused &&
                  memcmp(answer.octets, refused, sizeof refused) == 0);
    }
    /* A null one is 68, and what stands before it takes nothing. */
    plain_message_start(&m, SET_DELETION, 1);
    put_fq_csid(&m, 1, 5);
    put_element(&m, IE_FQ_CSID, NULL, 0);
    CHECK(ask(table, &m) == 68 && offending() == IE_FQ_CSID && answer.place == 20);
    CHECK(memcmp(table, before, TABLE_LENGTH) == 0);
    /* A node type may come twice; a broken group is not opened. */
    plain_message_start(&m, SET_DELETION, 1);
    put_element(&m, IE_CREATE_PDR, "\0\1", 2);
    put_fq_csid(&m, 1, 6);
    put_fq_csid(&m, 1, 5);
    CHECK(ask(table, &m) == 1);
    CHECK(live_cards(table) == 0x04 && free_teids(table) == 9);
    /* A deletion's FQ-CSID is skipped, also a broken one, but not one that runs over. */
    message_start(&m, DELETION, 2, 1);
    put_element(&m, IE_FQ_CSID, NULL, 0);
    put_element(&m, IE_FQ_CSID, faults[1].value, faults[1].length);
    message_end(&m);
    m.octets[m.length - 9]++;
    CHECK(ask_octets(table, m.octets, m.length) == 0 && answer.octets[20] == 68);
    CHECK(offending() == IE_FQ_CSID && answer.place == 20);
    m.octets[m.length - 9]--;
    CHECK(ask(table, &m) == 1 && free_teids(table) == 10);
    free(before);
    free(table);
}

/* The header of a set deletion: 8 octets, S is 0. */
static void set_headers(void)
{
    uint8_t *table = new_table(4096, 10);
    uint8_t header[16] = {0x20, SET_DELETION, 0, 4, 0, 0, 1, 0};
    static const uint8_t wrong_first[] = {0x21, 0x24, 0x00, 0x40, 0xE0};

    CHECK(ask_octets(table, header, 8) == 0 && answer.octets[21] == 1);
    for (size_t length = 0; length < 8; length++) {
        header[3] = (uint8_t)(length < 4 ? 0 : length - 4);
        CHECK(ask_octets(table, header, length) == 4);
    }
    header[3] = 5;
    CHECK(ask_octets(table, header, 8) == 4);
    header[3] = 4;
    for (size_t i = 0; i < sizeof wrong_first; i++) {
        header[0] = wrong_first[i];
        CHECK(ask_octets(table, header, 8) == 4);
    }
    header[0] = 0x3A; /* only ignored bits differ */
    CHECK(ask_octets(table, header, 8) == 0);
    header[0] = 0x21;
    header[3] = 12;
    CHECK(ask_octets(table, header, 16) == 4);
    header[0] = 0x20;
    for (unsigned type = 0; type < 256; type++) {
        header[1] = (uint8_t)type;
        CHECK(ask_octets(table, header, 16) == (type == SET_DELETION ? 0 : 4));
    }
    free(table);
}

/* Tables of another length, small reply spaces, long and short messages, other headers. */
static void lengths(void)
{
    struct message m;
    size_t used;
    size_t place;

    for (size_t length = TABLE_LENGTH - 1; length <= TABLE_LENGTH + 1; length += 2) {
        uint8_t *table = block(length, FILLING);
        uint8_t *reply = block(PFCP_REPLY_SPACE, FILLING);
        uint32_t count = 7;

        CHECK(make_small(table, length, SESSIONS) == 1);
        CHECK(all_are(table, length, FILLING));
        CHECK(pfcp_free_count(table, length, &count) == 1 && count == 0);
        count = 7;
        CHECK(pfcp_free_addresses(table, length, &count) == 1 && count == 0);
        message_start(&m, DELETION, 1, 1);
        message_end(&m);
        used = 7;
        CHECK(pfcp_request(table, length, 1, m.octets, m.length, reply, PFCP_REPLY_SPACE, &used,
                           &place) == 1);
        CHECK(used == 0 && all_are(reply, PFCP_REPLY_SPACE, FILLING));
        free(reply);
        free(table);
    }

    uint8_t *table = new_table(4096, 10);
    uint8_t *before = copy_of(table, TABLE_LENGTH);
    uint8_t *small = block(PFCP_REPLY_SPACE - 1, FILLING);

    start_establishment(&m, 1);
    create_pdr(&m, 1, &choose);
    message_end(&m);
    used = 7;
    CHECK(pfcp_request(table, TABLE_LENGTH, 1, m.octets, m.length, small, PFCP_REPLY_SPACE - 1,
                       &used, &place) == 2);
    CHECK(used == 0 && all_are(small, PFCP_REPLY_SPACE - 1, FILLING));
    free(small);

    /* A vendor element fills the message up to 2,049 octets, then to 2,048. */
    static const uint8_t zeros[PFCP_LONGEST_REQUEST];
    size_t room = PFCP_LONGEST_REQUEST - m.length - 4;

    put_element(&m, 40000, zeros, room + 1);
    message_end(&m);
    CHECK(m.length == PFCP_LONGEST_REQUEST + 1 && ask_octets(table, m.octets, m.length) == 3);
    CHECK(memcmp(table, before, TABLE_LENGTH) == 0);
    start_establishment(&m, 1);
    create_pdr(&m, 1, &choose);
    put_element(&m, 40000, zeros, room);
    message_end(&m);
    CHECK(m.length == PFCP_LONGEST_REQUEST && ask_octets(table, m.octets, m.length) == 0);
    CHECK(granted(IE_CREATED_PDR, 1) == 4096);
    CHECK(delete_session(table, 1) == 1);
    CHECK(memcmp(table, before, TABLE_LENGTH) == 0);

    message_start(&m, DELETION, 1, 1);
    message_end(&m);
    CHECK(ask_octets(table, m.octets, 15) == 4);
    CHECK(ask_octets(table, m.octets, 16) == 0);
    m.octets[3]++;
    CHECK(ask_octets(table, m.octets, 16) == 4);
    m.octets[3]--;
    static const uint8_t wrong_first[] = {0x20, 0x25, 0x01, 0x41, 0xE1};
    for (size_t i = 0; i < sizeof wrong_first; i++) {
        m.octets[0] = wrong_first[i];
        CHECK(ask_octets(table, m.octets, 16) == 4);
    }
    m.octets[0] = 0x3B; /* only ignored bits differ */
    CHECK(ask_octets(table, m.octets, 16) == 0);
    static const uint8_t other_types[] = {0, 1, 5, 49, 51, 53, 55, 56, 255};
    for (size_t i = 0; i < sizeof other_types; i++) {
        m.octets[1] = other_types[i];
        CHECK(ask_octets(table, m.octets, 16) == 5);
    }
    CHECK(memcmp(table, before, TABLE_LENGTH) == 0);
    free(before);
    free(table);
}

/* Settings that are made and refused. */
static void settings(void)
{
    static const struct {
        size_t ipv6_len;
        uint32_t first_teid;
        uint32_t pool_size;
        uint32_t first_address;
        uint32_t addresses;
        uint32_t expected;
    } cases[] = {
        {0, 1, 1, 0, 1, 0},
        {0, 1, 4097, 0, 1, 0},
        {0, 0, 1, 0, 1, 1},
        {0, 1, 0, 0, 1, 1},
        {0, 1, 65536, 0, 1, 0},
        {0, 1, 65537, 0, 1, 1},
        {0, 0xFFFFFFFF, 1, 0, 1, 0},
        {0, 0xFFFFFFFF, 2, 0, 1, 1},
        {0, 0xFFFF0000, 65536, 0, 1, 0},
        {0, 0xFFFF0001, 65536, 0, 1, 1},
        {16, 4096, 2, 0, 1, 0},
        {15, 4096, 2, 0, 1, 1},
        {17, 4096, 2, 0, 1, 1},
        {1, 4096, 2, 0, 1, 1},
        {0, 4096, 0xFFFFFFFF, 0, 1, 1},
        {16, 0, 0, 0, 1, 1},
        {0, 1, 1, 0x0A2D0001, 1024, 0},
        {0, 1, 1, 0xC0000201, 1, 0}, /* the unit's own address */
        {0, 1, 1, 0x0A2D0001, 0, 1},
        {0, 1, 1, 0x0A2D0001, 1025, 1},
        {0, 1, 1, 0x0A2D0001, 0xFFFFFFFF, 1},
        {0, 1, 1, 0xFFFFFFFF, 1, 0},
        {0, 1, 1, 0xFFFFFFFF, 2, 1},
        {0, 1, 1, 0xFFFFFC00, 1024, 0},
        {0, 1, 1, 0xFFFFFC01, 1024, 1},
    };

    for (size_t i = 0; i < sizeof cases / sizeof cases[0]; i++) {
        uint8_t *table = block(TABLE_LENGTH, FILLING);
        uint8_t *ipv6 = block(cases[i].ipv6_len, 0x20);
        uint32_t made =
            make_with(table, TABLE_LENGTH, ipv6, cases[i].ipv6_len, cases[i].first_teid,
                      cases[i].pool_size, cases[i].first_address, cases[i].addresses, SESSIONS);

        CHECK(made == cases[i].expected);
        if (made == 0) {
            CHECK(number_at(table, 4) == 0xC0000201);
            CHECK(table[4] == (cases[i].ipv6_len == 16));
            CHECK(all_are(table + 5, 16, cases[i].ipv6_len == 16 ? 0x20 : 0));
            CHECK(number_at(table + 21, 4) == cases[i].first_teid);
            CHECK(number_at(table + 25, 4) == cases[i].pool_size);
            CHECK(number_at(table + 29, 4) == cases[i].first_address);
            CHECK(number_at(table + 33, 4) == cases[i].addresses);
            CHECK(number_at(table + LIMIT_AT, 2) == SESSIONS);
            CHECK(number_at(table + DUES_AT, 8) == 0xC000020100000000);
            CHECK(number_at(table + DUES_AT + 8, 4) == cases[i].pool_size);
            CHECK(number_at(table + DUES_AT + 12, 8) == 0xC000020200000000);
            CHECK(number_at(table + DUES_AT + 20, 4) == cases[i].pool_size);
            CHECK(all_are(table + COUNT_AT, TABLE_LENGTH - COUNT_AT, 0));
            CHECK(free_teids(table) == cases[i].pool_size);
            CHECK(free_addresses(table) == cases[i].addresses);
        } else {
            CHECK(all_are(table, TABLE_LENGTH, FILLING));
        }
        free(ipv6);
        free(table);
    }
}

/* Octets that break a table with one session; outcome 1 comes before all others. */
static void broken_tables(void)
{
    static const struct {
        size_t at;
        uint8_t octet;
    } damage[] = {
        {4, 2},                 /* presence of the IPv6 address */
        {20, 1},                /* an address that is not there */
        {25, 1},                /* pool size */
        {36, 0},                /* number of addresses */
        {34, 1},                /* the same: 65,538 */
        {LIMIT_AT + 1, 63},     /* session limit */
        {LIMIT_AT + 1, 65},     /* the same */
        {LIMIT_AT + 1, 0},      /* no session at all */
        {LIMIT_AT + 1, 1},      /* one session: none for each peer */
        {LIMIT_AT, 1},          /* 320 sessions */
        {LIMIT_AT, 0xFF},       /* 65,344 */
        {COUNT_AT + 1, 0},      /* one session fewer: its slot is unused room */
        {COUNT_AT + 1, 65},     /* too many sessions */
        {COUNT_AT, 1},          /* 257 sessions */
        {HEAD, 0},              /* no peer */
        {HEAD, 3},              /* the same */
        {HEAD, 255},            /* the same */
        {HEAD + 8, 0},          /* SEID 0 */
        {HEAD + 9, 17},         /* too many PDRs */
        {HEAD + 12 + 6, 2},     /* presence of the FAR ID */
        {HEAD + 12 + 11, 16},   /* source interface */
        {HEAD + 12 + 12, 3},    /* place */
        {HEAD + 12 + 15, 0x20}, /* a TEID outside the pool */
        {HEAD + 12 + 17, 0},    /* no family */
        {HEAD + 12 + 17, 3},    /* a family that the unit lacks */
        {HEAD + 12 + 18, 1},    /* an endpoint ID beside a TEID */
        {HEAD + 12 + 19, 2},    /* presence of the address */
        {HEAD + 12 + 23, 1},    /* an address that is not there */
        {HEAD + 396, 1},        /* unused room of endpoints */
        {HEAD + 484, 1},        /* unused room of FQ-CSIDs */
        {HEAD + SLOT, 1},       /* unused room of sessions: a peer */
        {HEAD + SLOT + 8, 1},   /* the same: a SEID */
        {DUES_AT + 3, 2},       /* both peers have one address */
        {DUES_AT + 11, 0},      /* peer 1 holds more than its limit */
        {DUES_AT + 11, 11},     /* a limit over the pool size */
        {DUES_AT + 20, 1},      /* the same of peer 2 */
        {DUES_AT + 7, 11},      /* a guarantee over the limit */
        {DUES_AT + 19, 11},     /* the same of peer 2 */
        {DUES_AT + 19, 10}, /* what peer 1 holds and peer 2 is guaranteed is over the pool size */
        {TABLE_LENGTH - 1, 1},
    };
    uint8_t *table = new_table(4096, 10);
    uint8_t *reply = block(PFCP_REPLY_SPACE, FILLING);
    struct message m;

    CHECK(establish_one_pdr(table, 1, &choose) == 1);
    uint8_t *before = copy_of(table, TABLE_LENGTH);
    message_start(&m, DELETION, 1, 1);
    message_end(&m);
    for (size_t i = 0; i < sizeof damage / sizeof damage[0]; i++) {
        uint32_t count = 7;
        size_t used = 7;
        size_t place = 7;
        uint8_t was = table[damage[i].at];

        table[damage[i].at] = damage[i].octet;
        uint8_t *damaged = copy_of(table, TABLE_LENGTH);
        CHECK(pfcp_free_count(table, TABLE_LENGTH, &count) == 1 && count == 0);
        count = 7;
        CHECK(pfcp_free_addresses(table, TABLE_LENGTH, &count) == 1 && count == 0);
        CHECK(pfcp_request(table, TABLE_LENGTH, 1, m.octets, m.length, reply, PFCP_REPLY_SPACE,
                           &used, &place) == 1);
        CHECK(used == 0 && all_are(reply, PFCP_REPLY_SPACE, FILLING));
        used = 7;
        CHECK(pfcp_request(table, TABLE_LENGTH, 1, m.octets, 3, reply, 5, &used, &place) == 1 &&
              used == 0 && place == 0);
        CHECK(memcmp(table, damaged, TABLE_LENGTH) == 0);
        free(damaged);
        table[damage[i].at] = was;
    }
    CHECK(memcmp(table, before, TABLE_LENGTH) == 0);
    CHECK(delete_session(table, 1) == 1);
    free(before);
    free(reply);
    free(table);
}

/* A session restored into an empty table makes the same table again. */
static void restoration(void)
{
    static const uint8_t ipv4[4] = {192, 0, 2, 1};
    static const uint8_t other[4] = {192, 0, 2, 2};
    struct tunnel existing = {.flags = V4, .teid = 4096, .ipv4 = ipv4};
    uint8_t *table = new_table(4096, 10);
    uint8_t *fresh = new_table(4096, 10);
    struct message m;

    CHECK(establish_one_pdr(table, 1, &choose) == 1);
    start_establishment(&m, 1);
    put_number(&m, IE_FLAGS, 1, 1);
    create_pdr(&m, 1, &existing);
    CHECK(ask(fresh, &m) == 1);
    CHECK(granted(IE_CREATED_PDR, 1) == 0);
    CHECK(memcmp(table, fresh, TABLE_LENGTH) == 0);
    /* Again: 64 for the live SEID; another SEID: 73, the TEID is held. */
    CHECK(ask(fresh, &m) == 64);
    start_establishment(&m, 2);
    put_number(&m, IE_FLAGS, 1, 1);
    create_pdr(&m, 1, &existing);
    CHECK(ask(fresh, &m) == 73);
    existing.teid = 4097;
    existing.ipv4 = other;
    start_establishment(&m, 2);
    put_number(&m, IE_FLAGS, 1, 1);
    create_pdr(&m, 1, &existing);
    CHECK(ask(fresh, &m) == 73);
    /* CHOOSE inside a restoration, and a given F-TEID outside of one: 71. */
    start_establishment(&m, 2);
    put_number(&m, IE_FLAGS, 1, 1);
    create_pdr(&m, 1, &choose);
    CHECK(ask(fresh, &m) == 71);
    CHECK(establish_one_pdr(fresh, 2, &existing) == 71);
    CHECK(memcmp(table, fresh, TABLE_LENGTH) == 0);
    free(fresh);
    free(table);
}

/* The last answer of a call that reads a table. */
static struct {
    uint32_t count;
    uint32_t teids;
    size_t place;
} told;

/* The calls on a table of exactly this length; the table stays as it is. */
static uint32_t count_in(const uint8_t *octets, size_t length)
{
    uint8_t *table = length > 0 ? copy_of(octets, length) : NULL;

    told.count = 0xA5A5A5A5;
    uint32_t outcome = pfcp_session_count(table, length, &told.count);
    CHECK(length == 0 || memcmp(table, octets, length) == 0);
    free(table);
    return outcome;
}

static uint32_t find_seid_in(const uint8_t *octets, size_t length, uint64_t seid)
{
    uint8_t *table = length > 0 ? copy_of(octets, length) : NULL;

    told.place = SIZE_MAX;
    uint32_t outcome = pfcp_find_session(table, length, peer, seid, &told.place);
    CHECK(length == 0 || memcmp(table, octets, length) == 0);
    free(table);
    return outcome;
}

static uint32_t count_peer_in(const uint8_t *octets, size_t length)
{
    uint8_t *table = length > 0 ? copy_of(octets, length) : NULL;

    told.count = 0xA5A5A5A5;
    told.teids = 0xA5A5A5A5;
    uint32_t outcome = pfcp_peer_count(table, length, peer, &told.count, &told.teids);
    CHECK(length == 0 || memcmp(table, octets, length) == 0);
    free(table);
    return outcome;
}

/* All counts at once, in the order of the call's numbers. */
static uint32_t count_all_in(const uint8_t *octets, size_t length, uint32_t n[6])
{
    uint8_t *table = length > 0 ? copy_of(octets, length) : NULL;

    memset(n, 0xA5, 6 * sizeof n[0]);
    uint32_t outcome = pfcp_counts(table, length, &n[0], &n[1], &n[2], &n[3], &n[4], &n[5]);
    CHECK(length == 0 || memcmp(table, octets, length) == 0);
    free(table);
    return outcome;
}

/* Each of them is the number that the call for it alone gives. */
static void counts_agree(const uint8_t *table, size_t length)
{
    uint32_t n[6];
    uint32_t teids;
    uint32_t addresses;

    CHECK(count_all_in(table, length, n) == PFCP_FOUND);
    for (uint32_t one = 1; one <= PFCP_PEERS; one++) {
        uint32_t held;
        uint32_t sessions;

        CHECK(pfcp_peer_count(table, length, one, &sessions, &held) == PFCP_FOUND);
        CHECK(n[2 * one - 2] == sessions && n[2 * one - 1] == held);
    }
    CHECK(pfcp_free_count(table, length, &teids) == PFCP_ANSWERED && n[4] == teids);
    CHECK(pfcp_free_addresses(table, length, &addresses) == PFCP_ANSWERED && n[5] == addresses);
}

/* Whether the asking peer has so many sessions and TEIDs. */
static int has(const uint8_t *table, uint32_t sessions, uint32_t teids)
{
    counts_agree(table, length_of(table));
    return count_peer_in(table, length_of(table)) == PFCP_FOUND && told.count == sessions &&
           told.teids == teids;
}

static uint32_t find_teid_in(const uint8_t *octets, size_t length, uint32_t teid)
{
    uint8_t *table = length > 0 ? copy_of(octets, length) : NULL;

    told.place = SIZE_MAX;
    uint32_t outcome = pfcp_find_teid(table, length, teid, &told.place);
    CHECK(length == 0 || memcmp(table, octets, length) == 0);
    free(table);
    return outcome;
}

/* All of them say that there is no table. */
static void nothing_told(const uint8_t *octets, size_t length)
{
    static const uint32_t zeros[6];
    uint32_t n[6];

    CHECK(count_all_in(octets, length, n) == PFCP_BROKEN_TABLE);
    CHECK(memcmp(n, zeros, sizeof n) == 0);
    CHECK(count_in(octets, length) == PFCP_BROKEN_TABLE && told.count == 0);
    CHECK(count_peer_in(octets, length) == PFCP_BROKEN_TABLE && told.count == 0 && told.teids == 0);
    CHECK(find_seid_in(octets, length, 4) == PFCP_BROKEN_TABLE && told.place == 0);
    CHECK(find_teid_in(octets, length, 4096) == PFCP_BROKEN_TABLE && told.place == 0);
}

/* How many sessions, the place of a SEID, and that of a TEID's holder: an endpoint's TEID, a TEID that
   two PDRs share, and numbers that are in no record or in another field of one. */
static void read_tables(void)
{
    static const struct {
        uint64_t seid;
        uint32_t outcome;
        size_t place;
    } seids[] = {
        {4, 0, 0}, {9, 0, 1},    {0xFFFFFFFFFFFFFFFF, 0, 2}, {0, 2, 0},  {3, 2, 0},
        {5, 2, 0}, {4096, 2, 0}, {0xFFFFFFFFFFFFFFFE, 2, 0}, {10, 2, 0}, {0x100000004, 2, 0}};
    static const struct {
        uint32_t teid;
        uint32_t outcome;
        size_t place;
    } teids[] = {{4096, 0, 1}, {4097, 0, 0}, {4098, 0, 2}, {4099, 2, 0},
                 {4095, 2, 0}, {0, 2, 0},    {100, 2, 0},  {0xFFFFFFFF, 2, 0}};
    const size_t length = TABLE_LENGTH;
    uint8_t *table = new_table(4096, 10);
    struct message m;

    CHECK(count_in(table, length) == PFCP_FOUND && told.count == 0);
    CHECK(find_seid_in(table, length, 4) == PFCP_NONE && told.place == 0);
    CHECK(find_teid_in(table, length, 4096) == PFCP_NONE && told.place == 0);
    start_establishment(&m, 9);
    create_pdr(&m, 1, &choose_7);
    create_pdr(&m, 2, &choose_7);
    create_pdr(&m, 3, NULL);
    CHECK(ask(table, &m) == 1);
    start_establishment(&m, 4);
    create_pdr_start(&m, 6, 7, 1);
    put_number(&m, IE_ENDPOINT_ID, 3, 1);
    create_pdr_end(&m, 4099);
    create_endpoint(&m, 3, &choose);
    CHECK(ask(table, &m) == 1);
    CHECK(establish_one_pdr(table, 0xFFFFFFFFFFFFFFFF, &choose) == 1);
    CHECK(count_in(table, length) == PFCP_FOUND && told.count == 3);
    CHECK(has(table, 3, 3));
    for (size_t i = 0; i < sizeof seids / sizeof seids[0]; i++) {
        CHECK(find_seid_in(table, length, seids[i].seid) == seids[i].outcome);
        CHECK(told.place == seids[i].place);
    }
    for (size_t i = 0; i < sizeof teids / sizeof teids[0]; i++) {
        CHECK(find_teid_in(table, length, teids[i].teid) == teids[i].outcome);
        CHECK(told.place == teids[i].place);
    }
    nothing_told(table, length - 1);
    nothing_told(NULL, 0);
    table[length - 1] = 1;
    nothing_told(table, length);
    table[length - 1] = 0;

    /* A TEID is held until the last of the PDRs that share it is gone; then it is another's. */
    CHECK(modify_remove_pdr(table, 9, 1) == 1);
    CHECK(find_teid_in(table, length, 4096) == PFCP_FOUND && told.place == 1);
    CHECK(modify_remove_pdr(table, 9, 2) == 1);
    CHECK(find_teid_in(table, length, 4096) == PFCP_NONE && told.place == 0);
    CHECK(establish_one_pdr(table, 1, &choose) == 1);
    CHECK(find_teid_in(table, length, 4096) == PFCP_FOUND && told.place == 0);
    CHECK(find_teid_in(table, length, 4097) == PFCP_FOUND && told.place == 1);
    CHECK(delete_session(table, 4) == 1);
    CHECK(find_teid_in(table, length, 4097) == PFCP_NONE && told.place == 0);
    CHECK(find_seid_in(table, length, 9) == PFCP_FOUND && told.place == 1);
    CHECK(count_in(table, length) == PFCP_FOUND && told.count == 3);
    free(table);
}

/* What was written last. */
static struct {
    uint8_t octets[PFCP_LONGEST_RESTORATION];
    size_t used;
    uint32_t peer;
} written;

static const uint8_t plane_ipv4[4] = {198, 51, 100, 1};
static const uint8_t plane_ipv6[16] = {0x20, 0x01, 0x0D, 0xB8, [15] = 1};

/* The writer with a space of exactly this length and addresses of these lengths; checks what holds of
   every answer. */
static uint32_t write_octets(const uint8_t *octets, size_t length, size_t place, size_t ipv4_length,
                             size_t ipv6_length, size_t space_length)
{
    uint8_t *table = copy_of(octets, length);
    uint8_t *ipv4 = ipv4_length > 0 ? block(ipv4_length, 9) : NULL;
    uint8_t *ipv6 = ipv6_length > 0 ? block(ipv6_length, 9) : NULL;
    uint8_t *space = space_length > 0 ? block(space_length, FILLING) : NULL;

    if (ipv4_length == 4)
        memcpy(ipv4, plane_ipv4, 4);
    if (ipv6_length == 16)
        memcpy(ipv6, plane_ipv6, 16);
    written.used = SIZE_MAX;
    written.peer = 0xA5A5A5A5;
    uint32_t outcome =
        pfcp_write_restoration(table, length, place, ipv4, ipv4_length, ipv6, ipv6_length, space,
                               space_length, &written.used, &written.peer);
    CHECK((outcome == PFCP_WRITTEN) == (written.used >= 16));
    CHECK(outcome == PFCP_WRITTEN ? written.peer == 1 || written.peer == 2 : written.peer == 0);
    if (CHECK(written.used <= PFCP_LONGEST_RESTORATION && written.used <= space_length)) {
        CHECK(all_are(space + written.used, space_length - written.used, FILLING));
        if (written.used > 0)
            memcpy(written.octets, space, written.used);
    }
    CHECK(length == 0 || memcmp(table, octets, length) == 0);
    free(table);
    free(ipv4);
    free(ipv6);
    free(space);
    return outcome;
}

static uint32_t write_place(const uint8_t *table, size_t place, size_t space_length)
{
    return write_octets(table, length_of(table), place, 4, 0, space_length);
}

/* The writer of restorations: a whole request, its refusals in their order, and all requests run
   back. */
static void written_restorations(void)
{
    static const uint8_t whole[] = {
        0x21, 0x32, 0x00, 0x80, 0x00, 0x00, 0x00, 0x00, 0x00, 0x00, 0x00, 0x00, 0x00, 0x00, 0x01,
        0x00, 0x00, 0x39, 0x00, 0x0D, 0x02, 0x00, 0x00, 0x00, 0x00, 0x00, 0x00, 0x00, 0x04, 0xC6,
        0x33, 0x64, 0x01, 0x00, 0xBA, 0x00, 0x01, 0x01, 0x00, 0x01, 0x00, 0x24, 0x00, 0x38, 0x00,
        0x02, 0x00, 0x05, 0x00, 0x1D, 0x00, 0x04, 0x00, 0x00, 0x00, 0x07, 0x00, 0x02, 0x00, 0x0A,
        0x00, 0x14, 0x00, 0x01, 0x01, 0x00, 0x83, 0x00, 0x01, 0x03, 0x00, 0x6C, 0x00, 0x04, 0x00,
        0x00, 0x00, 0x08, 0x00, 0x01, 0x00, 0x1C, 0x00, 0x38, 0x00, 0x02, 0x00, 0x06, 0x00, 0x1D,
        0x00, 0x04, 0x00, 0x00, 0x00, 0x07, 0x00, 0x02, 0x00, 0x0A, 0x00, 0x14, 0x00, 0x01, 0x01,
        0x00, 0x83, 0x00, 0x01, 0x03, 0x00, 0x7F, 0x00, 0x12, 0x00, 0x83, 0x00, 0x01, 0x03, 0x00,
        0x15, 0x00, 0x09, 0x01, 0x00, 0x00, 0x10, 0x01, 0xC0, 0x00, 0x02, 0x01};
    uint8_t *table = new_table(4096, 10);
    uint8_t *fresh = new_table(4096, 10);
    struct message m;

    CHECK(write_place(table, 0, PFCP_LONGEST_RESTORATION) == PFCP_PAST_LAST_SESSION);
    CHECK(establish_one_pdr(table, 9, &choose) == 1);
    start_establishment(&m, 4);
    for (uint16_t id = 6; id >= 5; id--) {
        create_pdr_start(&m, id, 7, 1);
        put_number(&m, IE_ENDPOINT_ID, 3, 1);
        create_pdr_end(&m, id == 5 ? 8 : -1);
    }
    create_endpoint(&m, 3, &choose);
    CHECK(ask(table, &m) == 1);
    start_establishment(&m, 12);
    create_pdr(&m, 2, NULL);
    put_fq_csid(&m, 5, 77);
    put_fq_csid(&m, 1, 78);
    CHECK(ask(table, &m) == 1);

    /* Each refusal where the later ones are due too. */
    CHECK(write_octets(table, TABLE_LENGTH - 1, 3, 0, 0, 0) == PFCP_BROKEN_TABLE);
    CHECK(write_octets(NULL, 0, 3, 0, 0, 0) == PFCP_BROKEN_TABLE);
    table[TABLE_LENGTH - 1] = 1;
    CHECK(write_octets(table, TABLE_LENGTH, 3, 0, 0, 0) == PFCP_BROKEN_TABLE);
    table[TABLE_LENGTH - 1] = 0;
    CHECK(write_octets(table, TABLE_LENGTH, 3, 0, 0, 0) == PFCP_PAST_LAST_SESSION);
    CHECK(write_octets(table, TABLE_LENGTH, SIZE_MAX, 0, 0, 0) == PFCP_PAST_LAST_SESSION);
    CHECK(write_octets(table, TABLE_LENGTH, 2, 0, 0, 0) == PFCP_NO_PLANE_ADDRESS);
    CHECK(write_octets(table, TABLE_LENGTH, 2, 3, 16, 0) == PFCP_NO_PLANE_ADDRESS);
    CHECK(write_octets(table, TABLE_LENGTH, 2, 4, 15, 0) == PFCP_NO_PLANE_ADDRESS);
    CHECK(write_octets(table, TABLE_LENGTH, 2, 16, 4, 0) == PFCP_NO_PLANE_ADDRESS);
    CHECK(write_octets(table, TABLE_LENGTH, 2, 4, 16, 0) == PFCP_SMALL_SPACE);
    CHECK(write_place(table, 0, sizeof whole - 1) == PFCP_SMALL_SPACE);

    /* A whole request, in just its room and in more; with other addresses it is as much longer. */
    CHECK(write_place(table, 0, sizeof whole) == PFCP_WRITTEN);
    CHECK(written.used == sizeof whole && memcmp(written.octets, whole, sizeof whole) == 0);
    CHECK(write_place(table, 0, PFCP_LONGEST_RESTORATION) == PFCP_WRITTEN);
    CHECK(written.used == sizeof whole && memcmp(written.octets, whole, sizeof whole) == 0);
    CHECK(write_octets(table, TABLE_LENGTH, 0, 0, 16, 2000) == PFCP_WRITTEN);
    CHECK(written.used == sizeof whole + 12 && written.octets[20] == 1);
    CHECK(memcmp(written.octets + 29, plane_ipv6, 16) == 0);
    CHECK(write_octets(table, TABLE_LENGTH, 0, 4, 16, 2000) == PFCP_WRITTEN);
    CHECK(written.used == sizeof whole + 16 && written.octets[20] == 3);
    CHECK(memcmp(written.octets + 29, plane_ipv4, 4) == 0);
    CHECK(memcmp(written.octets + 33, plane_ipv6, 16) == 0);

    /* All of them in turn on an empty table. */
    size_t place = 0;
    while (write_place(table, place, PFCP_LONGEST_RESTORATION) == PFCP_WRITTEN) {
        place++;
        CHECK(number_at(written.octets + 4, 8) == 0);
        CHECK(number_at(written.octets + 12, 3) == place);
        CHECK(written.peer == 1);
        CHECK(ask_octets(fresh, written.octets, written.used) == 0);
        CHECK(answer.octets[29] == 1);
    }
    CHECK(place == 3);
    CHECK(memcmp(table, fresh, TABLE_LENGTH) == 0);
    free(fresh);
    free(table);
}

/* The refusals in their order: every table with every place, pair of addresses and space. */
static void refused_restorations(void)
{
    static const struct {
        size_t ipv4_len, ipv6_len;
    } addresses[] = {{0, 0}, {4, 0},  {0, 16}, {4, 16}, {3, 0},  {5, 0}, {0, 15}, {0, 17},
                     {4, 1}, {1, 16}, {16, 4}, {4, 15}, {5, 16}, {0, 4}, {16, 0}, {8, 16}};
    static const size_t places[] = {0, 1, 2, 3, 63, 64, 65, 65536, SIZE_MAX};
    uint8_t *sound = new_table(4096, 10);
    uint8_t *empty = new_table(4096, 10);
    uint8_t *longer = block(TABLE_LENGTH + 1, 0);
    struct message m;

    /* Without the addresses of its F-SEID the request of session 5 takes 82 octets, that of 9 takes
       74: header 16, F-SEID 13, flags 5, and the group 48 (with a FAR) or 40. */
    CHECK(establish_one_pdr(sound, 9, &choose) == 1);
    start_establishment(&m, 5);
    create_pdr_start(&m, 1, 100, 0);
    put_f_teid(&m, &choose);
    create_pdr_end(&m, 8);
    CHECK(ask(sound, &m) == 1);
    uint8_t *broken = copy_of(sound, TABLE_LENGTH);
    broken[TABLE_LENGTH - 1] = 1;
    memcpy(longer, sound, TABLE_LENGTH);
    const struct {
        const uint8_t *octets;
        size_t length, sessions;
        int broken;
    } tables[] = {{sound, TABLE_LENGTH, 2, 0},      {empty, TABLE_LENGTH, 0, 0},
                  {broken, TABLE_LENGTH, 2, 1},     {sound, TABLE_LENGTH - 1, 2, 1},
                  {longer, TABLE_LENGTH + 1, 2, 1}, {sound, 0, 0, 1}};

    for (size_t t = 0; t < sizeof tables / sizeof tables[0]; t++)
        for (size_t p = 0; p < sizeof places / sizeof places[0]; p++)
            for (size_t a = 0; a < sizeof addresses / sizeof addresses[0]; a++) {
                size_t v4 = addresses[a].ipv4_len;
                size_t v6 = addresses[a].ipv6_len;
                int given = (v4 == 4 && v6 == 0) || (v4 == 0 && v6 == 16) || (v4 == 4 && v6 == 16);
                size_t whole = (places[p] == 0 ? 82 : 74) + v4 + v6;
                uint32_t small = tables[t].broken                  ? PFCP_BROKEN_TABLE
                                 : places[p] >= tables[t].sessions ? PFCP_PAST_LAST_SESSION
                                 : !given                          ? PFCP_NO_PLANE_ADDRESS
                                                                   : PFCP_SMALL_SPACE;
                uint32_t enough = small == PFCP_SMALL_SPACE ? PFCP_WRITTEN : small;
                const uint8_t *table = tables[t].octets;
                size_t length = tables[t].length;

                CHECK(write_octets(table, length, places[p], v4, v6, 0) == small);
                CHECK(write_octets(table, length, places[p], v4, v6, whole - 1) == small);
                CHECK(written.used == 0);
                CHECK(write_octets(table, length, places[p], v4, v6, whole) == enough);
                CHECK(written.used == (enough == PFCP_WRITTEN ? whole : 0));
                CHECK(write_octets(table, length, places[p], v4, v6, PFCP_LONGEST_RESTORATION) ==
                      enough);
            }
    free(broken);
    free(longer);
    free(empty);
    free(sound);
}

/* What the limit says: the length, for every limit; and what is refused, with nothing written. A limit
   whose last 16 bits are an allowed one is not allowed by that. */
static void session_limits(void)
{
    static const uint32_t refused[] = {0, 1, 257, 320, 65536, 65536 + SESSIONS, 0xFFFFFFFF};

    CHECK(PFCP_LEAST_SESSIONS == 2 && PFCP_MOST_SESSIONS == 256 && PFCP_LONGEST_TABLE == 154689);
    CHECK(pfcp_table_length(64) == 38721 && pfcp_table_length(256) == PFCP_LONGEST_TABLE);
    for (uint32_t limit = PFCP_LEAST_SESSIONS; limit <= PFCP_MOST_SESSIONS; limit++)
        CHECK(pfcp_table_length(limit) == length_for(limit));
    for (size_t i = 0; i < sizeof refused / sizeof refused[0]; i++) {
        size_t length = length_for(refused[i] < 65536 ? refused[i] : SESSIONS);
        uint8_t *table = block(length, FILLING);

        CHECK(pfcp_table_length(refused[i]) == 0);
        CHECK(make_small(table, length, refused[i]) == 1);
        CHECK(make_small(table, 0, refused[i]) == 1);
        CHECK(all_are(table, length, FILLING));
        free(table);
    }
}

/* Tables of several limits, each with lengths that are those of others or none's. */
static void lengths_of_limits(void)
{
    static const uint32_t limits[] = {2, 3, 5, 63, 65, 255, 256};

    for (size_t i = 0; i < sizeof limits / sizeof limits[0]; i++) {
        uint32_t limit = limits[i];
        size_t length = length_for(limit);
        const size_t lengths[] = {HEAD, length - SLOT, length - 1, length + 1, length + SLOT};
        uint32_t count = 7;

        for (size_t k = 0; k < sizeof lengths / sizeof lengths[0]; k++) {
            uint8_t *table = block(lengths[k], FILLING);

            CHECK(make_small(table, lengths[k], limit) == 1);
            CHECK(all_are(table, lengths[k], FILLING));
            free(table);
        }
        uint8_t *table = new_table_for(limit, 4096, 10);
        CHECK(number_at(table + LIMIT_AT, 2) == limit);
        CHECK(all_are(table + COUNT_AT, length - COUNT_AT, 0));
        CHECK(establish_one_pdr(table, 1, &choose) == 1 && free_teids(table) == 9);
        CHECK(pfcp_session_count(table, length - 1, &count) == 1 && count == 0);
        CHECK(pfcp_session_count(table, length - SLOT, &count) == 1 && count == 0);
        CHECK(pfcp_session_count(table, length, &count) == 0 && count == 1);
        free(table);
    }
}

/* Whether an establishment of this session is refused for want of room, by itself and as a
   restoration, and nothing changes. */
static void no_room_for(uint8_t *table, uint64_t seid)
{
    size_t length = length_of(table);
    uint8_t *before = copy_of(table, length);
    struct message m;

    CHECK(establish_one_pdr(table, seid, NULL) == 75 && offending() == 65536);
    start_establishment(&m, seid);
    put_number(&m, IE_FLAGS, 1, 1);
    create_pdr(&m, 1, NULL);
    CHECK(ask(table, &m) == 75 && offending() == 65536);
    CHECK(memcmp(table, before, length) == 0);
    free(before);
}

/* A limit of five: two sessions for each peer, and a third is 75 until one of the same peer goes; one
   that lives already is 64 all the same. */
static void limit_of_five(void)
{
    uint8_t *table = new_table_for(5, 4096, 10);

    for (peer = 1; peer <= PFCP_PEERS; peer++) {
        CHECK(establish_one_pdr(table, 1, &choose) == 1);
        CHECK(establish_one_pdr(table, 2, &choose) == 1);
        no_room_for(table, 3);
        CHECK(establish_one_pdr(table, 2, NULL) == 64);
        CHECK(has(table, 2, 2));
    }
    peer = 2;
    CHECK(delete_session(table, 1) == 1);
    peer = 1;
    no_room_for(table, 3);
    peer = 2;
    CHECK(establish_one_pdr(table, 3, &choose) == 1 && granted(IE_CREATED_PDR, 1) == 4098);
    no_room_for(table, 1);
    peer = 1;
    free(table);
}

/* The limit of a table with two sessions of each peer changed, and the table lent with the length of the
   new limit: too few slots for a peer and limits that are not allowed break it; slots of zeros more make
   the table of the larger limit. */
static void changed_limits(void)
{
    static const struct {
        uint32_t limit;
        int broken;
    } changes[] = {{3, 1},     {2, 1}, {1, 1}, {0, 1}, {257, 1},
                   {65535, 1}, {4, 0}, {5, 0}, {6, 0}, {256, 0}};
    uint8_t *five = new_table_for(5, 4096, 10);

    for (peer = 1; peer <= PFCP_PEERS; peer++)
        for (uint64_t seid = 1; seid <= 2; seid++)
            CHECK(establish_one_pdr(five, seid, &choose) == 1);
    peer = 1;
    for (size_t i = 0; i < sizeof changes / sizeof changes[0]; i++) {
        size_t length = length_for(changes[i].limit);
        size_t kept = length < length_for(5) ? length : length_for(5);
        uint8_t *table = block(length, 0);
        uint32_t count = 7;

        memcpy(table, five, kept);
        table[LIMIT_AT] = (uint8_t)(changes[i].limit >> 8);
        table[LIMIT_AT + 1] = (uint8_t)changes[i].limit;
        CHECK(pfcp_free_count(table, length, &count) == (uint32_t)changes[i].broken);
        CHECK(count == (changes[i].broken ? 0 : 6));
        CHECK(pfcp_session_count(table, length, &count) == (uint32_t)changes[i].broken);
        CHECK(count == (changes[i].broken ? 0 : 4));
        free(table);
    }
    free(five);
}

/* Session i of a full table: 16 PDRs and 8 endpoints with a TEID each, and an FQ-CSID that all share. */
static unsigned establish_full(uint8_t *table, uint64_t seid)
{
    struct message m;

    start_establishment(&m, seid);
    for (uint16_t id = 1; id <= 16; id++)
        create_pdr(&m, id, &choose);
    for (uint8_t id = 1; id <= 8; id++)
        create_endpoint(&m, id, &choose);
    put_fq_csid(&m, 1, 5);
    return ask(table, &m);
}

/* 256 sessions, 128 of each peer with the same SEIDs, with 6,144 TEIDs of the largest pool, then 75 for
   both; all of them found, restored and removed, each peer's by itself. */
static void most_sessions(void)
{
    enum { HALF = PFCP_MOST_SESSIONS / PFCP_PEERS };
    const uint32_t first = 0xFFFF0000;
    const uint32_t teids = 24 * PFCP_MOST_SESSIONS;
    uint8_t *table = new_table_for(PFCP_MOST_SESSIONS, first, 65536);
    uint8_t *empty = copy_of(table, PFCP_LONGEST_TABLE);
    uint8_t *fresh = copy_of(table, PFCP_LONGEST_TABLE);
    size_t place = 0;
    struct message m;

    for (uint64_t seid = HALF; seid > 0; seid--)
        for (peer = PFCP_PEERS; peer > 0; peer--)
            CHECK(establish_full(table, seid) == 1);
    CHECK(free_teids(table) == 65536 - teids);
    CHECK(count_in(table, PFCP_LONGEST_TABLE) == PFCP_FOUND && told.count == PFCP_MOST_SESSIONS);
    for (peer = 1; peer <= PFCP_PEERS; peer++) {
        no_room_for(table, HALF + 1);
        CHECK(has(table, HALF, teids / PFCP_PEERS));
        CHECK(find_seid_in(table, PFCP_LONGEST_TABLE, HALF) == PFCP_FOUND);
        CHECK(told.place == peer * HALF - 1);
    }
    /* The first was given to peer 2's last session, the last to peer 1's first one. */
    CHECK(pfcp_find_teid(table, PFCP_LONGEST_TABLE, first, &place) == PFCP_FOUND && place == 255);
    CHECK(pfcp_find_teid(table, PFCP_LONGEST_TABLE, first + teids - 1, &place) == PFCP_FOUND &&
          place == 0);
    CHECK(pfcp_find_teid(table, PFCP_LONGEST_TABLE, first + teids, &place) == PFCP_NONE);
    for (place = 0; place < PFCP_MOST_SESSIONS; place++) {
        CHECK(write_place(table, place, PFCP_LONGEST_RESTORATION) == PFCP_WRITTEN);
        CHECK(written.peer == (place < HALF ? 1 : 2));
        peer = written.peer;
        CHECK(ask_octets(fresh, written.octets, written.used) == 0 && answer.octets[29] == 1);
    }
    CHECK(write_place(table, place, PFCP_LONGEST_RESTORATION) == PFCP_PAST_LAST_SESSION);
    CHECK(memcmp(table, fresh, PFCP_LONGEST_TABLE) == 0);
    plain_message_start(&m, SET_DELETION, 1);
    put_fq_csid(&m, 1, 5);
    peer = 2;
    CHECK(ask(table, &m) == 1 && has(table, 0, 0));
    peer = 1;
    CHECK(has(table, HALF, teids / PFCP_PEERS));
    CHECK(ask(table, &m) == 1);
    CHECK(memcmp(table, empty, PFCP_LONGEST_TABLE) == 0);
    free(fresh);
    free(empty);
    free(table);
}

/* The last TEID of the largest pool, by a restoration; the one after it is 73. */
static void last_teid(void)
{
    static const uint8_t ipv4[4] = {192, 0, 2, 1};
    static const struct {
        uint32_t teid;
        unsigned cause;
    } cases[] = {{4096 + 65535, 1}, {4096 + 65536, 73}, {4096 + 4096, 1}, {4095, 73}};
    uint8_t *table = new_table(4096, 65536);
    struct message m;
    size_t place;

    for (size_t i = 0; i < sizeof cases / sizeof cases[0]; i++) {
        struct tunnel existing = {.flags = V4, .teid = cases[i].teid, .ipv4 = ipv4};

        start_establishment(&m, i + 1);
        put_number(&m, IE_FLAGS, 1, 1);
        create_pdr(&m, 1, &existing);
        CHECK(ask(table, &m) == cases[i].cause);
    }
    CHECK(free_teids(table) == 65534);
    CHECK(pfcp_find_teid(table, TABLE_LENGTH, 4096 + 65535, &place) == PFCP_FOUND && place == 0);
    CHECK(establish_one_pdr(table, 9, &choose) == 1 && granted(IE_CREATED_PDR, 1) == 4096);
    free(table);
}

/* A store's layout (docs/layout.md): its number of entries, and so many octets at most for each. */
enum {
    ENTRIES = 8,
    ENTRY_ROOM = 2 + PFCP_LONGEST_REQUEST + 2 + PFCP_REPLY_SPACE,
    STORE_LENGTH = 1 + ENTRIES * ENTRY_ROOM
};

static uint8_t *new_store(void)
{
    uint8_t *store = block(STORE_LENGTH, FILLING);

    CHECK(pfcp_make_store(store, STORE_LENGTH) == 0);
    return store;
}

/* One request through a store, with this reply space; checks what holds of every answer: with another
   outcome than 0 nothing is written, and no octet after the reply ever is. */
static uint32_t ask_once_in(uint8_t *table, uint8_t *store, const struct message *m, size_t space)
{
    size_t length = length_of(table);
    uint8_t *message = copy_of(m->octets, m->length);
    uint8_t *reply = block(space, FILLING);
    uint8_t *table_before = copy_of(table, length);
    uint8_t *store_before = copy_of(store, STORE_LENGTH);

    answer.used = SIZE_MAX;
    answer.place = SIZE_MAX;
    answer.outcome = pfcp_request_once(table, length, peer, store, STORE_LENGTH, message, m->length,
                                       reply, space, &answer.used, &answer.place);
    CHECK(memcmp(message, m->octets, m->length) == 0);
    if (CHECK(answer.used <= space && answer.used <= PFCP_REPLY_SPACE)) {
        CHECK((answer.outcome == PFCP_ANSWERED) == (answer.used > 0));
        CHECK(all_are(reply + answer.used, space - answer.used, FILLING));
        memcpy(answer.octets, reply, answer.used);
    }
    if (answer.outcome != PFCP_ANSWERED) {
        CHECK(answer.place == 0);
        CHECK(memcmp(table, table_before, length) == 0);
        CHECK(memcmp(store, store_before, STORE_LENGTH) == 0);
    }
    free(message);
    free(reply);
    free(table_before);
    free(store_before);
    return answer.outcome;
}

static uint32_t ask_once(uint8_t *table, uint8_t *store, const struct message *m)
{
    return ask_once_in(table, store, m, PFCP_REPLY_SPACE);
}

/* Whether a request gets this reply again, in the least space and in a larger one, with place 0, and
   neither table nor store changes. */
static int is_old_reply(uint8_t *table, uint8_t *store, const struct message *m,
                        const uint8_t *reply, size_t used)
{
    size_t length = length_of(table);
    uint8_t *table_before = copy_of(table, length);
    uint8_t *store_before = copy_of(store, STORE_LENGTH);
    int same = 1;

    for (size_t space = PFCP_REPLY_SPACE; space <= 2 * PFCP_REPLY_SPACE; space += PFCP_REPLY_SPACE)
        same = same && ask_once_in(table, store, m, space) == PFCP_ANSWERED && answer.place == 0 &&
               answer.used == used && memcmp(answer.octets, reply, used) == 0;
    same = same && memcmp(table, table_before, length) == 0 &&
           memcmp(store, store_before, STORE_LENGTH) == 0;
    free(table_before);
    free(store_before);
    return same;
}

/* A deletion of session 9, which is not there, and of another one. */
static void numbered(struct message *m, uint32_t sequence)
{
    message_start(m, DELETION, 9, sequence);
    message_end(m);
}

static void numbered_other(struct message *m, uint32_t sequence)
{
    message_start(m, DELETION, 8, sequence);
    message_end(m);
}

static void store_lengths(void)
{
    static const size_t lengths[] = {0, 1, STORE_LENGTH - 1, STORE_LENGTH + 1, 2 * STORE_LENGTH};
    uint8_t *table = new_table(4096, 10);
    uint8_t *before = copy_of(table, TABLE_LENGTH);
    uint8_t *reply = block(PFCP_REPLY_SPACE, FILLING);
    struct message m;

    CHECK(pfcp_store_length() == STORE_LENGTH && PFCP_STORE_LENGTH == STORE_LENGTH);
    numbered(&m, 1);
    for (size_t i = 0; i < sizeof lengths / sizeof lengths[0]; i++) {
        uint8_t *store = block(lengths[i], FILLING);
        size_t used = 7;
        size_t place = 7;

        CHECK(pfcp_make_store(lengths[i] > 0 ? store : NULL, lengths[i]) == 1);
        CHECK(all_are(store, lengths[i], FILLING));
        memset(store, 0, lengths[i]);
        CHECK(pfcp_request_once(table, TABLE_LENGTH, 1, lengths[i] > 0 ? store : NULL, lengths[i],
                                m.octets, m.length, reply, PFCP_REPLY_SPACE, &used,
                                &place) == PFCP_BROKEN_TABLE);
        CHECK(used == 0 && place == 0 && all_are(reply, PFCP_REPLY_SPACE, FILLING));
        CHECK(all_are(store, lengths[i], 0) && memcmp(table, before, TABLE_LENGTH) == 0);
        free(store);
    }
    uint8_t *store = new_store();
    CHECK(all_are(store, STORE_LENGTH, 0));
    free(store);
    free(reply);
    free(before);
    free(table);
}

/* A repeat gets the old reply, where the request was accepted and where it was refused; and what the
   store holds then. */
static void repeats(void)
{
    uint8_t *table = new_table(4096, 10);
    uint8_t *store = new_store();
    uint8_t first[PFCP_REPLY_SPACE];
    uint8_t second[PFCP_REPLY_SPACE];
    struct message m;
    struct message fault;

    start_establishment(&m, 1);
    create_pdr(&m, 1, &choose);
    message_end(&m);
    CHECK(ask_once(table, store, &m) == PFCP_ANSWERED && answer.octets[29] == 1);
    size_t first_used = answer.used;
    memcpy(first, answer.octets, first_used);
    CHECK(store[0] == 1 && number_at(store + 1, 2) == m.length);
    CHECK(memcmp(store + 3, m.octets, m.length) == 0);
    CHECK(number_at(store + 3 + m.length, 2) == first_used);
    CHECK(memcmp(store + 5 + m.length, first, first_used) == 0);
    CHECK(all_are(store + 5 + m.length + first_used, STORE_LENGTH - 5 - m.length - first_used, 0));
    CHECK(is_old_reply(table, store, &m, first, first_used) && free_teids(table) == 9);
    CHECK(ask_once_in(table, store, &m, PFCP_REPLY_SPACE - 1) == PFCP_SMALL_REPLY_SPACE);
    CHECK(ask_once_in(table, store, &m, 0) == PFCP_SMALL_REPLY_SPACE);

    message_start(&fault, MODIFICATION, 1, 2);
    group_start(&fault, IE_CREATE_PDR);
    group_end(&fault);
    message_end(&fault);
    CHECK(ask_once(table, store, &fault) == PFCP_ANSWERED && answer.octets[20] == 66);
    CHECK(answer.place == 16 && store[0] == 2);
    size_t second_used = answer.used;
    memcpy(second, answer.octets, second_used);
    CHECK(is_old_reply(table, store, &fault, second, second_used));
    CHECK(is_old_reply(table, store, &m, first, first_used));
    /* The session's end does not change the old reply. */
    message_start(&fault, DELETION, 1, 3);
    message_end(&fault);
    CHECK(ask_once(table, store, &fault) == PFCP_ANSWERED && answer.octets[20] == 1);
    CHECK(is_old_reply(table, store, &m, first, first_used) && free_teids(table) == 10);
    free(store);
    free(table);
}

/* What is newer than the last number: 1 to 8,388,607 more, by 24 bits. Other octets with any other
   number are dropped. */
static void numbers(void)
{
    static const uint32_t lasts[] = {0, 1, 5, 0x7FFFFF, 0x800000, 0x800001, 0xFFFFFE, 0xFFFFFF};
    static const struct {
        uint32_t more, outcome;
    } steps[] = {{0, 6},        {1, 0},        {2, 0},        {0x7FFFFE, 0}, {0x7FFFFF, 0},
                 {0x800000, 6}, {0x800001, 6}, {0xFFFFFE, 6}, {0xFFFFFF, 6}};
    uint8_t *table = new_table(4096, 10);
    struct message m;

    for (size_t i = 0; i < sizeof lasts / sizeof lasts[0]; i++)
        for (size_t k = 0; k < sizeof steps / sizeof steps[0]; k++) {
            uint8_t *store = new_store();

            numbered(&m, lasts[i]);
            CHECK(ask_once(table, store, &m) == PFCP_ANSWERED);
            numbered_other(&m, (lasts[i] + steps[k].more) & 0xFFFFFF);
            m.octets[15] = 0xFF; /* the octet after the number is none of it */
            CHECK(ask_once(table, store, &m) == steps[k].outcome);
            CHECK(store[0] == (steps[k].outcome == 0 ? 2 : 1));
            free(store);
        }
    free(table);
}

/* A set deletion's number stands at another place; there is one row of numbers for all types. */
static void numbers_of_sets(void)
{
    static const struct {
        uint32_t first, second, outcome;
    } rows[] = {{100, 100, 6}, {100, 101, 0}, {100, 99, 6}, {0xFFFFFF, 0, 0}, {0, 0xFFFFFF, 6}};
    uint8_t *table = new_table(4096, 10);
    struct message set;
    struct message single;

    for (size_t i = 0; i < sizeof rows / sizeof rows[0]; i++)
        for (int sets_first = 0; sets_first < 2; sets_first++) {
            uint8_t *store = new_store();

            plain_message_start(&set, SET_DELETION, sets_first ? rows[i].first : rows[i].second);
            put_fq_csid(&set, 1, 5);
            message_end(&set);
            numbered(&single, sets_first ? rows[i].second : rows[i].first);
            CHECK(ask_once(table, store, sets_first ? &set : &single) == PFCP_ANSWERED);
            CHECK(ask_once(table, store, sets_first ? &single : &set) == rows[i].outcome);
            CHECK(ask_once(table, store, sets_first ? &set : &single) == PFCP_ANSWERED);
            free(store);
        }
    free(table);
}

/* Eight requests are kept; of nine the first is gone, and dropped. A repeat neither makes its request
   younger nor its number the last. */
static void evictions(void)
{
    uint8_t *table = new_table(4096, 10);
    uint8_t *store = new_store();
    uint8_t replies[11][32];
    struct message m;

    for (uint32_t i = 1; i <= 8; i++) {
        numbered(&m, i);
        CHECK(ask_once(table, store, &m) == PFCP_ANSWERED && answer.used <= sizeof replies[i]);
        memcpy(replies[i], answer.octets, answer.used);
        CHECK(store[0] == i);
    }
    size_t used = answer.used;
    for (uint32_t i = 1; i <= 8; i++) {
        numbered(&m, i);
        CHECK(is_old_reply(table, store, &m, replies[i], used));
    }
    numbered_other(&m, 8);
    CHECK(ask_once(table, store, &m) == PFCP_OLD_NUMBER);
    for (uint32_t i = 9; i <= 10; i++) {
        numbered(&m, i);
        CHECK(ask_once(table, store, &m) == PFCP_ANSWERED && store[0] == 8);
        memcpy(replies[i], answer.octets, used);
        numbered(&m, i - 8);
        CHECK(ask_once(table, store, &m) == PFCP_OLD_NUMBER);
        for (uint32_t k = i - 7; k <= i; k++) {
            numbered(&m, k);
            CHECK(is_old_reply(table, store, &m, replies[k], used));
        }
    }
    free(store);
    free(table);
}

/* The outcomes in their order, each where the later ones are due too. */
static void outcomes_with_store(void)
{
    static const uint8_t zeros[PFCP_LONGEST_REQUEST];
    uint8_t *table = new_table(4096, 10);
    uint8_t *store = new_store();
    struct message old;
    struct message m;

    numbered(&m, 5);
    CHECK(ask_once(table, store, &m) == PFCP_ANSWERED);
    numbered_other(&old, 4);
    numbered(&m, 4);
    put_element(&m, 40000, zeros, PFCP_LONGEST_REQUEST - m.length - 3);
    message_end(&m);
    m.octets[1] = 56;
    table[TABLE_LENGTH - 1] = 1;
    CHECK(ask_once_in(table, store, &m, 0) == PFCP_BROKEN_TABLE);
    table[TABLE_LENGTH - 1] = 0;
    store[STORE_LENGTH - 1] = 1;
    CHECK(ask_once_in(table, store, &m, 0) == PFCP_BROKEN_TABLE);
    CHECK(ask_once(table, store, &old) == PFCP_BROKEN_TABLE);
    store[STORE_LENGTH - 1] = 0;
    CHECK(ask_once_in(table, store, &m, PFCP_REPLY_SPACE - 1) == PFCP_SMALL_REPLY_SPACE);
    CHECK(ask_once_in(table, store, &old, PFCP_REPLY_SPACE - 1) == PFCP_SMALL_REPLY_SPACE);
    CHECK(ask_once(table, store, &m) == PFCP_LONG_MESSAGE);
    m = old;
    m.octets[1] = 56;
    m.octets[3]++;
    CHECK(ask_once(table, store, &m) == PFCP_WRONG_HEADER);
    m.octets[3]--;
    CHECK(ask_once(table, store, &m) == PFCP_NOT_SERVED);
    CHECK(ask_once(table, store, &old) == PFCP_OLD_NUMBER);
    m.length = 0;
    CHECK(ask_once(table, store, &m) == PFCP_WRONG_HEADER);
    free(store);
    free(table);
}

/* Adds an entry by hand to a store that ends so far; its reply is 0xEE throughout. Gives the new end. */
static size_t put_entry(uint8_t *store, size_t at, const struct message *m, size_t reply_length)
{
    store[0]++;
    store[at] = (uint8_t)(m->length >> 8);
    store[at + 1] = (uint8_t)m->length;
    memcpy(store + at + 2, m->octets, m->length);
    at += 2 + m->length;
    store[at] = (uint8_t)(reply_length >> 8);
    store[at + 1] = (uint8_t)reply_length;
    memset(store + at + 2, 0xEE, reply_length);
    return at + 2 + reply_length;
}

/* A message that another element makes as long as is asked for. */
static void fill_up(struct message *m, uint32_t sequence, size_t length)
{
    static const uint8_t zeros[PFCP_LONGEST_REQUEST + 1];

    numbered(m, sequence);
    put_element(m, 40000, zeros, length - m->length - 4);
    message_end(m);
}

/* Stores that were made by hand, of entries after one that is sound: what breaks them and what does not. */
static void entries_by_hand(void)
{
    enum { SOUND, TYPE, VERSION, NO_SEID, FOLLOW_ON, LENGTH, SHORT };
    static const struct {
        int fault;
        size_t message_length, reply_length;
        uint32_t sequence, outcome;
    } entries[] = {
        {SOUND, 16, 21, 2, 0},   {SOUND, 16, 1, 2, 0},         {SOUND, 16, 1280, 2, 0},
        {SOUND, 16, 0, 2, 1},    {SOUND, 16, 1281, 2, 1},      {SOUND, 2048, 1280, 2, 0},
        {SOUND, 2049, 21, 2, 1}, {SOUND, 16, 21, 1, 1},        {SOUND, 30, 21, 1, 0},
        {SOUND, 16, 21, 0, 0},   {SOUND, 16, 21, 0xFFFFFF, 0}, {TYPE, 16, 21, 2, 1},
        {VERSION, 16, 21, 2, 1}, {NO_SEID, 16, 21, 2, 1},      {FOLLOW_ON, 16, 21, 2, 1},
        {LENGTH, 16, 21, 2, 1},  {SHORT, 15, 21, 2, 1},        {SHORT, 0, 21, 2, 1},
    };
    uint8_t *table = new_table(4096, 10);
    struct message first;
    struct message m;

    numbered(&first, 1);
    for (size_t i = 0; i < sizeof entries / sizeof entries[0]; i++) {
        uint8_t *store = new_store();

        if (entries[i].message_length > 20)
            fill_up(&m, entries[i].sequence, entries[i].message_length);
        else
            numbered(&m, entries[i].sequence);
        m.octets[1] = entries[i].fault == TYPE ? 56 : DELETION;
        m.octets[0] = entries[i].fault == VERSION     ? 0x41
                      : entries[i].fault == NO_SEID   ? 0x20
                      : entries[i].fault == FOLLOW_ON ? 0x25
                                                      : 0x21;
        m.octets[3] += entries[i].fault == LENGTH;
        m.length = entries[i].message_length;
        put_entry(store, put_entry(store, 1, &first, 33), &m, entries[i].reply_length);
        CHECK(ask_once(table, store, &first) == entries[i].outcome);
        CHECK(answer.used == (entries[i].outcome == 0 ? 33 : 0));
        CHECK(all_are(answer.octets, answer.used, 0xEE));
        free(store);
    }
    free(table);
}

/* Eight of the longest entries fill a store; a ninth is counted, an entry is not counted, or the octets
   after the entries are not zero. */
static void broken_stores(void)
{
    uint8_t *table = new_table(4096, 10);
    uint8_t *store = new_store();
    struct message m;
    size_t at = 1;

    for (uint32_t i = 1; i <= ENTRIES; i++) {
        fill_up(&m, i, PFCP_LONGEST_REQUEST);
        at = put_entry(store, at, &m, PFCP_REPLY_SPACE);
    }
    CHECK(at == STORE_LENGTH);
    CHECK(ask_once(table, store, &m) == PFCP_ANSWERED && answer.used == PFCP_REPLY_SPACE);
    for (unsigned count = 0; count < 256; count++) {
        store[0] = (uint8_t)count;
        CHECK(ask_once(table, store, &m) == (count == ENTRIES ? PFCP_ANSWERED : PFCP_BROKEN_TABLE));
    }
    store[0] = ENTRIES;
    numbered(&m, ENTRIES + 1);
    CHECK(ask_once(table, store, &m) == PFCP_ANSWERED && store[0] == ENTRIES);
    CHECK(pfcp_make_store(store, STORE_LENGTH) == 0 && all_are(store, STORE_LENGTH, 0));

    at = put_entry(store, 1, &m, 21);
    const size_t unused[] = {at, at + 1, at + 2, STORE_LENGTH / 2, STORE_LENGTH - 1};
    for (size_t i = 0; i < sizeof unused / sizeof unused[0]; i++) {
        store[unused[i]] = 1;
        CHECK(ask_once(table, store, &m) == PFCP_BROKEN_TABLE);
        store[unused[i]] = 0;
    }
    for (unsigned count = 0; count < 256; count++) {
        store[0] = (uint8_t)count;
        CHECK(ask_once(table, store, &m) == (count == 1 ? PFCP_ANSWERED : PFCP_BROKEN_TABLE));
    }
    free(store);
    free(table);
}

/* Requests with numbers that grow get exactly what pfcp_request gives, and make the same table; each one
   again gets its reply again. */
static void once_is_the_same(void)
{
    uint8_t *table = new_table(4096, 6);
    uint8_t *plain = new_table(4096, 6);
    uint8_t *store = new_store();
    struct message m;

    for (uint32_t i = 0; i < 120; i++) {
        uint8_t reply[PFCP_REPLY_SPACE];
        uint64_t seid = 1 + i * 7 % 5;

        if (i % 3 == 2) {
            message_start(&m, DELETION, seid, 0xFFFFC0 + i);
        } else {
            message_start(&m, i % 3 == 0 ? ESTABLISHMENT : MODIFICATION, seid, 0xFFFFC0 + i);
            if (i % 3 == 0)
                put_f_seid(&m, seid);
            create_pdr(&m, (uint16_t)(1 + i % 4), i % 4 == 0 ? &choose_7 : &choose);
        }
        message_end(&m);
        CHECK(ask_octets(plain, m.octets, m.length) == PFCP_ANSWERED);
        size_t used = answer.used;
        size_t place = answer.place;
        memcpy(reply, answer.octets, used);
        CHECK(ask_once(table, store, &m) == PFCP_ANSWERED && answer.used == used);
        CHECK(memcmp(answer.octets, reply, used) == 0 && answer.place == place);
        CHECK(memcmp(table, plain, TABLE_LENGTH) == 0);
        CHECK(is_old_reply(table, store, &m, reply, used));
    }
    free(store);
    free(plain);
    free(table);
}

/* What peers may have: the settings that are made, with their octets, and those that are refused. */
static void dues(void)
{
    static const struct {
        struct due one, two;
        uint32_t expected;
    } cases[] = {
        {{1, 0, 0}, {2, 0, 0}, 0},
        {{1, 0, 8}, {2, 0, 8}, 0},
        {{1, 8, 8}, {2, 0, 8}, 0},
        {{1, 3, 8}, {2, 5, 5}, 0},
        {{1, 3, 8}, {2, 6, 8}, 1}, /* the guarantees together */
        {{1, 8, 8}, {2, 1, 1}, 1},
        {{1, 0xFFFFFFFF, 8}, {2, 9, 8}, 1},
        {{1, 3, 2}, {2, 0, 8}, 1}, /* a limit under the guarantee */
        {{1, 0, 8}, {2, 3, 2}, 1},
        {{1, 3, 9}, {2, 0, 8}, 1}, /* a limit over the pool size */
        {{1, 0, 8}, {2, 0, 9}, 1},
        {{1, 0, 0xFFFFFFFF}, {2, 0, 8}, 1},
        {{1, 3, 8}, {1, 3, 5}, 1}, /* the same address */
        {{0, 3, 8}, {0, 3, 5}, 1},
        {{0, 3, 8}, {0xFFFFFFFF, 3, 5}, 0},
        {{0xC0000201, 3, 8}, {0, 3, 5}, 0},
    };

    for (size_t i = 0; i < sizeof cases / sizeof cases[0]; i++) {
        const struct due *one = &cases[i].one;
        const struct due *two = &cases[i].two;
        uint8_t *table = block(TABLE_LENGTH, FILLING);

        CHECK(pfcp_make_table(table, TABLE_LENGTH, 0xC0000201, NULL, 0, 4096, 8, FIRST_ADDRESS,
                              ADDRESSES, SESSIONS, one->address, one->guarantee, one->limit,
                              two->address, two->guarantee, two->limit) == cases[i].expected);
        if (cases[i].expected == 0) {
            CHECK(number_at(table + DUES_AT, 4) == one->address);
            CHECK(number_at(table + DUES_AT + 4, 4) == one->guarantee);
            CHECK(number_at(table + DUES_AT + 8, 4) == one->limit);
            CHECK(number_at(table + DUES_AT + 12, 4) == two->address);
            CHECK(number_at(table + DUES_AT + 16, 4) == two->guarantee);
            CHECK(number_at(table + DUES_AT + 20, 4) == two->limit);
        } else {
            CHECK(all_are(table, TABLE_LENGTH, FILLING));
        }
        free(table);
    }
}

/* Any other number than a peer's is 7, whatever else is wrong, and nothing is written. */
static void no_such_peer(void)
{
    static const uint32_t numbers[] = {0, 3, 256, 257, 65537, 0x10001, 0xFFFFFFFF};
    uint8_t *table = new_table(4096, 10);
    uint8_t *store = new_store();
    struct message m;

    CHECK(establish_one_pdr(table, 1, &choose) == 1);
    start_establishment(&m, 2);
    create_pdr(&m, 1, &choose);
    message_end(&m);
    for (size_t i = 0; i < 4 * sizeof numbers / sizeof numbers[0]; i++) {
        peer = numbers[i / 4];
        table[TABLE_LENGTH - 1] = i & 1;
        store[STORE_LENGTH - 1] = i >> 1 & 1;
        uint8_t *before = copy_of(table, TABLE_LENGTH);
        CHECK(ask_octets(table, m.octets, m.length) == PFCP_NO_PEER && answer.place == 0);
        CHECK(ask_octets(table, m.octets, 3) == PFCP_NO_PEER);
        CHECK(memcmp(table, before, TABLE_LENGTH) == 0);
        CHECK(ask_once(table, store, &m) == PFCP_NO_PEER && answer.used == 0);
        CHECK(ask_once_in(table, store, &m, 0) == PFCP_NO_PEER);
        CHECK(count_peer_in(table, TABLE_LENGTH) == PFCP_NO_PEER);
        CHECK(told.count == 0 && told.teids == 0);
        CHECK(count_peer_in(NULL, 0) == PFCP_NO_PEER && told.count == 0 && told.teids == 0);
        CHECK(find_seid_in(table, TABLE_LENGTH, 1) == (i & 1 ? PFCP_BROKEN_TABLE : PFCP_NONE));
        CHECK(told.place == 0);
        free(before);
    }
    peer = 1;
    free(store);
    free(table);
}

/* A pool of 8 TEIDs from 4096 on, of which both peers are guaranteed 3; 127.0.0.1 may hold 8, 127.0.0.2
   may hold 5. */
static uint8_t *shared_table(void)
{
    uint8_t *table = block(TABLE_LENGTH, FILLING);

    CHECK(pfcp_make_table(table, TABLE_LENGTH, 0xC0000201, NULL, 0, 4096, 8, FIRST_ADDRESS,
                          ADDRESSES, SESSIONS, 0x7F000001, 3, 8, 0x7F000002, 3, 5) == 0);
    return table;
}

/* Whether the last answer, of an establishment or a set deletion, has the asking peer's address in its
   Node ID and, where there is one, in its F-SEID. */
static int is_answered_as_peer(void)
{
    struct element node = element_of(answer.octets, answer.used, IE_NODE_ID);
    struct element f_seid = element_of(answer.octets, answer.used, IE_F_SEID);

    return number_in(&node, 0, 5) == 0x7F000000 + peer &&
           (f_seid.length == 0 || number_in(&f_seid, 9, 4) == 0x7F000000 + peer);
}

/* An establishment or, for a live session, a modification that wants so many TEIDs for PDRs from an ID
   on; gives the cause. */
static unsigned want(uint8_t *table, uint64_t seid, uint16_t first_id, uint16_t count)
{
    struct message m;

    if (find_seid_in(table, TABLE_LENGTH, seid) == PFCP_FOUND)
        message_start(&m, MODIFICATION, seid, 1);
    else
        start_establishment(&m, seid);
    for (uint16_t i = 0; i < count; i++)
        create_pdr(&m, first_id + i, &choose);
    return ask(table, &m);
}

/* The worked example: peer 1 takes five, is refused the sixth, and peer 2 still gets its three; equal
   SEIDs on both; what one gives back the other may have, up to its limit. */
static void each_its_due(void)
{
    uint8_t *table = shared_table();
    struct message m;

    CHECK(want(table, 1, 1, 5) == 1 && granted(IE_CREATED_PDR, 5) == 4100);
    CHECK(is_answered_as_peer() && has(table, 1, 5));
    CHECK(want(table, 2, 1, 1) == 75 && is_answered_as_peer());
    CHECK(want(table, 1, 6, 1) == 75 && has(table, 1, 5) && free_teids(table) == 3);
    CHECK(establish_one_pdr(table, 2, NULL) == 1 && has(table, 2, 5)); /* it needs none */
    peer = 2;
    CHECK(has(table, 0, 0) && delete_session(table, 1) == 65);
    CHECK(want(table, 1, 1, 4) == 75 && want(table, 1, 1, 3) == 1);
    CHECK(is_answered_as_peer() && granted(IE_CREATED_PDR, 1) == 4101 && has(table, 1, 3));
    CHECK(want(table, 1, 4, 1) == 75 && free_teids(table) == 0);
    CHECK(find_seid_in(table, TABLE_LENGTH, 1) == PFCP_FOUND && told.place == 2);
    CHECK(find_seid_in(table, TABLE_LENGTH, 2) == PFCP_NONE && told.place == 0);
    /* Peer 1 gives three back, and is still guaranteed one of them. */
    peer = 1;
    message_start(&m, MODIFICATION, 1, 1);
    for (uint16_t id = 1; id <= 3; id++)
        remove_pdr(&m, id);
    CHECK(ask(table, &m) == 1 && has(table, 2, 2) && free_teids(table) == 3);
    peer = 2;
    CHECK(want(table, 1, 4, 3) == 75);
    CHECK(want(table, 1, 4, 2) == 1 && has(table, 1, 5));
    CHECK(granted(IE_CREATED_PDR, 4) == 4096 && granted(IE_CREATED_PDR, 5) == 4097);
    CHECK(want(table, 1, 6, 1) == 75); /* its limit */
    peer = 1;
    CHECK(want(table, 2, 2, 1) == 1 && has(table, 2, 3) && free_teids(table) == 0);
    free(table);
}

/* Limits that are met while the pool has more: of a need at once and bit by bit, by a restoration, and of
   nothing at all. */
static void limits_of_teids(void)
{
    static const uint8_t ipv4[4] = {192, 0, 2, 1};
    struct tunnel existing = {.flags = V4, .teid = 4096, .ipv4 = ipv4};
    uint8_t *table = block(TABLE_LENGTH, FILLING);
    struct message m;

    CHECK(pfcp_make_table(table, TABLE_LENGTH, 0xC0000201, NULL, 0, 4096, 10, FIRST_ADDRESS,
                          ADDRESSES, SESSIONS, 0x7F000001, 0, 3, 0x7F000002, 0, 0) == 0);
    CHECK(want(table, 1, 1, 4) == 75 && want(table, 1, 1, 2) == 1);
    CHECK(want(table, 1, 3, 2) == 75 && want(table, 2, 1, 1) == 1);
    CHECK(want(table, 2, 2, 1) == 75 && has(table, 2, 3) && free_teids(table) == 7);
    CHECK(delete_session(table, 1) == 1 && delete_session(table, 2) == 1);
    for (uint16_t count = 4; count >= 3; count--) {
        start_establishment(&m, 1);
        put_number(&m, IE_FLAGS, 1, 1);
        for (uint16_t id = 1; id <= count; id++) {
            existing.teid = 4100 + id;
            create_pdr(&m, id, &existing);
        }
        CHECK(ask(table, &m) == (count > 3 ? 75 : 1));
    }
    CHECK(has(table, 1, 3));
    peer = 2;
    CHECK(want(table, 1, 1, 1) == 75 && establish_one_pdr(table, 1, NULL) == 1 && has(table, 1, 0));
    peer = 1;
    free(table);
}

/* Sessions of both peers, restored in both orders, make the same table; a restoration needs the TEIDs
   that it names, each once. */
static void both_restored(void)
{
    static const uint8_t ipv4[4] = {192, 0, 2, 1};
    static const struct {
        uint16_t count;
        uint32_t first_teid;
        unsigned cause;
    } restored[] = {{6, 4096, 75}, {5, 4096, 1}, {1, 4101, 75}, {0, 0, 1}};
    uint8_t *table = shared_table();
    uint8_t *fresh = shared_table();
    uint8_t *backward = shared_table();
    struct message m;

    for (size_t i = 0; i < sizeof restored / sizeof restored[0]; i++) {
        struct tunnel existing = {.flags = V4, .teid = restored[i].first_teid, .ipv4 = ipv4};

        start_establishment(&m, 1 + i);
        put_number(&m, IE_FLAGS, 1, 1);
        for (uint16_t id = 1; id <= restored[i].count; id++, existing.teid++) {
            create_pdr(&m, 2 * id, &existing);
            create_pdr(&m, 2 * id + 1, &existing); /* the same TEID: one */
        }
        CHECK(ask(table, &m) == restored[i].cause);
    }
    CHECK(has(table, 2, 5));
    peer = 2;
    CHECK(want(table, 2, 1, 2) == 1 && want(table, 9, 1, 1) == 1);
    /* A TEID of the other peer's session. */
    struct tunnel held = {.flags = V4, .teid = 4096, .ipv4 = ipv4};
    start_establishment(&m, 3);
    put_number(&m, IE_FLAGS, 1, 1);
    create_pdr(&m, 1, &held);
    CHECK(ask(table, &m) == 73);
    for (size_t place = 0; place < 4; place++) {
        CHECK(write_place(table, place, PFCP_LONGEST_RESTORATION) == PFCP_WRITTEN);
        CHECK(written.peer == (place < 2 ? 1 : 2));
        peer = written.peer;
        CHECK(ask_octets(fresh, written.octets, written.used) == 0 && answer.octets[29] == 1);
        CHECK(write_place(table, 3 - place, PFCP_LONGEST_RESTORATION) == PFCP_WRITTEN);
        peer = written.peer;
        CHECK(ask_octets(backward, written.octets, written.used) == 0 && answer.octets[29] == 1);
    }
    CHECK(memcmp(table, fresh, TABLE_LENGTH) == 0 && memcmp(table, backward, TABLE_LENGTH) == 0);
    peer = 1;
    free(backward);
    free(fresh);
    free(table);
}

/* A set deletion takes the sessions of its peer only; addresses are first come, first served. */
static void kept_apart(void)
{
    static const uint8_t set[] = {0x01, 192, 0, 2, 10, 0, 5, 1};
    uint8_t *table = shared_table();
    struct message m;

    for (peer = 1; peer <= PFCP_PEERS; peer++) {
        start_establishment(&m, 7);
        create_pdr_with_address(&m, 1, &choose);
        put_fq_csid(&m, 1, 5);
        CHECK(ask(table, &m) == 1);
        CHECK(granted_address(IE_CREATED_PDR, 1) == FIRST_ADDRESS + peer - 1);
    }
    CHECK(free_addresses(table) == 0);
    peer = 2;
    CHECK(delete_set(table, set, sizeof set) == 1 && is_answered_as_peer());
    CHECK(has(table, 0, 0) && free_addresses(table) == 1 && free_teids(table) == 7);
    peer = 1;
    CHECK(has(table, 1, 1) && modify_remove_pdr(table, 7, 1) == 1 && free_addresses(table) == 2);
    free(table);
}

/* Each peer with its store: what is a repeat of one is a new request of the other. */
static void stores_of_peers(void)
{
    uint8_t *table = shared_table();
    uint8_t *stores[PFCP_PEERS] = {new_store(), new_store()};
    uint8_t first[PFCP_REPLY_SPACE];
    struct message m;

    start_establishment(&m, 1);
    create_pdr(&m, 1, &choose);
    message_end(&m);
    CHECK(ask_once(table, stores[0], &m) == PFCP_ANSWERED && granted(IE_CREATED_PDR, 1) == 4096);
    size_t used = answer.used;
    memcpy(first, answer.octets, used);
    peer = 2;
    CHECK(ask_once(table, stores[1], &m) == PFCP_ANSWERED && granted(IE_CREATED_PDR, 1) == 4097);
    CHECK(is_answered_as_peer() && memcmp(first, answer.octets, used) != 0);
    peer = 1;
    CHECK(is_old_reply(table, stores[0], &m, first, used));
    numbered(&m, 0);
    CHECK(ask_once(table, stores[0], &m) == PFCP_OLD_NUMBER);
    CHECK(stores[0][0] == 1 && stores[1][0] == 1);
    free(stores[0]);
    free(stores[1]);
    free(table);
}

/* Tables that no call leaves: made with larger dues, whose octets are then lowered. Each peer holds
   three of a pool of 8. */
static void broken_dues(void)
{
    static const struct {
        uint32_t guarantees[PFCP_PEERS], limits[PFCP_PEERS];
        int broken;
    } cases[] = {
        {{0, 0}, {8, 8}, 0}, {{3, 3}, {3, 3}, 0}, {{0, 0}, {2, 8}, 1}, {{0, 0}, {8, 2}, 1},
        {{5, 3}, {5, 8}, 0}, {{5, 0}, {5, 8}, 0}, {{6, 0}, {6, 8}, 1}, {{0, 6}, {8, 6}, 1},
        {{4, 4}, {4, 4}, 0}, {{2, 6}, {8, 6}, 1}, {{0, 5}, {3, 5}, 0}, {{5, 4}, {5, 4}, 1},
    };
    uint8_t *table = block(TABLE_LENGTH, FILLING);
    uint32_t count;

    CHECK(make_with(table, TABLE_LENGTH, NULL, 0, 4096, 8, FIRST_ADDRESS, ADDRESSES, SESSIONS) ==
          0);
    for (peer = 1; peer <= PFCP_PEERS; peer++)
        CHECK(want(table, 1, 1, 3) == 1);
    peer = 1;
    for (size_t i = 0; i < sizeof cases / sizeof cases[0]; i++) {
        for (size_t k = 0; k < PFCP_PEERS; k++) {
            table[DUES_AT + 12 * k + 7] = (uint8_t)cases[i].guarantees[k];
            table[DUES_AT + 12 * k + 11] = (uint8_t)cases[i].limits[k];
        }
        CHECK(pfcp_free_count(table, TABLE_LENGTH, &count) == (uint32_t)cases[i].broken);
    }
    free(table);
}

int main(void)
{
    whole_replies();
    pool_story();
    choose_id_forgotten();
    shared_teid_stays();
    f_seid_families();
    nothing_half_made();
    addresses();
    restored_addresses();
    longest_session();
    empty_slices();
    places();
    set_deletions();
    set_headers();
    lengths();
    settings();
    broken_tables();
    restoration();
    read_tables();
    written_restorations();
    refused_restorations();
    session_limits();
    lengths_of_limits();
    limit_of_five();
    changed_limits();
    most_sessions();
    last_teid();
    store_lengths();
    repeats();
    numbers();
    numbers_of_sets();
    evictions();
    outcomes_with_store();
    entries_by_hand();
    broken_stores();
    once_is_the_same();
    dues();
    no_such_peer();
    each_its_due();
    limits_of_teids();
    both_restored();
    kept_apart();
    stores_of_peers();
    broken_dues();
    printf("%lu passed, %lu failed\n", passed, failed);
    return failed == 0 ? EXIT_SUCCESS : EXIT_FAILURE;
}
