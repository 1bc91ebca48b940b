#include "workload.h"

#include <string.h>

const struct workload workloads[WORKLOADS] = {
    [ALIKE] = {"alike", MOST_PDRS, MOST_ENDPOINTS, MOST_FQ_CSIDS, 0, 0},
    [MIXED] = {"mixed", MOST_PDRS, MOST_ENDPOINTS, MOST_FQ_CSIDS, 1, 0},
    [PART_FILLED] = {"part-filled", 4, 2, 1, 0, 0},
};

const struct size sizes[SIZES] = {{1, 64},   {16, 64},  {64, 64},   {1, 256},
                                  {16, 256}, {64, 256}, {128, 256}, {256, 256}};
const struct size full = {MOST_SESSIONS, MOST_SESSIONS};

const char *const kind_names[KINDS] = {"deletion", "establishment", "updates", "exchange"};

static const struct tunnel choose = {.flags = CHOOSE | V4 | V6};
static const struct tunnel choose_7 = {.flags = CHOOSE | CHOOSE_ID | V4 | V6, .choose_id = 7};

int is_full(struct size size)
{
    return size.live == full.live;
}

uint32_t peer_of(size_t session)
{
    return 1 + (uint32_t)(session % 2);
}

uint64_t seid_of(size_t session)
{
    return 1000003 * (uint64_t)(session / 2 + 1);
}

/* A number that looks drawn, always the same for the same record. */
static uint32_t draw(const struct workload *w, size_t session, uint32_t record)
{
    uint64_t x = ((uint64_t)w->seed << 40) + ((uint64_t)session << 16) + record;

    x *= 0x9E3779B97F4A7C15;
    x = (x ^ x >> 30) * 0xBF58476D1CE4E5B9;
    x = (x ^ x >> 27) * 0x94D049BB133111EB;
    return (uint32_t)(x >> 32);
}

/* What draw counts records by: PDRs by their ID, the others above. */
enum { OF_ENDPOINTS = 1 << 8, OF_FQ_CSIDS = 1 << 9, OF_UPDATES = 1 << 10 };

static struct tunnel drawn_tunnel(uint32_t drawn)
{
    static const uint8_t families[4] = {V4, V6, V4 | V6, V4 | V6};

    return (struct tunnel){.flags = CHOOSE | families[drawn % 4]};
}

static void put_long_fq_csid(struct message *m, uint8_t node_type, uint8_t octet)
{
    uint8_t value[20];

    memset(value, octet, sizeof value);
    value[0] = 0x11;
    value[19] = node_type;
    put_element(m, IE_FQ_CSID, value, sizeof value);
}

static void write_fq_csid(struct message *m, const struct workload *w, uint8_t node_type,
                          uint8_t octet, uint32_t drawn)
{
    uint8_t node_id_type = w->mixed ? drawn % 3 : 1;
    uint8_t value[8] = {(uint8_t)(node_id_type << 4 | 1), 1, 2, 3, 4, 0, octet, node_type};

    if (node_id_type == 1)
        put_long_fq_csid(m, node_type, octet);
    else
        put_element(m, IE_FQ_CSID, value, sizeof value);
}

/* An address by its draw: two of four are chosen, one is the control plane's, one is none. */
static void put_drawn_address(struct message *m, uint32_t drawn)
{
    if (drawn % 4 < 2)
        put_choose_address(m);
    else if (drawn % 4 == 2)
        put_address(m, 0xCB007100 + (drawn >> 2) % 256); /* 203.0.113.0 and on */
}

/* A PDR by its draw: one of four names an endpoint, two have an F-TEID, one has neither. The last
   endpoint is not named: an exchange removes it. */
static void write_mixed_pdr(struct message *m, const struct workload *w, uint16_t id,
                            uint32_t drawn)
{
    struct tunnel tunnel = drawn_tunnel(drawn >> 4);

    create_pdr_start(m, id, 100 + id, id % 4);
    if (drawn % 4 == 0)
        put_number(m, IE_ENDPOINT_ID, 1 + (drawn >> 8) % (w->endpoints - 1u), 1);
    else if (drawn % 4 < 3)
        put_f_teid(m, &tunnel);
    put_drawn_address(m, drawn >> 20);
    create_pdr_end(m, drawn >> 16 & 1 ? id : -1);
}

static void write_endpoint(struct message *m, const struct workload *w, uint8_t id, uint32_t drawn)
{
    struct tunnel tunnel = drawn_tunnel(drawn);

    group_start(m, IE_CREATE_ENDPOINT);
    put_number(m, IE_ENDPOINT_ID, id, 1);
    put_f_teid(m, w->mixed ? &tunnel : &choose);
    if (w->mixed)
        put_drawn_address(m, drawn >> 20);
    else
        put_choose_address(m);
    group_end(m);
}

void write_establishment(struct message *m, const struct workload *w, size_t session)
{
    message_start(m, ESTABLISHMENT, 0, (uint32_t)session);
    put_f_seid(m, seid_of(session));
    for (uint16_t id = 1; id <= w->pdrs; id++) {
        if (w->mixed) {
            write_mixed_pdr(m, w, id, draw(w, session, id));
        } else {
            create_pdr_start(m, id, 100 + id, id % 4);
            put_f_teid(m, &choose);
            put_choose_address(m);
            create_pdr_end(m, id);
        }
    }
    for (uint8_t id = 1; id <= w->endpoints; id++)
        write_endpoint(m, w, id, draw(w, session, OF_ENDPOINTS + id));
    for (uint8_t node_type = 0; node_type < w->fq_csids; node_type++)
        write_fq_csid(m, w, node_type, (uint8_t)session, draw(w, session, OF_FQ_CSIDS + node_type));
    message_end(m);
}

/* Updates of the first PDRs, four at most, and an FQ-CSID. */
static void write_updates(struct message *m, const struct workload *w, size_t session)
{
    uint16_t updates = w->pdrs - 2 < 4 ? w->pdrs - 2 : 4;

    message_start(m, MODIFICATION, seid_of(session), (uint32_t)session);
    for (uint16_t id = 1; id <= updates; id++) {
        group_start(m, IE_UPDATE_PDR);
        put_number(m, IE_PDR_ID, id, 2);
        put_number(m, IE_PRECEDENCE, 200 + id, 4);
        if (w->mixed && draw(w, session, OF_UPDATES + id) % 2 == 0)
            put_element(m, IE_FAR_ID, NULL, 0); /* takes the FAR ID away */
        else
            put_number(m, IE_FAR_ID, 300 + id, 4);
        group_end(m);
    }
    write_fq_csid(m, w, w->fq_csids > 2 ? 2 : 0, 0xEE, draw(w, session, OF_UPDATES));
    message_end(m);
}

/* The last two PDRs and the last endpoint go, and others come in their place. */
static void write_exchange(struct message *m, const struct workload *w, size_t session)
{
    message_start(m, MODIFICATION, seid_of(session), (uint32_t)session);
    remove_pdr(m, w->pdrs - 1);
    remove_pdr(m, w->pdrs);
    remove_endpoint(m, w->endpoints);
    create_endpoint(m, 18, &choose);
    create_pdr_with_address(m, 115, &choose_7);
    create_pdr_with_address(m, 116, &choose_7);
    message_end(m);
}

size_t write_cycle(struct request cycle[MOST_CYCLE], const struct workload *w, size_t live)
{
    for (size_t i = 0; i < live; i++) {
        /* The sessions in an order that is not that of their SEIDs. */
        size_t session = i * 37 % live;
        size_t updated = (session + live / 2) % live;
        struct request *turn = &cycle[KINDS * i];

        for (enum kind kind = 0; kind < KINDS; kind++)
            turn[kind].peer = peer_of(kind == UPDATES ? updated : session);
        message_start(&turn[DELETES].message, DELETION, seid_of(session), (uint32_t)i);
        message_end(&turn[DELETES].message);
        write_establishment(&turn[ESTABLISHES].message, w, session);
        write_updates(&turn[UPDATES].message, w, updated);
        write_exchange(&turn[EXCHANGES].message, w, session);
    }
    return KINDS * live;
}

void fill(struct pair *pair, const struct workload *w, struct size size)
{
    static struct request r;

    make_both_empty(pair, POOL, size.limit);
    for (size_t session = 0; session < size.live; session++) {
        r.peer = peer_of(session);
        write_establishment(&r.message, w, session);
        ask_both(pair, &r);
        if (cause_of(&pair->ours) != 1)
            give_up("session %zu of the table '%s' is refused", session, w->name);
    }
}
