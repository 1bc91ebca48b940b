#include "longest.h"

#include <string.h>

enum { VENDOR = 0x8000, LONGEST = PFCP_LONGEST_REQUEST };

static const struct tunnel choose = {.flags = CHOOSE | V4};

/* Whether so many octets fit, and after them still an element. */
static int fits(const struct message *m, size_t octets)
{
    return m->length + octets + 4 <= LONGEST;
}

/* Vendor elements without a value to the end; the last one takes what is left over. */
static void vendors_to_end(struct message *m)
{
    static const uint8_t zeros[8];

    while (LONGEST - m->length >= 8)
        put_element(m, VENDOR, NULL, 0);
    put_element(m, VENDOR, zeros, LONGEST - m->length - 4);
}

/* One vendor element to the end. */
static void end_with_one(struct message *m)
{
    static const uint8_t zeros[LONGEST];

    put_element(m, VENDOR, zeros, LONGEST - m->length - 4);
    message_end(m);
}

static void start_modification(struct message *m)
{
    message_start(m, MODIFICATION, seid_of(0), 1);
}

static void start_establishment(struct message *m)
{
    message_start(m, ESTABLISHMENT, 0, 1);
    put_f_seid(m, seid_of(LONGEST_LIVE));
}

static void vendors_at_top(struct message *m)
{
    start_modification(m);
    vendors_to_end(m);
    message_end(m);
}

static void vendors_before_fault(struct message *m)
{
    vendors_at_top(m);
    m->octets[m->length - 1] = 1; /* the last element runs past the end */
}

static void vendors_before_required(struct message *m)
{
    message_start(m, ESTABLISHMENT, 0, 1);
    while (fits(m, 4 + 17 + 27))
        put_element(m, VENDOR, NULL, 0);
    create_pdr(m, 1, NULL);
    put_f_seid(m, seid_of(LONGEST_LIVE));
    end_with_one(m);
}

static void vendors_in_create_pdr(struct message *m)
{
    start_establishment(m);
    group_start(m, IE_CREATE_PDR);
    while (fits(m, 4 + 23))
        put_element(m, VENDOR, NULL, 0);
    put_number(m, IE_PDR_ID, 1, 2);
    put_number(m, IE_PRECEDENCE, 1, 4);
    group_start(m, IE_PDI);
    put_number(m, IE_SOURCE_INTERFACE, 1, 1);
    group_end(m);
    group_end(m);
    end_with_one(m);
}

static void vendors_in_pdi(struct message *m)
{
    start_establishment(m);
    group_start(m, IE_CREATE_PDR);
    put_number(m, IE_PDR_ID, 1, 2);
    put_number(m, IE_PRECEDENCE, 1, 4);
    group_start(m, IE_PDI);
    while (fits(m, 4 + 10))
        put_element(m, VENDOR, NULL, 0);
    put_number(m, IE_SOURCE_INTERFACE, 1, 1);
    put_f_teid(m, &choose);
    group_end(m);
    group_end(m);
    end_with_one(m);
}

static void vendors_in_endpoint(struct message *m)
{
    start_establishment(m);
    create_pdr(m, 1, NULL);
    group_start(m, IE_CREATE_ENDPOINT);
    while (fits(m, 4 + 10))
        put_element(m, VENDOR, NULL, 0);
    put_number(m, IE_ENDPOINT_ID, 1, 1);
    put_f_teid(m, &choose);
    group_end(m);
    end_with_one(m);
}

static void vendors_in_update_pdr(struct message *m)
{
    start_modification(m);
    group_start(m, IE_UPDATE_PDR);
    while (fits(m, 4 + 6))
        put_element(m, VENDOR, NULL, 0);
    put_number(m, IE_PDR_ID, 1, 2);
    group_end(m);
    end_with_one(m);
}

/* As many endpoints as fit, with different IDs. */
static void many_endpoints(struct message *m)
{
    start_establishment(m);
    create_pdr(m, 1, NULL);
    for (uint8_t id = 1; fits(m, 14); id++)
        create_endpoint(m, id, &choose);
    end_with_one(m);
}

static void many_endpoints_one_twice(struct message *m)
{
    start_establishment(m);
    create_pdr(m, 1, NULL);
    for (uint8_t id = 1; fits(m, 2 * 14); id++)
        create_endpoint(m, id, &choose);
    create_endpoint(m, 1, &choose);
    end_with_one(m);
}

static void many_bare_pdrs(struct message *m)
{
    start_establishment(m);
    for (uint16_t id = 1; fits(m, 27); id++)
        create_pdr(m, id, NULL);
    end_with_one(m);
}

/* Each with a CHOOSE ID of its own. */
static void many_choosing_pdrs(struct message *m)
{
    start_establishment(m);
    for (uint16_t id = 1; fits(m, 33); id++) {
        struct tunnel own = {.flags = CHOOSE | CHOOSE_ID | V4, .choose_id = (uint8_t)id};

        create_pdr(m, id, &own);
    }
    end_with_one(m);
}

static void many_pdrs_with_chosen_address(struct message *m)
{
    start_establishment(m);
    for (uint16_t id = 1; fits(m, 32); id++)
        create_pdr_with_address(m, id, NULL);
    end_with_one(m);
}

/* In a restoration, each with an address of its own from the pool's end. */
static void many_pdrs_with_restored_address(struct message *m)
{
    start_establishment(m);
    put_number(m, IE_FLAGS, 1, 1);
    for (uint16_t id = 1; fits(m, 36); id++) {
        create_pdr_start(m, id, 1, 1);
        put_address(m, FIRST_ADDRESS + ADDRESSES - id);
        create_pdr_end(m, -1);
    }
    end_with_one(m);
}

/* All of them name the last one of eight endpoints. */
static void many_naming_pdrs(struct message *m)
{
    start_establishment(m);
    for (uint8_t id = 1; id <= MOST_ENDPOINTS; id++)
        create_endpoint(m, id, &choose);
    for (uint16_t id = 1; fits(m, 32); id++) {
        create_pdr_start(m, id, 1, 1);
        put_number(m, IE_ENDPOINT_ID, MOST_ENDPOINTS, 1);
        create_pdr_end(m, -1);
    }
    end_with_one(m);
}

/* In a restoration, each with a TEID of its own from the pool's end. */
static void many_restored_pdrs(struct message *m)
{
    start_establishment(m);
    put_number(m, IE_FLAGS, 1, 1);
    for (uint16_t id = 1; fits(m, 40); id++) {
        struct tunnel own = {.flags = V4, .teid = FIRST_TEID + POOL - id, .ipv4 = unit_ipv4};

        create_pdr(m, id, &own);
    }
    end_with_one(m);
}

static void many_updates(struct message *m)
{
    start_modification(m);
    for (uint16_t id = 1; fits(m, 10); id++) {
        group_start(m, IE_UPDATE_PDR);
        put_number(m, IE_PDR_ID, id, 2);
        group_end(m);
    }
    end_with_one(m);
}

static void many_removals(struct message *m)
{
    start_modification(m);
    for (uint8_t id = 1; fits(m, 9); id++)
        remove_endpoint(m, id);
    end_with_one(m);
}

/* Removals, over and over of the same node types. */
static void many_fq_csids(struct message *m)
{
    start_modification(m);
    for (uint8_t i = 0; fits(m, 10); i++) {
        uint8_t removal[6] = {0, 0, 0, 0, 0, i % MOST_FQ_CSIDS};

        put_element(m, IE_FQ_CSID, removal, sizeof removal);
    }
    end_with_one(m);
}

/* As many as are allowed, each of which is compared with what follows. */
static void start_with_fq_csids(struct message *m)
{
    start_establishment(m);
    create_pdr(m, 1, NULL);
    for (uint8_t i = 0; i < MOST_FQ_CSIDS; i++)
        put_fq_csid(m, i, i);
}

static void fq_csids_before_vendors(struct message *m)
{
    start_with_fq_csids(m);
    vendors_to_end(m);
    message_end(m);
}

static void fq_csids_before_nulls(struct message *m)
{
    start_with_fq_csids(m);
    put_fq_csid(m, 0, 0);
    while (fits(m, 4))
        put_element(m, IE_FQ_CSID, NULL, 0);
    end_with_one(m);
}

/* FQ-CSIDs that no session holds, as many as fit: for each record of the table all are looked at. */
static void many_short_sets(struct message *m)
{
    plain_message_start(m, SET_DELETION, 1);
    for (uint16_t csid = 1; fits(m, 12); csid++)
        put_fq_csid(m, 1, csid);
    end_with_one(m);
}

/* The first session's own node and node type, but none of its CSIDs. */
static void put_other_csids(struct message *m)
{
    uint8_t value[1 + 16 + 2 * 15 + 1];

    memset(value, 0xFF, sizeof value);
    value[0] = 0x1F;
    memset(value + 1, 0, 16);
    value[sizeof value - 1] = 1;
    put_element(m, IE_FQ_CSID, value, sizeof value);
}

static void many_long_sets(struct message *m)
{
    plain_message_start(m, SET_DELETION, 1);
    while (fits(m, 52))
        put_other_csids(m);
    end_with_one(m);
}

static void one_set_before_vendors(struct message *m)
{
    plain_message_start(m, SET_DELETION, 1);
    put_other_csids(m);
    vendors_to_end(m);
    message_end(m);
}

/* A whole session, then vendor elements. */
static void full_session(struct message *m)
{
    write_establishment(m, &workloads[ALIKE], LONGEST_LIVE);
    vendors_to_end(m);
    message_end(m);
}

const struct longest longest_messages[LONGEST_MESSAGES] = {
    {"vendor/at-top", 1, vendors_at_top},
    {"vendor/at-top,last-overruns", 68, vendors_before_fault},
    {"vendor/before-F-SEID", 1, vendors_before_required},
    {"vendor/in-Create-PDR", 1, vendors_in_create_pdr},
    {"vendor/in-PDI", 1, vendors_in_pdi},
    {"vendor/in-Create-Endpoint", 1, vendors_in_endpoint},
    {"vendor/in-Update-PDR", 1, vendors_in_update_pdr},
    {"endpoints/different", 75, many_endpoints},
    {"endpoints/last-repeated", 73, many_endpoints_one_twice},
    {"PDRs/bare", 75, many_bare_pdrs},
    {"PDRs/CHOOSE-IDs", 75, many_choosing_pdrs},
    {"PDRs/naming-endpoint", 75, many_naming_pdrs},
    {"PDRs/restored", 75, many_restored_pdrs},
    {"PDRs/chosen-address", 75, many_pdrs_with_chosen_address},
    {"PDRs/restored-address", 75, many_pdrs_with_restored_address},
    {"updates", 73, many_updates},
    {"removals", 73, many_removals},
    {"FQ-CSIDs/repeated-removals", 69, many_fq_csids},
    {"FQ-CSIDs/six,then-vendor", 1, fq_csids_before_vendors},
    {"FQ-CSIDs/seven,then-null", 69, fq_csids_before_nulls},
    {"sets/one-CSID", 1, many_short_sets},
    {"sets/fifteen-CSIDs", 1, many_long_sets},
    {"sets/one,then-vendor", 1, one_set_before_vendors},
    {"full-session,then-vendor", 1, full_session},
};

const struct size longest_size = {LONGEST_LIVE, MOST_SESSIONS};

void fill_for_longest(struct pair *pair)
{
    fill(pair, &workloads[ALIKE], longest_size);
}

void write_longest(struct request *r, const struct longest *longest, struct pair *pair)
{
    static struct pair tried;

    longest->write(&r->message);
    /* An establishment is of the session that there is room for, any other of the first one. */
    r->peer = peer_of(r->message.octets[1] == ESTABLISHMENT ? LONGEST_LIVE : 0);
    tried = *pair;
    ask_both(&tried, r);
    if (r->message.length != LONGEST || cause_of(&tried.ours) != longest->cause)
        give_up("the message '%s' has %zu octets and gets outcome %u, cause %d", longest->name,
                r->message.length, tried.ours.outcome, cause_of(&tried.ours));
}
