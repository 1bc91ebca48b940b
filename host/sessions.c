#include "sessions.h"

#include <string.h>

#include "message.h"
#include "pfcp_session.h"

/* The control plane's address is in each request and in no list. */
static const uint8_t nobody[4] = {0, 0, 0, 0};

static void read_f_teid(const struct element *element, uint32_t *teid, uint8_t *families)
{
    *families = (uint8_t)(number_in(element, 0, 1) & (V4 | V6));
    *teid = (uint32_t)number_in(element, 1, 4);
}

static void read_address(struct patient_address *address, const struct element *element)
{
    address->is_there = element->length >= 5;
    if (address->is_there)
        memcpy(address->octets, element->value + 1, sizeof address->octets);
}

static void read_pdi(struct pdr *pdr, const struct element *pdi)
{
    struct elements rest = members_of(pdi);
    struct element member;

    while (next_element(&rest, &member)) {
        switch (member.type) {
        case IE_SOURCE_INTERFACE:
            pdr->source_interface = (uint8_t)number_in(&member, 0, 1);
            break;
        case IE_F_TEID:
            pdr->place = LOCAL_F_TEID;
            read_f_teid(&member, &pdr->teid, &pdr->families);
            break;
        case IE_ENDPOINT_ID:
            pdr->place = NAMED_ENDPOINT;
            pdr->endpoint_id = (uint8_t)number_in(&member, 0, 1);
            break;
        case IE_UE_IP_ADDRESS:
            read_address(&pdr->address, &member);
            break;
        }
    }
}

static void read_pdr(struct pdr *pdr, const struct element *group)
{
    struct elements rest = members_of(group);
    struct element member;

    while (next_element(&rest, &member)) {
        switch (member.type) {
        case IE_PDR_ID:
            pdr->id = (uint16_t)number_in(&member, 0, 2);
            break;
        case IE_PRECEDENCE:
            pdr->precedence = (uint32_t)number_in(&member, 0, 4);
            break;
        case IE_PDI:
            read_pdi(pdr, &member);
            break;
        case IE_FAR_ID:
            pdr->has_far = true;
            pdr->far_id = (uint32_t)number_in(&member, 0, 4);
            break;
        }
    }
}

static void read_endpoint(struct endpoint *endpoint, const struct element *group)
{
    struct elements rest = members_of(group);
    struct element member;

    while (next_element(&rest, &member)) {
        if (member.type == IE_ENDPOINT_ID)
            endpoint->id = (uint8_t)number_in(&member, 0, 1);
        else if (member.type == IE_F_TEID)
            read_f_teid(&member, &endpoint->teid, &endpoint->families);
        else if (member.type == IE_UE_IP_ADDRESS)
            read_address(&endpoint->address, &member);
    }
}

/* The Node-ID type and the number of CSIDs, which is 1; the address; the CSID; the node type. */
static void read_fq_csid(struct fq_csid *fq_csid, const struct element *element)
{
    size_t octets;

    fq_csid->node_id_type = (uint8_t)(number_in(element, 0, 1) >> 4);
    octets = fq_csid->node_id_type == 1 ? 16 : 4;
    if (element->length < 1 + octets + 3)
        return;
    memcpy(fq_csid->address, element->value + 1, octets);
    fq_csid->csid = (uint16_t)number_in(element, 1 + octets, 2);
    fq_csid->node_type = (uint8_t)(number_in(element, 1 + octets + 2, 1) & 0x0F);
}

static void read_request(struct session *session, struct elements rest)
{
    struct element element;

    memset(session, 0, sizeof *session);
    while (next_element(&rest, &element)) {
        switch (element.type) {
        case IE_F_SEID:
            session->seid = number_in(&element, 1, 8);
            break;
        case IE_CREATE_PDR:
            if (session->pdr_count < MOST_PDRS)
                read_pdr(&session->pdrs[session->pdr_count++], &element);
            break;
        case IE_CREATE_ENDPOINT:
            if (session->endpoint_count < MOST_ENDPOINTS)
                read_endpoint(&session->endpoints[session->endpoint_count++], &element);
            break;
        case IE_FQ_CSID:
            if (session->fq_csid_count < MOST_FQ_CSIDS)
                read_fq_csid(&session->fq_csids[session->fq_csid_count++], &element);
            break;
        }
    }
}

/* Both tables have their sessions in ascending order of peer, then of SEID. */
size_t sessions_gone(const uint8_t *before, const uint8_t *after, size_t length, uint64_t *seids,
                     size_t room)
{
    struct session was;
    struct session is;
    size_t kept = 0;
    size_t gone = 0;
    bool more = sessions_read(after, length, kept, &is);

    for (size_t place = 0; gone < room && sessions_read(before, length, place, &was); place++) {
        if (more && was.peer == is.peer && was.seid == is.seid)
            more = sessions_read(after, length, ++kept, &is);
        else
            seids[gone++] = was.seid;
    }
    return gone;
}

bool sessions_read(const uint8_t *table, size_t length, size_t place, struct session *session)
{
    uint8_t request[PFCP_LONGEST_RESTORATION];
    size_t used;
    uint32_t peer;

    if (pfcp_write_restoration(table, length, place, nobody, sizeof nobody, NULL, 0, request,
                               sizeof request, &used, &peer) != PFCP_WRITTEN)
        return false;
    read_request(session, elements_of(request, used));
    session->peer = peer;
    return true;
}

void sessions_find(const uint8_t *table, size_t length, uint32_t peer, uint64_t seid,
                   struct session *session)
{
    size_t place;

    if (pfcp_find_session(table, length, peer, seid, &place) != PFCP_FOUND ||
        !sessions_read(table, length, place, session))
        memset(session, 0, sizeof *session);
}

/* What all records of a session hold. */
static size_t hold(const struct session *session, struct grant *grants)
{
    size_t count = 0;

    for (size_t i = 0; i < session->pdr_count; i++) {
        const struct pdr *pdr = &session->pdrs[i];

        grants[count++] = (struct grant){.id = pdr->id,
                                         .has_teid = pdr->place == LOCAL_F_TEID,
                                         .teid = pdr->teid,
                                         .address = pdr->address};
    }
    for (size_t i = 0; i < session->endpoint_count; i++) {
        const struct endpoint *endpoint = &session->endpoints[i];

        grants[count++] = (struct grant){.is_endpoint = true,
                                         .id = endpoint->id,
                                         .has_teid = true,
                                         .teid = endpoint->teid,
                                         .address = endpoint->address};
    }
    return count;
}

static bool same_teid(const struct grant *one, const struct grant *other)
{
    return one->has_teid && other->has_teid && one->teid == other->teid;
}

static bool same_address(const struct grant *one, const struct grant *other)
{
    return one->address.is_there && other->address.is_there &&
           memcmp(one->address.octets, other->address.octets, sizeof one->address.octets) == 0;
}

/* What the records of one session hold and the same records of the other do not. */
static size_t differences(const struct session *one, const struct session *other,
                          struct grant *grants)
{
    struct grant all[MOST_GRANTS];
    struct grant others[MOST_GRANTS];
    size_t all_count = hold(one, all);
    size_t others_count = hold(other, others);
    size_t count = 0;

    for (size_t i = 0; i < all_count; i++) {
        struct grant grant = all[i];

        for (size_t k = 0; k < others_count; k++) {
            if (others[k].is_endpoint != grant.is_endpoint || others[k].id != grant.id)
                continue;
            grant.has_teid = grant.has_teid && !same_teid(&all[i], &others[k]);
            grant.address.is_there = grant.address.is_there && !same_address(&all[i], &others[k]);
        }
        if (grant.has_teid || grant.address.is_there)
            grants[count++] = grant;
    }
    return count;
}

size_t sessions_given(const struct session *before, const struct session *now,
                      struct grant grants[MOST_GRANTS])
{
    return differences(now, before, grants);
}

size_t sessions_released(const struct session *before, const struct session *now,
                         struct grant grants[MOST_GRANTS])
{
    struct grant held[MOST_GRANTS];
    size_t held_count = hold(now, held);
    size_t count = differences(before, now, grants);

    for (size_t i = 0; i < count; i++)
        for (size_t k = 0; k < held_count; k++) {
            grants[i].teid_stays = grants[i].teid_stays || same_teid(&grants[i], &held[k]);
            grants[i].address_stays = grants[i].address_stays || same_address(&grants[i], &held[k]);
        }
    return count;
}
