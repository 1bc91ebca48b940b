#include "session_words.h"

#include <arpa/inet.h>
#include <inttypes.h>
#include <string.h>

#include "message.h"
#include "words.h"

static const char *families_in_words(unsigned families)
{
    static const char *const words[] = {"no family", "IPv4", "IPv6", "IPv4 and IPv6"};

    return words[families & 3];
}

static const char *truth(bool is)
{
    return is ? "true" : "false";
}

/* The node of an FQ-CSID: an address, or eight hexadecimal digits. */
static const char *node_in_words(const struct fq_csid *fq_csid, char *room, size_t size)
{
    if (fq_csid->node_id_type != 2)
        return address_in_words(fq_csid->address, fq_csid->node_id_type == 1 ? 16 : 4, room, size);
    snprintf(room, size, "%08" PRIX64, number_at(fq_csid->address, 4));
    return room;
}

static void address_text_of(struct text *text, const struct patient_address *address)
{
    char room[INET6_ADDRSTRLEN];

    if (address->is_there)
        text_add(text, ", address %s", address_in_words(address->octets, 4, room, sizeof room));
}

static void address_json(struct text *text, const struct patient_address *address)
{
    char room[INET6_ADDRSTRLEN];

    if (address->is_there)
        text_add(text, ",\"address\":\"%s\"",
                 address_in_words(address->octets, 4, room, sizeof room));
}

static void pdr_text(struct text *text, const struct pdr *pdr)
{
    text_add(text, "    PDR %u: precedence %" PRIu32, pdr->id, pdr->precedence);
    if (pdr->has_far)
        text_add(text, ", FAR %" PRIu32, pdr->far_id);
    else
        text_add(text, ", no FAR");
    text_add(text, ", source interface %u (%s)", pdr->source_interface,
             interface_in_words(pdr->source_interface));
    if (pdr->place == LOCAL_F_TEID)
        text_add(text, ", TEID %" PRIu32 " (%s)", pdr->teid, families_in_words(pdr->families));
    else if (pdr->place == NAMED_ENDPOINT)
        text_add(text, ", endpoint %u", pdr->endpoint_id);
    address_text_of(text, &pdr->address);
    text_add(text, "\n");
}

static void endpoint_text(struct text *text, const struct endpoint *endpoint)
{
    text_add(text, "    endpoint %u: TEID %" PRIu32 " (%s)", endpoint->id, endpoint->teid,
             families_in_words(endpoint->families));
    address_text_of(text, &endpoint->address);
    text_add(text, "\n");
}

void session_text(struct text *text, const struct session *session)
{
    char room[INET6_ADDRSTRLEN];

    text_add(text, "  session %" PRIu64 " of peer %" PRIu32 " (0x%" PRIx64 ")\n", session->seid,
             session->peer, session->seid);
    for (size_t i = 0; i < session->pdr_count; i++)
        pdr_text(text, &session->pdrs[i]);
    for (size_t i = 0; i < session->endpoint_count; i++)
        endpoint_text(text, &session->endpoints[i]);
    for (size_t i = 0; i < session->fq_csid_count; i++) {
        const struct fq_csid *fq_csid = &session->fq_csids[i];

        text_add(text, "    FQ-CSID of node type %u (%s): CSID %u of %s%s\n", fq_csid->node_type,
                 node_type_in_words(fq_csid->node_type), fq_csid->csid,
                 fq_csid->node_id_type == 2 ? "operator node " : "",
                 node_in_words(fq_csid, room, sizeof room));
    }
}

/* Numbers of a session, each once, in the order in which they come. */
struct numbers {
    uint32_t all[MOST_PDRS + MOST_ENDPOINTS];
    size_t count;
};

static void add_once(struct numbers *numbers, uint32_t number)
{
    for (size_t i = 0; i < numbers->count; i++)
        if (numbers->all[i] == number)
            return;
    numbers->all[numbers->count++] = number;
}

static void add_address(struct numbers *numbers, const struct patient_address *address)
{
    if (address->is_there)
        add_once(numbers, (uint32_t)number_at(address->octets, 4));
}

void session_summary(struct text *text, const struct session *session)
{
    struct numbers teids = {.count = 0};
    struct numbers addresses = {.count = 0};
    char room[INET6_ADDRSTRLEN];

    for (size_t i = 0; i < session->pdr_count; i++) {
        if (session->pdrs[i].place == LOCAL_F_TEID)
            add_once(&teids, session->pdrs[i].teid);
        add_address(&addresses, &session->pdrs[i].address);
    }
    for (size_t i = 0; i < session->endpoint_count; i++) {
        add_once(&teids, session->endpoints[i].teid);
        add_address(&addresses, &session->endpoints[i].address);
    }
    text_add(text,
             "  session %" PRIu64 " of peer %" PRIu32 " (0x%" PRIx64
             "): PDRs %zu, endpoints %zu, FQ-CSIDs %zu, TEIDs",
             session->seid, session->peer, session->seid, session->pdr_count,
             session->endpoint_count, session->fq_csid_count);
    for (size_t i = 0; i < teids.count; i++)
        text_add(text, " %" PRIu32, teids.all[i]);
    text_add(text, teids.count > 0 ? ", addresses" : " none, addresses");
    for (size_t i = 0; i < addresses.count; i++)
        text_add(text, " %s", ipv4_in_words(addresses.all[i], room, sizeof room));
    text_add(text, addresses.count > 0 ? "\n" : " none\n");
}

static void tunnel_json(struct text *text, uint32_t teid, unsigned families)
{
    text_add(text, ",\"teid\":%" PRIu32 ",\"ipv4\":%s,\"ipv6\":%s", teid, truth(families & V4),
             truth(families & V6));
}

static void pdr_json(struct text *text, const struct pdr *pdr)
{
    text_add(text, "{\"id\":%u,\"precedence\":%" PRIu32, pdr->id, pdr->precedence);
    if (pdr->has_far)
        text_add(text, ",\"far_id\":%" PRIu32, pdr->far_id);
    text_add(text, ",\"source_interface\":%u,\"source_interface_name\":\"%s\"",
             pdr->source_interface, interface_in_words(pdr->source_interface));
    if (pdr->place == LOCAL_F_TEID)
        tunnel_json(text, pdr->teid, pdr->families);
    else if (pdr->place == NAMED_ENDPOINT)
        text_add(text, ",\"endpoint_id\":%u", pdr->endpoint_id);
    address_json(text, &pdr->address);
    text_add(text, "}");
}

/* A SEID is text: many readers of JSON keep 53 bits of a number. */
void session_json(struct text *text, const struct session *session)
{
    char room[INET6_ADDRSTRLEN];

    text_add(text,
             "{\"peer\":%" PRIu32 ",\"seid\":\"%" PRIu64 "\",\"seid_hex\":\"0x%" PRIx64
             "\",\"pdrs\":[",
             session->peer, session->seid, session->seid);
    for (size_t i = 0; i < session->pdr_count; i++) {
        text_add(text, i > 0 ? "," : "");
        pdr_json(text, &session->pdrs[i]);
    }
    text_add(text, "],\"endpoints\":[");
    for (size_t i = 0; i < session->endpoint_count; i++) {
        text_add(text, "%s{\"id\":%u", i > 0 ? "," : "", session->endpoints[i].id);
        tunnel_json(text, session->endpoints[i].teid, session->endpoints[i].families);
        address_json(text, &session->endpoints[i].address);
        text_add(text, "}");
    }
    text_add(text, "],\"fq_csids\":[");
    for (size_t i = 0; i < session->fq_csid_count; i++) {
        const struct fq_csid *fq_csid = &session->fq_csids[i];

        text_add(text, "%s{\"node_type\":%u,\"node_type_name\":\"%s\",\"node\":\"%s\",\"csid\":%u}",
                 i > 0 ? "," : "", fq_csid->node_type, node_type_in_words(fq_csid->node_type),
                 node_in_words(fq_csid, room, sizeof room), fq_csid->csid);
    }
    text_add(text, "]}");
}
