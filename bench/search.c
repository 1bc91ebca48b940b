#include "search.h"

/* The ID of the PDR that the request creates. */
enum { ANOTHER_PDR = 100 };

/* Restores a session with so many TEIDs, from this one on: endpoints first. */
static void write_restoration(struct request *r, size_t session, uint32_t teid, uint32_t held)
{
    struct tunnel tunnel = {.flags = V4, .teid = teid, .ipv4 = unit_ipv4};
    struct message *m = &r->message;

    r->peer = peer_of(session);
    message_start(m, ESTABLISHMENT, 0, (uint32_t)session);
    put_f_seid(m, seid_of(session));
    put_number(m, IE_FLAGS, 1, 1);
    for (uint32_t i = 0; i < held; i++, tunnel.teid++) {
        if (i < MOST_ENDPOINTS)
            create_endpoint(m, (uint8_t)i, &tunnel);
        else
            create_pdr(m, (uint16_t)i, &tunnel);
    }
    message_end(m);
}

static void must_grant(struct pair *pair, const struct request *r, uint32_t teid)
{
    static struct pair tried;

    tried = *pair;
    ask_both(&tried, r);
    /* The reply ends with the F-TEID: flags, TEID, IPv4 address. */
    if (cause_of(&tried.ours) != 1 || number_at(tried.ours.reply + tried.ours.used - 8, 4) != teid)
        give_up("the lowest free TEID, %u, is not granted", teid);
}

void fill_for_search(struct pair *pair, struct request *r, uint32_t taken, enum first_taken from)
{
    const uint32_t most = MOST_PDRS + MOST_ENDPOINTS;
    uint32_t first = FIRST_TEID + (from == FROM_SECOND);
    size_t session = 0;

    make_both_empty(pair, SEARCHED_POOL, MOST_SESSIONS);
    /* Full sessions, and a last one with the rest, which is less than full. */
    for (uint32_t done = 0; done <= taken; done += most, session++) {
        uint32_t held = taken - done < most ? taken - done : most;

        write_restoration(r, session, first + done, held);
        ask_both(pair, r);
        if (cause_of(&pair->ours) != 1)
            give_up("a restoration of %u TEIDs is refused", held);
    }
    message_start(&r->message, MODIFICATION, seid_of(session - 1), 1);
    create_pdr(&r->message, ANOTHER_PDR, &(struct tunnel){.flags = CHOOSE | V4});
    message_end(&r->message);
    must_grant(pair, r, from == FROM_FIRST ? FIRST_TEID + taken : FIRST_TEID);
}
