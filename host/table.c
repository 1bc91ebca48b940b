#include "table.h"

#include <string.h>

#include "message.h"
#include "pfcp_session.h"

/* A session's restoration request, and the peer to run it under. */
struct restoration {
    uint8_t octets[PFCP_LONGEST_RESTORATION];
    size_t used;
    uint32_t peer;
};

bool table_make(uint8_t *room, const struct options *options, uint32_t session_limit)
{
    const struct peer *one = &options->peers[0];
    const struct peer *two = &options->peers[1];

    return pfcp_make_table(room, pfcp_table_length(session_limit), options->ipv4, options->ipv6,
                           options->ipv6_length, options->first_teid, options->pool_size,
                           options->first_address, options->address_count, session_limit,
                           one->address, one->guarantee, one->limit, two->address, two->guarantee,
                           two->limit) == 0;
}

uint32_t table_limit(size_t length)
{
    for (uint32_t limit = PFCP_LEAST_SESSIONS; limit <= PFCP_MOST_SESSIONS; limit++)
        if (pfcp_table_length(limit) == length)
            return limit;
    return 0;
}

/* The control plane's address is in each request, and in no table. */
static uint32_t write_request(const uint8_t *table, size_t length, size_t place,
                              struct restoration *request)
{
    static const uint8_t nobody[4] = {0, 0, 0, 0};

    return pfcp_write_restoration(table, length, place, nobody, sizeof nobody, NULL, 0,
                                  request->octets, sizeof request->octets, &request->used,
                                  &request->peer);
}

static bool is_accepted(uint8_t *table, size_t length, const struct restoration *request)
{
    uint8_t reply[PFCP_REPLY_SPACE];
    size_t used;
    size_t place;

    if (pfcp_request(table, length, request->peer, request->octets, request->used, reply,
                     sizeof reply, &used, &place) != PFCP_ANSWERED)
        return false;
    struct element cause = element_of(reply, used, IE_CAUSE);
    return number_in(&cause, 0, 1) == ACCEPTED;
}

/* No request has the session limit in it, so those of one session are the same in tables of any. */
static bool have_same_sessions(const uint8_t *one, size_t one_length, const uint8_t *other,
                               size_t other_length)
{
    struct restoration first;
    struct restoration second;
    uint32_t outcome;
    size_t place = 0;

    while ((outcome = write_request(one, one_length, place, &first)) == PFCP_WRITTEN &&
           write_request(other, other_length, place, &second) == PFCP_WRITTEN &&
           first.peer == second.peer && first.used == second.used &&
           memcmp(first.octets, second.octets, first.used) == 0)
        place++;
    return outcome == PFCP_PAST_LAST_SESSION &&
           write_request(other, other_length, place, &second) == PFCP_PAST_LAST_SESSION;
}

bool table_restore(const uint8_t *stored, size_t stored_length, uint8_t *table, size_t length)
{
    struct restoration request;
    size_t place = 0;

    while (write_request(stored, stored_length, place, &request) == PFCP_WRITTEN &&
           is_accepted(table, length, &request))
        place++;
    return have_same_sessions(stored, stored_length, table, length);
}
