/* The list of live sessions with their records, and what each peer has with its counters, as text or as
   JSON. */
#ifndef LISTING_H
#define LISTING_H

#include "text.h"
#include "unit.h"

/* What a list has beside the sessions, and its form: as JSON, a line for each session, or the counters
   in the text form of Prometheus. */
enum { LIST_COUNTERS = 1, LIST_JSON = 2, LIST_SUMMARY = 4, LIST_PROMETHEUS = 8 };

/* What is asked for: all sessions, the one or two with a SEID, the one that holds a TEID, or those that
   hold a patient's address; of both peers, or of one. */
struct wanted {
    uint64_t seid; /* 0: any */
    uint32_t teid; /* 0: any */
    bool has_address;
    uint32_t address;
    uint32_t peer; /* 0: both */
    unsigned form;
};

/* A list that is given out in pieces. It has its own copy of the table, so the sessions are those of
   one moment, whatever is served between two pieces. */
struct listing {
    uint8_t table[PFCP_LONGEST_TABLE];
    size_t table_length;
    const struct options *options; /* NULL: a stored table, of which no unit is known */
    size_t peer_count;
    struct timespec started;
    bool disk_failing;
    struct counters counters[PFCP_PEERS];
    struct holding holdings[PFCP_PEERS];
    unsigned long lines_dropped;
    uint32_t free_teids;
    uint32_t free_addresses;
    struct wanted wanted;
    uint16_t places[PFCP_MOST_SESSIONS]; /* of the sessions that are listed */
    size_t place_count;
    size_t listed;         /* of these */
    uint32_t peers_listed; /* the number of the last one */
    size_t metrics_listed;
    enum { LIST_HEAD, LIST_SESSIONS, LIST_PEERS, LIST_DONE, LIST_METRICS } stage;
};

/* Starts a list of a unit, or of a stored table where it has no options; lines_dropped is the output's
   count. Gives false where a SEID, a TEID or an address is asked for that is not live. */
bool listing_start(struct listing *listing, const struct unit *unit, const struct wanted *wanted,
                   unsigned long lines_dropped);

/* Whether a peer is among those that are asked for. */
bool listing_has(const struct listing *listing, uint32_t peer);

/* Adds the next piece, at most one session or one peer's counters; gives false when there is none left. */
bool listing_next(struct listing *listing, struct text *text);

#endif
