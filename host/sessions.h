/* The live sessions. They are read from the restoration requests that the archive writes of them, so
   nothing in this directory knows where they stand in the table. */
#ifndef SESSIONS_H
#define SESSIONS_H

#include <stdbool.h>
#include <stddef.h>
#include <stdint.h>

enum { MOST_PDRS = 16, MOST_ENDPOINTS = 8, MOST_FQ_CSIDS = 6 };

/* The IPv4 address of a patient's device, which a record may hold. */
struct patient_address {
    bool is_there;
    uint8_t octets[4];
};

/* Families are V4 and V6 of message.h. */
struct pdr {
    uint16_t id;
    uint32_t precedence;
    bool has_far;
    uint32_t far_id;
    uint8_t source_interface;
    enum { NO_PLACE, LOCAL_F_TEID, NAMED_ENDPOINT } place;
    uint32_t teid;
    uint8_t families;
    uint8_t endpoint_id;
    struct patient_address address;
};

struct endpoint {
    uint8_t id;
    uint32_t teid;
    uint8_t families;
    struct patient_address address;
};

struct fq_csid {
    uint8_t node_type;
    uint8_t node_id_type;
    uint8_t address[16]; /* types 0 and 2 use the first 4 octets */
    uint16_t csid;
};

struct session {
    uint32_t peer;
    uint64_t seid;
    size_t pdr_count;
    size_t endpoint_count;
    size_t fq_csid_count;
    struct pdr pdrs[MOST_PDRS];
    struct endpoint endpoints[MOST_ENDPOINTS];
    struct fq_csid fq_csids[MOST_FQ_CSIDS];
};

/* What a record of a session holds that the unit hands out; after a comparison, what of it was given or
   released. */
struct grant {
    bool is_endpoint; /* else a PDR */
    uint16_t id;
    bool has_teid;
    uint32_t teid;
    bool teid_stays; /* released by this record, and still held by another one of the session */
    struct patient_address address;
    bool address_stays;
};

enum { MOST_GRANTS = MOST_PDRS + MOST_ENDPOINTS };

/* What the records of a session hold now and did not hold before; gives their number. A session without
   records stands for one that is not there. */
size_t sessions_given(const struct session *before, const struct session *now,
                      struct grant grants[MOST_GRANTS]);

/* What they held before and do not hold now. */
size_t sessions_released(const struct session *before, const struct session *now,
                         struct grant grants[MOST_GRANTS]);

/* The session of a peer with this SEID in a sound table; one without records where there is none. */
void sessions_find(const uint8_t *table, size_t length, uint32_t peer, uint64_t seid,
                   struct session *session);

/* The SEIDs, in the table's order, of sessions that a table of this length had before and has no more
   after; gives their number, at most the room. No session has come between the two. */
size_t sessions_gone(const uint8_t *before, const uint8_t *after, size_t length, uint64_t *seids,
                     size_t room);

/* The session at a place of a sound table, from 0 on; gives false where there is none. */
bool sessions_read(const uint8_t *table, size_t length, size_t place, struct session *session);

#endif
