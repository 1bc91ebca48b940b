/* Tables and requests that keep them as full as they are, for the measurements. */
#ifndef WORKLOAD_H
#define WORKLOAD_H

#include <stddef.h>
#include <stdint.h>

#include "message.h"
#include "sides.h"

enum { MOST_PDRS = 16, MOST_ENDPOINTS = 8, MOST_FQ_CSIDS = 6 };

/* What the sessions of a table hold. With mixed records a PDR has a FAR ID or none, and an F-TEID,
   an endpoint or neither; an F-TEID has one family or two; a patient's address is chosen, given or
   not there; an FQ-CSID has Node-ID type 0, 1 or 2; all drawn from the seed. Otherwise every record
   has everything: FAR ID, both families, a chosen address, type 1. */
struct workload {
    const char *name;
    uint16_t pdrs;
    uint8_t endpoints;
    uint8_t fq_csids;
    int mixed;
    uint32_t seed;
};

enum { ALIKE, MIXED, PART_FILLED, WORKLOADS };
extern const struct workload workloads[WORKLOADS];

/* How many sessions live in a table, and its session limit. */
struct size {
    size_t live;
    size_t limit;
};

/* Those that are measured: the last one is full, with the largest limit. */
enum { SIZES = 8 };
extern const struct size sizes[SIZES];
extern const struct size full;
int is_full(struct size size);

/* The requests of a cycle come in turn: the deletion of a session, its establishment, updates of
   another session, an exchange of records in this one; then the next session. After a whole cycle
   they can start anew. */
enum kind { DELETES, ESTABLISHES, UPDATES, EXCHANGES, KINDS };
enum { MOST_CYCLE = KINDS * MOST_SESSIONS };
extern const char *const kind_names[KINDS];

/* A session's peer and SEID: the two peers have them in turn, with the same SEIDs. */
uint32_t peer_of(size_t session);
uint64_t seid_of(size_t session);
void write_establishment(struct message *m, const struct workload *w, size_t session);

/* The cycle of a table with so many sessions; gives its number of requests. */
size_t write_cycle(struct request cycle[MOST_CYCLE], const struct workload *w, size_t live);

/* Makes both tables with so many sessions, and compares them after every request. */
void fill(struct pair *pair, const struct workload *w, struct size size);

#endif
