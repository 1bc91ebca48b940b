/* The command line of the unit. */
#ifndef OPTIONS_H
#define OPTIONS_H

#include <stdbool.h>
#include <stddef.h>
#include <stdint.h>
#include <sys/types.h>

#include "address.h"
#include "pfcp_session.h"

/* So many addresses may be named from which a peer asks. */
enum { MOST_FROM = 8 };

/* One of the two control planes that may share the unit. */
struct peer {
    uint32_t address;               /* its signalling address on the unit, which its replies have */
    uint32_t guarantee;             /* the TEIDs that it is guaranteed, ... */
    uint32_t limit;                 /* ... and the most that it may hold */
    struct address listen;          /* where its requests arrive */
    struct address from[MOST_FROM]; /* only these are answered, ... */
    size_t from_count;              /* ... or anybody where none is named */
};

struct options {
    uint16_t port;                 /* 0: any that is free */
    struct peer peers[PFCP_PEERS]; /* peer 1, peer 2 */
    size_t peer_count;             /* how many of them are served; the other one has nothing */
    bool repeats;                  /* repeated requests get the old reply */
    bool grants;                   /* lines say what was given and released */
    const char *control;           /* the control socket's path, or NULL */
    bool has_control_group;        /* this group may ask there too */
    gid_t control_group;
    bool quiet;        /* no line for a message */
    const char *table; /* the table's file, or NULL */
    bool table_sync;   /* replies wait until the disk has the table */
    uint32_t ipv4;     /* the unit's own addresses and its pools */
    uint8_t ipv6[16];
    size_t ipv6_length; /* 0 or 16 */
    uint32_t first_teid;
    uint32_t pool_size;
    uint32_t first_address; /* of the patients' addresses */
    uint32_t address_count;
    uint32_t session_limit; /* of both peers together */
    bool demo;
    bool help;
    bool version;
};

/* Reads the options; says on standard error what is wrong with them and gives false. */
bool read_options(struct options *options, int argc, char **argv);

/* The most sessions that a peer may have: half of the session limit, rounded down. */
static inline uint32_t sessions_of_peer(const struct options *options)
{
    return options->session_limit / PFCP_PEERS;
}

extern const char usage[];

#endif
