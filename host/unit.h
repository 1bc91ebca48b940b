/* A unit: its table, its sockets, and the service of one message. */
#ifndef UNIT_H
#define UNIT_H

#include <stdbool.h>
#include <stdint.h>
#include <time.h>

#include "address.h"
#include "datagrams.h"
#include "disk.h"
#include "options.h"
#include "pfcp_session.h"
#include "sessions.h"
#include "text.h"

/* What has happened since the start, by peer. */
struct counters {
    unsigned long messages[256]; /* by type */
    unsigned long untyped;       /* too short for a type, or not PFCP version 1 */
    unsigned long outcomes[PFCP_NO_PEER + 1];
    unsigned long causes[256]; /* of requests; a repeat's is not counted again */
    unsigned long repeats;     /* requests that came again and got the old reply */
    unsigned long undone;      /* requests undone since the table could not be kept on the disk */
    unsigned long unsent;      /* replies that could not be sent */
    unsigned long strangers;   /* datagrams from elsewhere than the control plane */
    unsigned long dropped;     /* datagrams that the system dropped */
};

/* What a peer has of the table. */
struct holding {
    uint32_t sessions;
    uint32_t teids; /* different ones */
};

struct batch;

struct unit {
    int sockets[PFCP_PEERS]; /* one for each peer; -1: this peer is not served */
    size_t receive_buffer;   /* octets that the system gave */
    int status;              /* of status.h, where it could not start */
    struct timespec started;
    const struct options *options;
    uint8_t *file;  /* the table and its stores in the form of stored.h; NULL: there is none */
    uint8_t *table; /* as long as the session limit asks for; a part of file, and so are ... */
    size_t table_length;
    uint8_t *stores; /* ... the stores of repeated requests, after the table as stores.h has them */
    struct disk disk;
    struct holding holdings[PFCP_PEERS];
    uint32_t live_sessions;
    uint32_t free_teids;
    uint32_t free_addresses;
    uint32_t system_dropped[PFCP_PEERS]; /* what the system told last; it may wrap */
    struct counters counters[PFCP_PEERS];
    struct batch *batch; /* NULL: there is no memory for one */
};

/* So many octets at the place of a fault are shown. */
enum { OCTETS_THERE = 8 };

/* What a peer had, and may have, when a request got 75. */
struct shortage {
    struct holding has;
    struct holding most;
    bool is_shared; /* there is another peer, for which so many of the free TEIDs are kept back */
    uint32_t kept_back;
};

/* A message that was taken from a peer's socket, and what became of it. */
struct served {
    struct timespec time;
    struct address sender;
    uint32_t peer; /* whose socket it was */
    size_t length;
    bool has_type; /* the octets are PFCP version 1 and long enough */
    uint8_t type;
    bool has_seid; /* an establishment's is that of its F-SEID */
    uint64_t seid;
    bool has_sequence;
    uint32_t sequence;
    uint32_t outcome;
    bool repeated; /* the request was answered before: this is the old reply */
    uint8_t cause; /* 0: there is no reply */
    bool has_offending;
    uint16_t offending;
    size_t place; /* of the fault that Offending IE names, in the message; 0: the message itself */
    uint8_t there[OCTETS_THERE]; /* the octets at the place */
    size_t there_length;
    struct shortage shortage; /* where the cause is 75 and not an old reply's */
    const char *undone;       /* why the table could not be kept: the request is undone; or NULL */
    int send_error;           /* 0: the reply was sent, or there is none */
    uint32_t live_sessions;
    uint32_t free_teids;
    uint32_t free_addresses;
    struct grant
        given[MOST_GRANTS]; /* what an accepted request gave and released, but for a set ... */
    size_t given_count;
    struct grant released[MOST_GRANTS];
    size_t released_count;
    bool is_set;                          /* ... deletion that was accepted */
    uint64_t removed[PFCP_MOST_SESSIONS]; /* the SEIDs of the sessions that it took */
    size_t removed_count;
};

/* So many messages at most are served together. */
enum { BATCH = STORED_BATCH };

/* A message of a batch, and its reply, which waits until the disk has what it says. */
struct held {
    struct served served;
    struct datagram from;
    uint8_t digest[STORED_DIGEST]; /* of the message, where the disk keeps replies that are owed */
    uint8_t reply[PFCP_REPLY_SPACE];
    size_t used;
    bool depends; /* on what the batch has changed, which was undone */
};

/* The messages that are served together, and what the unit had before them. */
struct batch {
    struct held held[BATCH];
    size_t count;
    uint8_t before[PFCP_LONGEST_TABLE]; /* the table before the last one, where its line needs it */
    bool broken;                        /* the table was found broken */
    struct holding holdings[PFCP_PEERS];
    uint32_t live_sessions;
    uint32_t free_teids;
    uint32_t free_addresses;
};

/* A message was taken, or it is the last that its batch has room for. */
enum turn { TURN_TAKEN, TURN_LAST, TURN_STRANGER, TURN_NOTHING, TURN_BROKEN };

/* Makes or restores the table and binds the sockets; says on standard error what failed, keeps the exit
   status and gives false. A unit that could not start is stopped all the same. */
bool unit_start(struct unit *unit, const struct options *options);
void unit_stop(struct unit *unit);

/* Receives one message of a peer, if there is one, and has it answered as the next one of the batch, which
   has room for it. Its reply waits. Of a stranger it gives what is known. */
enum turn unit_take(struct unit *unit, uint32_t peer, const struct served **served);

/* Ends the batch: has what it has changed on the disk, in one write, and then sends its replies. Where the
   disk does not take it, all of it is undone and not answered. The messages, each with what became of it,
   are in the batch until it is forgotten. */
void unit_settle(struct unit *unit);
void unit_forget(struct unit *unit);

/* How many messages of both peers got a reply, how many did not, and how many of these were undone. */
unsigned long unit_answered(const struct unit *unit);
unsigned long unit_unanswered(const struct unit *unit);
unsigned long unit_undone(const struct unit *unit);

/* What a session that the set deletion at the end of the batch took has released; gives the number of
   grants. */
size_t unit_released(const struct unit *unit, const struct served *served, uint64_t seid,
                     struct grant grants[MOST_GRANTS]);

/* The line of what a session released, that a set deletion took. */
void released_line(struct text *text, const struct served *served, uint64_t seid,
                   const struct grant *grants, size_t count);

/* A message's line from its peer on; and the whole line, with its time and its sender before that. */
void served_facts(struct text *text, const struct served *served);
void served_line(struct text *text, const struct served *served);

/* A scripted exchange with the unit over the loopback interface, and one with a unit that two control
   planes share; each gives the exit status. */
int run_demo(struct unit *unit);
int run_shared_demo(struct unit *unit);

#endif
