/* The two implementations that are compared, and a table of each. */
#ifndef SIDES_H
#define SIDES_H

#include <stddef.h>
#include <stdint.h>

#include "message.h"
#include "pfcp_session.h"

/* The settings of every table here, but for a pool of another size where a measurement says so. The
   addresses are those from 10.45.0.0 on. Each peer is guaranteed a quarter of the pool, and may have
   all of it. */
enum { FIRST_TEID = 4096, POOL = 65536, FIRST_ADDRESS = 0x0A2D0000, ADDRESSES = 1024 };
enum { GUARANTEED_PART = 4 };

/* The largest session limit, and the octets of a table before its slots and of a slot, as
   docs/layout.md has them. */
enum { MOST_SESSIONS = PFCP_MOST_SESSIONS, HEAD = 65, SLOT = 604 };

/* A request, and the peer that it comes from. */
struct request {
    uint32_t peer;
    struct message message;
};

/* The calls of one implementation. */
struct side {
    const char *name;
    size_t (*table_length)(uint32_t);
    uint32_t (*make_table)(uint8_t *, size_t, uint32_t, const uint8_t *, size_t, uint32_t, uint32_t,
                           uint32_t, uint32_t, uint32_t, uint32_t, uint32_t, uint32_t, uint32_t,
                           uint32_t, uint32_t);
    uint32_t (*free_count)(const uint8_t *, size_t, uint32_t *);
    uint32_t (*free_addresses)(const uint8_t *, size_t, uint32_t *);
    uint32_t (*request)(uint8_t *, size_t, uint32_t, const uint8_t *, size_t, uint8_t *, size_t,
                        size_t *, size_t *);
    uint32_t (*make_store)(uint8_t *, size_t);
    uint32_t (*request_once)(uint8_t *, size_t, uint32_t, uint8_t *, size_t, const uint8_t *,
                             size_t, uint8_t *, size_t, size_t *, size_t *);
};

extern const struct side archive;
extern const struct side ordinary;

/* One implementation with its table, a store of each peer and its last answer. */
struct place {
    const struct side *side;
    uint32_t outcome;
    size_t used;
    size_t fault;  /* the place of a fault in the message */
    size_t length; /* of the table, by its session limit */
    _Alignas(64) uint8_t table[PFCP_LONGEST_TABLE];
    _Alignas(64) uint8_t reply[PFCP_REPLY_SPACE];
    _Alignas(64) uint8_t stores[2][PFCP_STORE_LENGTH]; /* used by ask_once only */
};

/* Both implementations, with tables of the same octets. */
struct pair {
    struct place ours;   /* the archive */
    struct place theirs; /* bench/ordinary */
};

extern const uint8_t unit_ipv4[4];

/* Ends the program with this line as its last word. */
__attribute__((noreturn, format(printf, 1, 2))) void give_up(const char *format, ...);

/* Makes empty tables with a pool of this size and this session limit. */
void make_both_empty(struct pair *pair, uint32_t pool, size_t limit);

/* One request; the answer is in the place. */
void ask(struct place *place, const struct request *r);

/* One check of the table, which must be sound: the free count. */
void check(const struct place *place);

/* The cause of the last reply, or 0 if there was none. */
uint8_t cause_of(const struct place *place);

/* One request, which must be accepted. */
void must_accept(struct place *place, const struct request *r);

/* One request on both sides. Outcomes, replies and tables must be the same. */
void ask_both(struct pair *pair, const struct request *r);

/* Empties the stores of both sides. */
void empty_both_stores(struct pair *pair);

/* One request through its peer's store: of one side, and of both, where stores must be the same too. */
void ask_once(struct place *place, const struct request *r);
void ask_both_once(struct pair *pair, const struct request *r);

/* Compares the two tables, and counts their octets as compared. */
void compare_tables(const struct pair *pair);

/* The free count, the same on both sides, and so are the free addresses. */
uint32_t count_both(const struct pair *pair);

/* How many octets of replies and tables were compared so far. */
uint64_t octets_compared(void);

#endif
