/*
 * PFCP session requests (3GPP TS 29.244 Release 17) on a session table that the caller lends.
 *
 * The archive keeps nothing between calls: all that it knows is in the table's octets, whose layout
 * is in docs/layout.md. The rules for requests and replies are in docs/rules.md.
 *
 * Peers. Two control planes may share a unit, the peers 1 and 2. The host says with each request whose
 * it is. Each peer has a signalling IPv4 address of the unit, which its replies have in Node ID and
 * F-SEID; sessions of its own, so that equal SEIDs may live on both; at most half of the session limit,
 * rounded down; a number of TEIDs that it is guaranteed, and the most that it may hold; and a store of
 * repeated requests. TEIDs and patients' addresses come from the same pools for both. A unit with one
 * control plane gives the other peer guarantee 0, limit 0 and an address that it does not use.
 *
 * Which messages. A host looks at a message's type first (octet 1, from 0) and hands on the types 14
 * (Session Set Deletion), 50, 52 and 54. The header of type 14 has no SEID (S is 0) and 8 octets, that
 * of every other type a SEID and 16. Heartbeats, associations and other messages of nodes have no SEID
 * either, so pfcp_request takes them for a wrong header (outcome 4); it is the host that answers them.
 *
 * The cause of a reply is its octet 21, from 0, in a reply of type 15, its octet 29 in one of type 51,
 * and its octet 20 in one of type 53 or 55. With the causes 66 to 69 the Offending IE's two octets
 * stand 5 and 6 octets after it.
 *
 * Lengths of tables. A table keeps the session limit that it was made with, and is always lent with the
 * length that pfcp_table_length gives for this limit. With another length it is a broken table.
 *
 * Pointers. Every pair of a pointer and a length is a slice: the pointer is valid for that many
 * octets, for reading where it is const and for reading and writing where it is not. A slice of
 * length 0 may have any pointer, also NULL. The slices of one call do not overlap, and neither do
 * they overlap the numbers that a call writes (count, reply_used, place, used, peer, sessions, teids),
 * which do not overlap each other. The pointer to such a number is never NULL and is aligned for its
 * type. While a call runs, nothing else reads or writes what it may write, and nothing else writes what
 * it reads.
 *
 * Threads. The calls have no state of their own: any thread may make them, and calls on different
 * tables may run at the same time. A table is whole between calls only. A thread that wants to read
 * a table which another one serves takes a lock that the other one holds around each call, copies
 * the table, and reads the copy. A copy that was made without the lock may mix two states, and need
 * not be a broken table for that.
 *
 * Stack. A request takes 67,760 octets of stack with a store, and 59,280 without one; the other calls
 * take less (docs/benchmarks.md has how it was measured). There is no heap. A thread of 128 KiB is
 * large enough, also where it has the message and the reply on its stack; one of 64 KiB is not.
 *
 * Architecture. The archive is for x86-64 Linux, any processor of that kind. It needs memcpy, memmove
 * and memset of the C library and nothing else, and can be linked into position independent code.
 *
 * An IPv4 address given as a number has its first octet on top: 192.0.2.1 is 0xC0000201.
 */
#ifndef PFCP_SESSION_H
#define PFCP_SESSION_H

#include <stddef.h>
#include <stdint.h>

#ifdef __cplusplus
extern "C" {
#endif

/* The version of this header and its archive: as numbers and as text. */
#define PFCP_VERSION_MAJOR 0
#define PFCP_VERSION_MINOR 8
#define PFCP_VERSION_PATCH 0
#define PFCP_VERSION "0.8.0"

/* The peers' numbers are 1 to this one. */
#define PFCP_PEERS 2

/* The least and the greatest session limit of a table, ... */
#define PFCP_LEAST_SESSIONS 2
#define PFCP_MOST_SESSIONS 256

/* ... and the length of a table with the greatest: no table is longer. */
#define PFCP_LONGEST_TABLE 154689

/* A request needs a reply space of at least this many octets, ... */
#define PFCP_REPLY_SPACE 1280

/* ... and is at most this long. */
#define PFCP_LONGEST_REQUEST 2048

/* A store of repeated requests has this many octets, as pfcp_store_length says. */
#define PFCP_STORE_LENGTH 26657

/* A restoration request is at most this long. */
#define PFCP_LONGEST_RESTORATION 1742

/* Host outcomes of pfcp_request; pfcp_free_count and pfcp_free_addresses have the first two,
   pfcp_peer_count has these and the last. */
#define PFCP_ANSWERED 0          /* a reply was written */
#define PFCP_BROKEN_TABLE 1      /* the table is broken or of another length */
#define PFCP_SMALL_REPLY_SPACE 2 /* reply_len is under 1,280 */
#define PFCP_LONG_MESSAGE 3      /* message_len is over 2,048 */
#define PFCP_WRONG_HEADER 4      /* too short a header, or version, S, FO or length wrong */
#define PFCP_NOT_SERVED 5        /* another message type than 14, 50, 52, 54 */
#define PFCP_OLD_NUMBER 6        /* pfcp_request_once only: not newer than the one stored last */
#define PFCP_NO_PEER 7           /* the peer's number is neither 1 nor 2 */

/* Outcomes of pfcp_write_restoration. */
#define PFCP_WRITTEN 0           /* a restoration request was written */
                                 /* 1: PFCP_BROKEN_TABLE */
#define PFCP_PAST_LAST_SESSION 2 /* place is not below the number of sessions */
#define PFCP_NO_PLANE_ADDRESS 3  /* no control-plane address, or one of another length */
#define PFCP_SMALL_SPACE 4       /* space_len is under the request's length */

/* Outcomes of pfcp_session_count, pfcp_find_session and pfcp_find_teid. */
#define PFCP_FOUND 0 /* the number was written */
                     /* 1: PFCP_BROKEN_TABLE */
#define PFCP_NONE 2  /* no session of the peer has the SEID, or none holds the TEID */

/*
 * The number of octets of a table with this session limit, 2 to 256: 38,721 for 64 sessions, 154,689 for
 * 256. Gives 0 for every other limit.
 */
size_t pfcp_table_length(uint32_t session_limit);

/*
 * Makes an empty table with these settings, whatever the octets were before.
 *
 * ipv4           the unit's IPv4 address
 * ipv6           the unit's IPv6 address: ipv6_len is 16, or 0 if the unit has none
 * first_teid     the first TEID of the pool, at least 1
 * pool_size      the number of TEIDs, 1 to 65,536; the last one is at most 4,294,967,295
 * first_address  the first IPv4 address of the pool of patients' addresses
 * address_count  the number of these addresses, 1 to 1,024; the last one is at most 255.255.255.255
 * session_limit  the number of sessions that the table has room for, 2 to 256: half of it, rounded
 *                down, for each peer
 * address1       peer 1's signalling IPv4 address on the unit; it may be the unit's own
 * guarantee1     the number of TEIDs that peer 1 is guaranteed, whatever peer 2 does; 0 is allowed
 * limit1         the most TEIDs that peer 1 may hold, from guarantee1 to pool_size
 * address2, guarantee2, limit2  the same of peer 2: another address, and the two guarantees together at
 *                most pool_size
 *
 * Gives 0 if the table was made, and 1 if it was refused: table_len is not
 * pfcp_table_length(session_limit), or a setting is another one than said here. A refusal writes nothing.
 */
uint32_t pfcp_make_table(uint8_t *table, size_t table_len, uint32_t ipv4, const uint8_t *ipv6,
                         size_t ipv6_len, uint32_t first_teid, uint32_t pool_size,
                         uint32_t first_address, uint32_t address_count, uint32_t session_limit,
                         uint32_t address1, uint32_t guarantee1, uint32_t limit1, uint32_t address2,
                         uint32_t guarantee2, uint32_t limit2);

/*
 * Counts the free TEIDs: the pool size minus the different TEIDs in the table's records.
 *
 * Gives 0 and writes the number to *count, or gives 1 (PFCP_BROKEN_TABLE) and writes 0.
 */
uint32_t pfcp_free_count(const uint8_t *table, size_t table_len, uint32_t *count);

/*
 * Counts the free addresses: the number of addresses in the pool minus the different ones of them in
 * the table's records. Addresses outside the pool, which only the control plane gives, do not count.
 *
 * Gives 0 and writes the number to *count, or gives 1 (PFCP_BROKEN_TABLE) and writes 0.
 */
uint32_t pfcp_free_addresses(const uint8_t *table, size_t table_len, uint32_t *count);

/*
 * Handles one request of a peer, 1 or 2: reads the message, changes the table and writes the reply. A
 * Session Set Deletion removes every session of the peer that holds one of the FQ-CSIDs that it lists,
 * any number of them in one call, or none where it is refused; its reply does not say which.
 *
 * Gives a host outcome. With outcome 0 the reply stands at the front of the reply space and
 * *reply_used is its length; the octets after it are unchanged. The reply says whether the request
 * was accepted (cause 1); only then the table may have changed. With any other outcome nothing is
 * written but *reply_used and *place, which are 0. The outcomes are tested in the order 7, 1 to 5: for
 * any other peer than 1 and 2 the table is not looked at.
 *
 * Cause 75 says that there is no room: for a session (pfcp_peer_count tells how many the peer has), for
 * a record in a session, or for TEIDs. A request lacks TEIDs where the peer's own and those that it
 * needs are together more than the peer's limit, or where those of both peers, those that it needs, and
 * what the other peer has left of its guarantee are together more than the pool.
 *
 * *place says where a fault is that a reply names with the causes 66 to 69 and Offending IE: the index
 * in the message, from 0, of the first octet of the element at fault, which is its type's; the first
 * element stands at 16, in a message of type 14 at 8. Where a member is missing, or under 4 octets are
 * left in a group, it is the place of that group, and 0 where the message itself lacks an element or
 * has under 4 octets left. For a repeated element it is the place of the second one. With every other
 * cause, and with the outcomes 1 to 5 and 7, it is 0.
 */
uint32_t pfcp_request(uint8_t *table, size_t table_len, uint32_t peer, const uint8_t *message,
                      size_t message_len, uint8_t *reply, size_t reply_len, size_t *reply_used,
                      size_t *place);

/* The number of octets of a store of repeated requests, PFCP_STORE_LENGTH. Each peer has one. */
size_t pfcp_store_length(void);

/*
 * Empties a store of repeated requests, whatever its octets were. A host does so with both peers' stores
 * whenever it makes a table, or takes one up from elsewhere.
 *
 * Gives 0 if the store was emptied, and 1 if store_len is not pfcp_store_length(); then nothing is
 * written.
 */
uint32_t pfcp_make_store(uint8_t *store, size_t store_len);

/*
 * Handles one request as pfcp_request does, but a repeat gets the old reply. The store, which the
 * caller lends with the table and which nobody else alters, is the peer's own: it holds the last eight
 * requests of this peer that were replied to, accepted or refused, with their replies.
 *
 * Gives 7 (PFCP_NO_PEER) for any other peer than 1 and 2, and looks at neither table nor store. Gives 1
 * (PFCP_BROKEN_TABLE) where the table or the store is broken or of another length, then 2 to 5
 * as pfcp_request. Octets equal to those of a stored message then get the stored reply, with 0 in
 * *place, and neither the table nor the store changes. Any other request has to have a sequence number
 * that is newer than that of the request stored last: their difference, of 24 bits, is 1 to 8,388,607.
 * An empty store takes any number. An older one is given 6 (PFCP_OLD_NUMBER), and nothing is written
 * but *reply_used and *place, which are 0. A newer one is handled and, with its reply, stored; of eight
 * the oldest goes.
 *
 * Restorations, and messages that a host makes itself, go to pfcp_request, which knows no store.
 */
uint32_t pfcp_request_once(uint8_t *table, size_t table_len, uint32_t peer, uint8_t *store,
                           size_t store_len, const uint8_t *message, size_t message_len,
                           uint8_t *reply, size_t reply_len, size_t *reply_used, size_t *place);

/*
 * Writes the restoration request of one session: the establishment, with the restoration flag, that
 * makes the session again. Sessions stand in the table in ascending order of peer, then of SEID; place
 * counts them from 0, those of both peers. The header's SEID is 0 and its sequence number place + 1.
 *
 * cp_ipv4     the control plane's IPv4 address for the F-SEID: cp_ipv4_len is 4, or 0 for none
 * cp_ipv6     its IPv6 address: cp_ipv6_len is 16, or 0 for none; one of the two is there at least
 *
 * Gives 0 if the request was written: it stands at the front of the space, *used is its length, *peer
 * is the peer to run it under, which no octet of it says, and the octets after it are unchanged. Else
 * nothing is written but *used and *peer, which are 0, and what is given is, tested in this order: 1
 * the table is broken or of another length, 2 place is not below the number of sessions, 3 there is no
 * address or one of another length, 4 space_len is under the request's own length. A space of
 * PFCP_LONGEST_RESTORATION octets is always enough.
 *
 * Each request is accepted under its peer by an empty table with the same settings. Those of all places,
 * from 0 until 2 is given, run in turn by pfcp_request on an empty table with the same settings, each
 * under its peer, make the same table octet for octet.
 */
uint32_t pfcp_write_restoration(const uint8_t *table, size_t table_len, size_t place,
                                const uint8_t *cp_ipv4, size_t cp_ipv4_len, const uint8_t *cp_ipv6,
                                size_t cp_ipv6_len, uint8_t *space, size_t space_len, size_t *used,
                                uint32_t *peer);

/*
 * The calls below read a table. A place counts its sessions from 0 in ascending order of peer, then of
 * SEID, as pfcp_write_restoration does. It is good until the next request that is accepted.
 *
 * Each gives 0 (PFCP_FOUND) and writes the number. It gives 1 (PFCP_BROKEN_TABLE) where the table is
 * broken or of another length, and 2 (PFCP_NONE) where there is no such session, and writes 0 then.
 * Each checks the whole table first, as a request does.
 */

/* The number of sessions, of both peers together. It gives 0 or 1. */
uint32_t pfcp_session_count(const uint8_t *table, size_t table_len, uint32_t *count);

/*
 * The number of sessions of a peer, and the number of different TEIDs that they hold: with a cause 75
 * the first is to be compared with half of the session limit, the second with the peer's limit. It gives
 * 7 (PFCP_NO_PEER), tested first, for any other peer than 1 and 2, else 0 or 1; with 1 and 7 both
 * numbers are 0.
 */
uint32_t pfcp_peer_count(const uint8_t *table, size_t table_len, uint32_t peer, uint32_t *sessions,
                         uint32_t *teids);

/*
 * All counts of a table by one check of it: of each peer the number of its sessions and that of the
 * different TEIDs that they hold, and how many TEIDs and addresses of the pools are free. Each number is
 * the one that the call for it alone gives. It gives 0 or 1; with 1 all numbers are 0.
 */
uint32_t pfcp_counts(const uint8_t *table, size_t table_len, uint32_t *sessions1, uint32_t *teids1,
                     uint32_t *sessions2, uint32_t *teids2, uint32_t *free_teids,
                     uint32_t *free_addresses);

/* The place of the peer's session with this SEID. Any other peer than 1 and 2 has none. */
uint32_t pfcp_find_session(const uint8_t *table, size_t table_len, uint32_t peer, uint64_t seid,
                           size_t *place);

/*
 * The place of the session, of either peer, that holds this TEID, in the local F-TEID of a PDR or of an
 * endpoint. There are not two: no TEID is held by two sessions.
 */
uint32_t pfcp_find_teid(const uint8_t *table, size_t table_len, uint32_t teid, size_t *place);

#ifdef __cplusplus
}
#endif

#endif
