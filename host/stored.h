/*
 * The form of the file that a table is stored in (docs/layout.md, "A stored table"): a front with a
 * magic word, the version of the form, the lengths of its parts and the settings that the unit was
 * started with; the table; the stores of repeated requests; the replies that are owed; the SHA-256 of
 * all that.
 *
 * Replies that are owed. Requests that wait are served together and written once, and then all are
 * answered. A store keeps eight requests of its peer. Were a unit killed between the write and the
 * replies, a repeat of an older request of the batch would be dropped, its number being not newer. So
 * the file has the replies of a batch that no store may hold any more, each with its peer and the SHA-256
 * of its request: a repeat, which is known by that, gets its reply. They are 64 at most, and a reply is
 * gone when 64 newer requests of its peer were answered.
 *
 * Files of the form before, a table with its stores or alone, have no front and no SHA-256: nobody can
 * tell whether they were damaged. They are read all the same.
 */
#ifndef STORED_H
#define STORED_H

#include <stdbool.h>
#include <stddef.h>
#include <stdint.h>

#include "digest.h"
#include "options.h"
#include "pfcp_session.h"
#include "stores.h"
#include "text.h"

enum {
    STORED_VERSION = 1,
    STORED_HEAD = 28, /* the magic word, the version and the lengths of four parts */
    STORED_SETTINGS = 72,
    STORED_FRONT = STORED_HEAD + STORED_SETTINGS,
    STORED_DIGEST = DIGEST_OCTETS,
    STORED_OWED = 1 + 1 + STORED_DIGEST + 2, /* before an owed reply: peer, age, SHA-256, length */
    STORED_BATCH = 64,                       /* so many replies may be owed */
    STORED_REPLIES = STORED_BATCH * (STORED_OWED + PFCP_REPLY_SPACE),
    STORED_MOST = STORED_FRONT + PFCP_LONGEST_TABLE + STORES_ROOM + STORED_REPLIES + STORED_DIGEST,
    STORED_WHY = 128 /* room for what is wrong with a file */
};

/* The parts of a stored file, which stand in the octets that were read. */
struct stored {
    const uint8_t *settings; /* NULL: the file is of the form before */
    const uint8_t *table;
    size_t table_length;
    uint32_t limit; /* the table's session limit */
    const uint8_t *stores;
    bool has_stores;
    const uint8_t *replies;
    size_t replies_length;
};

/* The most octets of a file with the table and the stores that the options ask for. */
size_t stored_room(const struct options *options);

/* Writes the front of such a file, with no reply that is owed. */
void stored_begin(uint8_t *file, const struct options *options);

/* The octets of a file in memory up to the replies that are owed, and with them up to the SHA-256. */
size_t stored_replies_at(const uint8_t *file);
size_t stored_sealed_at(const uint8_t *file);

/* Writes the SHA-256 after the parts of a file, whose front is there; gives the file's length. */
size_t stored_seal(uint8_t *file);

/* Owes nothing more, and says so in the front. */
void stored_owe_nothing(uint8_t *file);

/* A reply that is owed to a peer for the request with this SHA-256, and how many newer requests of the
   peer were answered after it. */
struct owed {
    uint32_t peer;
    unsigned age;
    const uint8_t *request;
    const uint8_t *reply;
    size_t length;
};

/* Adds one, unless it is there, is too old, or there is no room. */
void stored_owe(uint8_t *file, const struct owed *owed);

/* Adds some that stand in a file, each older by so many requests of its peer. */
void stored_owe_all(uint8_t *file, const uint8_t *replies, size_t length,
                    const size_t newer[PFCP_PEERS]);

/* Copies the reply that is owed to a peer for the request with this SHA-256; gives its length, or 0. */
size_t stored_owed(const uint8_t *file, uint32_t peer, const uint8_t *request, uint8_t *reply);

/* Whether a file's first octets are those of the form, whatever follows. */
bool stored_has_form(const uint8_t *octets, size_t length);

/* Finds the parts of a file of either form; says why where there are none. Of a file with a SHA-256 it
   is known then that no octet was changed. */
bool stored_read(const uint8_t *octets, size_t length, struct stored *stored, char *why);

/* Whether a file of this length may be of the layout before two peers. */
bool stored_is_old(size_t length);

/* Adds the settings that a file was stored with and that are others in the options, each with both
   values; the session limit, which may be another one, is not among them. */
void stored_differences(struct text *text, const struct stored *stored,
                        const struct options *options);

#endif
