#include "unit.h"

#include <errno.h>
#include <stdio.h>
#include <stdlib.h>
#include <string.h>
#include <unistd.h>

#include "complaint.h"
#include "counts.h"
#include "datagrams.h"
#include "digest.h"
#include "message.h"
#include "status.h"
#include "stores.h"
#include "table.h"
#include "wipe.h"

/* An empty table and empty stores, in memory of just the length of their file. */
static bool start_table(struct unit *unit, const struct options *options)
{
    unit->file = malloc(stored_room(options));
    unit->batch = calloc(1, sizeof *unit->batch);
    if (!unit->file || !unit->batch) {
        complaint("no memory for the table");
        unit->status = STATUS_PASSING;
        return false;
    }
    stored_begin(unit->file, options);
    unit->table = unit->file + STORED_FRONT;
    unit->table_length = pfcp_table_length(options->session_limit);
    if (!table_make(unit->table, options, options->session_limit)) {
        complaint("these settings are refused");
        return false;
    }
    unit->stores = unit->table + unit->table_length;
    stores_make(unit->stores, options);
    return true;
}

/* A socket for each peer; the receive buffer is the smaller one. */
static bool open_sockets(struct unit *unit)
{
    char text[ADDRESS_ROOM];

    unit->receive_buffer = SIZE_MAX;
    for (size_t i = 0; i < unit->options->peer_count; i++) {
        const struct address *listen = &unit->options->peers[i].listen;
        size_t buffer = 0;

        unit->sockets[i] = datagrams_open(listen, &buffer);
        if (unit->sockets[i] < 0) {
            unit->status = status_of(errno);
            complaint("cannot listen on %s: %s", address_text(listen, text, sizeof text),
                      strerror(errno));
            return false;
        }
        if (buffer < unit->receive_buffer)
            unit->receive_buffer = buffer;
    }
    return true;
}

static bool start(struct unit *unit, const struct options *options)
{
    if (!start_table(unit, options))
        return false;
    if (!disk_start(&unit->disk, options, unit->file)) {
        unit->status = unit->disk.status;
        return false;
    }
    if (!count_table(unit)) {
        complaint("the table is broken");
        return false;
    }
    return open_sockets(unit);
}

bool unit_start(struct unit *unit, const struct options *options)
{
    memset(unit, 0, sizeof *unit);
    for (size_t i = 0; i < PFCP_PEERS; i++)
        unit->sockets[i] = -1;
    unit->disk.lock = -1;
    unit->status = STATUS_REFUSED;
    clock_gettime(CLOCK_REALTIME, &unit->started);
    unit->options = options;
    if (start(unit, options))
        return true;
    disk_undo_start(&unit->disk);
    return false;
}

void unit_stop(struct unit *unit)
{
    for (size_t i = 0; i < PFCP_PEERS; i++) {
        if (unit->sockets[i] >= 0)
            close(unit->sockets[i]);
        unit->sockets[i] = -1;
    }
    disk_stop(&unit->disk);
    if (unit->file)
        wipe(unit->file, stored_room(unit->options));
    free(unit->file);
    free(unit->batch);
    unit->file = NULL;
    unit->batch = NULL;
    unit->table = NULL;
    unit->stores = NULL;
}

/* What the octets tell of the message. A header without S has no SEID. */
static void read_head(struct served *served, const uint8_t *message, size_t length)
{
    size_t seid_octets = length > 0 && (message[0] & 1) ? 8 : 0;

    served->length = length;
    served->has_type = length >= 4 && message[0] >> 5 == 1;
    if (!served->has_type)
        return;
    served->type = message[1];
    served->has_sequence = length >= 4 + seid_octets + 4;
    if (!served->has_sequence)
        return;
    served->sequence = (uint32_t)number_at(message + 4 + seid_octets, 3);
    if (seid_octets > 0 && served->type != ESTABLISHMENT) {
        served->has_seid = true;
        served->seid = number_at(message + 4, 8);
    } else if (seid_octets > 0) {
        struct element f_seid = element_of(message, length, IE_F_SEID);

        served->has_seid = f_seid.length >= 9;
        served->seid = served->has_seid ? number_at(f_seid.value + 1, 8) : 0;
    }
}

static void read_reply(struct served *served, const uint8_t *reply, size_t length)
{
    struct element cause = element_of(reply, length, IE_CAUSE);
    struct element offending = element_of(reply, length, IE_OFFENDING_IE);

    served->cause = cause.length > 0 ? cause.value[0] : 0;
    served->has_offending = offending.length >= 2;
    if (served->has_offending)
        served->offending = (uint16_t)number_at(offending.value, 2);
}

/* The octets at the place of a fault. */
static void keep_octets(struct served *served, const uint8_t *message)
{
    size_t left = served->length - served->place;

    served->there_length = left < OCTETS_THERE ? left : OCTETS_THERE;
    memcpy(served->there, message + served->place, served->there_length);
}

/* What the peer has, may have, and may not take since it is the other's due. */
static void keep_shortage(const struct unit *unit, struct served *served)
{
    size_t own = served->peer - 1;
    size_t other = PFCP_PEERS - 1 - own;
    uint32_t due = unit->options->peers[other].guarantee;
    uint32_t held = unit->holdings[other].teids;

    served->shortage.has = unit->holdings[own];
    served->shortage.most.sessions = sessions_of_peer(unit->options);
    served->shortage.most.teids = unit->options->peers[own].limit;
    served->shortage.is_shared = unit->options->peer_count > 1;
    served->shortage.kept_back = due > held ? due - held : 0;
}

static void count(struct counters *counters, const struct served *served)
{
    if (served->has_type)
        counters->messages[served->type]++;
    else
        counters->untyped++;
    if (served->undone) {
        counters->undone++;
        return;
    }
    if (served->outcome <= PFCP_NO_PEER)
        counters->outcomes[served->outcome]++;
    if (served->repeated)
        counters->repeats++;
    else if (served->cause != 0)
        counters->causes[served->cause]++;
    if (served->send_error != 0)
        counters->unsent++;
}

unsigned long unit_answered(const struct unit *unit)
{
    unsigned long sum = 0;

    for (size_t i = 0; i < PFCP_PEERS; i++)
        sum += unit->counters[i].outcomes[PFCP_ANSWERED];
    return sum;
}

unsigned long unit_undone(const struct unit *unit)
{
    unsigned long sum = 0;

    for (size_t i = 0; i < PFCP_PEERS; i++)
        sum += unit->counters[i].undone;
    return sum;
}

unsigned long unit_unanswered(const struct unit *unit)
{
    unsigned long sum = unit_undone(unit);

    for (size_t i = 0; i < PFCP_PEERS; i++)
        for (size_t k = PFCP_ANSWERED + 1; k <= PFCP_NO_PEER; k++)
            sum += unit->counters[i].outcomes[k];
    return sum;
}

/* The counts, for a message's line. */
static void keep_counts(const struct unit *unit, struct served *served)
{
    served->live_sessions = unit->live_sessions;
    served->free_teids = unit->free_teids;
    served->free_addresses = unit->free_addresses;
}

/* Hands the message on, with the store of its peer where there is one. Whatever the engine answers is
   stored, so an answer that leaves the store as it was is an old one. */
static void hand_on(struct unit *unit, struct held *held, const uint8_t *message)
{
    static uint8_t before[PFCP_STORE_LENGTH];
    struct served *served = &held->served;

    if (!unit->options->repeats) {
        served->outcome =
            pfcp_request(unit->table, unit->table_length, served->peer, message, served->length,
                         held->reply, sizeof held->reply, &held->used, &served->place);
        return;
    }
    uint8_t *store = stores_at(unit->stores, served->peer);
    memcpy(before, store, PFCP_STORE_LENGTH);
    served->outcome = pfcp_request_once(unit->table, unit->table_length, served->peer, store,
                                        PFCP_STORE_LENGTH, message, served->length, held->reply,
                                        sizeof held->reply, &held->used, &served->place);
    served->repeated =
        served->outcome == PFCP_ANSWERED && memcmp(before, store, PFCP_STORE_LENGTH) == 0;
    wipe(before, sizeof before);
}

/* A request whose number is not newer may be one whose reply is owed since the last batch. */
static void look_for_owed(const struct unit *unit, struct held *held, const uint8_t *message)
{
    struct served *served = &held->served;

    if (!unit->disk.path || !unit->options->repeats)
        return;
    digest(message, served->length, held->digest);
    if (served->outcome != PFCP_OLD_NUMBER)
        return;
    held->used = stored_owed(unit->file, served->peer, held->digest, held->reply);
    if (held->used == 0)
        return;
    served->outcome = PFCP_ANSWERED;
    served->repeated = true;
}

/* Has the message answered. */
static void answer(struct unit *unit, struct held *held, const uint8_t *message)
{
    struct served *served = &held->served;

    hand_on(unit, held, message);
    look_for_owed(unit, held, message);
    if (served->outcome != PFCP_ANSWERED)
        return;
    read_reply(served, held->reply, held->used);
    if (served->repeated)
        return;
    if (served->has_offending)
        keep_octets(served, message);
    if (served->cause == NO_RESOURCES)
        keep_shortage(unit, served);
    if (served->cause == ACCEPTED && !count_table(unit))
        served->outcome = PFCP_BROKEN_TABLE;
}

/* What the records of the request's session got by it, and what they gave up. */
static void keep_grants(const struct unit *unit, struct served *served)
{
    struct session before;
    struct session now;

    sessions_find(unit->batch->before, unit->table_length, served->peer, served->seid, &before);
    sessions_find(unit->table, unit->table_length, served->peer, served->seid, &now);
    served->given_count = sessions_given(&before, &now, served->given);
    served->released_count = sessions_released(&before, &now, served->released);
}

size_t unit_released(const struct unit *unit, const struct served *served, uint64_t seid,
                     struct grant grants[MOST_GRANTS])
{
    static const struct session gone;
    struct session before;

    sessions_find(unit->batch->before, unit->table_length, served->peer, seid, &before);
    return sessions_released(&before, &gone, grants);
}

/* Has the message answered, and compares the table after it with that before: no reply says what was
   released, and a set deletion's does not say which sessions it took. */
static void answer_and_compare(struct unit *unit, struct held *held, const uint8_t *message)
{
    struct served *served = &held->served;
    bool is_set = served->has_type && served->type == SET_DELETION;
    size_t lived = unit->live_sessions;

    if (is_set || unit->options->grants)
        memcpy(unit->batch->before, unit->table, unit->table_length);
    answer(unit, held, message);
    if (served->outcome != PFCP_ANSWERED || served->cause != ACCEPTED || served->repeated)
        return;
    served->is_set = is_set;
    if (!is_set && unit->options->grants)
        keep_grants(unit, served);
    if (is_set && unit->live_sessions < lived)
        served->removed_count = sessions_gone(unit->batch->before, unit->table, unit->table_length,
                                              served->removed, PFCP_MOST_SESSIONS);
}

/* Whether this sender may ask as the peer. */
static bool may_ask(const struct peer *peer, const struct address *sender)
{
    for (size_t i = 0; i < peer->from_count; i++)
        if (address_same(sender, &peer->from[i]))
            return true;
    return peer->from_count == 0;
}

/* Before the first message of a batch: what the unit has. */
static void begin_batch(struct unit *unit)
{
    struct batch *batch = unit->batch;

    disk_remember(&unit->disk);
    memcpy(batch->holdings, unit->holdings, sizeof batch->holdings);
    batch->live_sessions = unit->live_sessions;
    batch->free_teids = unit->free_teids;
    batch->free_addresses = unit->free_addresses;
}

enum turn unit_take(struct unit *unit, uint32_t peer, const struct served **given)
{
    /* Longer than any datagram, so that a message that is too long is seen as such. */
    static uint8_t message[65536];
    struct held *held = &unit->batch->held[unit->batch->count];
    struct served *served = &held->served;
    uint32_t *system_dropped = &unit->system_dropped[peer - 1];

    memset(held, 0, sizeof *held);
    held->from.dropped = *system_dropped;
    ssize_t length =
        datagrams_receive(unit->sockets[peer - 1], &held->from, message, sizeof message);
    if (length < 0)
        return TURN_NOTHING;
    *given = served;
    clock_gettime(CLOCK_REALTIME, &served->time);
    served->sender = held->from.sender;
    served->peer = peer;
    unit->counters[peer - 1].dropped += (uint32_t)(held->from.dropped - *system_dropped);
    *system_dropped = held->from.dropped;
    if (!may_ask(&unit->options->peers[peer - 1], &held->from.sender)) {
        unit->counters[peer - 1].strangers++;
        wipe(message, (size_t)length);
        return TURN_STRANGER;
    }
    if (unit->batch->count++ == 0)
        begin_batch(unit);
    read_head(served, message, (size_t)length);
    answer_and_compare(unit, held, message);
    wipe(message, (size_t)length);
    keep_counts(unit, served);
    unit->batch->broken = unit->batch->broken || served->outcome == PFCP_BROKEN_TABLE;
    if (unit->batch->broken)
        return TURN_BROKEN;
    return served->is_set || unit->batch->count == BATCH ? TURN_LAST : TURN_TAKEN;
}

/* Whether a message of the batch was answered and may have changed the table or a store. */
static bool has_changed(const struct unit *unit, const struct served *served)
{
    return served->outcome == PFCP_ANSWERED && !served->repeated &&
           (unit->options->repeats || served->cause == ACCEPTED);
}

/* Whether a reply depends on what the batch has changed: its own change, that of the request of which it
   is a repeat, or any before a refusal. */
static bool depends_on_batch(const struct unit *unit, size_t at)
{
    const struct held *held = unit->batch->held;
    const struct served *served = &held[at].served;

    if (unit->disk.unsure || has_changed(unit, served))
        return true;
    for (size_t i = 0; i < at; i++)
        if (has_changed(unit, &held[i].served) &&
            (!served->repeated ||
             (held[i].served.peer == served->peer && held[i].served.sequence == served->sequence)))
            return true;
    return false;
}

/* Has the file owe the replies of the batch that no store may hold any more after it: those after which
   eight new requests of the peer came, and those of repeats after which any came, since they may be the
   oldest of the store. What was owed before is still owed, until it is too old. */
static void owe_replies(struct unit *unit)
{
    enum { STORE_HOLDS = 8 };
    const struct batch *batch = unit->batch;
    const uint8_t *before = unit->disk.before;
    size_t newer[PFCP_PEERS] = {0};

    if (!unit->options->repeats)
        return;
    stored_owe_nothing(unit->file);
    for (size_t i = batch->count; i > 0; i--) {
        const struct held *held = &batch->held[i - 1];
        const struct served *served = &held->served;
        size_t after = newer[served->peer - 1];

        if (served->outcome == PFCP_ANSWERED && after >= (served->repeated ? 1 : STORE_HOLDS))
            stored_owe(unit->file, &(struct owed){.peer = served->peer,
                                                  .request = held->digest,
                                                  .reply = held->reply,
                                                  .length = held->used});
        newer[served->peer - 1] += has_changed(unit, served);
    }
    stored_owe_all(unit->file, before + stored_replies_at(before),
                   stored_sealed_at(before) - stored_replies_at(before), newer);
}

/* A broken table is not written over the one that the disk has. */
static bool keep_batch(struct unit *unit)
{
    if (unit->batch->broken) {
        disk_undo(&unit->disk);
        return false;
    }
    if (!disk_has_changed(&unit->disk))
        return true;
    owe_replies(unit);
    return disk_keep(&unit->disk);
}

/* The unit is as before the batch, and so is what a message's line says of it. */
static void undo_counts(struct unit *unit)
{
    struct batch *batch = unit->batch;

    memcpy(unit->holdings, batch->holdings, sizeof unit->holdings);
    unit->live_sessions = batch->live_sessions;
    unit->free_teids = batch->free_teids;
    unit->free_addresses = batch->free_addresses;
    for (size_t i = 0; i < batch->count; i++)
        keep_counts(unit, &batch->held[i].served);
}

/* What a reply said is not so. */
static void undo(struct served *served, const char *why)
{
    served->undone = why;
    served->cause = 0;
    served->has_offending = false;
    served->is_set = false;
    served->given_count = 0;
    served->released_count = 0;
}

void unit_settle(struct unit *unit)
{
    struct batch *batch = unit->batch;
    bool kept = batch->count == 0 || keep_batch(unit);
    const char *why = batch->broken ? "the table in memory is broken" : unit->disk.trouble;

    if (!kept && unit->disk.path)
        undo_counts(unit);
    for (size_t i = 0; !kept && i < batch->count; i++)
        batch->held[i].depends = depends_on_batch(unit, i);
    for (size_t i = 0; i < batch->count; i++) {
        struct held *held = &batch->held[i];
        struct served *served = &held->served;

        if (served->outcome == PFCP_ANSWERED && held->depends)
            undo(served, why);
        else if (served->outcome == PFCP_ANSWERED)
            served->send_error = datagrams_answer(unit->sockets[served->peer - 1], &held->from,
                                                  held->reply, held->used);
        count(&unit->counters[served->peer - 1], served);
    }
}

void unit_forget(struct unit *unit)
{
    wipe(unit->batch->held, unit->batch->count * sizeof unit->batch->held[0]);
    wipe(unit->batch->before, unit->table_length);
    disk_forget(&unit->disk);
    unit->batch->count = 0;
    unit->batch->broken = false;
}
