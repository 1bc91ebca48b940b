/* The line that the unit says of each message. A new field is added in served_facts. */
#include <arpa/inet.h>
#include <inttypes.h>
#include <string.h>

#include "message.h"
#include "unit.h"
#include "words.h"

/* Which element is at fault, where it stands in the message, and the octets there. An old reply comes
   without the place. */
static void add_fault(struct text *text, const struct served *served)
{
    text_add(text, ", Offending IE %u (%s)", served->offending,
             element_in_words(served->offending));
    if (served->repeated)
        return;
    text_add(text, ", place %zu, octets", served->place);
    for (size_t i = 0; i < served->there_length; i++)
        text_add(text, " %02X", served->there[i]);
}

/* Records, each with the TEID and the address that it got or gave up. */
static void add_grants(struct text *text, const char *title, const struct grant *grants,
                       size_t count)
{
    char room[INET6_ADDRSTRLEN];

    for (size_t i = 0; i < count; i++) {
        const struct grant *grant = &grants[i];

        text_add(text, "%s %s %u", i == 0 ? title : ",", grant->is_endpoint ? "endpoint" : "PDR",
                 grant->id);
        if (grant->has_teid)
            text_add(text, " TEID %" PRIu32 "%s", grant->teid,
                     grant->teid_stays ? " (still held)" : "");
        if (grant->address.is_there)
            text_add(text, " address %s%s",
                     address_in_words(grant->address.octets, 4, room, sizeof room),
                     grant->address_stays ? " (still held)" : "");
    }
}

/* Which sessions a set deletion took. */
static void add_removed(struct text *text, const struct served *served)
{
    text_add(text, ", removed sessions %zu", served->removed_count);
    for (size_t i = 0; i < served->removed_count; i++)
        text_add(text, "%s%" PRIu64, i == 0 ? " (SEID " : ", ", served->removed[i]);
    if (served->removed_count > 0)
        text_add(text, ")");
}

/* What a peer has against what it may have, and what it may not take since it is the other's due. */
static void add_shortage(struct text *text, const struct served *served)
{
    const struct shortage *shortage = &served->shortage;

    text_add(text,
             ", peer %" PRIu32 " has %" PRIu32 " of %" PRIu32 " sessions and %" PRIu32
             " of at most %" PRIu32 " TEIDs",
             served->peer, shortage->has.sessions, shortage->most.sessions, shortage->has.teids,
             shortage->most.teids);
    if (shortage->is_shared)
        text_add(text, ", kept back for peer %" PRIu32 ": %" PRIu32 " TEIDs",
                 PFCP_PEERS + 1 - served->peer, shortage->kept_back);
}

void served_facts(struct text *text, const struct served *served)
{
    text_add(text, "peer %" PRIu32 ", ", served->peer);
    if (served->has_type)
        text_add(text, "%s (%u)", message_in_words(served->type), served->type);
    else
        text_add(text, "not a PFCP message");
    if (served->has_seid)
        text_add(text, ", SEID %" PRIu64, served->seid);
    if (served->has_sequence)
        text_add(text, ", sequence %" PRIu32, served->sequence);
    if (served->outcome != PFCP_ANSWERED)
        text_add(text, ", %zu octets", served->length);
    if (served->undone)
        text_add(text, ", undone and not answered: the table is not on the disk (%s)",
                 served->undone);
    else
        text_add(text, ", outcome %" PRIu32 " (%s)", served->outcome,
                 outcome_in_words(served->outcome, served->has_type, served->type));
    if (served->repeated && !served->undone)
        text_add(text, ", a repeat: the old reply");
    if (served->cause != 0)
        text_add(text, ", cause %u (%s)", served->cause, cause_in_words(served->cause));
    if (served->has_offending)
        add_fault(text, served);
    if (served->cause == NO_RESOURCES && !served->repeated)
        add_shortage(text, served);
    add_grants(text, ", gave", served->given, served->given_count);
    add_grants(text, ", released", served->released, served->released_count);
    if (served->is_set)
        add_removed(text, served);
    if (served->send_error != 0)
        text_add(text, ", reply not sent (%s)", strerror(served->send_error));
    text_add(text,
             ", live sessions %" PRIu32 ", free TEIDs %" PRIu32 ", free addresses %" PRIu32 "\n",
             served->live_sessions, served->free_teids, served->free_addresses);
}

/* When and from where the message came. */
static void add_origin(struct text *text, const struct served *served)
{
    char time[TIME_ROOM];
    char sender[ADDRESS_ROOM];

    text_add(text, "%s %s ", time_in_words(&served->time, time, sizeof time),
             address_text(&served->sender, sender, sizeof sender));
}

void served_line(struct text *text, const struct served *served)
{
    add_origin(text, served);
    served_facts(text, served);
}

void released_line(struct text *text, const struct served *served, uint64_t seid,
                   const struct grant *grants, size_t count)
{
    add_origin(text, served);
    text_add(text, "peer %" PRIu32 ", %s (%u), sequence %" PRIu32 ", removed SEID %" PRIu64,
             served->peer, message_in_words(served->type), served->type, served->sequence, seid);
    add_grants(text, ", released", grants, count);
    text_add(text, count == 0 ? ", released nothing\n" : "\n");
}
