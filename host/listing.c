#include "listing.h"

#include <arpa/inet.h>
#include <inttypes.h>
#include <string.h>

#include "digest.h"
#include "message.h"
#include "prometheus.h"
#include "session_words.h"
#include "sessions.h"
#include "table.h"
#include "words.h"

static const char *truth(bool is)
{
    return is ? "true" : "false";
}

/* Any octets as text of JSON; those past ASCII one by one, since a file's name may be none of UTF-8. */
static void add_json_text(struct text *text, const char *octets)
{
    text_add(text, "\"");
    for (; *octets; octets++) {
        unsigned char octet = (unsigned char)*octets;

        if (octet == '"' || octet == '\\')
            text_add(text, "\\%c", octet);
        else if (octet < 0x20 || octet >= 0x7F)
            text_add(text, "\\u%04x", octet);
        else
            text_add(text, "%c", octet);
    }
    text_add(text, "\"");
}

/* The general meaning: a message that is not a session's counts as outcome 4 too. */
static const char *outcome_in_general(unsigned outcome)
{
    if (outcome == PFCP_WRONG_HEADER)
        return "no reply: not a session's message, or a wrong header";
    return outcome_in_words(outcome, false, 0);
}

/* The counts that are not 0, with their number and its meaning. */
static void add_counts(struct text *text, bool json, const char *title, const unsigned long *counts,
                       size_t size, const char *(*in_words)(unsigned))
{
    const char *separator = "";

    text_add(text, json ? "\"%s\":[" : "%s:\n", title);
    for (unsigned i = 0; i < size; i++) {
        if (counts[i] == 0)
            continue;
        if (json)
            text_add(text, "%s{\"number\":%u,\"name\":\"%s\",\"count\":%lu}", separator, i,
                     in_words(i), counts[i]);
        else
            text_add(text, "  %u %s: %lu\n", i, in_words(i), counts[i]);
        separator = ",";
    }
    text_add(text, json ? "]" : "");
}

/* What has happened to one peer's messages. */
static void add_counters(struct text *text, const struct counters *c, bool json)
{
    text_add(text, json ? ",\"counters\":{" : "");
    add_counts(text, json, "messages", c->messages, 256, message_in_words);
    text_add(text, json ? "," : "");
    add_counts(text, json, "causes", c->causes, 256, cause_in_words);
    text_add(text, json ? "," : "");
    add_counts(text, json, "outcomes", c->outcomes, sizeof c->outcomes / sizeof c->outcomes[0],
               outcome_in_general);
    text_add(text,
             json ? ",\"repeats\":%lu,\"not_pfcp\":%lu,\"undone\":%lu,\"replies_not_sent\":%lu,"
                    "\"from_others\":%lu,\"dropped_by_system\":%lu}"
                  : "repeated requests that got the old reply: %lu\n"
                    "messages that are not PFCP: %lu\n"
                    "requests undone, since the table could not be kept on the disk: %lu\n"
                    "replies not sent: %lu\n"
                    "datagrams from others than the peer: %lu\n"
                    "datagrams dropped by the system: %lu\n",
             c->repeats, c->untyped, c->undone, c->unsent, c->strangers, c->dropped);
}

static uint32_t session_limit(const struct listing *listing)
{
    return table_limit(listing->table_length);
}

/* What a peer has, against what it is due and may have; a stored table does not tell these. */
static void add_holding(struct text *text, const struct listing *listing, uint32_t peer)
{
    const struct holding *has = &listing->holdings[peer - 1];
    bool json = (listing->wanted.form & LIST_JSON) != 0;
    char room[INET6_ADDRSTRLEN];

    if (!listing->options) {
        text_add(text,
                 json ? "{\"peer\":%" PRIu32 ",\"sessions\":%" PRIu32 ",\"most_sessions\":%" PRIu32
                        ",\"teids\":%" PRIu32
                      : "peer %" PRIu32 ": sessions %" PRIu32 " of %" PRIu32 "; TEIDs %" PRIu32
                        "\n",
                 peer, has->sessions, session_limit(listing) / PFCP_PEERS, has->teids);
        return;
    }
    const struct peer *of = &listing->options->peers[peer - 1];
    text_add(text,
             json ? "{\"peer\":%" PRIu32 ",\"address\":\"%s\",\"sessions\":%" PRIu32
                    ",\"most_sessions\":%" PRIu32 ",\"teids\":%" PRIu32 ",\"guarantee\":%" PRIu32
                    ",\"limit\":%" PRIu32
                  : "peer %" PRIu32 ", answered as %s: sessions %" PRIu32 " of %" PRIu32
                    "; TEIDs %" PRIu32 ", guaranteed %" PRIu32 ", at most %" PRIu32 "\n",
             peer, ipv4_in_words(of->address, room, sizeof room), has->sessions,
             sessions_of_peer(listing->options), has->teids, of->guarantee, of->limit);
}

bool listing_has(const struct listing *listing, uint32_t peer)
{
    return listing->wanted.peer == 0 || listing->wanted.peer == peer;
}

/* Whether the list is of some sessions alone, without a head and counters. */
static bool is_part(const struct wanted *wanted)
{
    return wanted->seid != 0 || wanted->teid != 0 || wanted->has_address;
}

/* Who may ask as a peer, and where. */
static void add_listeners(struct text *text, const struct options *options, bool json)
{
    char listen[ADDRESS_ROOM];

    text_add(text, json ? ",\"listens\":[" : "");
    for (size_t i = 0; i < options->peer_count; i++) {
        const struct peer *peer = &options->peers[i];

        text_add(text, json ? "%s{\"peer\":%zu,\"on\":\"%s\",\"from\":[" : "%s peer %zu on %s from",
                 json && i > 0 ? ","
                 : json        ? ""
                               : ",",
                 i + 1, address_text(&peer->listen, listen, sizeof listen));
        for (size_t k = 0; k < peer->from_count; k++)
            text_add(text, json ? "%s\"%s\"" : "%s %s", json && k > 0 ? "," : "",
                     address_alone(&peer->from[k], listen, sizeof listen));
        text_add(text, json ? "]}" : peer->from_count == 0 ? " anybody" : "");
    }
    text_add(text, json ? "]" : "\n");
}

/* Where the table is kept. */
static void add_file(struct text *text, const struct options *options, bool json)
{
    if (json && options->table) {
        text_add(text, ",\"table\":");
        add_json_text(text, options->table);
        text_add(text, ",\"table_sync\":%s", truth(options->table_sync));
    } else if (!json) {
        text_add(text, ", table in %s%s", options->table ? options->table : "memory only",
                 options->table && !options->table_sync ? " without synchronising" : "");
    }
}

/* The options that the unit was started with. */
static void add_settings(struct text *text, const struct options *options, bool json)
{
    char room[INET6_ADDRSTRLEN];

    text_add(text, json ? ",\"settings\":{\"ipv4\":\"%s\"" : "settings: IPv4 %s",
             ipv4_in_words(options->ipv4, room, sizeof room));
    if (options->ipv6_length > 0)
        text_add(text, json ? ",\"ipv6\":\"%s\"" : ", IPv6 %s",
                 address_in_words(options->ipv6, sizeof options->ipv6, room, sizeof room));
    text_add(text,
             json ? ",\"pool\":%" PRIu32 ",\"first_teid\":%" PRIu32 ",\"addresses\":%" PRIu32
                    ",\"first_address\":\"%s\""
                  : ", TEIDs %" PRIu32 " from %" PRIu32 " on, addresses %" PRIu32 " from %s on",
             options->pool_size, options->first_teid, options->address_count,
             ipv4_in_words(options->first_address, room, sizeof room));
    if (json)
        text_add(text, ",\"repeats\":%s", truth(options->repeats));
    else
        text_add(text, ", repeats %s",
                 options->repeats ? "get the old reply" : "are not looked for");
    add_file(text, options, json);
    add_listeners(text, options, json);
    text_add(text, json ? "}" : "");
}

/* The end of the sessions; then which unit or table this is, what it was started with, and the digest by
   which two tables are known to be the same. */
static void end_sessions(struct text *text, struct listing *listing)
{
    bool json = (listing->wanted.form & LIST_JSON) != 0;
    char time[TIME_ROOM];
    char sum[DIGEST_WORDS];

    if (is_part(&listing->wanted) || listing->wanted.form & LIST_SUMMARY)
        return;
    text_add(text, json ? "]" : "");
    if (!(listing->wanted.form & LIST_COUNTERS))
        return;
    if (!listing->options)
        text_add(text, json ? ",\"stored_table\":{" : "stored table: ");
    else
        text_add(text,
                 json ? ",\"unit\":{\"version\":\"%s\",\"started\":\"%s\","
                      : "unit: version %s, started %s, ",
                 PFCP_VERSION, time_in_words(&listing->started, time, sizeof time));
    text_add(text,
             json ? "\"session_limit\":%" PRIu32 ",\"table_sha256\":\"%s\""
                  : "session limit %" PRIu32 ", SHA-256 of the table %s\n",
             session_limit(listing), digest_in_words(listing->table, listing->table_length, sum));
    if (listing->options)
        add_settings(text, listing->options, json);
    text_add(text, json ? "},\"peers\":[" : "");
}

/* Adds what the next peer has, and its counters; gives false where there is none left. */
static bool add_peer(struct text *text, struct listing *listing)
{
    bool json = (listing->wanted.form & LIST_JSON) != 0;
    uint32_t peer = listing->peers_listed + 1;

    if (!(listing->wanted.form & LIST_COUNTERS) || is_part(&listing->wanted) ||
        listing->wanted.form & LIST_SUMMARY)
        return false;
    while (peer <= listing->peer_count && !listing_has(listing, peer))
        peer++;
    if (peer > listing->peer_count)
        return false;
    text_add(text, json && listing->peers_listed > 0 ? "," : "");
    add_holding(text, listing, peer);
    if (listing->options)
        add_counters(text, &listing->counters[peer - 1], json);
    text_add(text, json ? "}" : "");
    listing->peers_listed = peer;
    return true;
}

static bool is_address(const struct patient_address *address, uint32_t wanted)
{
    return address->is_there && number_at(address->octets, 4) == wanted;
}

/* Whether the session at a place holds the address that is asked for. */
static bool holds_address(const struct listing *listing, size_t place)
{
    struct session session;

    if (!sessions_read(listing->table, listing->table_length, place, &session))
        return false;
    for (size_t i = 0; i < session.pdr_count; i++)
        if (is_address(&session.pdrs[i].address, listing->wanted.address))
            return true;
    for (size_t i = 0; i < session.endpoint_count; i++)
        if (is_address(&session.endpoints[i].address, listing->wanted.address))
            return true;
    return false;
}

/* Whether the session of a peer with the SEID or the TEID that is asked for has a place. */
static bool find_place(const struct listing *listing, uint32_t peer, size_t *place)
{
    const struct wanted *wanted = &listing->wanted;

    if (wanted->seid != 0)
        return pfcp_find_session(listing->table, listing->table_length, peer, wanted->seid,
                                 place) == PFCP_FOUND;
    return pfcp_find_teid(listing->table, listing->table_length, wanted->teid, place) == PFCP_FOUND;
}

/* The places of a peer's sessions that are asked for; those of peer 1 come first. */
static void find_places(struct listing *listing, uint32_t peer)
{
    const struct wanted *wanted = &listing->wanted;
    size_t first = peer == 1 ? 0 : listing->holdings[0].sessions;
    size_t end = first + listing->holdings[peer - 1].sessions;
    size_t place;

    if (!listing_has(listing, peer))
        return;
    if (wanted->seid != 0 || wanted->teid != 0) {
        if (find_place(listing, peer, &place) && place >= first && place < end)
            listing->places[listing->place_count++] = (uint16_t)place;
        return;
    }
    for (place = first; place < end; place++)
        if (!wanted->has_address || holds_address(listing, place))
            listing->places[listing->place_count++] = (uint16_t)place;
}

bool listing_start(struct listing *listing, const struct unit *unit, const struct wanted *wanted,
                   unsigned long lines_dropped)
{
    memset(listing, 0, sizeof *listing);
    memcpy(listing->table, unit->table, unit->table_length);
    listing->table_length = unit->table_length;
    listing->options = unit->options;
    listing->peer_count = unit->options ? unit->options->peer_count : PFCP_PEERS;
    listing->started = unit->started;
    listing->disk_failing = unit->disk.failing;
    memcpy(listing->counters, unit->counters, sizeof listing->counters);
    memcpy(listing->holdings, unit->holdings, sizeof listing->holdings);
    listing->lines_dropped = lines_dropped;
    listing->free_teids = unit->free_teids;
    listing->free_addresses = unit->free_addresses;
    listing->wanted = *wanted;
    for (uint32_t peer = 1; peer <= PFCP_PEERS; peer++)
        find_places(listing, peer);
    if (wanted->form & LIST_PROMETHEUS)
        listing->stage = LIST_METRICS;
    return !is_part(wanted) || listing->place_count > 0;
}

/* Some sessions alone have no head. */
static void add_head(struct text *text, const struct listing *listing)
{
    size_t count = listing->place_count;

    if (is_part(&listing->wanted))
        return;
    if (!listing->options) {
        text_add(text,
                 listing->wanted.form & LIST_JSON ? "{\"live_sessions\":%zu,\"free_teids\":%" PRIu32
                                                    ",\"free_addresses\":%" PRIu32 ",\"sessions\":["
                                                  : "live sessions: %zu; free TEIDs: %" PRIu32
                                                    "; free addresses: %" PRIu32 "\n",
                 count, listing->free_teids, listing->free_addresses);
        return;
    }
    text_add(text,
             listing->wanted.form & LIST_JSON
                 ? "{\"live_sessions\":%zu,\"free_teids\":%" PRIu32 ",\"pool_size\":%" PRIu32
                   ",\"free_addresses\":%" PRIu32 ",\"address_pool_size\":%" PRIu32
                   ",\"sessions\":["
                 : "live sessions: %zu; free TEIDs: %" PRIu32 " of %" PRIu32
                   "; free addresses: %" PRIu32 " of %" PRIu32 "\n",
             count, listing->free_teids, listing->options->pool_size, listing->free_addresses,
             listing->options->address_count);
}

/* Adds the next session; gives false where there is none left. */
static bool add_session(struct text *text, struct listing *listing)
{
    struct session session;

    if (listing->listed == listing->place_count)
        return false;
    size_t place = listing->places[listing->listed++];
    if (!sessions_read(listing->table, listing->table_length, place, &session))
        return true;
    if (listing->wanted.form & LIST_JSON) {
        text_add(text, listing->listed == 1 ? "" : is_part(&listing->wanted) ? "\n" : ",\n");
        session_json(text, &session);
    } else if (listing->wanted.form & LIST_SUMMARY) {
        session_summary(text, &session);
    } else {
        session_text(text, &session);
    }
    return true;
}

static void add_foot(struct text *text, const struct listing *listing)
{
    bool json = (listing->wanted.form & LIST_JSON) != 0;
    bool whole = !is_part(&listing->wanted);

    if (whole && listing->wanted.form & LIST_COUNTERS && !(listing->wanted.form & LIST_SUMMARY)) {
        text_add(text, json ? "]" : "");
        if (listing->options)
            text_add(text, json ? ",\"lines_dropped\":%lu" : "lines of output dropped: %lu\n",
                     listing->lines_dropped);
    }
    text_add(text, json ? whole ? "}\n" : "\n" : "");
}

bool listing_next(struct listing *listing, struct text *text)
{
    switch (listing->stage) {
    case LIST_HEAD:
        add_head(text, listing);
        listing->stage = LIST_SESSIONS;
        return true;
    case LIST_SESSIONS:
        if (add_session(text, listing))
            return true;
        end_sessions(text, listing);
        listing->stage = LIST_PEERS;
        /* fall through */
    case LIST_PEERS:
        if (add_peer(text, listing))
            return true;
        add_foot(text, listing);
        listing->stage = LIST_DONE;
        return true;
    case LIST_METRICS:
        return metrics_add(text, listing);
    default:
        return false;
    }
}
