#include "prometheus.h"

#include <inttypes.h>

#include "message.h"

/* A metric of the unit, or of each peer. */
struct metric {
    const char *name;
    const char *type;
    const char *help;
    void (*add)(struct text *text, const struct metric *metric, const struct listing *listing,
                uint32_t peer);
    bool by_peer;
};

/* A number of the whole unit. */
static void add_plain(struct text *text, const struct metric *metric, double value)
{
    text_add(text, "%s %.15g\n", metric->name, value);
}

/* A number of a peer. */
static void add_of_peer(struct text *text, const struct metric *metric, uint32_t peer,
                        unsigned long value)
{
    text_add(text, "%s{peer=\"%" PRIu32 "\"} %lu\n", metric->name, peer, value);
}

static void add_info(struct text *text, const struct metric *metric, const struct listing *listing,
                     uint32_t peer)
{
    (void)listing;
    (void)peer;
    text_add(text, "%s{version=\"%s\"} 1\n", metric->name, PFCP_VERSION);
}

static void add_started(struct text *text, const struct metric *metric,
                        const struct listing *listing, uint32_t peer)
{
    (void)peer;
    text_add(text, "%s %lld.%03ld\n", metric->name, (long long)listing->started.tv_sec,
             listing->started.tv_nsec / 1000000);
}

/* The metrics of the unit that are one number. */
#define OF_UNIT(name, value)                                                                       \
    static void name(struct text *text, const struct metric *metric,                               \
                     const struct listing *listing, uint32_t peer)                                 \
    {                                                                                              \
        (void)peer;                                                                                \
        add_plain(text, metric, (double)(value));                                                  \
    }

OF_UNIT(add_limit, listing->options->session_limit)
OF_UNIT(add_pool, listing->options->pool_size)
OF_UNIT(add_free_teids, listing->free_teids)
OF_UNIT(add_address_pool, listing->options->address_count)
OF_UNIT(add_free_addresses, listing->free_addresses)
OF_UNIT(add_failing, listing->disk_failing)
OF_UNIT(add_lines_dropped, listing->lines_dropped)

/* Those of a peer that are one number. */
#define OF_PEER(name, value)                                                                       \
    static void name(struct text *text, const struct metric *metric,                               \
                     const struct listing *listing, uint32_t peer)                                 \
    {                                                                                              \
        add_of_peer(text, metric, peer, (unsigned long)(value));                                   \
    }

OF_PEER(add_sessions, listing->holdings[peer - 1].sessions)
OF_PEER(add_most_sessions, sessions_of_peer(listing->options))
OF_PEER(add_teids, listing->holdings[peer - 1].teids)
OF_PEER(add_guarantee, listing->options->peers[peer - 1].guarantee)
OF_PEER(add_most_teids, listing->options->peers[peer - 1].limit)
OF_PEER(add_repeats, listing->counters[peer - 1].repeats)
OF_PEER(add_untyped, listing->counters[peer - 1].untyped)
OF_PEER(add_undone, listing->counters[peer - 1].undone)
OF_PEER(add_unsent, listing->counters[peer - 1].unsent)
OF_PEER(add_strangers, listing->counters[peer - 1].strangers)
OF_PEER(add_system_dropped, listing->counters[peer - 1].dropped)

/* Counts by a number: those that are not 0, and those that are always told, so that a rise from 0 is
   seen. */
static void add_counts(struct text *text, const struct metric *metric, uint32_t peer,
                       const char *label, const unsigned long *counts, size_t size,
                       bool (*is_told)(unsigned))
{
    for (unsigned i = 0; i < size; i++)
        if (counts[i] != 0 || is_told(i))
            text_add(text, "%s{peer=\"%" PRIu32 "\",%s=\"%u\"} %lu\n", metric->name, peer, label, i,
                     counts[i]);
}

static bool is_served(unsigned type)
{
    return type == SET_DELETION || type == ESTABLISHMENT || type == MODIFICATION ||
           type == DELETION;
}

static bool is_usual_cause(unsigned cause)
{
    return cause == ACCEPTED || cause == NO_RESOURCES;
}

static bool is_any(unsigned number)
{
    (void)number;
    return true;
}

static void add_messages(struct text *text, const struct metric *metric,
                         const struct listing *listing, uint32_t peer)
{
    add_counts(text, metric, peer, "type", listing->counters[peer - 1].messages, 256, is_served);
}

static void add_causes(struct text *text, const struct metric *metric,
                       const struct listing *listing, uint32_t peer)
{
    add_counts(text, metric, peer, "cause", listing->counters[peer - 1].causes, 256,
               is_usual_cause);
}

static void add_outcomes(struct text *text, const struct metric *metric,
                         const struct listing *listing, uint32_t peer)
{
    add_counts(text, metric, peer, "outcome", listing->counters[peer - 1].outcomes,
               PFCP_NO_PEER + 1, is_any);
}

static const struct metric metrics[] = {
    {"pfcp_unit_info", "gauge", "The version of the unit.", add_info, false},
    {"pfcp_unit_start_time_seconds", "gauge", "When the unit was started.", add_started, false},
    {"pfcp_session_limit", "gauge", "Sessions that the table has room for.", add_limit, false},
    {"pfcp_sessions", "gauge", "Live sessions.", add_sessions, true},
    {"pfcp_sessions_most", "gauge", "Sessions that a peer may have.", add_most_sessions, true},
    {"pfcp_teids_pool", "gauge", "TEIDs of the pool.", add_pool, false},
    {"pfcp_teids_free", "gauge", "TEIDs that no session holds.", add_free_teids, false},
    {"pfcp_teids", "gauge", "TEIDs that a peer holds.", add_teids, true},
    {"pfcp_teids_guaranteed", "gauge", "TEIDs that a peer is guaranteed.", add_guarantee, true},
    {"pfcp_teids_most", "gauge", "TEIDs that a peer may hold.", add_most_teids, true},
    {"pfcp_addresses_pool", "gauge", "Patients' addresses of the pool.", add_address_pool, false},
    {"pfcp_addresses_free", "gauge", "Patients' addresses that no session holds.",
     add_free_addresses, false},
    {"pfcp_table_failing", "gauge", "1 while the table cannot be kept on the disk.", add_failing,
     false},
    {"pfcp_messages_total", "counter", "Messages by type.", add_messages, true},
    {"pfcp_replies_total", "counter", "Replies by cause, repeats left out.", add_causes, true},
    {"pfcp_outcomes_total", "counter", "Messages by host outcome.", add_outcomes, true},
    {"pfcp_repeats_total", "counter", "Repeated requests that got the old reply.", add_repeats,
     true},
    {"pfcp_not_pfcp_total", "counter", "Messages that are not PFCP.", add_untyped, true},
    {"pfcp_undone_total", "counter", "Requests undone since the disk did not take the table.",
     add_undone, true},
    {"pfcp_replies_not_sent_total", "counter", "Replies that could not be sent.", add_unsent, true},
    {"pfcp_from_others_total", "counter", "Datagrams from others than the peer.", add_strangers,
     true},
    {"pfcp_dropped_by_system_total", "counter", "Datagrams that the system dropped.",
     add_system_dropped, true},
    {"pfcp_lines_dropped_total", "counter", "Lines of output dropped.", add_lines_dropped, false},
};

bool metrics_add(struct text *text, struct listing *listing)
{
    if (listing->metrics_listed == sizeof metrics / sizeof metrics[0])
        return false;
    const struct metric *metric = &metrics[listing->metrics_listed];

    if (listing->peers_listed == 0)
        text_add(text, "# HELP %s %s\n# TYPE %s %s\n", metric->name, metric->help, metric->name,
                 metric->type);
    listing->peers_listed++;
    if (!metric->by_peer || listing_has(listing, listing->peers_listed))
        metric->add(text, metric, listing, listing->peers_listed);
    if (!metric->by_peer || listing->peers_listed == listing->peer_count) {
        listing->peers_listed = 0;
        listing->metrics_listed++;
    }
    return true;
}
