#include "stored.h"

#include <arpa/inet.h>
#include <inttypes.h>
#include <stdio.h>
#include <string.h>

#include "message.h"
#include "table.h"
#include "wipe.h"
#include "words.h"

/* No table begins so: its fifth octet is 0 or 1. */
static const uint8_t magic[8] = {'P', 'F', 'C', 'P', 'U', 'N', 'I', 'T'};

/* Where the numbers of the head stand, and those of the settings after it. */
enum { AT_VERSION = 8, AT_SETTINGS = 12, AT_TABLE = 16, AT_STORES = 20, AT_REPLIES = 24 };
enum {
    SET_IPV4 = 0,
    SET_IPV6_LENGTH = 4,
    SET_IPV6 = 8,
    SET_FIRST_TEID = 24,
    SET_POOL = 28,
    SET_FIRST_ADDRESS = 32,
    SET_ADDRESSES = 36,
    SET_SESSIONS = 40,
    SET_PEERS = 44, /* how many control planes are served */
    SET_PEER1 = 48, /* address, guarantee and limit */
    SET_PEER2 = 60
};

static void put(uint8_t *octets, uint32_t number)
{
    for (size_t i = 0; i < 4; i++)
        octets[i] = (uint8_t)(number >> (24 - 8 * i));
}

static uint32_t get(const uint8_t *octets)
{
    return (uint32_t)number_at(octets, 4);
}

size_t stored_room(const struct options *options)
{
    return STORED_FRONT + pfcp_table_length(options->session_limit) + stores_length(options) +
           STORED_REPLIES + STORED_DIGEST;
}

static void put_peer(uint8_t *octets, const struct peer *peer)
{
    put(octets, peer->address);
    put(octets + 4, peer->guarantee);
    put(octets + 8, peer->limit);
}

static void put_settings(uint8_t *octets, const struct options *options)
{
    memset(octets, 0, STORED_SETTINGS);
    put(octets + SET_IPV4, options->ipv4);
    put(octets + SET_IPV6_LENGTH, (uint32_t)options->ipv6_length);
    memcpy(octets + SET_IPV6, options->ipv6, options->ipv6_length);
    put(octets + SET_FIRST_TEID, options->first_teid);
    put(octets + SET_POOL, options->pool_size);
    put(octets + SET_FIRST_ADDRESS, options->first_address);
    put(octets + SET_ADDRESSES, options->address_count);
    put(octets + SET_SESSIONS, options->session_limit);
    put(octets + SET_PEERS, (uint32_t)options->peer_count);
    put_peer(octets + SET_PEER1, &options->peers[0]);
    put_peer(octets + SET_PEER2, &options->peers[1]);
}

void stored_begin(uint8_t *file, const struct options *options)
{
    memcpy(file, magic, sizeof magic);
    put(file + AT_VERSION, STORED_VERSION);
    put(file + AT_SETTINGS, STORED_SETTINGS);
    put(file + AT_TABLE, (uint32_t)pfcp_table_length(options->session_limit));
    put(file + AT_STORES, (uint32_t)stores_length(options));
    put(file + AT_REPLIES, 0);
    put_settings(file + STORED_HEAD, options);
}

/* The octets that the lengths of a head say, without the SHA-256. */
static uint64_t said_length(const uint8_t *file)
{
    return (uint64_t)STORED_HEAD + get(file + AT_SETTINGS) + get(file + AT_TABLE) +
           get(file + AT_STORES) + get(file + AT_REPLIES);
}

size_t stored_replies_at(const uint8_t *file)
{
    return (size_t)(said_length(file) - get(file + AT_REPLIES));
}

size_t stored_sealed_at(const uint8_t *file)
{
    return (size_t)said_length(file);
}

size_t stored_seal(uint8_t *file)
{
    size_t length = (size_t)said_length(file);

    digest(file, length, file + length);
    return length + STORED_DIGEST;
}

/* The length of the reply that is owed first in these octets, with what stands before it; 0 where none is
   whole there. */
static size_t owed_length(const uint8_t *octets, size_t length)
{
    size_t reply = length < STORED_OWED ? 0 : (size_t)number_at(octets + STORED_OWED - 2, 2);

    return reply == 0 || reply > PFCP_REPLY_SPACE || STORED_OWED + reply > length
               ? 0
               : STORED_OWED + reply;
}

/* Whether some octets are replies that are owed and nothing else. */
static bool are_replies(const uint8_t *octets, size_t length)
{
    while (length > 0) {
        size_t one = owed_length(octets, length);

        if (one == 0 || octets[0] == 0 || octets[0] > PFCP_PEERS)
            return false;
        octets += one;
        length -= one;
    }
    return true;
}

/* Where the parts of what is owed stand. */
enum { OWED_AGE = 1, OWED_REQUEST = 2, OWED_LENGTH = STORED_OWED - 2 };

/* The reply that is owed to a peer for a request, with what stands before it, or NULL. */
static const uint8_t *find_owed(const uint8_t *file, uint32_t peer, const uint8_t *request)
{
    const uint8_t *owed = file + stored_replies_at(file);
    size_t length = get(file + AT_REPLIES);
    size_t one;

    while ((one = owed_length(owed, length)) > 0) {
        if (owed[0] == peer && memcmp(owed + OWED_REQUEST, request, STORED_DIGEST) == 0)
            return owed;
        owed += one;
        length -= one;
    }
    return NULL;
}

size_t stored_owed(const uint8_t *file, uint32_t peer, const uint8_t *request, uint8_t *reply)
{
    const uint8_t *owed = find_owed(file, peer, request);
    size_t length = owed ? (size_t)number_at(owed + OWED_LENGTH, 2) : 0;

    if (owed)
        memcpy(reply, owed + STORED_OWED, length);
    return length;
}

/* The octets are not left behind: they are what was answered. */
void stored_owe_nothing(uint8_t *file)
{
    wipe(file + stored_replies_at(file), get(file + AT_REPLIES) + STORED_DIGEST);
    put(file + AT_REPLIES, 0);
}

void stored_owe(uint8_t *file, const struct owed *owed)
{
    uint8_t *to = file + stored_sealed_at(file);
    size_t before = get(file + AT_REPLIES);

    if (owed->age >= STORED_BATCH || find_owed(file, owed->peer, owed->request) ||
        before + STORED_OWED + owed->length > STORED_REPLIES)
        return;
    to[0] = (uint8_t)owed->peer;
    to[OWED_AGE] = (uint8_t)owed->age;
    memcpy(to + OWED_REQUEST, owed->request, STORED_DIGEST);
    to[OWED_LENGTH] = (uint8_t)(owed->length >> 8);
    to[OWED_LENGTH + 1] = (uint8_t)owed->length;
    memcpy(to + STORED_OWED, owed->reply, owed->length);
    put(file + AT_REPLIES, (uint32_t)(before + STORED_OWED + owed->length));
}

void stored_owe_all(uint8_t *file, const uint8_t *replies, size_t length,
                    const size_t newer[PFCP_PEERS])
{
    size_t one;

    for (; (one = owed_length(replies, length)) > 0; replies += one, length -= one)
        stored_owe(file, &(struct owed){.peer = replies[0],
                                        .age = replies[OWED_AGE] + (unsigned)newer[replies[0] - 1],
                                        .request = replies + OWED_REQUEST,
                                        .reply = replies + STORED_OWED,
                                        .length = one - STORED_OWED});
}

bool stored_has_form(const uint8_t *octets, size_t length)
{
    size_t first = length < sizeof magic ? length : sizeof magic;

    return first > 0 && memcmp(octets, magic, first) == 0;
}

/* Whether the last octets are the SHA-256 of those before, as in every version of the form. */
static bool is_whole(const uint8_t *octets, size_t length)
{
    uint8_t sum[STORED_DIGEST];

    if (length < STORED_HEAD + STORED_DIGEST)
        return false;
    digest(octets, length - STORED_DIGEST, sum);
    return memcmp(sum, octets + length - STORED_DIGEST, sizeof sum) == 0;
}

/* What is wrong with a file whose SHA-256 is not that of its octets. The lengths in its head may be
   damaged too, and are not believed where they cannot be. */
static void tell_damage(const uint8_t *octets, size_t length, char *why)
{
    uint64_t said = length < STORED_HEAD ? 0 : said_length(octets) + STORED_DIGEST;

    if (length < STORED_HEAD)
        snprintf(why, STORED_WHY, "cut: %zu octets, fewer than a head has", length);
    else if (get(octets + AT_VERSION) == STORED_VERSION && length < said && said <= STORED_MOST)
        snprintf(why, STORED_WHY, "cut: %zu octets of %" PRIu64, length, said);
    else if (get(octets + AT_VERSION) == STORED_VERSION && length > said)
        snprintf(why, STORED_WHY, "longer than it says: %zu octets, not %" PRIu64, length, said);
    else
        snprintf(why, STORED_WHY, "damaged: its SHA-256 is not that of its octets");
}

/* The parts of a file with a SHA-256. Only one that was made so on purpose is whole and has parts that do
   not fit together. */
static bool read_parts(const uint8_t *octets, size_t length, struct stored *stored, char *why)
{
    if (!is_whole(octets, length)) {
        tell_damage(octets, length, why);
        return false;
    }
    if (get(octets + AT_VERSION) != STORED_VERSION) {
        snprintf(why, STORED_WHY, "of version %" PRIu32 " of the stored form, not %d",
                 get(octets + AT_VERSION), STORED_VERSION);
        return false;
    }
    stored->settings = octets + STORED_HEAD;
    stored->table = octets + STORED_FRONT;
    stored->table_length = get(octets + AT_TABLE);
    stored->limit = table_limit(stored->table_length);
    stored->has_stores = get(octets + AT_STORES) > 0;
    if (get(octets + AT_SETTINGS) != STORED_SETTINGS || stored->limit == 0 ||
        (stored->has_stores && get(octets + AT_STORES) != STORES_ROOM) ||
        get(octets + AT_REPLIES) > STORED_REPLIES ||
        said_length(octets) + STORED_DIGEST != length ||
        !are_replies(octets + stored_replies_at(octets), get(octets + AT_REPLIES))) {
        snprintf(why, STORED_WHY, "its parts do not fit together");
        return false;
    }
    stored->stores = stored->table + stored->table_length;
    stored->replies = octets + stored_replies_at(octets);
    stored->replies_length = get(octets + AT_REPLIES);
    return true;
}

/* A file of the form before. No length is that of two kinds: the stores do not take the room of a whole
   number of sessions. */
static bool read_plain(const uint8_t *octets, size_t length, struct stored *stored, char *why)
{
    stored->limit = table_limit(length);
    stored->has_stores = stored->limit == 0 && length > STORES_ROOM;
    if (stored->has_stores)
        stored->limit = table_limit(length - STORES_ROOM);
    stored->settings = NULL;
    stored->table = octets;
    stored->table_length = pfcp_table_length(stored->limit);
    stored->stores = octets + stored->table_length;
    stored->replies_length = 0;
    snprintf(why, STORED_WHY, "%zu octets long, which no table is", length);
    return stored->limit > 0;
}

bool stored_read(const uint8_t *octets, size_t length, struct stored *stored, char *why)
{
    if (stored_has_form(octets, length))
        return read_parts(octets, length, stored, why);
    return read_plain(octets, length, stored, why);
}

/* The layout before two peers: a head, and a slot for each of 1 to 256 sessions; after the table up to
   eight stores, each after an address of 16 octets. */
enum { OLD_HEAD = 41, OLD_SLOT = 603, OLD_STORES = 8, OLD_STORE = 16 + 26657 };

static bool is_old_table(size_t length)
{
    return length > OLD_HEAD && (length - OLD_HEAD) % OLD_SLOT == 0 &&
           (length - OLD_HEAD) / OLD_SLOT <= PFCP_MOST_SESSIONS;
}

bool stored_is_old(size_t length)
{
    for (size_t stores = 0; stores <= OLD_STORES && stores * OLD_STORE < length; stores++)
        if (is_old_table(length - stores * OLD_STORE))
            return true;
    return false;
}

/* The value of an option in words, from settings. */
struct value {
    char words[80];
};

static struct value number_value(const uint8_t *at)
{
    struct value value;

    snprintf(value.words, sizeof value.words, "%" PRIu32, get(at));
    return value;
}

static struct value address_value(const uint8_t *at, size_t octets)
{
    struct value value = {"none"};

    if (octets > 0)
        address_in_words(at, octets, value.words, sizeof value.words);
    return value;
}

static struct value ipv4_value(const uint8_t *at)
{
    return address_value(at, 4);
}

/* A peer's ADDRESS:GUARANTEE:LIMIT; none where there is one control plane only. */
static struct value peer_value(const uint8_t *settings, size_t at)
{
    struct value value = {"none"};
    const uint8_t *peer = settings + at;
    char address[INET6_ADDRSTRLEN];

    if (get(settings + SET_PEERS) == PFCP_PEERS)
        snprintf(value.words, sizeof value.words, "%s:%" PRIu32 ":%" PRIu32,
                 address_in_words(peer, 4, address, sizeof address), get(peer + 4), get(peer + 8));
    return value;
}

static void add_difference(struct text *text, const char *option, struct value stored,
                           struct value wanted)
{
    if (strcmp(stored.words, wanted.words) == 0)
        return;
    text_add(text, "%s%s %s, not %s", text->length > 0 ? "; " : "", option, stored.words,
             wanted.words);
}

void stored_differences(struct text *text, const struct stored *stored,
                        const struct options *options)
{
    static const struct {
        const char *option;
        size_t at;
        struct value (*in_words)(const uint8_t *);
    } plain[] = {{"--ipv4", SET_IPV4, ipv4_value},
                 {"--first-teid", SET_FIRST_TEID, number_value},
                 {"--pool", SET_POOL, number_value},
                 {"--first-address", SET_FIRST_ADDRESS, ipv4_value},
                 {"--addresses", SET_ADDRESSES, number_value}};
    const uint8_t *was = stored->settings;
    uint8_t is[STORED_SETTINGS];

    if (!was)
        return;
    put_settings(is, options);
    for (size_t i = 0; i < sizeof plain / sizeof plain[0]; i++)
        add_difference(text, plain[i].option, plain[i].in_words(was + plain[i].at),
                       plain[i].in_words(is + plain[i].at));
    add_difference(text, "--ipv6", address_value(was + SET_IPV6, get(was + SET_IPV6_LENGTH)),
                   address_value(is + SET_IPV6, get(is + SET_IPV6_LENGTH)));
    add_difference(text, "--peer1", peer_value(was, SET_PEER1), peer_value(is, SET_PEER1));
    add_difference(text, "--peer2", peer_value(was, SET_PEER2), peer_value(is, SET_PEER2));
}
