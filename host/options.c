#include "options.h"

#include <arpa/inet.h>
#include <grp.h>
#include <stdio.h>
#include <string.h>

#include "arguments.h"
#include "complaint.h"
#include "number.h"

/* Where no option says it: a session limit of 64 sessions for each control plane; and addresses from
   100.96.0.1 on, which no control plane gives out by itself and no hospital's own network has (RFC 6598). */
enum { USUAL_SESSIONS = 128, USUAL_ADDRESS = 0x64600001, LARGEST_POOL = 65536 };

const char usage[] =
    "usage: pfcp-unit [OPTION VALUE | OPTION=VALUE].. [--demo]\n"
    "Serves PFCP requests for sessions and sets of sessions over UDP and says a line for each.\n"
    "One control plane, which is peer 1:\n"
    "  --address ADDRESS   where to listen, IPv4 or IPv6 (127.0.0.1)\n"
    "  --peer ADDRESS      who may ask: nobody else is answered (anybody is). Given up to 8 times\n"
    "Two control planes that share the unit, the peers 1 and 2:\n"
    "  --peer1 ADDRESS:GUARANTEE:LIMIT  where to listen for peer 1, IPv4, which its replies have\n"
    "                      too; how many TEIDs it is guaranteed, and how many it may hold\n"
    "  --peer2 ADDRESS:GUARANTEE:LIMIT  the same of peer 2, with another address\n"
    "  --from1 ADDRESS     who may ask as peer 1 (anybody). Given up to 8 times\n"
    "  --from2 ADDRESS     who may ask as peer 2 (anybody). Given up to 8 times\n"
    "Both:\n"
    "  --port PORT         the UDP port, 1 to 65535 (8805)\n"
    "  --no-repeats        do not look for repeated requests (a repeat gets the old reply, any "
    "other\n"
    "                      request whose sequence number is not newer is dropped)\n"
    "  --no-grants         leave out of the lines which TEIDs and addresses a request gave and "
    "released\n"
    "  --control PATH      a Unix socket on which pfcp-list asks for the live sessions (none)\n"
    "  --control-group GROUP  this group may ask there too (only the unit's user)\n"
    "  --quiet             no line for a message; start, end, lists and complaints stay\n"
    "  --table FILE        keep the table in FILE, and what repeats need: they are there before a\n"
    "                      reply is sent, and the next start restores them (in memory only)\n"
    "  --table-sync yes|no whether a reply waits until the disk has the table (yes)\n"
    "  --ipv4 ADDRESS      the unit's own IPv4 address (192.0.2.1)\n"
    "  --ipv6 ADDRESS      the unit's own IPv6 address (none)\n"
    "  --first-teid TEID   the first TEID of the pool, from 1 on (4096)\n"
    "  --pool SIZE         the number of TEIDs, 1 to 65536 (4096)\n"
    "  --first-address ADDRESS  the first IPv4 address for patients' devices (100.96.0.1)\n"
    "  --addresses NUMBER  the number of these addresses, 1 to 1024 (254)\n"
    "  --sessions NUMBER   the session limit, 2 to 256: each control plane has half of it, also\n"
    "                      where there is one only (128)\n"
    "  --demo              run a scripted exchange over the loopback interface and end; without\n"
    "                      these options it takes any free port, 3 TEIDs and 2 addresses\n"
    "  -V, --version       print the version\n"
    "  -h, --help          print this\n"
    "SIGINT and SIGTERM stop it; SIGUSR1 has it print the live sessions and the counters.\n"
    "Exit status: 0; 1 if it could not go on; 2 for a bad option, path or table's file; 4 where "
    "the\n"
    "start may succeed later: an address or a socket in use, a table that another unit keeps.\n";

/* Which options there are that go with one control plane only, or with two. */
struct given {
    const char *with_one; /* --address or --peer, or NULL */
    const char *with_two; /* --from1 or --from2, or NULL */
    bool peers[PFCP_PEERS];
};

static bool complain(const char *option, const char *value, const char *wanted)
{
    complaint("%s %s: %s", option, value, wanted);
    return false;
}

static bool read_ipv4(const char *name, const char *value, uint32_t *address)
{
    return address_number(value, address) || complain(name, value, "not an IPv4 address");
}

/* A setting of the table that is a number. */
static bool read_setting(const char *name, const char *value, uint64_t least, uint64_t most,
                         const char *wanted, uint32_t *setting)
{
    uint64_t number;

    if (!read_number(value, least, most, &number))
        return complain(name, value, wanted);
    *setting = (uint32_t)number;
    return true;
}

/* Where a peer's requests arrive. Its replies have the same address. */
static bool read_peer_address(struct peer *peer, const char *text)
{
    const struct sockaddr_in *v4 = (const struct sockaddr_in *)&peer->listen.socket;

    if (!address_read(&peer->listen, text) || !address_is_ipv4(&peer->listen))
        return false;
    peer->address = ntohl(v4->sin_addr.s_addr);
    return true;
}

/* ADDRESS:GUARANTEE:LIMIT. */
static bool read_peer(struct peer *peer, const char *name, const char *value)
{
    static const char form[] = "not ADDRESS:GUARANTEE:LIMIT, IPv4 and two numbers up to 65536";
    char text[64];
    char *words[3] = {text};
    uint64_t guarantee;
    uint64_t limit;

    if (strlen(value) >= sizeof text)
        return complain(name, value, form);
    strcpy(text, value);
    for (size_t i = 1; i < 3; i++) {
        words[i] = strchr(words[i - 1], ':');
        if (!words[i])
            return complain(name, value, form);
        *words[i]++ = '\0';
    }
    if (!read_peer_address(peer, words[0]) || !read_number(words[1], 0, LARGEST_POOL, &guarantee) ||
        !read_number(words[2], 0, LARGEST_POOL, &limit))
        return complain(name, value, form);
    if (address_is_any(&peer->listen))
        return complain(name, value, "not one address of the unit");
    if (limit < guarantee)
        return complain(name, value, "the limit is under the guarantee");
    peer->guarantee = (uint32_t)guarantee;
    peer->limit = (uint32_t)limit;
    return true;
}

/* One more address from which a peer asks. */
static bool add_from(struct peer *peer, const char *name, const char *value)
{
    struct address from;

    if (!address_read(&from, value))
        return complain(name, value, "not an IPv4 or IPv6 address");
    if (address_is_any(&from))
        return complain(name, value, "nobody sends from there");
    for (size_t i = 0; i < peer->from_count; i++)
        if (address_same(&peer->from[i], &from))
            return complain(name, value, "named twice");
    if (peer->from_count == MOST_FROM)
        return complain(name, value, "more than 8 addresses");
    peer->from[peer->from_count++] = from;
    return true;
}

/* The options of a peer; the last letter of those with a number is the peer's. */
static bool read_peer_option(struct options *options, struct given *given, const char *name,
                             const char *value)
{
    size_t peer = name[strlen(name) - 1] == '2' ? 1 : 0;

    if (strncmp(name, "--from", 6) == 0) {
        given->with_two = peer == 1 ? "--from2" : "--from1";
        return add_from(&options->peers[peer], name, value);
    }
    if (strcmp(name, "--peer") == 0) {
        given->with_one = "--peer";
        return add_from(&options->peers[0], name, value);
    }
    if (strcmp(name, "--address") == 0) {
        given->with_one = "--address";
        return address_read(&options->peers[0].listen, value) ||
               complain(name, value, "not an IPv4 or IPv6 address");
    }
    given->peers[peer] = true;
    return read_peer(&options->peers[peer], name, value);
}

/* A group by its name or its number. */
static bool read_group(struct options *options, const char *name, const char *value)
{
    const struct group *group = getgrnam(value);
    uint64_t number;

    if (!group && !read_number(value, 0, UINT32_MAX - 1, &number))
        return complain(name, value, "no such group");
    options->has_control_group = true;
    options->control_group = group ? group->gr_gid : (gid_t)number;
    return true;
}

static bool read_option(struct options *options, const char *name, const char *value)
{
    uint64_t number;

    if (strcmp(name, "--port") == 0) {
        if (!read_number(value, 1, 65535, &number))
            return complain(name, value, "not a port from 1 to 65535");
        options->port = (uint16_t)number;
    } else if (strcmp(name, "--control") == 0) {
        options->control = value;
    } else if (strcmp(name, "--control-group") == 0) {
        return read_group(options, name, value);
    } else if (strcmp(name, "--table") == 0) {
        options->table = value;
    } else if (strcmp(name, "--table-sync") == 0) {
        if (strcmp(value, "yes") != 0 && strcmp(value, "no") != 0)
            return complain(name, value, "neither yes nor no");
        options->table_sync = value[0] == 'y';
    } else if (strcmp(name, "--ipv4") == 0) {
        return read_ipv4(name, value, &options->ipv4);
    } else if (strcmp(name, "--ipv6") == 0) {
        if (inet_pton(AF_INET6, value, options->ipv6) != 1)
            return complain(name, value, "not an IPv6 address");
        options->ipv6_length = sizeof options->ipv6;
    } else if (strcmp(name, "--first-teid") == 0) {
        return read_setting(name, value, 1, UINT32_MAX, "not a TEID from 1 to 4294967295",
                            &options->first_teid);
    } else if (strcmp(name, "--first-address") == 0) {
        return read_ipv4(name, value, &options->first_address);
    } else if (strcmp(name, "--addresses") == 0) {
        return read_setting(name, value, 1, 1024, "not a number of addresses from 1 to 1024",
                            &options->address_count);
    } else if (strcmp(name, "--sessions") == 0) {
        return read_setting(name, value, PFCP_LEAST_SESSIONS, PFCP_MOST_SESSIONS,
                            "not a session limit from 2 to 256, half of it for each control plane",
                            &options->session_limit);
    } else {
        return read_setting(name, value, 1, LARGEST_POOL, "not a pool size from 1 to 65536",
                            &options->pool_size);
    }
    return true;
}

static bool is_among(const char *name, const char *const *names, size_t count)
{
    for (size_t i = 0; i < count; i++)
        if (strcmp(name, names[i]) == 0)
            return true;
    return false;
}

static bool is_of_peer(const char *name)
{
    static const char *const names[] = {"--address", "--peer",  "--peer1",
                                        "--peer2",   "--from1", "--from2"};

    return is_among(name, names, sizeof names / sizeof names[0]);
}

/* Sets what was not given. The demonstration's pools are small, so that it comes to their end. One
   control plane is peer 1, which is answered as the unit itself and may have the whole pool; peer 2 then
   has nothing, and an address that is nobody's. */
static void fill_in(struct options *options, const struct given *given)
{
    if (options->port == 0 && !options->demo)
        options->port = 8805;
    if (options->pool_size == 0)
        options->pool_size = options->demo ? 3 : 4096;
    if (options->address_count == 0)
        options->address_count = options->demo ? 2 : 254;
    options->peer_count = given->peers[0] ? PFCP_PEERS : 1;
    if (options->peer_count == 1) {
        options->peers[0].address = options->ipv4;
        options->peers[0].limit = options->pool_size;
        options->peers[1].address = options->ipv4 == 0 ? UINT32_MAX : 0;
    }
    for (size_t i = 0; i < options->peer_count; i++)
        address_set_port(&options->peers[i].listen, options->port);
}

/* Whether there are the options of one control plane or of two, and not some of each. */
static bool go_together(const struct given *given)
{
    if (given->peers[0] != given->peers[1])
        complaint("--peer1 and --peer2 are given both or not at all");
    else if (given->peers[0] && given->with_one)
        complaint("%s is for one control plane, not for --peer1 and --peer2", given->with_one);
    else if (!given->peers[0] && given->with_two)
        complaint("%s goes with --peer1 and --peer2; for one control plane there "
                  "is --peer",
                  given->with_two);
    else
        return true;
    return false;
}

/* An IPv6 socket for every address hears IPv4 too. */
static bool can_hear(const struct peer *peer)
{
    bool listens_v4 = address_is_ipv4(&peer->listen);

    if (!listens_v4 && address_is_any(&peer->listen))
        return true;
    for (size_t i = 0; i < peer->from_count; i++)
        if (listens_v4 != address_is_ipv4(&peer->from[i]))
            return false;
    return true;
}

static bool are_peers_possible(const struct options *options)
{
    const struct peer *peers = options->peers;
    uint64_t guaranteed = (uint64_t)peers[0].guarantee + peers[1].guarantee;
    char listen[ADDRESS_ROOM];

    for (size_t i = 0; i < options->peer_count; i++) {
        if (!can_hear(&peers[i])) {
            complaint("peer %zu cannot ask on %s from IPv%d", i + 1,
                      address_text(&peers[i].listen, listen, sizeof listen),
                      address_is_ipv4(&peers[i].listen) ? 6 : 4);
            return false;
        }
        if (peers[i].limit > options->pool_size) {
            complaint("--peer%zu: a limit of %u is more than the pool of %u", i + 1,
                      (unsigned)peers[i].limit, (unsigned)options->pool_size);
            return false;
        }
    }
    if (peers[0].address == peers[1].address) {
        complaint("--peer1 and --peer2 have the same address");
        return false;
    }
    if (guaranteed > options->pool_size) {
        complaint("guarantees of %u and %u are more than the pool of %u",
                  (unsigned)peers[0].guarantee, (unsigned)peers[1].guarantee,
                  (unsigned)options->pool_size);
        return false;
    }
    return true;
}

static bool are_pools_possible(const struct options *options)
{
    if ((uint64_t)options->first_teid + options->pool_size > (uint64_t)UINT32_MAX + 1) {
        complaint("a pool of %u from %u on ends after TEID 4294967295",
                  (unsigned)options->pool_size, (unsigned)options->first_teid);
        return false;
    }
    if ((uint64_t)options->first_address + options->address_count > (uint64_t)UINT32_MAX + 1) {
        complaint("%u addresses from %u.%u.%u.%u on end after 255.255.255.255",
                  (unsigned)options->address_count, (unsigned)(options->first_address >> 24),
                  (unsigned)(options->first_address >> 16 & 255),
                  (unsigned)(options->first_address >> 8 & 255),
                  (unsigned)(options->first_address & 255));
        return false;
    }
    return true;
}

static bool is_possible(const struct options *options)
{
    if (options->has_control_group && !options->control) {
        complaint("--control-group goes with --control");
        return false;
    }
    if (options->demo && options->table) {
        complaint("the demonstration keeps no table");
        return false;
    }
    if (options->demo && options->peer_count > 1) {
        complaint("the demonstration has control planes of its own");
        return false;
    }
    return are_pools_possible(options) && are_peers_possible(options);
}

/* What is answered of an option that has a value, whose name is in the list. */
enum { WITH_VALUE = 1 };

static const struct option known[] = {{"address", required_argument, NULL, WITH_VALUE},
                                      {"peer", required_argument, NULL, WITH_VALUE},
                                      {"peer1", required_argument, NULL, WITH_VALUE},
                                      {"peer2", required_argument, NULL, WITH_VALUE},
                                      {"from1", required_argument, NULL, WITH_VALUE},
                                      {"from2", required_argument, NULL, WITH_VALUE},
                                      {"port", required_argument, NULL, WITH_VALUE},
                                      {"control", required_argument, NULL, WITH_VALUE},
                                      {"control-group", required_argument, NULL, WITH_VALUE},
                                      {"table", required_argument, NULL, WITH_VALUE},
                                      {"table-sync", required_argument, NULL, WITH_VALUE},
                                      {"ipv4", required_argument, NULL, WITH_VALUE},
                                      {"ipv6", required_argument, NULL, WITH_VALUE},
                                      {"first-teid", required_argument, NULL, WITH_VALUE},
                                      {"pool", required_argument, NULL, WITH_VALUE},
                                      {"first-address", required_argument, NULL, WITH_VALUE},
                                      {"addresses", required_argument, NULL, WITH_VALUE},
                                      {"sessions", required_argument, NULL, WITH_VALUE},
                                      {"no-repeats", no_argument, NULL, 'n'},
                                      {"no-grants", no_argument, NULL, 'g'},
                                      {"quiet", no_argument, NULL, 'q'},
                                      {"demo", no_argument, NULL, 'd'},
                                      {"version", no_argument, NULL, 'V'},
                                      {"help", no_argument, NULL, 'h'},
                                      {NULL, 0, NULL, 0}};

static bool read_any_option(struct options *options, struct given *given, const char *option,
                            const char *value)
{
    char name[32];

    snprintf(name, sizeof name, "--%s", option);
    return is_of_peer(name) ? read_peer_option(options, given, name, value)
                            : read_option(options, name, value);
}

/* An option that has no value; gives false where it is none. */
static bool set_option(struct options *options, int option)
{
    switch (option) {
    case 'n':
        options->repeats = false;
        return true;
    case 'g':
        options->grants = false;
        return true;
    case 'q':
        options->quiet = true;
        return true;
    case 'd':
        options->demo = true;
        return true;
    case 'V':
        options->version = true;
        return true;
    case 'h':
        options->help = true;
        return true;
    default:
        return false;
    }
}

static bool read_words(struct options *options, struct given *given, int argc, char **argv)
{
    char wrong[WRONG_ROOM];
    int index;
    int found;

    while ((found = next_option(argc, argv, known, &index, wrong)) != -1) {
        if (found == WITH_VALUE) {
            if (!read_any_option(options, given, known[index].name, optarg))
                return false;
        } else if (!set_option(options, found)) {
            complaint("%s", wrong);
            return false;
        }
    }
    return true;
}

bool read_options(struct options *options, int argc, char **argv)
{
    struct given given = {.with_one = NULL};

    memset(options, 0, sizeof *options);
    address_read(&options->peers[0].listen, "127.0.0.1");
    options->ipv4 = 0xC0000201;
    options->first_teid = 4096;
    options->first_address = USUAL_ADDRESS;
    options->session_limit = USUAL_SESSIONS;
    options->table_sync = true;
    options->repeats = true;
    options->grants = true;
    if (!read_words(options, &given, argc, argv))
        return false;
    /* Who asks for these wants nothing else. */
    if (options->help || options->version)
        return true;
    if (!go_together(&given))
        return false;
    fill_in(options, &given);
    return is_possible(options);
}
