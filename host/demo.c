/*
 * Scripted exchanges: a control-plane peer with a socket of its own, then two that share a unit, send
 * requests to the unit over the loopback interface and read the replies. All run in one process, one
 * after the other, so the output is the same every time.
 */
#include <arpa/inet.h>
#include <errno.h>
#include <netinet/in.h>
#include <stdio.h>
#include <stdlib.h>
#include <string.h>
#include <sys/time.h>
#include <unistd.h>

#include "complaint.h"
#include "listing.h"
#include "message.h"
#include "unit.h"
#include "words.h"

struct exchange {
    struct unit *unit;
    int sockets[PFCP_PEERS]; /* the control planes' own */
    uint32_t peer;           /* who sends the next request */
    int step;
};

static void print_sessions(const struct unit *unit)
{
    static struct listing listing;
    static const struct wanted all;
    struct text text = {.length = 0};

    listing_start(&listing, unit, &all, 0);
    while (listing_next(&listing, &text)) {
        fwrite(text.octets, 1, text.length, stdout);
        text.length = 0;
    }
}

/* The unit's own line, without the time and the sender's port, which are others every time. */
static void print_line(const struct served *served)
{
    struct text text = {.length = 0};

    served_facts(&text, served);
    printf("  line: %.*s", (int)text.length, text.octets);
}

/* Sends a message, has the unit serve it, and prints both sides. */
static bool send_octets(struct exchange *x, const char *title, const uint8_t *octets, size_t length)
{
    uint8_t reply[PFCP_REPLY_SPACE];
    const struct served *served;
    int own = x->sockets[x->peer - 1];

    printf("\n%d. %s\n  request, %zu octets\n", ++x->step, title, length);
    print_octets(stdout, "    ", octets, length);
    print_message(stdout, octets, length);
    fflush(stdout);
    if (send(own, octets, length, 0) != (ssize_t)length) {
        complaint("the request could not be sent: %s", strerror(errno));
        return false;
    }
    enum turn turn = unit_take(x->unit, x->peer, &served);
    unit_settle(x->unit);
    if (turn == TURN_LAST)
        turn = TURN_TAKEN;
    if (turn == TURN_TAKEN && served->outcome == PFCP_ANSWERED) {
        ssize_t used = recv(own, reply, sizeof reply, 0);

        if (used < 0)
            turn = TURN_NOTHING;
        printf("  reply, %zd octets\n", used);
        print_octets(stdout, "    ", reply, used < 0 ? 0 : (size_t)used);
        print_message(stdout, reply, used < 0 ? 0 : (size_t)used);
    }
    if (turn != TURN_TAKEN) {
        complaint("the unit did not answer");
        return false;
    }
    print_line(served);
    if (served->cause == ACCEPTED)
        print_sessions(x->unit);
    unit_forget(x->unit);
    return true;
}

static bool send_message(struct exchange *x, const char *title, struct message *m)
{
    message_end(m);
    return send_octets(x, title, m->octets, m->length);
}

static const struct tunnel choose = {.flags = CHOOSE | V4};
static const struct tunnel choose_7 = {.flags = CHOOSE | CHOOSE_ID | V4, .choose_id = 7};

static bool establish_first(struct exchange *x)
{
    struct message m;

    message_start(&m, ESTABLISHMENT, 0, 1);
    put_f_seid(&m, 1);
    create_pdr_with_address(&m, 1, &choose_7);
    create_pdr_with_address(&m, 2, &choose_7);
    create_pdr_start(&m, 3, 50, 1);
    put_number(&m, IE_ENDPOINT_ID, 1, 1);
    create_pdr_end(&m, 10);
    create_endpoint(&m, 1, &choose);
    put_fq_csid(&m, 1, 5);
    return send_message(x,
                        "Session 1: PDRs 1 and 2 share a TEID by CHOOSE ID 7, and an address; "
                        "PDR 3 names an endpoint",
                        &m);
}

static bool establish(struct exchange *x, const char *title, uint64_t seid, uint32_t sequence)
{
    struct message m;

    message_start(&m, ESTABLISHMENT, 0, sequence);
    put_f_seid(&m, seid);
    create_pdr_with_address(&m, 1, &choose);
    return send_message(x, title, &m);
}

/* The same octets once more, as where the reply was lost; and a number that was there already. */
static bool repeat(struct exchange *x)
{
    return establish(x, "The same request again, as if its reply was lost: the old reply", 2, 2) &&
           establish(x, "Another request with that number: it is dropped", 4, 2);
}

static bool modify(struct exchange *x)
{
    struct message m;

    message_start(&m, MODIFICATION, 1, 4);
    remove_pdr(&m, 1);
    group_start(&m, IE_UPDATE_PDR);
    put_number(&m, IE_PDR_ID, 3, 2);
    put_number(&m, IE_PRECEDENCE, 20, 4);
    put_element(&m, IE_FAR_ID, NULL, 0);
    group_end(&m);
    return send_message(x, "Session 1 loses PDR 1; PDR 3 gets another precedence and loses its FAR",
                        &m);
}

static bool refusals(struct exchange *x)
{
    struct message m;
    static const uint8_t heartbeat[] = {0x20, 1, 0, 12, 0, 0, 9, 0, 0, 96, 0, 4, 0, 0, 0, 0};

    if (!establish(x, "Session 1 once more: its SEID is live", 1, 5))
        return false;
    message_start(&m, DELETION, 9, 6);
    if (!send_message(x, "Deletion of a session that is not there", &m))
        return false;
    message_start(&m, MODIFICATION, 1, 7);
    group_start(&m, IE_CREATE_PDR);
    put_number(&m, IE_PDR_ID, 4, 2);
    put_number(&m, IE_PRECEDENCE, 1, 4);
    group_end(&m);
    if (!send_message(x, "A Create PDR without a PDI", &m))
        return false;
    message_start(&m, MODIFICATION, 1, 8);
    remove_endpoint(&m, 1);
    group_start(&m, IE_UPDATE_PDR);
    put_number(&m, IE_PDR_ID, 3, 2);
    group_end(&m);
    if (!send_message(x, "Removal of endpoint 1, and an update of PDR 3, which goes with it", &m))
        return false;
    message_start(&m, MODIFICATION, 1, 9);
    create_pdr_with_address(&m, 4, NULL);
    if (!send_message(x, "PDR 4 wants an address: none is free", &m))
        return false;
    message_start(&m, MODIFICATION, 1, 10);
    create_pdr_start(&m, 4, 100, 0);
    put_address(&m, x->unit->options->first_address);
    create_pdr_end(&m, -1);
    if (!send_message(x, "PDR 4 with an address of our pool, which the control plane may not give",
                      &m))
        return false;
    return send_octets(x, "A heartbeat: not a session's message, so there is no reply", heartbeat,
                       sizeof heartbeat);
}

static bool remove_alone(struct exchange *x)
{
    struct message m;

    message_start(&m, MODIFICATION, 1, 11);
    remove_endpoint(&m, 1);
    return send_message(x, "Session 1 loses endpoint 1, and with it PDR 3, which names it", &m);
}

static bool delete_and_restore(struct exchange *x)
{
    struct message m;
    uint32_t ipv4 = x->unit->options->ipv4;
    uint8_t own[4] = {(uint8_t)(ipv4 >> 24), (uint8_t)(ipv4 >> 16), (uint8_t)(ipv4 >> 8),
                      (uint8_t)ipv4};
    struct tunnel existing = {.flags = V4, .ipv4 = own};

    message_start(&m, DELETION, 1, 12);
    if (!send_message(x, "Deletion of session 1", &m))
        return false;
    existing.teid = x->unit->options->first_teid + 1;
    message_start(&m, ESTABLISHMENT, 0, 13);
    put_f_seid(&m, 7);
    put_number(&m, IE_FLAGS, 1, 1);
    for (uint16_t id = 1; id <= 2; id++) {
        create_pdr_start(&m, id, 100, 0);
        put_f_teid(&m, &existing);
        put_address(&m, x->unit->options->first_address);
        create_pdr_end(&m, -1);
    }
    put_fq_csid(&m, 1, 6);
    return send_message(x, "Restoration of a session 7 that brings its TEID and its address along",
                        &m);
}

/* A set deletion of the peer 192.0.2.50 that lists these CSIDs of one card. */
static bool delete_set(struct exchange *x, const char *title, uint32_t sequence,
                       const uint16_t *csids, size_t count)
{
    static const uint8_t node[] = {0, 192, 0, 2, 50};
    struct message m;

    plain_message_start(&m, SET_DELETION, sequence);
    put_element(&m, IE_NODE_ID, node, sizeof node);
    put_fq_csids(&m, 1, csids, count);
    return send_message(x, title, &m);
}

static bool delete_sets(struct exchange *x)
{
    static const uint16_t csids[] = {4, 5, 6};
    struct message m;

    message_start(&m, MODIFICATION, 2, 14);
    put_fq_csid(&m, 1, 5);
    return send_message(x, "Session 2 is of the same card as session 7, with another CSID", &m) &&
           delete_set(x, "A set deletion that names no CSID", 15, csids, 0) &&
           delete_set(x, "A set deletion that matches no session", 16, csids, 1) &&
           delete_set(x, "The card fails: sessions 2 and 7 go", 17, csids, 3);
}

/* A session with so many PDRs that each want a TEID, of the card with CSID 5. */
static bool take_teids(struct exchange *x, const char *title, uint64_t seid, uint32_t sequence,
                       uint16_t count)
{
    struct message m;

    message_start(&m, ESTABLISHMENT, 0, sequence);
    put_f_seid(&m, seid);
    for (uint16_t id = 1; id <= count; id++)
        create_pdr(&m, id, &choose);
    put_fq_csid(&m, 1, 5);
    return send_message(x, title, &m);
}

/* Each has its due: peer 1 takes what is not kept back for peer 2, and peer 2 still gets it. */
static bool share_teids(struct exchange *x)
{
    if (!take_teids(x, "Peer 1, session 1: five TEIDs", 1, 1, 5) ||
        !take_teids(x, "Peer 1 wants one more: the rest is peer 2's due", 2, 2, 1))
        return false;
    x->peer = 2;
    return take_teids(x, "Peer 2, session 1 too, and the same number: its three TEIDs", 1, 1, 3) &&
           take_teids(x, "Peer 2 wants one more: none is free", 2, 2, 1);
}

/* Sessions and repeats are each peer's own. */
static bool keep_apart(struct exchange *x)
{
    static const uint16_t csids[] = {5};

    x->peer = 1;
    if (!delete_set(x, "Peer 1: the card fails; of the two sessions its own goes", 3, csids, 1))
        return false;
    x->peer = 2;
    return take_teids(x, "Peer 2 again, as if the reply was lost: its old reply", 1, 1, 3) &&
           take_teids(x, "Peer 2 wants three more, and may hold five", 2, 3, 3) &&
           take_teids(x, "Peer 2 wants two more", 2, 4, 2);
}

/* A socket that is connected to the unit's socket of a peer, or -1. */
static int connect_peer(const struct unit *unit, size_t peer)
{
    struct sockaddr_storage address;
    socklen_t length = sizeof address;
    struct timeval limit = {.tv_sec = 5};

    if (getsockname(unit->sockets[peer], (struct sockaddr *)&address, &length) != 0)
        return -1;
    int own = socket(address.ss_family, SOCK_DGRAM, 0);
    if (own < 0)
        return -1;
    if (connect(own, (struct sockaddr *)&address, length) != 0 ||
        setsockopt(own, SOL_SOCKET, SO_RCVTIMEO, &limit, sizeof limit) != 0) {
        close(own);
        return -1;
    }
    return own;
}

static bool exchange_start(struct exchange *x, struct unit *unit)
{
    x->unit = unit;
    x->peer = 1;
    x->step = 0;
    for (size_t i = 0; i < PFCP_PEERS; i++)
        x->sockets[i] = -1;
    for (size_t i = 0; i < unit->options->peer_count; i++) {
        x->sockets[i] = connect_peer(unit, i);
        if (x->sockets[i] < 0) {
            complaint("no socket for the demonstration: %s", strerror(errno));
            return false;
        }
    }
    return true;
}

/* Closes the control planes' sockets and says how many were answered; gives the exit status. */
static int exchange_end(struct exchange *x, bool done)
{
    for (size_t i = 0; i < PFCP_PEERS; i++)
        if (x->sockets[i] >= 0)
            close(x->sockets[i]);
    if (done)
        printf("\nend; requests answered: %lu, messages without a reply: %lu\n",
               unit_answered(x->unit), unit_unanswered(x->unit));
    return done ? EXIT_SUCCESS : EXIT_FAILURE;
}

int run_demo(struct unit *unit)
{
    struct exchange x;

    if (!exchange_start(&x, unit))
        return exchange_end(&x, false);
    puts("A unit and its control-plane peer, over the loopback interface.");
    print_sessions(unit);
    bool done = establish_first(&x) &&
                establish(&x, "Session 2: the next free TEID and address", 2, 2) && repeat(&x) &&
                establish(&x, "Session 3: one TEID more", 3, 3) && modify(&x) && refusals(&x) &&
                remove_alone(&x) && delete_and_restore(&x) && delete_sets(&x);
    return exchange_end(&x, done);
}

int run_shared_demo(struct unit *unit)
{
    struct exchange x;

    if (!exchange_start(&x, unit))
        return exchange_end(&x, false);
    puts("\nA unit that two control planes share: 8 TEIDs, of which each is guaranteed 3; peer 1 "
         "may "
         "hold 8, peer 2 may hold 5.");
    print_sessions(unit);
    return exchange_end(&x, share_teids(&x) && keep_apart(&x));
}
