#include "send.h"

#include <errno.h>
#include <inttypes.h>
#include <poll.h>
#include <stdbool.h>
#include <stdio.h>
#include <stdlib.h>
#include <string.h>
#include <time.h>
#include <unistd.h>

#include "address.h"
#include "message.h"
#include "number.h"
#include "pfcp_session.h"
#include "words.h"

enum { ACCEPTED_ALL = 0, REFUSED = 1, WRONG_WORDS = 2, NOBODY_ANSWERS = 3 };

/* More than 256 sessions' longest requests; the longest request; and the milliseconds that a unit whose
   disk is slow has for a reply. No request is sent twice: without its store of repeats the unit would
   refuse the second. */
enum { FILE_ROOM = 1 << 20, LONGEST_REQUEST = 2048, PATIENCE = 10000, USUAL_PORT = 8805 };

struct sending {
    const char *path;
    uint8_t octets[FILE_ROOM + 1];
    size_t length;
    struct address units[PFCP_PEERS]; /* where the requests of each peer go */
    size_t unit_count;
    int sockets[PFCP_PEERS];
    unsigned long accepted;
};

/* A request of the file, from its peer on. */
struct request {
    uint32_t peer;
    const uint8_t *octets;
    size_t length;
    unsigned long number; /* from 1 on */
};

static bool complain(const char *what, const char *why)
{
    fprintf(stderr, "pfcp-restore: %s: %s\n", what, why);
    return false;
}

/* What is wrong with a request of the file. */
static bool complain_of(const struct sending *sending, unsigned long number, const char *why)
{
    fprintf(stderr, "pfcp-restore: %s: request %lu %s\n", sending->path, number, why);
    return false;
}

static bool complain_use(void)
{
    fputs("usage: pfcp-restore send FILE ADDRESS [PORT], or pfcp-restore send FILE ADDRESS ADDRESS "
          "[PORT]\n",
          stderr);
    return false;
}

/* One address or two, and the port after them. */
static bool read_words(struct sending *sending, int count, char **words)
{
    uint64_t port = USUAL_PORT;
    int at = 1;

    if (count < 2)
        return complain_use();
    sending->path = words[0];
    while (at < count && sending->unit_count < PFCP_PEERS &&
           address_read(&sending->units[sending->unit_count], words[at])) {
        sending->unit_count++;
        at++;
    }
    if (sending->unit_count == 0)
        return complain(words[at], "neither an IPv4 nor an IPv6 address");
    if (at < count && !read_number(words[at], 1, 65535, &port))
        return complain(words[at], "neither an address nor a port from 1 to 65535");
    if (at + 1 < count)
        return complain_use();
    for (size_t i = 0; i < sending->unit_count; i++)
        address_set_port(&sending->units[i], (uint16_t)port);
    return true;
}

static bool read_file(struct sending *sending)
{
    FILE *file = fopen(sending->path, "rb");

    if (!file)
        return complain(sending->path, strerror(errno));
    sending->length = fread(sending->octets, 1, sizeof sending->octets, file);
    bool whole = ferror(file) == 0;
    int error = errno;
    fclose(file);
    if (!whole)
        return complain(sending->path, strerror(error));
    return sending->length <= FILE_ROOM || complain(sending->path, "longer than 1048576 octets");
}

/* Whether the octets, four at least, begin a request of a session, or of a set of them. */
static bool is_request(const uint8_t *octets, size_t length)
{
    if (octets[1] == SET_DELETION)
        return octets[0] == 0x20 && length >= 8;
    return octets[0] == 0x21 && length >= 16 &&
           (octets[1] == ESTABLISHMENT || octets[1] == MODIFICATION || octets[1] == DELETION);
}

/* The request at a place, which is moved past it; says what is wrong with it and gives false. */
static bool next_request(const struct sending *sending, size_t *at, struct request *request)
{
    size_t left = sending->length - *at;
    const uint8_t *octets = sending->octets + *at;

    request->number++;
    if (octets[0] < 1 || octets[0] > PFCP_PEERS)
        return complain_of(sending, request->number,
                           "is of no peer: the octet before it is neither 1 nor 2");
    if (left < 5)
        return complain_of(sending, request->number, "is cut short");
    request->peer = octets[0];
    request->octets = octets + 1;
    request->length = (size_t)number_at(octets + 3, 2) + 4;
    if (request->length > LONGEST_REQUEST)
        return complain_of(sending, request->number, "is longer than 2048 octets");
    if (left < 1 + request->length)
        return complain_of(sending, request->number, "is cut short");
    if (!is_request(request->octets, request->length))
        return complain_of(sending, request->number,
                           "is not a session request with a right header");
    *at += 1 + request->length;
    return true;
}

/* Whether every request of the file can be sent, before the first one is. */
static bool can_send_all(const struct sending *sending)
{
    struct request request = {.number = 0};
    bool has[PFCP_PEERS] = {false, false};
    size_t at = 0;

    while (at < sending->length) {
        if (!next_request(sending, &at, &request))
            return false;
        has[request.peer - 1] = true;
    }
    if (has[0] && has[1] && sending->unit_count == 1)
        return complain(sending->path, "has requests of both peers: give an address for each");
    return true;
}

static bool open_sockets(struct sending *sending)
{
    char text[ADDRESS_ROOM];

    for (size_t i = 0; i < sending->unit_count; i++) {
        const struct address *unit = &sending->units[i];

        sending->sockets[i] = socket(unit->socket.ss_family, SOCK_DGRAM | SOCK_CLOEXEC, 0);
        if (sending->sockets[i] < 0 ||
            connect(sending->sockets[i], (const struct sockaddr *)&unit->socket, unit->length) != 0)
            return complain(address_text(unit, text, sizeof text), strerror(errno));
    }
    return true;
}

static long long milliseconds(void)
{
    struct timespec now;

    clock_gettime(CLOCK_MONOTONIC, &now);
    return (long long)now.tv_sec * 1000 + now.tv_nsec / 1000000;
}

/* Whether these octets are the reply to the request: its type is the next one, and its sequence number
   the same. */
static bool is_reply(const struct request *request, const uint8_t *reply, size_t length)
{
    size_t at = request->octets[1] == SET_DELETION ? 4 : 12;

    return length >= at + 4 && reply[0] == request->octets[0] &&
           reply[1] == request->octets[1] + 1 && memcmp(reply + at, request->octets + at, 3) == 0;
}

/* Waits for the reply to a request; gives its cause, or 0 where nobody answers. */
static unsigned await_reply(int unit, const struct request *request)
{
    long long limit = milliseconds() + PATIENCE;
    uint8_t reply[65536];

    for (;;) {
        long long left = limit - milliseconds();
        struct pollfd one = {.fd = unit, .events = POLLIN};

        if (left <= 0 || poll(&one, 1, (int)left) == 0) {
            errno = ETIMEDOUT;
            return 0;
        }
        ssize_t got = recv(unit, reply, sizeof reply, 0);
        if (got < 0 && errno != EINTR)
            return 0;
        if (got > 0 && is_reply(request, reply, (size_t)got)) {
            struct element cause = element_of(reply, (size_t)got, IE_CAUSE);

            errno = EPROTO;
            return (unsigned)number_in(&cause, 0, 1);
        }
    }
}

/* Sends a request and waits for its reply; gives the exit status. */
static int send_one(struct sending *sending, const struct request *request)
{
    size_t i = sending->unit_count > 1 ? request->peer - 1 : 0;
    char text[ADDRESS_ROOM];
    unsigned cause = 0;

    if (send(sending->sockets[i], request->octets, request->length, 0) == (ssize_t)request->length)
        cause = await_reply(sending->sockets[i], request);
    if (cause == ACCEPTED) {
        sending->accepted++;
        return ACCEPTED_ALL;
    }
    if (cause == 0)
        fprintf(
            stderr,
            "pfcp-restore: %s: request %lu: nobody answers on %s (%s); requests accepted before: "
            "%lu\n",
            sending->path, request->number, address_text(&sending->units[i], text, sizeof text),
            strerror(errno), sending->accepted);
    else
        fprintf(stderr,
                "pfcp-restore: %s: request %lu is refused with cause %u (%s); requests accepted "
                "before: %lu\n",
                sending->path, request->number, cause, cause_in_words(cause), sending->accepted);
    return cause == 0 ? NOBODY_ANSWERS : REFUSED;
}

static int send_all(struct sending *sending)
{
    struct request request = {.number = 0};
    size_t at = 0;
    int status = ACCEPTED_ALL;

    while (at < sending->length && status == ACCEPTED_ALL) {
        if (!next_request(sending, &at, &request))
            return REFUSED;
        status = send_one(sending, &request);
    }
    return status;
}

int send_requests(int count, char **words)
{
    static struct sending sending = {.sockets = {-1, -1}};

    if (!read_words(&sending, count, words))
        return WRONG_WORDS;
    if (!read_file(&sending) || !can_send_all(&sending))
        return REFUSED;
    if (!open_sockets(&sending))
        return NOBODY_ANSWERS;
    int status = send_all(&sending);
    if (status != ACCEPTED_ALL)
        return status;
    if (printf("requests accepted: %lu\n", sending.accepted) < 0 || fflush(stdout) != 0) {
        complain("standard output", strerror(errno));
        return REFUSED;
    }
    return ACCEPTED_ALL;
}
