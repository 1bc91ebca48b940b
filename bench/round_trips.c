/*
 * Times requests to a running unit on 127.0.0.1: round_trips PORT REQUESTS. A session with four PDRs and
 * an endpoint is established and deleted in turn, so every request changes the table. One request at a
 * time gives the time from a request to its reply; 64 at a time, as many as the unit serves together,
 * give how many a second are served.
 *
 * Prints one line: requests a second with 64 at a time, and with one; the median, the 99th of 100 and the
 * longest time of one in microseconds.
 */
#include <netinet/in.h>
#include <stdint.h>
#include <stdio.h>
#include <stdlib.h>
#include <sys/socket.h>
#include <sys/time.h>

#include "measure.h"
#include "message.h"

enum { AT_A_TIME = 64, MOST_REQUESTS = 1000000 };

static double times[MOST_REQUESTS];

static void give_up(const char *what)
{
    fprintf(stderr, "round_trips: %s\n", what);
    exit(EXIT_FAILURE);
}

static int connect_to(size_t port)
{
    struct sockaddr_in address = {.sin_family = AF_INET,
                                  .sin_port = htons((uint16_t)port),
                                  .sin_addr = {htonl(INADDR_LOOPBACK)}};
    struct timeval limit = {.tv_sec = 10};
    int unit = socket(AF_INET, SOCK_DGRAM, 0);

    if (unit < 0 || connect(unit, (const struct sockaddr *)&address, sizeof address) != 0 ||
        setsockopt(unit, SOL_SOCKET, SO_RCVTIMEO, &limit, sizeof limit) != 0)
        give_up("no socket");
    return unit;
}

/* The requests with even numbers establish sessions, those with odd ones delete them again. */
static void ask(int unit, size_t number)
{
    static const struct tunnel choose = {.flags = V4 | CHOOSE};
    struct message m;
    uint64_t seid = 1 + number / 2 % 32;

    message_start(&m, number % 2 == 0 ? ESTABLISHMENT : DELETION, seid,
                  (uint32_t)number & 0xFFFFFF);
    if (number % 2 == 0) {
        put_f_seid(&m, seid);
        for (uint16_t id = 1; id <= 4; id++)
            create_pdr(&m, id, &choose);
        create_endpoint(&m, 1, &choose);
    }
    message_end(&m);
    if (send(unit, m.octets, m.length, 0) < 0)
        give_up("a request could not be sent");
}

static void take_reply(int unit)
{
    uint8_t reply[MESSAGE_ROOM];
    ssize_t length = recv(unit, reply, sizeof reply, 0);

    if (length < 0)
        give_up("no reply");
    struct element cause = element_of(reply, (size_t)length, IE_CAUSE);
    if (number_in(&cause, 0, 1) != ACCEPTED)
        give_up("a request is refused");
}

/* The numbers go on from those of the requests before. */
static double served_a_second(int unit, size_t requests)
{
    double start = wall_time();

    for (size_t i = 0; i < requests + AT_A_TIME; i++) {
        if (i >= AT_A_TIME)
            take_reply(unit);
        if (i < requests)
            ask(unit, requests + i);
    }
    return (double)requests * 1e6 / (wall_time() - start);
}

int main(int argc, char **argv)
{
    if (argc != 3) {
        fputs("usage: round_trips PORT REQUESTS\n", stderr);
        return 2;
    }
    int unit = connect_to(read_count("round_trips", argv[1], 65535));
    size_t requests = read_count("round_trips", argv[2], MOST_REQUESTS);
    requests += requests % 2;
    double begin = wall_time();
    for (size_t i = 0; i < requests; i++) {
        double start = wall_time();

        ask(unit, i);
        take_reply(unit);
        times[i] = wall_time() - start;
    }
    double one = (double)requests * 1e6 / (wall_time() - begin);
    double served = served_a_second(unit, requests);
    double middle = median(times, requests); /* which sorts them */
    printf("%.0f %.0f %.0f %.0f %.0f\n", served, one, middle, times[requests * 99 / 100],
           times[requests - 1]);
    return EXIT_SUCCESS;
}
