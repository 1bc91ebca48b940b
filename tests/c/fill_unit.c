/* Fills a running unit that two control planes share with full sessions, in turn of peer 1 and of peer 2:
   fill_unit PORT FIRST LAST, which count them from 1. The unit listens on 127.0.0.1 for peer 1 and on
   127.0.0.2 for peer 2. It has an IPv6 address, and for each session 24 free TEIDs and a free address. */
#include <arpa/inet.h>
#include <netinet/in.h>
#include <stdio.h>
#include <stdlib.h>
#include <sys/socket.h>
#include <sys/time.h>

#include "measure.h"
#include "pfcp_session.h"
#include "workload.h"

static struct message establishment;
static struct place answered;

static int connect_to(uint32_t peer, size_t port)
{
    struct sockaddr_in address = {.sin_family = AF_INET, .sin_port = htons((uint16_t)port)};
    struct timeval limit = {.tv_sec = 10};
    int unit = socket(AF_INET, SOCK_DGRAM, 0);

    address.sin_addr.s_addr = htonl(INADDR_LOOPBACK + peer - 1);
    if (unit < 0 || connect(unit, (struct sockaddr *)&address, sizeof address) != 0 ||
        setsockopt(unit, SOL_SOCKET, SO_RCVTIMEO, &limit, sizeof limit) != 0) {
        perror("fill_unit");
        exit(EXIT_FAILURE);
    }
    return unit;
}

int main(int argc, char **argv)
{
    if (argc != 4) {
        fputs("usage: fill_unit PORT FIRST LAST\n", stderr);
        return 2;
    }
    size_t port = read_count("fill_unit", argv[1], 65535);
    size_t first = read_count("fill_unit", argv[2], PFCP_MOST_SESSIONS);
    size_t last = read_count("fill_unit", argv[3], PFCP_MOST_SESSIONS);
    const int units[PFCP_PEERS] = {connect_to(1, port), connect_to(2, port)};
    for (size_t i = first; i <= last; i++) {
        int unit = units[peer_of(i - 1) - 1];
        ssize_t received;

        write_establishment(&establishment, &workloads[ALIKE], i - 1);
        if (send(unit, establishment.octets, establishment.length, 0) < 0) {
            perror("fill_unit");
            return EXIT_FAILURE;
        }
        received = recv(unit, answered.reply, sizeof answered.reply, 0);
        answered.outcome = PFCP_ANSWERED;
        answered.used = received < 0 ? 0 : (size_t)received;
        if (answered.used == 0 || cause_of(&answered) != 1) {
            fprintf(stderr, "fill_unit: session %zu is not accepted\n", i);
            return EXIT_FAILURE;
        }
    }
    return EXIT_SUCCESS;
}
