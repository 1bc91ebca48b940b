/* capture FILE PORT: captures the UDP datagrams from and to a port on the loopback interface into a pcap file, as
   tcpdump does, until SIGTERM or SIGINT; says "capturing" when it has begun. It stands in where there is no tcpdump.
   It needs the right to (root, or CAP_NET_RAW). */
#define _GNU_SOURCE
#include <arpa/inet.h>
#include <errno.h>
#include <linux/if_packet.h>
#include <net/ethernet.h>
#include <net/if.h>
#include <poll.h>
#include <signal.h>
#include <stdbool.h>
#include <stdint.h>
#include <stdio.h>
#include <stdlib.h>
#include <string.h>
#include <sys/socket.h>
#include <time.h>
#include <unistd.h>

enum { SNAP_LENGTH = 262144, LINK_ETHERNET = 1, PROTOCOL_UDP = 17, FRAME = 14, IP_HEADER = 20 };

static volatile sig_atomic_t ended;

static void end(int signal)
{
    (void)signal;
    ended = 1;
}

static int complain(const char *what)
{
    fprintf(stderr, "capture: %s: %s\n", what, strerror(errno));
    return EXIT_FAILURE;
}

static int open_loopback(void)
{
    struct sockaddr_ll address = {.sll_family = AF_PACKET, .sll_protocol = htons(ETH_P_ALL)};
    int room = 4 << 20;
    int opened = socket(AF_PACKET, SOCK_RAW | SOCK_CLOEXEC, htons(ETH_P_ALL));

    address.sll_ifindex = (int)if_nametoindex("lo");
    if (opened < 0 || address.sll_ifindex == 0)
        return -1;
    setsockopt(opened, SOL_SOCKET, SO_RCVBUFFORCE, &room, sizeof room);
    return bind(opened, (const struct sockaddr *)&address, sizeof address) == 0 ? opened : -1;
}

/* IPv4 without options, as the loopback interface has it. */
static bool is_wanted(const uint8_t *packet, size_t length, unsigned port)
{
    const uint8_t *udp = packet + FRAME + IP_HEADER;

    if (length < FRAME + IP_HEADER + 8 || packet[12] != 8 || packet[13] != 0 ||
        packet[FRAME] != 0x45 || packet[FRAME + 9] != PROTOCOL_UDP)
        return false;
    return (unsigned)(udp[0] << 8 | udp[1]) == port || (unsigned)(udp[2] << 8 | udp[3]) == port;
}

static bool keep(FILE *file, const uint8_t *packet, size_t length)
{
    struct timespec now;
    uint32_t head[4];

    clock_gettime(CLOCK_REALTIME, &now);
    head[0] = (uint32_t)now.tv_sec;
    head[1] = (uint32_t)(now.tv_nsec / 1000);
    head[2] = head[3] = (uint32_t)length;
    return fwrite(head, sizeof head, 1, file) == 1 && fwrite(packet, length, 1, file) == 1 &&
           fflush(file) == 0;
}

/* Each packet of the loopback interface comes twice, first as it goes out. */
static bool take(int loopback, FILE *file, unsigned port)
{
    static uint8_t packet[SNAP_LENGTH];
    struct sockaddr_ll from = {.sll_family = AF_PACKET};
    socklen_t length = sizeof from;
    ssize_t got =
        recvfrom(loopback, packet, sizeof packet, MSG_DONTWAIT, (struct sockaddr *)&from, &length);

    if (got < 0)
        return false;
    if (from.sll_pkttype != PACKET_OUTGOING && is_wanted(packet, (size_t)got, port) &&
        !keep(file, packet, (size_t)got)) {
        complain("the file");
        exit(EXIT_FAILURE);
    }
    return true;
}

int main(int argc, char **argv)
{
    const uint32_t head[] = {0xA1B2C3D4, 2 | 4 << 16, 0, 0, SNAP_LENGTH, LINK_ETHERNET};
    struct sigaction action = {.sa_handler = end};
    unsigned port = argc == 3 ? (unsigned)strtoul(argv[2], NULL, 10) : 0;

    if (port == 0 || port > 65535) {
        fputs("usage: capture FILE PORT\n", stderr);
        return 2;
    }
    sigaction(SIGTERM, &action, NULL);
    sigaction(SIGINT, &action, NULL);
    int loopback = open_loopback();
    if (loopback < 0)
        return complain("the loopback interface");
    FILE *file = fopen(argv[1], "wb");
    if (!file || fwrite(head, sizeof head, 1, file) != 1 || fflush(file) != 0)
        return complain(argv[1]);
    puts("capturing");
    fflush(stdout);
    while (!ended) {
        struct pollfd waiting = {.fd = loopback, .events = POLLIN};

        if (poll(&waiting, 1, 100) > 0)
            take(loopback, file, port);
    }
    while (take(loopback, file, port))
        ;
    close(loopback);
    return fclose(file) == 0 ? EXIT_SUCCESS : complain(argv[1]);
}
