/* Sends a request from an address of this machine to a unit on another one and prints the reply, both in
   hexadecimal: send_from ADDRESS PORT OCTETS [UNIT]. The unit is on 127.0.0.1 where nothing else is said.
   It prints nothing where no reply comes within a second. */
#include <arpa/inet.h>
#include <netinet/in.h>
#include <stdint.h>
#include <stdio.h>
#include <stdlib.h>
#include <string.h>
#include <sys/socket.h>
#include <sys/time.h>

enum { ROOM = 4096 };

/* Reads octets in hexadecimal, with nothing between them; gives their number. */
static size_t read_octets(const char *text, uint8_t *octets)
{
    size_t count = 0;
    unsigned octet;

    while (count < ROOM && sscanf(text + 2 * count, "%2x", &octet) == 1)
        octets[count++] = (uint8_t)octet;
    return count;
}

static int connect_from(const char *address, const char *unit_address, int port)
{
    struct sockaddr_in from = {.sin_family = AF_INET};
    struct sockaddr_in to = {.sin_family = AF_INET, .sin_port = htons((uint16_t)port)};
    struct timeval limit = {.tv_sec = 1};
    int unit = socket(AF_INET, SOCK_DGRAM, 0);

    if (unit < 0 || inet_pton(AF_INET, address, &from.sin_addr) != 1 ||
        inet_pton(AF_INET, unit_address, &to.sin_addr) != 1 ||
        bind(unit, (const struct sockaddr *)&from, sizeof from) != 0 ||
        connect(unit, (const struct sockaddr *)&to, sizeof to) != 0 ||
        setsockopt(unit, SOL_SOCKET, SO_RCVTIMEO, &limit, sizeof limit) != 0) {
        perror("send_from");
        exit(EXIT_FAILURE);
    }
    return unit;
}

int main(int argc, char **argv)
{
    uint8_t octets[ROOM];

    if (argc < 4 || argc > 5) {
        fputs("usage: send_from ADDRESS PORT OCTETS [UNIT]\n", stderr);
        return 2;
    }
    int unit = connect_from(argv[1], argc == 5 ? argv[4] : "127.0.0.1", atoi(argv[2]));
    size_t length = read_octets(argv[3], octets);
    if (send(unit, octets, length, 0) != (ssize_t)length) {
        perror("send_from");
        return EXIT_FAILURE;
    }
    ssize_t received = recv(unit, octets, sizeof octets, 0);
    for (ssize_t i = 0; i < received; i++)
        printf("%02X", octets[i]);
    return EXIT_SUCCESS;
}
