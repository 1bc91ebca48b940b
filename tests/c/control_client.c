/* A client of the unit's control socket that sends any octets: control_client PATH TEXT [SECONDS]. It
   prints what comes back until the unit closes the connection, and may wait before it reads. */
#include <stdio.h>
#include <stdlib.h>
#include <string.h>
#include <sys/socket.h>
#include <sys/un.h>
#include <unistd.h>

int main(int argc, char **argv)
{
    struct sockaddr_un address = {.sun_family = AF_UNIX};
    char room[4096];
    ssize_t got;

    if (argc < 3 || argc > 4 || strlen(argv[1]) >= sizeof address.sun_path) {
        fputs("usage: control_client PATH TEXT [SECONDS]\n", stderr);
        return 2;
    }
    strcpy(address.sun_path, argv[1]);
    int unit = socket(AF_UNIX, SOCK_STREAM, 0);
    if (unit < 0 || connect(unit, (struct sockaddr *)&address, sizeof address) != 0 ||
        send(unit, argv[2], strlen(argv[2]), MSG_NOSIGNAL) < 0) {
        perror("control_client");
        return EXIT_FAILURE;
    }
    if (argc == 4)
        sleep((unsigned)atoi(argv[3]));
    while ((got = recv(unit, room, sizeof room, 0)) > 0)
        fwrite(room, 1, (size_t)got, stdout);
    close(unit);
    return EXIT_SUCCESS;
}
