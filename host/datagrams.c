#define _GNU_SOURCE /* in_pktinfo, in6_pktinfo */

#include "datagrams.h"

#include <errno.h>
#include <string.h>
#include <unistd.h>

/* Raises the receive buffer; gives the number of octets that it has now. */
static size_t raise_buffer(int socket)
{
    int wanted = WANTED_BUFFER;
    int got = 0;
    socklen_t length = sizeof got;

    /* The first goes past the system's limit, where the unit may do so. */
    if (setsockopt(socket, SOL_SOCKET, SO_RCVBUFFORCE, &wanted, sizeof wanted) != 0)
        setsockopt(socket, SOL_SOCKET, SO_RCVBUF, &wanted, sizeof wanted);
    /* Linux tells twice what was set: it counts its own records too. */
    if (getsockopt(socket, SOL_SOCKET, SO_RCVBUF, &got, &length) != 0 || got < 0)
        return 0;
    return (size_t)got / 2;
}

int datagrams_open(const struct address *listen, size_t *buffer)
{
    int yes = 1;
    int family = listen->socket.ss_family;
    int opened = socket(family, SOCK_DGRAM | SOCK_CLOEXEC, 0);

    if (opened < 0)
        return -1;
    /* A system that does not tell these answers from an address of its choice, and drops unseen. */
    if (family == AF_INET)
        setsockopt(opened, IPPROTO_IP, IP_PKTINFO, &yes, sizeof yes);
    else
        setsockopt(opened, IPPROTO_IPV6, IPV6_RECVPKTINFO, &yes, sizeof yes);
    setsockopt(opened, SOL_SOCKET, SO_RXQ_OVFL, &yes, sizeof yes);
    *buffer = raise_buffer(opened);
    if (bind(opened, (const struct sockaddr *)&listen->socket, listen->length) != 0) {
        int error = errno;

        close(opened);
        errno = error;
        return -1;
    }
    return opened;
}

static void put_local(struct datagram *from, int level, int type, const void *value, size_t length)
{
    struct msghdr message = {.msg_control = from->local.octets,
                             .msg_controllen = sizeof from->local.octets};
    struct cmsghdr *control = CMSG_FIRSTHDR(&message);

    control->cmsg_level = level;
    control->cmsg_type = type;
    control->cmsg_len = CMSG_LEN(length);
    memcpy(CMSG_DATA(control), value, length);
    from->local_length = CMSG_SPACE(length);
}

/* The interface is left to the system, but for an address that means something on one link only. */
static void read_control(struct datagram *from, struct cmsghdr *control)
{
    if (control->cmsg_level == IPPROTO_IP && control->cmsg_type == IP_PKTINFO) {
        struct in_pktinfo local;

        memcpy(&local, CMSG_DATA(control), sizeof local);
        local.ipi_ifindex = 0;
        put_local(from, IPPROTO_IP, IP_PKTINFO, &local, sizeof local);
    } else if (control->cmsg_level == IPPROTO_IPV6 && control->cmsg_type == IPV6_PKTINFO) {
        struct in6_pktinfo local;

        memcpy(&local, CMSG_DATA(control), sizeof local);
        if (!IN6_IS_ADDR_LINKLOCAL(&local.ipi6_addr))
            local.ipi6_ifindex = 0;
        if (!IN6_IS_ADDR_MULTICAST(&local.ipi6_addr))
            put_local(from, IPPROTO_IPV6, IPV6_PKTINFO, &local, sizeof local);
    } else if (control->cmsg_level == SOL_SOCKET && control->cmsg_type == SO_RXQ_OVFL) {
        memcpy(&from->dropped, CMSG_DATA(control), sizeof from->dropped);
    }
}

ssize_t datagrams_receive(int socket, struct datagram *from, uint8_t *room, size_t size)
{
    union {
        uint8_t octets[256];
        size_t aligned;
    } control;
    struct iovec one = {.iov_base = room, .iov_len = size};
    struct msghdr message = {.msg_name = &from->sender.socket,
                             .msg_namelen = sizeof from->sender.socket,
                             .msg_iov = &one,
                             .msg_iovlen = 1,
                             .msg_control = control.octets,
                             .msg_controllen = sizeof control.octets};

    from->local_length = 0;
    ssize_t length = recvmsg(socket, &message, MSG_DONTWAIT);
    if (length < 0)
        return -1;
    from->sender.length = message.msg_namelen;
    for (struct cmsghdr *c = CMSG_FIRSTHDR(&message); c; c = CMSG_NXTHDR(&message, c))
        read_control(from, c);
    return length;
}

int datagrams_answer(int socket, struct datagram *to, const uint8_t *octets, size_t length)
{
    struct iovec one = {.iov_base = (void *)octets, .iov_len = length};
    struct msghdr message = {.msg_name = &to->sender.socket,
                             .msg_namelen = to->sender.length,
                             .msg_iov = &one,
                             .msg_iovlen = 1,
                             .msg_control = to->local_length > 0 ? to->local.octets : NULL,
                             .msg_controllen = to->local_length};

    return sendmsg(socket, &message, MSG_DONTWAIT) < 0 ? errno : 0;
}
