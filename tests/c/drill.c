/*
 * A unit is killed at random moments under load and started again: drill UNIT FILE SYNC ROUNDS
 * SEED, where SYNC is the unit's --table-sync.
 *
 * Requests go to the unit, as many at a time as it serves together, and through the archive here as well.
 * Each reply must be the same to the octet. After each kill the file must be table and store after all
 * requests whose reply came or, since a unit may be killed between its disk and its replies, after some
 * requests more, at most as many as are served together; so every session whose reply was sent is there
 * and no other. The next unit goes on from it.
 *
 * As a control plane does, the drill sends each request that has no reply again, with the same octets.
 * Its reply must be the one that the archive gave the first time, whether the unit had it on the disk
 * already or not: a unit that took it for a new request would refuse it.
 */
#define _DEFAULT_SOURCE /* usleep */

#include <errno.h>
#include <netinet/in.h>
#include <poll.h>
#include <pthread.h>
#include <signal.h>
#include <stdbool.h>
#include <stdint.h>
#include <stdio.h>
#include <stdlib.h>
#include <string.h>
#include <sys/socket.h>
#include <sys/stat.h>
#include <sys/wait.h>
#include <time.h>
#include <unistd.h>

#include "message.h"
#include "pfcp_session.h"
#include "stored.h"

enum {
    SESSIONS = 128, /* the unit's session limit where no option says it */
    WINDOW = 64,
    MOMENT = 250 /* milliseconds at most until a kill */,
    PATIENCE = 60 /* seconds for a start */,
    FIRST_NUMBER = 0xFFFFFF - 100 /* so that numbers come to their end and start again */
};

/* What the file keeps: a table, and both peers' stores. The drill is peer 1. */
enum { STORES = PFCP_PEERS * PFCP_STORE_LENGTH, MOST_KEPT = PFCP_LONGEST_TABLE + STORES };

/* A request: its number and octets, its reply, and what is kept after it. */
struct asked {
    uint32_t sequence;
    struct message message;
    uint8_t reply[PFCP_REPLY_SPACE];
    size_t used;
    uint8_t kept[MOST_KEPT];
};

struct drill {
    const char *unit;
    const char *file;
    const char *sync;
    char port[8];
    size_t table_length;
    struct asked last; /* the request that was answered last */
    struct asked
        asked[WINDOW]; /* those without a reply, in the order in which they were sent, ... */
    size_t first;      /* ... from this one on, and on from the start */
    size_t waiting;
    size_t ahead; /* so many of these are in the file already */
    uint32_t sequence;
    int socket;
    pid_t pid;
    useconds_t moment; /* of the kill, after the start, ... */
    bool at_write;     /* ... or as soon as the file is replaced after that */
    unsigned long answered, accepted, served;
    unsigned long left, left_requests, left_accepted, most_left, old_replies;
};

static void give_up(const char *what)
{
    printf("drill: %s\n", what);
    exit(EXIT_FAILURE);
}

static uint32_t draw(uint32_t below)
{
    static uint64_t state = 0x9E3779B97F4A7C15;

    state = state * 6364136223846793005 + 1442695040888963407;
    return (uint32_t)(state >> 33) % below;
}

/* A request that fits the sessions or does not, as it comes. */
static void write_request(struct message *m, uint32_t sequence)
{
    static const struct tunnel choose = {.flags = V4 | CHOOSE};
    uint64_t seid = 1 + draw(40);
    uint32_t kind = draw(10);

    if (kind < 5) {
        message_start(m, ESTABLISHMENT, 0, sequence);
        put_f_seid(m, seid);
        for (uint16_t id = 1 + (uint16_t)draw(3); id < 6; id++) {
            const struct tunnel *tunnel = draw(3) > 0 ? &choose : NULL;

            if (draw(3) == 0)
                create_pdr_with_address(m, id, tunnel);
            else
                create_pdr(m, id, tunnel);
        }
        if (draw(2) == 0)
            create_endpoint(m, 1, &choose);
    } else if (kind < 8) {
        message_start(m, MODIFICATION, seid, sequence);
        create_pdr_with_address(m, 6 + (uint16_t)draw(10), &choose);
        if (draw(2) == 0)
            remove_pdr(m, 5);
    } else {
        message_start(m, DELETION, seid, sequence);
    }
    message_end(m);
}

static bool is_accepted(const struct asked *asked)
{
    struct element cause = element_of(asked->reply, asked->used, IE_CAUSE);

    return number_in(&cause, 0, 1) == ACCEPTED;
}

static size_t kept_length(const struct drill *drill)
{
    return drill->table_length + STORES;
}

/* The request that has waited longest, the next one, and so on. */
static struct asked *asked_at(struct drill *drill, size_t place)
{
    return &drill->asked[(drill->first + place) % WINDOW];
}

/* A unit that was killed does not hear it. */
static void send_request(const struct drill *drill, const struct asked *asked)
{
    send(drill->socket, asked->message.octets, asked->message.length, 0);
}

/* Sends a new request and works out what becomes of it. */
static void ask(struct drill *drill)
{
    struct asked *asked = asked_at(drill, drill->waiting);
    const struct asked *before =
        drill->waiting > 0 ? asked_at(drill, drill->waiting - 1) : &drill->last;
    uint8_t *store = asked->kept + drill->table_length;
    size_t place;

    drill->sequence = (drill->sequence + 1) & 0xFFFFFF;
    asked->sequence = drill->sequence;
    write_request(&asked->message, drill->sequence);
    memcpy(asked->kept, before->kept, kept_length(drill));
    if (pfcp_request_once(asked->kept, drill->table_length, 1, store, PFCP_STORE_LENGTH,
                          asked->message.octets, asked->message.length, asked->reply,
                          sizeof asked->reply, &asked->used, &place) != PFCP_ANSWERED)
        give_up("a request is not answered by the archive");
    drill->waiting++;
    send_request(drill, asked);
}

static bool is_reply_to(const struct asked *asked, const uint8_t *reply, size_t length)
{
    return length == asked->used && memcmp(reply, asked->reply, length) == 0;
}

/* The first request that waits has its reply. */
static void take_answered(struct drill *drill)
{
    drill->last = *asked_at(drill, 0);
    drill->answered++;
    drill->accepted += is_accepted(&drill->last);
    drill->old_replies += drill->ahead > 0;
    drill->ahead -= drill->ahead > 0;
    drill->first = (drill->first + 1) % WINDOW;
    drill->waiting--;
}

/* Takes a reply, if there is one; it is that of the request that has waited longest, or once more that
   of the one before, which was sent again until a reply came. */
static bool take_reply(struct drill *drill)
{
    uint8_t reply[PFCP_REPLY_SPACE];
    ssize_t length;

    /* The system first tells that nobody heard a request, then gives the replies from before that. */
    do
        length = recv(drill->socket, reply, sizeof reply, MSG_DONTWAIT);
    while (length < 0 && errno == ECONNREFUSED);
    if (length < 16)
        return false;
    if (is_reply_to(&drill->last, reply, (size_t)length))
        return true;
    if (drill->waiting == 0 || number_at(reply + 12, 3) != asked_at(drill, 0)->sequence)
        give_up("a reply came that nobody waits for");
    if (!is_reply_to(asked_at(drill, 0), reply, (size_t)length))
        give_up(drill->ahead > 0 ? "a request that is on the disk does not get its old reply"
                                 : "a reply is not the archive's: the unit's table is another one");
    take_answered(drill);
    return true;
}

/* A port that nobody has. */
static void find_port(struct drill *drill)
{
    struct sockaddr_in address = {.sin_family = AF_INET, .sin_addr = {htonl(INADDR_LOOPBACK)}};
    socklen_t length = sizeof address;
    int probe = socket(AF_INET, SOCK_DGRAM, 0);

    if (probe < 0 || bind(probe, (const struct sockaddr *)&address, sizeof address) != 0 ||
        getsockname(probe, (struct sockaddr *)&address, &length) != 0)
        give_up("no port");
    snprintf(drill->port, sizeof drill->port, "%u", (unsigned)ntohs(address.sin_port));
    close(probe);
}

static void start_unit(struct drill *drill)
{
    struct sockaddr_in address = {.sin_family = AF_INET,
                                  .sin_port = htons((uint16_t)atoi(drill->port)),
                                  .sin_addr = {htonl(INADDR_LOOPBACK)}};

    drill->socket = socket(AF_INET, SOCK_DGRAM | SOCK_CLOEXEC, 0);
    if (drill->socket < 0 ||
        connect(drill->socket, (const struct sockaddr *)&address, sizeof address) != 0)
        give_up("no socket");
    drill->pid = fork();
    if (drill->pid < 0)
        give_up("no process");
    if (drill->pid > 0)
        return;
    if (!freopen("/dev/null", "w", stdout) || !freopen("/dev/null", "w", stderr))
        _exit(127);
    execl(drill->unit, drill->unit, "--port", drill->port, "--table", drill->file, "--table-sync",
          drill->sync, "--pool", "100", "--peer", "127.0.0.1", (char *)NULL);
    _exit(127);
}

static bool has_ended(const struct drill *drill)
{
    siginfo_t ended = {.si_pid = 0};

    return waitid(P_PID, (id_t)drill->pid, &ended, WEXITED | WNOHANG | WNOWAIT) == 0 &&
           ended.si_pid != 0;
}

/* Sends the request that has waited longest, or a new one, until its reply comes, then the others that
   wait; gives false where the unit has ended before. The system tells at once where nobody listens yet,
   so each try has its pause. */
static bool wait_for_unit(struct drill *drill)
{
    time_t limit = time(NULL) + PATIENCE;
    unsigned long answered = drill->answered;

    if (drill->waiting == 0)
        ask(drill);
    while (drill->answered == answered) {
        if (time(NULL) >= limit)
            give_up("the unit does not answer");
        if (has_ended(drill))
            return false;
        send_request(drill, asked_at(drill, 0));
        usleep(1000);
        take_reply(drill);
    }
    for (size_t i = 0; i < drill->waiting; i++)
        send_request(drill, asked_at(drill, i));
    return true;
}

/* The file's inode, which is another one after each write; 0 where there is no file. */
static ino_t inode_of(const char *path)
{
    struct stat found;

    return stat(path, &found) == 0 ? found.st_ino : 0;
}

/* A kill just after the file was replaced comes, as a rule, before the reply is sent. */
static void *kill_unit(void *argument)
{
    const struct drill *drill = argument;

    usleep(drill->moment);
    ino_t before = inode_of(drill->file);
    time_t limit = time(NULL) + 2;
    while (drill->at_write && inode_of(drill->file) == before && time(NULL) < limit)
        ;
    kill(drill->pid, SIGKILL);
    return NULL;
}

/* Has as many requests waiting as there is room for, until the unit has ended or enough were asked. */
static void load(struct drill *drill, uint32_t most)
{
    while ((most > 0 || drill->waiting > 0) && !has_ended(drill)) {
        struct pollfd one = {.fd = drill->socket, .events = POLLIN};

        for (; drill->waiting < WINDOW && most > 0; most--)
            ask(drill);
        poll(&one, 1, 1);
        while (take_reply(drill))
            ;
    }
}

/* The table and both stores of the file, which must be whole. */
static const uint8_t *read_file(const struct drill *drill)
{
    static uint8_t octets[STORED_MOST];
    struct stored stored;
    char why[STORED_WHY];
    FILE *file = fopen(drill->file, "rb");
    size_t length = file ? fread(octets, 1, sizeof octets, file) : 0;

    if (!file || !stored_read(octets, length, &stored, why) || !stored.settings ||
        stored.table_length != drill->table_length || !stored.has_stores)
        give_up("the file is not there, or not whole");
    fclose(file);
    return stored.table;
}

/* What the unit has left: table and stores as answered, or after some requests more. */
static void compare(struct drill *drill)
{
    size_t length = kept_length(drill);
    size_t before = drill->ahead;

    while (take_reply(drill))
        before = drill->ahead;
    close(drill->socket);
    const uint8_t *found = read_file(drill);
    const uint8_t *kept = before > 0 ? asked_at(drill, before - 1)->kept : drill->last.kept;
    while (memcmp(found, kept, length) != 0) {
        if (drill->ahead == drill->waiting)
            give_up("the file is not what was answered");
        kept = asked_at(drill, drill->ahead)->kept;
        drill->left_accepted += is_accepted(asked_at(drill, drill->ahead));
        drill->ahead++;
    }
    drill->left += drill->ahead > before;
    drill->left_requests += drill->ahead - before;
    if (drill->ahead - before > drill->most_left)
        drill->most_left = drill->ahead - before;
}

/* One kill of five comes while the unit starts, the others while it serves, half of them at a write. */
static void run_round(struct drill *drill)
{
    bool early = draw(5) == 0;
    pthread_t killer;
    int status;

    drill->moment = early ? draw(4000) : draw(MOMENT * 1000);
    drill->at_write = !early && draw(2) == 0;
    start_unit(drill);
    if (!early && !wait_for_unit(drill))
        give_up("a unit does not start");
    if (pthread_create(&killer, NULL, kill_unit, drill) != 0)
        give_up("no thread");
    if (!early || wait_for_unit(drill)) {
        drill->served++;
        load(drill, UINT32_MAX);
    }
    pthread_join(killer, NULL);
    waitpid(drill->pid, &status, 0);
    if (!WIFSIGNALED(status) || WTERMSIG(status) != SIGKILL)
        give_up("the unit has ended by itself");
    compare(drill);
}

/* A unit that is ended in order, under load: nothing is ahead. */
static void run_in_order(struct drill *drill)
{
    unsigned long left = drill->left;
    int status;

    start_unit(drill);
    if (!wait_for_unit(drill))
        give_up("a unit does not start");
    load(drill, 100);
    while (drill->waiting < WINDOW)
        ask(drill);
    usleep(draw(4000));
    kill(drill->pid, SIGTERM);
    waitpid(drill->pid, &status, 0);
    compare(drill);
    if (!WIFEXITED(status) || WEXITSTATUS(status) != 0 || drill->left != left)
        give_up("SIGTERM does not end a unit in order");
}

/* What a unit with one control plane starts with: no session, and no request of either peer. */
static void make_kept(struct drill *drill)
{
    uint8_t *stores = drill->last.kept + pfcp_table_length(SESSIONS);

    drill->table_length = pfcp_table_length(SESSIONS);
    if (pfcp_make_table(drill->last.kept, drill->table_length, 0xC0000201, NULL, 0, 4096, 100,
                        0x64600001, 254, SESSIONS, 0xC0000201, 0, 100, 0, 0, 0) != 0 ||
        pfcp_make_store(stores, PFCP_STORE_LENGTH) != 0 ||
        pfcp_make_store(stores + PFCP_STORE_LENGTH, PFCP_STORE_LENGTH) != 0)
        give_up("no table");
}

int main(int argc, char **argv)
{
    static struct drill drill = {.sequence = FIRST_NUMBER};

    if (argc != 6)
        give_up("usage: drill UNIT FILE SYNC ROUNDS SEED");
    drill.unit = argv[1];
    drill.file = argv[2];
    drill.sync = argv[3];
    for (unsigned long seed = strtoul(argv[5], NULL, 10) % 100000; seed > 0; seed--)
        draw(1);
    find_port(&drill);
    make_kept(&drill);
    /* The first unit makes the file, and is not killed before. */
    run_in_order(&drill);
    unsigned long rounds = strtoul(argv[4], NULL, 10);
    for (unsigned long i = 0; i < rounds; i++)
        run_round(&drill);
    run_in_order(&drill);
    printf("kills: %lu, of them while it served: %lu; with requests ahead of the replies: %lu, at "
           "most %lu; requests ahead: %lu, of them accepted: %lu; then the old reply: %lu; "
           "replies: %lu, accepted: %lu\n",
           rounds, drill.served, drill.left, drill.most_left, drill.left_requests,
           drill.left_accepted, drill.old_replies, drill.answered, drill.accepted);
    return EXIT_SUCCESS;
}
