/* Serves messages, signals and the control socket in turn, and says what happens. */
#include "service.h"

#include <errno.h>
#include <inttypes.h>
#include <poll.h>
#include <signal.h>
#include <stdio.h>
#include <stdlib.h>
#include <string.h>
#include <sys/prctl.h>
#include <sys/signalfd.h>
#include <unistd.h>

#include "complaint.h"
#include "control.h"
#include "datagrams.h"
#include "listing.h"
#include "output.h"
#include "unit.h"
#include "wipe.h"
#include "words.h"

struct service {
    struct unit unit;
    struct control control;
    struct output out;
    struct output complaints;
    struct listing listing;
    int signals;
    bool disk_failing;                /* it was said that the table cannot be kept on the disk */
    time_t stranger_said[PFCP_PEERS]; /* the second in which a stranger was last spoken of */
    const char *end;                  /* why it ends, or NULL */
    int status;
};

/* Signals are read between messages. Those that only output brings are ignored: it says itself that
   it fails. */
static int open_signals(void)
{
    static const int ignored[] = {SIGPIPE, SIGXFSZ, SIGTTOU};
    static const int awaited[] = {SIGINT, SIGTERM, SIGHUP, SIGUSR1};
    struct sigaction ignore;
    sigset_t set;

    memset(&ignore, 0, sizeof ignore);
    ignore.sa_handler = SIG_IGN;
    for (size_t i = 0; i < sizeof ignored / sizeof ignored[0]; i++)
        sigaction(ignored[i], &ignore, NULL);
    sigemptyset(&set);
    for (size_t i = 0; i < sizeof awaited / sizeof awaited[0]; i++)
        sigaddset(&set, awaited[i]);
    sigprocmask(SIG_BLOCK, &set, NULL);
    return signalfd(-1, &set, SFD_NONBLOCK | SFD_CLOEXEC);
}

/* A line with the time before it. */
static void say(struct service *service, const char *words)
{
    struct text text = {.length = 0};
    char time[TIME_ROOM];

    text_add(&text, "%s %s\n", time_in_words(NULL, time, sizeof time), words);
    output_say(&service->out, text.octets, text.length);
}

/* A line on standard error. */
static void tell(struct service *service, enum level level, const char *words)
{
    struct text text = {.length = 0};

    complaint_add(&text, level, words);
    output_say(&service->complaints, text.octets, text.length);
}

static void warn(struct service *service, const char *words)
{
    tell(service, LEVEL_WARNING, words);
}

static void say_sessions(struct service *service)
{
    static const struct wanted all = {.form = LIST_COUNTERS};
    struct text text = {.length = 0};

    say(service, "live sessions and counters");
    listing_start(&service->listing, &service->unit, &all, output_dropped(&service->out));
    while (listing_next(&service->listing, &text)) {
        output_say(&service->out, text.octets, text.length);
        text.length = 0;
    }
    wipe(&service->listing, sizeof service->listing);
}

static void take_signal(struct service *service)
{
    struct signalfd_siginfo signal;

    if (read(service->signals, &signal, sizeof signal) != sizeof signal)
        return;
    switch (signal.ssi_signo) {
    case SIGUSR1:
        say_sessions(service);
        break;
    case SIGHUP:
        say(service, "SIGHUP: serving goes on");
        break;
    default:
        service->end = signal.ssi_signo == SIGINT ? "SIGINT" : "SIGTERM";
    }
}

/* At most one line a second speaks of a peer's strangers, so that they cannot fill the output. */
static void say_stranger(struct service *service, const struct served *served)
{
    time_t *said = &service->stranger_said[served->peer - 1];
    char sender[ADDRESS_ROOM];
    char words[ADDRESS_ROOM + 64];

    if (served->time.tv_sec == *said)
        return;
    *said = served->time.tv_sec;
    snprintf(words, sizeof words, "%s is not peer %" PRIu32 "; datagrams from others: %lu",
             address_text(&served->sender, sender, sizeof sender), served->peer,
             service->unit.counters[served->peer - 1].strangers);
    say(service, words);
}

/* Says when the table cannot be kept on the disk any more, and when it can be again. */
static void say_disk(struct service *service)
{
    const struct unit *unit = &service->unit;
    char words[TROUBLE_ROOM + 160];

    if (unit->disk.failing == service->disk_failing)
        return;
    service->disk_failing = unit->disk.failing;
    if (unit->disk.failing)
        snprintf(words, sizeof words,
                 "the table cannot be kept on the disk (%s): what cannot be kept is undone and not "
                 "answered",
                 unit->disk.trouble);
    else
        snprintf(words, sizeof words, "the table is kept on the disk again; requests undone: %lu",
                 unit_undone(unit));
    tell(service, unit->disk.failing ? LEVEL_ERROR : LEVEL_WARNING, words);
}

/* What each session released that a set deletion took. */
static void say_released(struct service *service, const struct served *served)
{
    struct grant grants[MOST_GRANTS];
    struct text line;

    for (size_t i = 0; i < served->removed_count; i++) {
        size_t count = unit_released(&service->unit, served, served->removed[i], grants);

        line.length = 0;
        released_line(&line, served, served->removed[i], grants, count);
        output_say(&service->out, line.octets, line.length);
    }
}

/* The line of a message, and those of the sessions that it took. With --quiet only a broken table's. */
static void say_served(struct service *service, const struct served *served)
{
    struct text line = {.length = 0};

    if (service->unit.options->quiet && served->outcome != PFCP_BROKEN_TABLE)
        return;
    served_line(&line, served);
    output_say(&service->out, line.octets, line.length);
    if (served->is_set && service->unit.options->grants)
        say_released(service, served);
}

/* Has the batch on the disk and answered, and says what became of its messages. */
static void settle(struct service *service)
{
    const struct batch *batch = service->unit.batch;

    unit_settle(&service->unit);
    for (size_t i = 0; i < batch->count; i++)
        say_served(service, &batch->held[i].served);
    say_disk(service);
    if (batch->broken) {
        service->end = "a broken table";
        service->status = EXIT_FAILURE;
    }
    unit_forget(&service->unit);
}

/* Serves what waits, of both peers in turn. Where the table is kept on a disk, which may be slow, all of
   it goes there in one write, and then it is answered; else each message at once. */
static void serve_batch(struct service *service)
{
    struct unit *unit = &service->unit;
    const struct served *served;
    uint32_t peer = 1;
    size_t idle = 0; /* peers of whom nothing waits, one after the other */

    for (int i = 0; i < BATCH && idle < PFCP_PEERS && !service->end; peer = PFCP_PEERS + 1 - peer) {
        enum turn turn = unit_take(unit, peer, &served);

        idle = turn == TURN_NOTHING ? idle + 1 : 0;
        i += turn != TURN_NOTHING;
        if (turn == TURN_STRANGER)
            say_stranger(service, served);
        else if (turn == TURN_BROKEN || turn == TURN_LAST ||
                 (turn == TURN_TAKEN && !unit->disk.path))
            settle(service);
    }
    settle(service);
}

/* What is waited for: signals, the control socket, then the peers' sockets. */
enum { SIGNALS, CONTROL, FIRST_PEER, ALL_WAITS = FIRST_PEER + PFCP_PEERS };

static void serve(struct service *service)
{
    while (!service->end) {
        int timeout;
        struct pollfd waits[ALL_WAITS] = {{.fd = service->signals, .events = POLLIN},
                                          control_wait(&service->control, &timeout)};

        for (size_t i = 0; i < PFCP_PEERS; i++)
            waits[FIRST_PEER + i] =
                (struct pollfd){.fd = service->unit.sockets[i], .events = POLLIN};
        if (poll(waits, ALL_WAITS, timeout) < 0 && errno != EINTR) {
            warn(service, strerror(errno));
            service->end = "a failure of poll";
            service->status = EXIT_FAILURE;
            return;
        }
        if (waits[SIGNALS].revents)
            take_signal(service);
        if ((waits[FIRST_PEER].revents || waits[FIRST_PEER + 1].revents) && !service->end)
            serve_batch(service);
        control_step(&service->control, waits[CONTROL].revents, &service->unit, &service->out);
        wipe_stack();
    }
}

/* Whether the file is of the form before, which nobody can check, and when it has the form. */
static void say_form(struct service *service)
{
    const struct disk *disk = &service->unit.disk;
    char words[PATH_MAX + 192];

    if (disk->made || disk->stored.settings)
        return;
    snprintf(
        words, sizeof words,
        "%s was of the form before, without a SHA-256: nothing tells whether it was damaged; %s",
        disk->path,
        disk->rewritten ? "it is written anew with one" : "from the next change on it has one");
    say(service, words);
}

/* Whether the file lacks the stores of repeats, or has some that are not used. */
static void say_stores(struct service *service)
{
    const struct disk *disk = &service->unit.disk;
    bool has_stores = disk->stored.has_stores;
    char words[PATH_MAX + 128];

    if (disk->made || has_stores == service->unit.options->repeats)
        return;
    snprintf(words, sizeof words,
             has_stores ? "the stores of repeats in %s are not used; from the next change on "
                          "they are not there"
                        : "%s lacks the stores of repeats: a repeat from before is taken for "
                          "a new request",
             disk->path);
    say(service, words);
}

/* Where the table comes from. */
static void say_table(struct service *service)
{
    const struct disk *disk = &service->unit.disk;
    uint32_t limit = service->unit.options->session_limit;
    char words[PATH_MAX + 192];

    if (!disk->path)
        return;
    if (disk->unfinished) {
        snprintf(words, sizeof words, "%s is of a write that did not end, and is not used",
                 disk->beside);
        say(service, words);
    }
    if (disk->made)
        snprintf(words, sizeof words, "the table is kept in %s, which was not there", disk->path);
    else
        snprintf(words, sizeof words,
                 "the table is kept in %s; sessions restored from it: %" PRIu32, disk->path,
                 disk->restored);
    say(service, words);
    say_form(service);
    if (!disk->made && disk->stored.limit != limit) {
        snprintf(words, sizeof words,
                 "%s has a session limit of %" PRIu32
                 "; from the next change on it has one of %" PRIu32,
                 disk->path, disk->stored.limit, limit);
        say(service, words);
    }
    say_stores(service);
    say_disk(service);
    if (!disk->sync)
        warn(service, "warning: --table-sync no: after a power failure the table's file may lack "
                      "what was answered, or be broken");
}

/* A peer has one store of repeats, so all who ask as this peer should count as one. */
static void say_senders(struct service *service, uint32_t peer)
{
    const struct options *options = service->unit.options;
    size_t count = options->peers[peer - 1].from_count;
    char option[8] = "--peer";
    char words[160];

    if (options->peer_count > 1)
        snprintf(option, sizeof option, "--from%" PRIu32, peer);
    if (count == 0)
        snprintf(words, sizeof words,
                 "warning: no %s is given, so requests from any address are answered%s", option,
                 options->repeats ? ", as those of one control plane" : "");
    else if (count > 1 && options->repeats)
        snprintf(words, sizeof words,
                 "warning: %s names %zu addresses, which share one row of sequence numbers", option,
                 count);
    else
        return;
    warn(service, words);
}

/* What a peer has, and may have. A single one has half of the session limit too. */
static void say_peer(struct service *service, uint32_t peer)
{
    const struct options *options = service->unit.options;
    const struct peer *of = &options->peers[peer - 1];
    const struct holding *has = &service->unit.holdings[peer - 1];
    char listen[ADDRESS_ROOM];
    char words[256];

    snprintf(
        words, sizeof words,
        "peer %" PRIu32 " on %s, sessions %" PRIu32 " of %" PRIu32 " (half of --sessions %" PRIu32
        "), TEIDs %" PRIu32 ", guaranteed %" PRIu32 ", at most %" PRIu32,
        peer, address_text(&of->listen, listen, sizeof listen), has->sessions,
        sessions_of_peer(options), options->session_limit, has->teids, of->guarantee, of->limit);
    say(service, words);
}

static void say_start(struct service *service)
{
    const struct options *options = service->unit.options;
    size_t buffer = service->unit.receive_buffer;
    char words[256];

    say_table(service);
    for (uint32_t peer = 1; peer <= options->peer_count; peer++)
        say_peer(service, peer);
    snprintf(words, sizeof words,
             "serving PFCP session requests, live sessions %" PRIu32 ", free TEIDs %" PRIu32
             " of %" PRIu32 ", free addresses %" PRIu32 " of %" PRIu32,
             service->unit.live_sessions, service->unit.free_teids, options->pool_size,
             service->unit.free_addresses, options->address_count);
    say(service, words);
    if (!options->repeats)
        say(service, "repeated requests are not looked for (--no-repeats)");
    for (uint32_t peer = 1; peer <= options->peer_count; peer++)
        say_senders(service, peer);
    if (buffer < WANTED_BUFFER) {
        snprintf(words, sizeof words,
                 "warning: the receive buffer has %zu octets, not %d (net.core.rmem_max)", buffer,
                 WANTED_BUFFER);
        warn(service, words);
    }
}

static void end_output(struct service *service)
{
    unsigned long dropped = output_end(&service->out);
    char words[64];

    if (dropped > 0) {
        snprintf(words, sizeof words, "lines of output dropped: %lu", dropped);
        warn(service, words);
    }
    output_end(&service->complaints);
}

static void say_end(struct service *service)
{
    char words[128];

    snprintf(words, sizeof words,
             "stopped by %s; requests answered: %lu, messages without a reply: %lu", service->end,
             unit_answered(&service->unit), unit_unanswered(&service->unit));
    say(service, words);
    end_output(service);
}

/* The threads inherit the signals that are blocked. */
static bool start_output(struct service *service)
{
    int error = output_start(&service->complaints, 2, NULL);

    if (error == 0)
        error = output_start(&service->out, 1, &service->complaints);
    if (error != 0)
        complaint("no threads: %s", strerror(error));
    return error == 0;
}

/* The ports are bound last: whoever finds the unit there finds the control socket too, and signals do
   what they should. */
int run_service(const struct options *options)
{
    static struct service room;
    struct service *service = &room;

    /* No core file, and no other process of this user, has what is in memory. */
    prctl(PR_SET_DUMPABLE, 0);
    service->signals = open_signals();
    if (service->signals < 0) {
        complaint("no signals: %s", strerror(errno));
        return EXIT_FAILURE;
    }
    if (!control_start(&service->control, options))
        return service->control.status;
    service->status = EXIT_FAILURE;
    /* A thread takes over the registers of the one that makes it, and may put them on its stack: so the
       threads come before the table. */
    bool heard = start_output(service);
    bool bound = heard && unit_start(&service->unit, options);
    if (bound) {
        service->status = EXIT_SUCCESS;
        say_start(service);
        wipe_stack();
        serve(service);
    }
    control_stop(&service->control);
    if (heard)
        unit_stop(&service->unit);
    if (bound)
        say_end(service);
    else if (heard)
        end_output(service);
    return bound || !heard ? service->status : service->unit.status;
}
