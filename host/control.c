#define _GNU_SOURCE /* accept4 */

#include "control.h"

#include <errno.h>
#include <stdio.h>
#include <string.h>
#include <sys/socket.h>
#include <sys/stat.h>
#include <unistd.h>

#include "complaint.h"
#include "number.h"
#include "status.h"
#include "wipe.h"

static bool refuse(struct control *control, const char *path, int status, const char *what)
{
    complaint("--control %s: %s", path, what);
    control->status = status;
    return false;
}

/* The same of a call of the system. */
static bool refuse_by(struct control *control, const char *path, int error)
{
    return refuse(control, path, status_of(error), strerror(error));
}

/* Removes a socket that nobody listens on; what is not a socket, or is in use, stays. */
static bool make_way(struct control *control)
{
    const struct sockaddr_un *address = &control->address;
    const char *path = address->sun_path;
    struct stat found;
    bool used;

    if (lstat(path, &found) != 0)
        return errno == ENOENT || refuse_by(control, path, errno);
    if (!S_ISSOCK(found.st_mode))
        return refuse(control, path, STATUS_REFUSED, "is there and is not a socket");
    int probe = socket(AF_UNIX, SOCK_STREAM | SOCK_CLOEXEC | SOCK_NONBLOCK, 0);
    if (probe < 0)
        return refuse_by(control, path, errno);
    used = connect(probe, (const struct sockaddr *)address, sizeof *address) == 0 ||
           errno != ECONNREFUSED;
    close(probe);
    if (used)
        return refuse(control, path, STATUS_PASSING, "another unit listens there");
    return unlink(path) == 0 || refuse_by(control, path, errno);
}

/* A group that may ask too. Nobody could before the socket is its. */
static bool admit_group(const struct options *options)
{
    return !options->has_control_group ||
           (chown(options->control, (uid_t)-1, options->control_group) == 0 &&
            chmod(options->control, 0660) == 0);
}

bool control_start(struct control *control, const struct options *options)
{
    const char *path = options->control;

    memset(control, 0, sizeof *control);
    control->listener = -1;
    control->client = -1;
    if (!path)
        return true;
    control->address.sun_family = AF_UNIX;
    if (path[0] == '\0' || strlen(path) >= sizeof control->address.sun_path)
        return refuse(control, path, STATUS_REFUSED, "not a path of 1 to 107 octets");
    strcpy(control->address.sun_path, path);
    if (!make_way(control))
        return false;
    int listener = socket(AF_UNIX, SOCK_STREAM | SOCK_CLOEXEC | SOCK_NONBLOCK, 0);
    /* Only the unit's own user may ask, and the group that is named. */
    mode_t before = umask(0177);
    bool bound = listener >= 0 && bind(listener, (const struct sockaddr *)&control->address,
                                       sizeof control->address) == 0;
    int error = errno;
    umask(before);
    if (bound && admit_group(options) && listen(listener, 8) == 0) {
        control->listener = listener;
        return true;
    }
    error = bound ? errno : error;
    if (bound)
        unlink(path);
    if (listener >= 0)
        close(listener);
    return refuse_by(control, path, error);
}

/* What the client asked and was told is not kept. */
static void drop_client(struct control *control)
{
    close(control->client);
    control->client = -1;
    wipe(control->question, sizeof control->question);
    wipe(&control->piece, sizeof control->piece);
    wipe(&control->listing, sizeof control->listing);
}

void control_stop(struct control *control)
{
    if (control->client >= 0)
        drop_client(control);
    if (control->listener >= 0) {
        unlink(control->address.sun_path);
        close(control->listener);
        control->listener = -1;
    }
}

static time_t seconds(void)
{
    struct timespec now;

    clock_gettime(CLOCK_MONOTONIC, &now);
    return now.tv_sec;
}

struct pollfd control_wait(const struct control *control, int *timeout)
{
    *timeout = control->client >= 0 ? 1000 : -1;
    if (control->client < 0)
        return (struct pollfd){.fd = control->listener, .events = POLLIN};
    return (struct pollfd){.fd = control->client, .events = control->answering ? POLLOUT : POLLIN};
}

static void take_client(struct control *control)
{
    control->client = accept4(control->listener, NULL, NULL, SOCK_CLOEXEC | SOCK_NONBLOCK);
    control->limit = seconds() + QUESTION_TIME;
    control->asked = 0;
    control->answering = false;
}

/* Cuts a question's ending off, if it has it. */
static bool cut(char *question, const char *ending)
{
    size_t length = strlen(question);
    size_t cut = strlen(ending);

    if (length < cut || strcmp(question + length - cut, ending) != 0)
        return false;
    question[length - cut] = '\0';
    return true;
}

/* The form is the last word. */
static bool understand_form(char *question, struct wanted *wanted)
{
    if (cut(question, " json"))
        wanted->form = LIST_JSON;
    else if (cut(question, " summary"))
        wanted->form = LIST_SUMMARY;
    else if (cut(question, " prometheus"))
        wanted->form = LIST_PROMETHEUS;
    else if (!cut(question, " text"))
        return false;
    wanted->form |= LIST_COUNTERS;
    return true;
}

/* Takes a question apart; gives false where it is none. */
static bool understand(char *question, struct wanted *wanted)
{
    uint64_t teid;

    memset(wanted, 0, sizeof *wanted);
    if (!understand_form(question, wanted))
        return false;
    if (cut(question, " peer 1"))
        wanted->peer = 1;
    else if (cut(question, " peer 2"))
        wanted->peer = 2;
    if (strcmp(question, "list") == 0)
        return true;
    if (wanted->form & LIST_PROMETHEUS)
        return false;
    if (strncmp(question, "session ", 8) == 0)
        return read_number(question + 8, 1, UINT64_MAX, &wanted->seid);
    if (strncmp(question, "teid ", 5) == 0 && read_number(question + 5, 1, UINT32_MAX, &teid)) {
        wanted->teid = (uint32_t)teid;
        return true;
    }
    wanted->has_address = strncmp(question, "address ", 8) == 0;
    return wanted->has_address && address_number(question + 8, &wanted->address);
}

/* What is not live. */
static const char *absence(const struct wanted *wanted)
{
    if (wanted->seid != 0)
        return "this session is not live";
    return wanted->teid != 0 ? "no session holds this TEID" : "no session holds this address";
}

/* Starts the answer: its first line, and the list that follows. */
static void answer(struct control *control, const struct unit *unit, struct output *out)
{
    const char *wrong = NULL;
    struct wanted wanted;

    if (!understand(control->question, &wanted))
        wrong = "the unit does not know this question";
    else if (wanted.peer > unit->options->peer_count)
        wrong = "the unit has one control plane, peer 1";
    else if (!listing_start(&control->listing, unit, &wanted, output_dropped(out)))
        wrong = absence(&wanted);
    control->answering = true;
    control->limit = seconds() + ANSWER_TIME;
    control->last = wrong != NULL;
    control->sent = 0;
    control->piece.length = 0;
    text_add(&control->piece, "%s\n", wrong ? wrong : "ok");
}

static void read_question(struct control *control, const struct unit *unit, struct output *out)
{
    char *room = control->question + control->asked;
    ssize_t got = read(control->client, room, sizeof control->question - control->asked);
    char *end = got > 0 ? memchr(room, '\n', (size_t)got) : NULL;

    if (got < 0 && (errno == EAGAIN || errno == EINTR))
        return;
    if (got <= 0) {
        drop_client(control);
        return;
    }
    control->asked += (size_t)got;
    if (end) {
        *end = '\0';
        answer(control, unit, out);
    } else if (control->asked == sizeof control->question) {
        control->question[0] = '\0';
        answer(control, unit, out);
    }
}

/* Sends what is left of a piece, or makes the next one. The zero octet is the last piece's end. */
static void send_piece(struct control *control)
{
    struct text *piece = &control->piece;
    size_t length = piece->length + (control->last ? 1 : 0);

    piece->octets[piece->length] = '\0';
    ssize_t sent =
        send(control->client, piece->octets + control->sent, length - control->sent, MSG_NOSIGNAL);
    if (sent < 0 && (errno == EAGAIN || errno == EINTR))
        return;
    if (sent < 0) {
        drop_client(control);
        return;
    }
    control->sent += (size_t)sent;
    if (control->sent < length)
        return;
    if (control->last) {
        drop_client(control);
        return;
    }
    piece->length = 0;
    control->sent = 0;
    control->last = !listing_next(&control->listing, piece);
}

void control_step(struct control *control, short ready, const struct unit *unit, struct output *out)
{
    if (control->client >= 0 && seconds() > control->limit)
        drop_client(control);
    else if (ready == 0)
        return;
    else if (control->client < 0)
        take_client(control);
    else if (control->answering)
        send_piece(control);
    else
        read_question(control, unit, out);
}
