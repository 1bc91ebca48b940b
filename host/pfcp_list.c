/* Asks a running unit for its live sessions and counters, over its control socket (control.h), or lists
   the sessions of a stored table. */
#include <errno.h>
#include <inttypes.h>
#include <stdbool.h>
#include <stdio.h>
#include <stdlib.h>
#include <string.h>
#include <sys/socket.h>
#include <sys/time.h>
#include <sys/un.h>
#include <unistd.h>

#include "address.h"
#include "arguments.h"
#include "listing.h"
#include "number.h"
#include "paths.h"
#include "pfcp_session.h"
#include "stored_unit.h"
#include "words.h"

static const char help[] =
    "usage: pfcp-list [OPTION VALUE | OPTION=VALUE]..\n"
    "Prints the live sessions of a running pfcp-unit, what its peers have, and the counters.\n"
    "  --control PATH   the unit's control socket, as given to pfcp-unit --control (that of the\n"
    "                   service, " USUAL_CONTROL ")\n"
    "  --table FILE     the sessions of a stored table instead; no unit is asked\n"
    "  --peer NUMBER    those of one of the two control planes only, 1 or 2\n"
    "  --session SEID   that session only, or both peers' with this SEID, without counters\n"
    "  --teid TEID      the session that holds this TEID only\n"
    "  --address ADDRESS  the sessions that hold this patient's address only\n"
    "                   SEID and TEID are decimal, or after 0x hexadecimal\n"
    "  --summary        a line for each session\n"
    "  --json           as JSON\n"
    "  --prometheus     counters and gauges, in the text form of Prometheus\n"
    "  -V, --version    print the version\n"
    "  -h, --help       print this\n"
    "Exit status: 0; 1 where the session, TEID or address is not live or the unit has no such "
    "peer;\n"
    "2 for a bad option; 3 where nobody answers, or FILE is no stored table; 4 where the list\n"
    "cannot be written.\n";

enum { NOT_LIVE = 1, BAD_OPTION = 2, NOBODY_ANSWERS = 3, NOT_WRITTEN = 4 };

struct question {
    const char *control; /* NULL: the usual one */
    const char *table;   /* NULL: a unit is asked */
    struct wanted wanted;
    unsigned whats; /* how many of --session, --teid and --address there are, ... */
    unsigned forms; /* ... and of --summary, --json and --prometheus */
};

/* What the options ask for: a list, a text that was printed, or nothing good. */
enum asked { ASKED_LIST, ASKED_TEXT, ASKED_WRONG };

static const struct option known[] = {{"control", required_argument, NULL, 'c'},
                                      {"table", required_argument, NULL, 'f'},
                                      {"peer", required_argument, NULL, 'p'},
                                      {"session", required_argument, NULL, 's'},
                                      {"teid", required_argument, NULL, 't'},
                                      {"address", required_argument, NULL, 'a'},
                                      {"summary", no_argument, NULL, LIST_SUMMARY},
                                      {"json", no_argument, NULL, LIST_JSON},
                                      {"prometheus", no_argument, NULL, LIST_PROMETHEUS},
                                      {"version", no_argument, NULL, 'V'},
                                      {"help", no_argument, NULL, 'h'},
                                      {NULL, 0, NULL, 0}};

static bool refuse(const char *name, const char *value, const char *wanted)
{
    fprintf(stderr, "pfcp-list: --%s %s: %s\n", name, value, wanted);
    return false;
}

/* Which sessions are asked for. */
static bool take_what(struct question *question, int option, const char *value)
{
    struct wanted *wanted = &question->wanted;
    uint64_t number;

    question->whats++;
    if (option == 's')
        return read_any_number(value, 1, UINT64_MAX, &wanted->seid) ||
               refuse("session", value, "not a SEID from 1 to 18446744073709551615");
    if (option == 'a') {
        wanted->has_address = true;
        return address_number(value, &wanted->address) ||
               refuse("address", value, "not an IPv4 address");
    }
    if (!read_any_number(value, 1, UINT32_MAX, &number))
        return refuse("teid", value, "not a TEID from 1 to 4294967295");
    wanted->teid = (uint32_t)number;
    return true;
}

/* Takes an option; gives false where its value is none that it may have. */
static bool take_option(struct question *question, int option, const char *value)
{
    uint64_t peer;

    switch (option) {
    case 'c':
        question->control = value;
        return true;
    case 'f':
        question->table = value;
        return true;
    case 'p':
        if (!read_number(value, 1, PFCP_PEERS, &peer))
            return refuse("peer", value, "neither 1 nor 2");
        question->wanted.peer = (uint32_t)peer;
        return true;
    case LIST_SUMMARY:
    case LIST_JSON:
    case LIST_PROMETHEUS:
        question->wanted.form |= (unsigned)option;
        question->forms++;
        return true;
    default:
        return take_what(question, option, value);
    }
}

/* Whether the options go together. */
static bool is_possible(const struct question *question)
{
    const char *wrong = NULL;

    if (question->whats > 1)
        wrong = "--session, --teid and --address do not go together";
    else if (question->forms > 1)
        wrong = "--summary, --json and --prometheus do not go together";
    else if (question->wanted.form & LIST_PROMETHEUS && question->whats > 0)
        wrong = "--prometheus is of the whole unit";
    else if (question->table && question->control)
        wrong = "--table and --control do not go together";
    else if (question->table && question->wanted.form & LIST_PROMETHEUS)
        wrong = "--prometheus is of a running unit, not of a stored table";
    if (wrong)
        fprintf(stderr, "pfcp-list: %s\n", wrong);
    return wrong == NULL;
}

static enum asked print_text(const char *text)
{
    fputs(text, stdout);
    return ASKED_TEXT;
}

static enum asked read_question(struct question *question, int argc, char **argv)
{
    char wrong[WRONG_ROOM];
    int index;
    int found;

    while ((found = next_option(argc, argv, known, &index, wrong)) != -1) {
        if (found == 'h')
            return print_text(help);
        if (found == 'V')
            return print_text("pfcp-list " PFCP_VERSION "\n");
        if (found == '?') {
            fprintf(stderr, "pfcp-list: %s\n", wrong);
            return ASKED_WRONG;
        }
        if (!take_option(question, found, optarg))
            return ASKED_WRONG;
    }
    if (!is_possible(question))
        return ASKED_WRONG;
    question->wanted.form |= LIST_COUNTERS;
    return ASKED_LIST;
}

static bool complain(const struct question *question, const char *what)
{
    fprintf(stderr, "pfcp-list: %s: %s\n", question->table ? question->table : question->control,
            what);
    return false;
}

/* What is not live, in words, where one is asked for. */
static void complain_absence(const struct wanted *wanted, const char *words, int length)
{
    char room[INET6_ADDRSTRLEN];

    if (wanted->seid != 0)
        fprintf(stderr, "pfcp-list: session %" PRIu64 ": ", wanted->seid);
    else if (wanted->teid != 0)
        fprintf(stderr, "pfcp-list: TEID %" PRIu32 ": ", wanted->teid);
    else if (wanted->has_address)
        fprintf(stderr,
                "pfcp-list: address %s: ", ipv4_in_words(wanted->address, room, sizeof room));
    else
        fputs("pfcp-list: ", stderr);
    fprintf(stderr, "%.*s\n", length, words);
}

/* The question in words, as control.h has them; gives its length. */
static size_t write_question(const struct wanted *wanted, char *line, size_t size)
{
    char room[INET6_ADDRSTRLEN];
    int length;

    if (wanted->seid != 0)
        length = snprintf(line, size, "session %" PRIu64, wanted->seid);
    else if (wanted->teid != 0)
        length = snprintf(line, size, "teid %" PRIu32, wanted->teid);
    else if (wanted->has_address)
        length =
            snprintf(line, size, "address %s", ipv4_in_words(wanted->address, room, sizeof room));
    else
        length = snprintf(line, size, "list");
    if (wanted->peer > 0)
        length += snprintf(line + length, size - (size_t)length, " peer %" PRIu32, wanted->peer);
    length += snprintf(line + length, size - (size_t)length, " %s\n",
                       wanted->form & LIST_JSON         ? "json"
                       : wanted->form & LIST_SUMMARY    ? "summary"
                       : wanted->form & LIST_PROMETHEUS ? "prometheus"
                                                        : "text");
    return (size_t)length;
}

/* Connects and asks; gives -1 where that fails. */
static int ask(const struct question *question)
{
    struct sockaddr_un address = {.sun_family = AF_UNIX};
    struct timeval limit = {.tv_sec = 10};
    char line[64];
    size_t length = write_question(&question->wanted, line, sizeof line);

    if (strlen(question->control) >= sizeof address.sun_path) {
        complain(question, "too long for a socket's path");
        return -1;
    }
    strcpy(address.sun_path, question->control);
    int unit = socket(AF_UNIX, SOCK_STREAM, 0);
    if (unit >= 0 && setsockopt(unit, SOL_SOCKET, SO_RCVTIMEO, &limit, sizeof limit) == 0 &&
        setsockopt(unit, SOL_SOCKET, SO_SNDTIMEO, &limit, sizeof limit) == 0 &&
        connect(unit, (const struct sockaddr *)&address, sizeof address) == 0 &&
        send(unit, line, length, MSG_NOSIGNAL) == (ssize_t)length)
        return unit;
    complain(question, errno == EAGAIN ? "the unit does not answer" : strerror(errno));
    if (unit >= 0)
        close(unit);
    return -1;
}

/* Reads the whole answer before any of it is printed, so that a slow reader of the list does not
   hold up the unit; gives NULL where it does not come to its end. */
static char *read_answer(const struct question *question, int unit)
{
    size_t room = 0;
    size_t length = 0;
    char *answer = NULL;

    do {
        if (length == room) {
            room = room == 0 ? 65536 : 2 * room;
            char *larger = realloc(answer, room);

            if (!larger) {
                complain(question, "no memory for the answer");
                break;
            }
            answer = larger;
        }
        ssize_t got = recv(unit, answer + length, room - length, 0);
        if (got <= 0) {
            complain(question,
                     length > 0 ? "the answer was cut short" : "the unit does not answer");
            break;
        }
        length += (size_t)got;
        if (answer[length - 1] == '\0')
            return answer;
    } while (true);
    free(answer);
    return NULL;
}

/* Gives the exit status. */
static int end_of_list(void)
{
    if (fflush(stdout) == 0 && !ferror(stdout))
        return EXIT_SUCCESS;
    fprintf(stderr, "pfcp-list: the list could not be written: %s\n", strerror(errno));
    return NOT_WRITTEN;
}

/* The first line of the answer is "ok", or says what is wrong; gives the exit status. */
static int print_answer(const struct question *question, const char *answer)
{
    static const char unknown[] = "the unit does not know this question";

    if (strncmp(answer, "ok\n", 3) == 0) {
        fputs(answer + 3, stdout);
        return end_of_list();
    }
    if (strncmp(answer, unknown, strlen(unknown)) == 0) {
        complain(question, "the unit is of another version, and does not know this question");
        return NOBODY_ANSWERS;
    }
    complain_absence(&question->wanted, answer, (int)strcspn(answer, "\n"));
    return NOT_LIVE;
}

/* The list of a running unit; gives the exit status. */
static int list_unit(const struct question *question)
{
    int unit = ask(question);

    if (unit < 0)
        return NOBODY_ANSWERS;
    char *answer = read_answer(question, unit);
    int status = answer ? print_answer(question, answer) : NOBODY_ANSWERS;
    free(answer);
    close(unit);
    return status;
}

/* The list of a stored table; gives the exit status. */
static int list_table(const struct question *question)
{
    static struct unit unit;
    static struct listing listing;
    static struct text piece;
    char why[STORED_WHY];

    if (!stored_unit_read(&unit, question->table, why)) {
        complain(question, why);
        return NOBODY_ANSWERS;
    }
    if (!listing_start(&listing, &unit, &question->wanted, 0)) {
        const char *words = "not in this table";

        complain_absence(&question->wanted, words, (int)strlen(words));
        return NOT_LIVE;
    }
    while (listing_next(&listing, &piece)) {
        fwrite(piece.octets, 1, piece.length, stdout);
        piece.length = 0;
    }
    return end_of_list();
}

int main(int argc, char **argv)
{
    struct question question = {.control = NULL};
    enum asked asked = read_question(&question, argc, argv);

    if (asked != ASKED_LIST)
        return asked == ASKED_TEXT ? EXIT_SUCCESS : BAD_OPTION;
    if (question.table)
        return list_table(&question);
    if (!question.control)
        question.control = USUAL_CONTROL;
    return list_unit(&question);
}
