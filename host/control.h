/*
 * The control socket: a Unix socket on which pfcp-list asks for the list of live sessions. It takes
 * one client at a time and never waits for it. The client writes one line and reads the answer:
 *
 *   WHAT FORM
 *
 * WHAT is "list", "session SEID", "teid TEID" or "address ADDRESS"; FORM is "text", "json", "summary" or,
 * with "list" alone, "prometheus". Between them "peer 1" or "peer 2" may stand: that peer's only.
 *
 * The answer is a line "ok" and the list, or a line that says what is wrong; a zero octet ends it. A line
 * that begins with "the unit" speaks of the question, any other of what was asked for.
 */
#ifndef CONTROL_H
#define CONTROL_H

#include <poll.h>
#include <stdbool.h>
#include <sys/un.h>
#include <time.h>

#include "listing.h"
#include "output.h"
#include "unit.h"

/* The longest question is "session 18446744073709551615 peer 1 summary". */
enum { QUESTION_ROOM = 64 };

/* The seconds that a client has for its question, and for the answer: a list of 256 sessions is given
   out in as many pieces, and where the disk is slow each of them waits for a message. */
enum { QUESTION_TIME = 2, ANSWER_TIME = 8 };

struct control {
    int status; /* of status.h, where it could not start */
    struct sockaddr_un address;
    int listener; /* -1: there is no control socket */
    int client;   /* -1: nobody is connected */
    time_t limit; /* when a client has had its time */
    char question[QUESTION_ROOM];
    size_t asked;
    bool answering;
    bool last; /* the piece is the last one */
    struct listing listing;
    struct text piece;
    size_t sent;
};

/* Binds the socket, if the options name a path, in place of one that nobody listens on any more; says on
   standard error what failed, keeps the exit status and gives false. */
bool control_start(struct control *control, const struct options *options);
void control_stop(struct control *control);

/* What to wait for, and for how many milliseconds at most (-1: any time). */
struct pollfd control_wait(const struct control *control, int *timeout);

/* Goes on by one step: takes a client, reads its question, or sends one piece of the answer. ready is
   what poll reported. */
void control_step(struct control *control, short ready, const struct unit *unit,
                  struct output *out);

#endif
