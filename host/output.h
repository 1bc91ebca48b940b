/*
 * Output that never holds up the one who says it. Lines wait in a room of fixed length, and a thread
 * of their own writes them: a reader that has stalled, a full disk or a closed pipe holds up that
 * thread and nobody else. Lines without room, and lines that cannot be written, are dropped and
 * counted. A line says so where they are missing, as soon as lines can be written again.
 */
#ifndef OUTPUT_H
#define OUTPUT_H

#include <pthread.h>
#include <stdbool.h>
#include <stddef.h>

/* More than twice what the longest list takes: 256 full sessions are 0.8 MiB of text. */
enum { OUTPUT_ROOM = 2 << 20 };

/* Lines, and how many were dropped before the first of them. */
struct lines {
    char text[OUTPUT_ROOM];
    size_t length;
    size_t written;
    unsigned long dropped_before;
};

struct output {
    int fd;
    struct output *complaints; /* where it is said at once that lines are dropped, or NULL */
    pthread_t thread;
    bool mid_line; /* the last line was cut by a failure; only the thread uses it */
    pthread_mutex_t lock;
    pthread_cond_t changed;
    /* Under the lock. The thread reads the text of the lines that it writes without it. */
    struct lines rooms[2];
    struct lines *waiting;
    struct lines *writing;
    unsigned long dropped_after; /* lines dropped after those that wait */
    unsigned long dropped;       /* all lines that were dropped */
    bool failing;                /* the last write failed */
    bool ending;
    bool ended;
};

/* Starts the thread; gives 0 or an error number. */
int output_start(struct output *output, int fd, struct output *complaints);

/* Says whole lines, or drops them all. */
void output_say(struct output *output, const char *lines, size_t length);

/* How many lines were dropped so far. */
unsigned long output_dropped(struct output *output);

/* Says nothing more: waits a second for what is not written yet, and gives the number of lines that
   were dropped or are still not written. */
unsigned long output_end(struct output *output);

#endif
