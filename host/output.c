#include "output.h"

#include <errno.h>
#include <limits.h>
#include <poll.h>
#include <stdio.h>
#include <string.h>
#include <time.h>
#include <unistd.h>

#include "complaint.h"
#include "wipe.h"
#include "words.h"

static unsigned long count_lines(const char *text, size_t length)
{
    unsigned long lines = 0;

    for (size_t i = 0; i < length; i++)
        lines += text[i] == '\n';
    return lines;
}

static void complain(struct output *output, const char *what)
{
    struct text line = {.length = 0};
    char words[256];

    if (!output->complaints)
        return;
    snprintf(words, sizeof words, "%s: lines of output are dropped and counted", what);
    complaint_add(&line, LEVEL_WARNING, words);
    output_say(output->complaints, line.octets, line.length);
}

/* One write. A descriptor that somebody else made non-blocking is waited for. */
static ssize_t write_some(int fd, const char *text, size_t length)
{
    for (;;) {
        ssize_t written = write(fd, text, length);

        if (written > 0)
            return written;
        if (written < 0 && errno == EAGAIN) {
            struct pollfd one = {.fd = fd, .events = POLLOUT};

            poll(&one, 1, -1);
        } else if (written == 0 || errno != EINTR) {
            errno = written == 0 ? EIO : errno;
            return -1;
        }
    }
}

/* As many whole lines as go into a pipe in one piece, so that it is known which were written. */
static size_t piece_of(const char *text, size_t length)
{
    size_t piece = length < PIPE_BUF ? length : PIPE_BUF;

    for (size_t end = piece; end > 0; end--)
        if (text[end - 1] == '\n')
            return end;
    return piece;
}

/* Says how many lines are missing before those that are to be written, and ends a cut line. */
static bool write_gap(struct output *output, unsigned long dropped)
{
    char line[128];
    char time[TIME_ROOM];
    size_t length = 0;
    size_t written = 0;

    if (output->mid_line)
        line[length++] = '\n';
    if (dropped > 0)
        length += (size_t)snprintf(line + length, sizeof line - length,
                                   "%s lines of output dropped here: %lu\n",
                                   time_in_words(NULL, time, sizeof time), dropped);
    while (written < length) {
        ssize_t some = write_some(output->fd, line + written, length - written);

        if (some < 0)
            return false;
        written += (size_t)some;
        output->mid_line = line[written - 1] != '\n';
    }
    return true;
}

/* Writes the lines that it has taken; gives 0 or an error number. The lock is held at entry and at
   exit, and never while it writes. */
static int write_taken(struct output *output)
{
    struct lines *lines = output->writing;
    unsigned long dropped = lines->dropped_before;

    pthread_mutex_unlock(&output->lock);
    int error = write_gap(output, dropped) ? 0 : errno;
    pthread_mutex_lock(&output->lock);
    if (error == 0)
        lines->dropped_before = 0;
    while (error == 0 && lines->written < lines->length) {
        const char *text = lines->text + lines->written;
        size_t piece = piece_of(text, lines->length - lines->written);

        pthread_mutex_unlock(&output->lock);
        ssize_t some = write_some(output->fd, text, piece);
        error = some > 0 ? 0 : errno;
        pthread_mutex_lock(&output->lock);
        if (error == 0) {
            lines->written += (size_t)some;
            output->mid_line = text[some - 1] != '\n';
        }
    }
    return error;
}

/* What could not be written is missing before the lines that wait. */
static void drop_taken(struct output *output, int error)
{
    struct lines *lines = output->writing;
    unsigned long lost = count_lines(lines->text + lines->written, lines->length - lines->written);

    output->dropped += lost;
    output->waiting->dropped_before += lines->dropped_before + lost;
    if (!output->failing) {
        char what[160];

        snprintf(what, sizeof what, "the output cannot be written (%s)", strerror(error));
        complain(output, what);
    }
    output->failing = true;
}

static bool nothing_to_do(const struct output *output)
{
    const struct lines *lines = output->waiting;

    return lines->length == 0 && (lines->dropped_before == 0 || output->failing);
}

static void *write_lines(void *argument)
{
    struct output *output = argument;

    pthread_mutex_lock(&output->lock);
    for (;;) {
        while (nothing_to_do(output) && !output->ending)
            pthread_cond_wait(&output->changed, &output->lock);
        if (nothing_to_do(output))
            break;
        struct lines *taken = output->waiting;
        output->waiting = output->writing;
        output->writing = taken;
        output->waiting->length = 0;
        output->waiting->written = 0;
        output->waiting->dropped_before = output->dropped_after;
        output->dropped_after = 0;
        int error = write_taken(output);
        if (error == 0)
            output->failing = false;
        else
            drop_taken(output, error);
        wipe(taken->text, taken->length);
        taken->length = 0;
        taken->written = 0;
    }
    output->ended = true;
    pthread_cond_broadcast(&output->changed);
    pthread_mutex_unlock(&output->lock);
    return NULL;
}

int output_start(struct output *output, int fd, struct output *complaints)
{
    pthread_condattr_t monotonic;

    output->fd = fd;
    output->complaints = complaints;
    output->waiting = &output->rooms[0];
    output->writing = &output->rooms[1];
    pthread_mutex_init(&output->lock, NULL);
    pthread_condattr_init(&monotonic);
    pthread_condattr_setclock(&monotonic, CLOCK_MONOTONIC);
    pthread_cond_init(&output->changed, &monotonic);
    pthread_condattr_destroy(&monotonic);
    return pthread_create(&output->thread, NULL, write_lines, output);
}

void output_say(struct output *output, const char *lines, size_t length)
{
    bool first_dropped = false;

    pthread_mutex_lock(&output->lock);
    struct lines *waiting = output->waiting;
    if (output->dropped_after > 0 || length > sizeof waiting->text - waiting->length) {
        unsigned long count = count_lines(lines, length);

        first_dropped = output->dropped_after == 0;
        output->dropped_after += count;
        output->dropped += count;
    } else {
        memcpy(waiting->text + waiting->length, lines, length);
        waiting->length += length;
        pthread_cond_signal(&output->changed);
    }
    pthread_mutex_unlock(&output->lock);
    if (first_dropped)
        complain(output, "nobody reads the output");
}

unsigned long output_dropped(struct output *output)
{
    pthread_mutex_lock(&output->lock);
    unsigned long dropped = output->dropped;
    pthread_mutex_unlock(&output->lock);
    return dropped;
}

unsigned long output_end(struct output *output)
{
    struct timespec limit;

    clock_gettime(CLOCK_MONOTONIC, &limit);
    limit.tv_sec++;
    pthread_mutex_lock(&output->lock);
    output->ending = true;
    pthread_cond_broadcast(&output->changed);
    while (!output->ended &&
           pthread_cond_timedwait(&output->changed, &output->lock, &limit) != ETIMEDOUT)
        ;
    bool ended = output->ended;
    unsigned long missing = output->dropped;
    for (size_t i = 0; i < 2 && !ended; i++) {
        const struct lines *lines = &output->rooms[i];

        missing += count_lines(lines->text + lines->written, lines->length - lines->written);
    }
    pthread_mutex_unlock(&output->lock);
    if (ended)
        pthread_join(output->thread, NULL);
    return missing;
}
