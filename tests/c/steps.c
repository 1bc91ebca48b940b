/*
 * Loaded before the C library (LD_PRELOAD), it sees the unit's steps on the way from a request to its
 * reply: the file's write, the synchronising of a file or a folder, the renaming, the sending.
 *
 *   STEPS_LOG=FILE  a line for each step
 *   STEPS_KILL=N    the process is killed before step N; a write is done by half
 *   STEPS_FAIL=N    step N fails with EIO; a write is done by half
 */
#define _GNU_SOURCE

#include <dlfcn.h>
#include <errno.h>
#include <fcntl.h>
#include <signal.h>
#include <stdbool.h>
#include <stdio.h>
#include <stdlib.h>
#include <string.h>
#include <sys/socket.h>
#include <sys/stat.h>
#include <unistd.h>

#include "stored.h"

/* The least length of the file: a table with the unit's usual session limit of 128, and both peers' stores
   of repeats, in their form (docs/layout.md). */
enum { FILE_LENGTH = STORED_FRONT + 65 + 128 * 604 + STORES_ROOM + STORED_DIGEST };

static int steps;

static int number_of(const char *name)
{
    const char *text = getenv(name);

    return text ? atoi(text) : 0;
}

static void log_step(const char *name)
{
    const char *path = getenv("STEPS_LOG");
    int file = path ? open(path, O_WRONLY | O_CREAT | O_APPEND, 0600) : -1;

    if (file < 0)
        return;
    dprintf(file, "%s\n", name);
    close(file);
}

/* Counts a step; gives whether it is to fail. */
static bool fails(const char *name)
{
    steps++;
    log_step(name);
    if (steps == number_of("STEPS_KILL"))
        kill(getpid(), SIGKILL);
    errno = EIO;
    return steps == number_of("STEPS_FAIL");
}

/* Whether the next step is the one that is killed or fails. */
static bool is_marked(void)
{
    return steps + 1 == number_of("STEPS_KILL") || steps + 1 == number_of("STEPS_FAIL");
}

static bool is_folder(int file)
{
    struct stat found;

    return fstat(file, &found) == 0 && S_ISDIR(found.st_mode);
}

/* Only the file is written in one piece of this length and more. */
ssize_t write(int file, const void *octets, size_t length)
{
    ssize_t (*next)(int, const void *, size_t);

    *(void **)&next = dlsym(RTLD_NEXT, "write");
    if (length < FILE_LENGTH)
        return next(file, octets, length);
    if (is_marked() && next(file, octets, length / 2) < 0)
        return -1;
    return fails("write") ? -1 : next(file, octets, length);
}

int fsync(int file)
{
    int (*next)(int);

    *(void **)&next = dlsym(RTLD_NEXT, "fsync");
    return fails(is_folder(file) ? "sync folder" : "sync file") ? -1 : next(file);
}

int rename(const char *from, const char *to)
{
    int (*next)(const char *, const char *);

    *(void **)&next = dlsym(RTLD_NEXT, "rename");
    return fails("rename") ? -1 : next(from, to);
}

ssize_t sendmsg(int socket, const struct msghdr *message, int flags)
{
    ssize_t (*next)(int, const struct msghdr *, int);

    *(void **)&next = dlsym(RTLD_NEXT, "sendmsg");
    return fails("send") ? -1 : next(socket, message, flags);
}
