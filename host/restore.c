/*
 * The program pfcp-restore. Its work on files is the proved program of crates/restore, which reads
 * the arguments and ends with the exit status; this file has the main function that goes before its
 * own. The proved program knows tables; where a file has the form of stored.h, what it is given to
 * read is the table in it, if that is whole. What goes over the network is in send.c.
 */
#define _GNU_SOURCE /* memfd_create */

#include <errno.h>
#include <fcntl.h>
#include <signal.h>
#include <stdarg.h>
#include <stdint.h>
#include <stdio.h>
#include <stdlib.h>
#include <string.h>
#include <sys/mman.h>
#include <sys/stat.h>
#include <unistd.h>

#include "pfcp_session.h"
#include "send.h"
#include "stored.h"

/* The proved program's main function; the linker has the C library start the second of these instead
   (--wrap=main). */
int __real_main(int argc, char **argv);
int __wrap_main(int argc, char **argv);

/* The C library's call that opens a file; the linker has the proved program call the second of these
   instead (--wrap=open). */
int __real_open(const char *path, int flags, ...);
int __wrap_open(const char *path, int flags, ...);

static const char use[] =
    "usage: pfcp-restore write TABLE FILE [IPV4] [IPV6]\n"
    "       pfcp-restore run FILE TABLE NEW\n"
    "       pfcp-restore send FILE ADDRESS [ADDRESS] [PORT]\n"
    "TABLE is a stored table with room for 64 sessions at most: a file of pfcp-unit --table,\n"
    "whose SHA-256 is looked at, or a table's octets alone.\n"
    "write: the restoration requests of a stored table, in its order, into FILE: each after\n"
    "       an octet with its peer, 1 or 2, and nothing else between.\n"
    "       IPV4 and IPV6 are the control plane's addresses, one or both.\n"
    "run:   the requests of FILE, each under its peer, on an empty table with the settings of\n"
    "       TABLE; the result into NEW, if all were accepted. It is said whether it is the\n"
    "       same as TABLE.\n"
    "send:  the requests of FILE to the unit on ADDRESS, each after the reply to the one\n"
    "       before, until one is not accepted. Where FILE has those of both peers there is an\n"
    "       address for each. PORT is 8805.\n"
    "  -V, --version   print the version\n"
    "  -h, --help      print this\n"
    "Exit status: 0; 1 where something is refused, and no file is changed; 2 for wrong\n"
    "arguments; 3 where run has written NEW and it differs from TABLE, or nobody answers what\n"
    "send has sent.\n";

/* A standard stream that is closed is taken by /dev/null, so that no file that is opened later gets
   its number and the lines that are meant for it. What is said there is refused. */
static void keep_streams(void)
{
    for (int fd = 0; fd <= 2; fd++)
        if (fcntl(fd, F_GETFD) < 0)
            __real_open("/dev/null", O_RDONLY);
}

/* Reads what a file has, up to the room. */
static size_t read_all(int file, uint8_t *room, size_t size)
{
    size_t length = 0;
    ssize_t got;

    while (length < size &&
           ((got = read(file, room + length, size - length)) > 0 || (got < 0 && errno == EINTR)))
        length += got > 0 ? (size_t)got : 0;
    return length;
}

/* A file in memory that has just the table of a stored one. */
static int open_table(const struct stored *stored)
{
    int table = memfd_create("table", MFD_CLOEXEC);

    if (table >= 0 &&
        write(table, stored->table, stored->table_length) == (ssize_t)stored->table_length &&
        lseek(table, 0, SEEK_SET) == 0)
        return table;
    if (table >= 0)
        close(table);
    return -1;
}

/* Tables are opened before anything is written, so a refusal here may end the program. What has not the
   form, a table alone for example, and what is no plain file is read as it is. */
static int open_to_read(const char *path, int flags)
{
    static uint8_t octets[STORED_MOST + 1];
    struct stored stored;
    struct stat found;
    char why[STORED_WHY];
    int file = __real_open(path, flags);

    if (file < 0 || fstat(file, &found) != 0 || !S_ISREG(found.st_mode))
        return file;
    size_t length = read_all(file, octets, sizeof octets);
    if (!stored_has_form(octets, length)) {
        lseek(file, 0, SEEK_SET);
        return file;
    }
    if (!stored_read(octets, length, &stored, why)) {
        fprintf(stderr, "pfcp-restore: %s: %s\n", path, why);
        exit(EXIT_FAILURE);
    }
    close(file);
    return open_table(&stored);
}

/* What is opened to be written, and is there to be replaced, is opened as it is. */
int __wrap_open(const char *path, int flags, ...)
{
    va_list rest;
    mode_t mode = 0;

    if ((flags & O_ACCMODE) == O_RDONLY)
        return open_to_read(path, flags);
    if (flags & O_CREAT) {
        va_start(rest, flags);
        mode = va_arg(rest, mode_t);
        va_end(rest);
    }
    return __real_open(path, flags, mode);
}

int __wrap_main(int argc, char **argv)
{
    keep_streams();
    /* A write that fails is told and undone, and does not end the program halfway. */
    signal(SIGPIPE, SIG_IGN);
    signal(SIGXFSZ, SIG_IGN);
    if (argc == 2 && (strcmp(argv[1], "--help") == 0 || strcmp(argv[1], "-h") == 0))
        return fputs(use, stdout) < 0 || fflush(stdout) != 0;
    if (argc == 2 && (strcmp(argv[1], "--version") == 0 || strcmp(argv[1], "-V") == 0))
        return puts("pfcp-restore " PFCP_VERSION) < 0 || fflush(stdout) != 0;
    if (argc >= 2 && strcmp(argv[1], "send") == 0)
        return send_requests(argc - 2, argv + 2);
    /* The proved program knows the words of files alone. */
    if (argc < 2 || (strcmp(argv[1], "write") != 0 && strcmp(argv[1], "run") != 0)) {
        fputs("usage: pfcp-restore write TABLE FILE [IPV4] [IPV6], pfcp-restore run FILE TABLE "
              "NEW, or pfcp-restore send FILE ADDRESS [ADDRESS] [PORT]\n",
              stderr);
        return 2;
    }
    return __real_main(argc, argv);
}
