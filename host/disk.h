/*
 * The table's file. It is on the disk before a reply is sent, and the unit starts from it. It holds
 * the table and both peers' stores of repeated requests, with --no-repeats the table alone, in the form
 * of stored.h, which tells whether it was damaged.
 *
 * It is written to FILE.new, which is then renamed, so FILE always has a whole table and its stores:
 * those before a request or those after it. FILE.lock is locked by the unit that keeps its table there.
 */
#ifndef DISK_H
#define DISK_H

#include <limits.h>
#include <stdbool.h>
#include <stddef.h>
#include <stdint.h>

#include "options.h"
#include "stored.h"

enum { TROUBLE_ROOM = PATH_MAX + 1024 };

struct disk {
    const char *path; /* FILE; NULL: the table is kept in memory only */
    bool sync;        /* wait until the disk has what is written */
    char beside[PATH_MAX];
    char locked[PATH_MAX];
    char folder[PATH_MAX];
    int lock;       /* -1: FILE.lock is not held */
    bool lock_made; /* FILE.lock was not there before */
    uint8_t *file;  /* what FILE is to have, in its form; the table and its stores ... */
    uint8_t *kept;  /* ... stand here in it */
    size_t length;  /* of the table and its stores */
    uint8_t before[STORED_MOST]; /* the file before a batch; at the start FILE's octets */
    size_t remembered;           /* so many of them */
    bool unsure;                 /* renamed, but the disk did not confirm it */
    bool failing;                /* the last write failed */
    char trouble[TROUBLE_ROOM];  /* why */
    int status;                  /* of status.h, where the start is refused */
    bool made;                   /* at the start there was no FILE */
    bool unfinished;             /* at the start there was a FILE.new */
    struct stored stored;        /* what FILE was at the start; its octets are not kept */
    uint32_t restored;           /* sessions that it had */
    bool rewritten;              /* it was of the form before, and has the form now */
};

/* Takes a file in the form of stored.h, in memory, whose table and stores are empty. Locks FILE and brings
   the sessions that are stored there into the table through their restoration requests; FILE's session
   limit may be another one than the table's. Takes the stores, where FILE has them, as they are. Writes
   the file where there is no FILE, or one of the form before whose limit and stores are the options'.
   Says on standard error what is wrong, leaves FILE as it is and gives false. */
bool disk_start(struct disk *disk, const struct options *options, uint8_t *file);
void disk_stop(struct disk *disk);

/* After a start that was refused: takes away the files that it made, FILE with its empty table and
   FILE.lock. What was there before stays. */
void disk_undo_start(struct disk *disk);

/* Before a batch of requests: remembers the file in memory. */
void disk_remember(struct disk *disk);

/* After it: whether something has to be written before any of it is answered. */
bool disk_has_changed(const struct disk *disk);

/* Writes the file. Where that fails it becomes in memory what it was, and false is given. */
bool disk_keep(struct disk *disk);

/* Makes the file in memory what it was. */
void disk_undo(struct disk *disk);

/* Forgets what was remembered. */
void disk_forget(struct disk *disk);

#endif
