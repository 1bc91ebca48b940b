#define _DEFAULT_SOURCE /* flock */

#include "disk.h"

#include <errno.h>
#include <fcntl.h>
#include <inttypes.h>
#include <stdio.h>
#include <string.h>
#include <sys/file.h>
#include <sys/stat.h>
#include <unistd.h>

#include "complaint.h"
#include "status.h"
#include "table.h"
#include "wipe.h"

/* Keeps in words what failed, and gives false. */
static bool fail(struct disk *disk, const char *path, const char *why)
{
    snprintf(disk->trouble, sizeof disk->trouble, "%s: %s", path, why);
    return false;
}

/* The same of a call of the system, whose error number tells whether this may pass by itself. */
static bool fail_by(struct disk *disk, const char *path, int error)
{
    disk->status = status_of(error);
    return fail(disk, path, strerror(error));
}

static bool join(char *room, const char *path, size_t length, const char *ending)
{
    int joined = snprintf(room, PATH_MAX, "%.*s%s", (int)length, path, ending);

    return joined > 0 && joined < PATH_MAX;
}

/* The folder is what stands before the last slash. */
static bool name_files(struct disk *disk)
{
    size_t length = strlen(disk->path);
    const char *slash = strrchr(disk->path, '/');
    bool fits = length < PATH_MAX && join(disk->beside, disk->path, length, ".new") &&
                join(disk->locked, disk->path, length, ".lock");

    if (length == 0 || disk->path[length - 1] == '/')
        return fail(disk, disk->path, "not the name of a file");
    if (!fits)
        return fail(disk, "FILE", "the name is too long");
    if (!slash)
        return join(disk->folder, ".", 1, "");
    return join(disk->folder, disk->path, slash == disk->path ? 1 : (size_t)(slash - disk->path),
                "");
}

/* Whether FILE.lock is still the file that was locked: it may have been removed. */
static bool holds_lock(const struct disk *disk)
{
    struct stat held;
    struct stat named;

    return disk->lock >= 0 && fstat(disk->lock, &held) == 0 && lstat(disk->locked, &named) == 0 &&
           held.st_dev == named.st_dev && held.st_ino == named.st_ino;
}

/* Opens FILE.lock and tells whether it was made. Some file systems lock only what may be written. */
static int open_lock(const char *path, bool *made)
{
    const int flags = O_RDWR | O_NOFOLLOW | O_NONBLOCK | O_CLOEXEC;
    int lock = open(path, flags | O_CREAT | O_EXCL, 0600);

    *made = lock >= 0;
    return *made || errno != EEXIST ? lock : open(path, flags | O_CREAT, 0600);
}

/* The lock goes with the process, however it ends. The file stays: whoever removed it could remove
   one that another unit has just locked. */
static bool take_lock(struct disk *disk)
{
    const char *why;
    int error = 0;

    if (holds_lock(disk))
        return true;
    disk_stop(disk);
    disk->lock = open_lock(disk->locked, &disk->lock_made);
    if (disk->lock < 0) {
        error = errno;
        why = strerror(error);
    } else if (flock(disk->lock, LOCK_EX | LOCK_NB) != 0) {
        error = errno;
        why = error == EWOULDBLOCK ? "another unit keeps its table there" : strerror(error);
    } else if (!holds_lock(disk)) {
        error = EWOULDBLOCK;
        why = "taken away while it was being locked";
    } else {
        return true;
    }
    disk_stop(disk);
    disk->status = status_of(error);
    return fail(disk, disk->locked, why);
}

void disk_stop(struct disk *disk)
{
    if (disk->lock >= 0)
        close(disk->lock);
    disk->lock = -1;
}

/* The lock is held, so no other unit has the file; one that has just opened it sees that it has gone
   (holds_lock). */
void disk_undo_start(struct disk *disk)
{
    if (!holds_lock(disk))
        return;
    if (disk->made)
        unlink(disk->path);
    if (disk->lock_made)
        unlink(disk->locked);
    disk_stop(disk);
}

static bool write_octets(int file, const uint8_t *octets, size_t length)
{
    while (length > 0) {
        ssize_t written = write(file, octets, length);

        if (written < 0 && errno == EINTR)
            continue;
        if (written <= 0) {
            errno = written == 0 ? EIO : errno;
            return false;
        }
        octets += written;
        length -= (size_t)written;
    }
    return true;
}

/* Writes FILE.new, for the unit's user only, in the place of one that a crash has left. */
static bool write_beside(const struct disk *disk, size_t length)
{
    unlink(disk->beside);
    int file = open(disk->beside, O_WRONLY | O_CREAT | O_EXCL | O_CLOEXEC, 0600);

    if (file < 0)
        return false;
    bool written = fchmod(file, 0600) == 0 && write_octets(file, disk->file, length) &&
                   (!disk->sync || fsync(file) == 0);
    int error = errno;
    if (close(file) != 0 && written) {
        error = errno;
        written = false;
    }
    if (!written)
        unlink(disk->beside);
    errno = error;
    return written;
}

/* Waits until the disk has what a file or folder holds. */
static bool sync_path(const char *path)
{
    int file = open(path, O_RDONLY | O_CLOEXEC);
    bool synced = file >= 0 && fsync(file) == 0;
    int error = errno;

    if (file >= 0)
        close(file);
    errno = error;
    return synced;
}

static bool write_file(struct disk *disk)
{
    if (!take_lock(disk))
        return false;
    if (!write_beside(disk, stored_seal(disk->file)))
        return fail_by(disk, disk->beside, errno);
    if (rename(disk->beside, disk->path) != 0) {
        fail_by(disk, disk->path, errno);
        unlink(disk->beside);
        return false;
    }
    disk->unsure = disk->sync;
    if (disk->sync && !sync_path(disk->folder))
        return fail_by(disk, disk->folder, errno);
    disk->unsure = false;
    return true;
}

void disk_remember(struct disk *disk)
{
    if (!disk->path)
        return;
    disk->remembered = stored_sealed_at(disk->file);
    memcpy(disk->before, disk->file, disk->remembered);
}

/* As long as it is not sure what the disk has, nothing is answered before a write succeeds. */
bool disk_has_changed(const struct disk *disk)
{
    return disk->path &&
           (disk->unsure || memcmp(disk->before + STORED_FRONT, disk->kept, disk->length) != 0);
}

/* What the file owed more than before is not left behind its end. */
void disk_undo(struct disk *disk)
{
    if (!disk->path)
        return;
    stored_owe_nothing(disk->file);
    memcpy(disk->file, disk->before, disk->remembered);
}

void disk_forget(struct disk *disk)
{
    wipe(disk->before, disk->remembered);
    disk->remembered = 0;
}

bool disk_keep(struct disk *disk)
{
    disk->failing = !write_file(disk);
    if (disk->failing)
        disk_undo(disk);
    return !disk->failing;
}

/* Reads FILE, which is there and of this length, into the room. */
static bool read_octets(struct disk *disk, uint8_t *room, size_t length)
{
    int file = open(disk->path, O_RDONLY | O_NOFOLLOW | O_NONBLOCK | O_CLOEXEC);

    if (file < 0)
        return fail(disk, disk->path, strerror(errno));
    ssize_t got = read(file, room, length);
    int error = errno;
    close(file);
    return got == (ssize_t)length ||
           fail(disk, disk->path, got < 0 ? strerror(error) : "not read to its end");
}

/* Refuses FILE, whose octets are no table, and says it where they may be one of the old layout. */
static bool refuse_form(struct disk *disk, size_t length, const char *why)
{
    if (!stored_has_form(disk->before, length) && stored_is_old(length))
        why = "of the layout before two control planes; its sessions can be brought over "
              "(docs/operators.md)";
    return fail(disk, disk->path, why);
}

/* Reads FILE where it is a plain file of one of the forms. */
static bool read_file(struct disk *disk, const struct stat *found)
{
    size_t length = (size_t)found->st_size;
    char why[STORED_WHY];

    if (!S_ISREG(found->st_mode))
        return fail(disk, disk->path, "not a plain file");
    if (length > sizeof disk->before) {
        snprintf(why, sizeof why, "%zu octets long, which no table is", length);
        return refuse_form(disk, length, why);
    }
    return read_octets(disk, disk->before, length) &&
           (stored_read(disk->before, length, &disk->stored, why) ||
            refuse_form(disk, length, why));
}

/* Whether a stored table, which is sound, has the options' settings but for its session limit. With the
   same settings its requests make its very octets; with others they do not. */
static bool has_settings(const struct options *options, const struct stored *stored)
{
    static uint8_t again[PFCP_LONGEST_TABLE];
    size_t length = stored->table_length;
    bool same = table_make(again, options, stored->limit) &&
                table_restore(stored->table, length, again, length) &&
                memcmp(stored->table, again, length) == 0;

    wipe(again, sizeof again);
    return same;
}

/* Refuses FILE, which was made with other settings; where it tells them, the line says which. */
static bool refuse_settings(struct disk *disk, const struct options *options)
{
    struct text which = {.length = 0};
    char why[TROUBLE_ROOM - PATH_MAX];

    stored_differences(&which, &disk->stored, options);
    snprintf(why, sizeof why, "made with other settings than the options say%s%.*s",
             which.length > 0 ? ": " : "", (int)which.length, which.octets);
    return fail(disk, disk->path, why);
}

/* Whether there is room for the sessions that a peer has in the table that was read. */
static bool has_room(struct disk *disk, const struct options *options, uint32_t peer)
{
    uint32_t sessions;
    uint32_t teids;
    char why[96];

    pfcp_peer_count(disk->stored.table, disk->stored.table_length, peer, &sessions, &teids);
    if (sessions <= sessions_of_peer(options))
        return true;
    snprintf(why, sizeof why,
             "has %" PRIu32 " sessions of peer %" PRIu32 ", more than half of --sessions %" PRIu32,
             sessions, peer, options->session_limit);
    return fail(disk, disk->path, why);
}

/* Brings the sessions of the table that was read into one that is empty. */
static bool restore(struct disk *disk, const struct options *options, size_t length)
{
    const struct stored *stored = &disk->stored;

    if (pfcp_session_count(stored->table, stored->table_length, &disk->restored) != PFCP_FOUND)
        return refuse_form(disk, length, "not a sound table");
    if (!has_settings(options, stored))
        return refuse_settings(disk, options);
    for (uint32_t peer = 1; peer <= PFCP_PEERS; peer++)
        if (!has_room(disk, options, peer))
            return false;
    return table_restore(stored->table, stored->table_length, disk->kept,
                         pfcp_table_length(options->session_limit)) ||
           fail(disk, disk->path, "its sessions cannot be restored");
}

/* A sound table with a broken store gets outcome 1, before the message is looked at. */
static bool is_sound(uint8_t *table, size_t length, uint32_t peer, uint8_t *store)
{
    uint8_t reply[PFCP_REPLY_SPACE];
    size_t used;
    size_t place;

    return pfcp_request_once(table, length, peer, store, PFCP_STORE_LENGTH, NULL, 0, reply,
                             sizeof reply, &used, &place) != PFCP_BROKEN_TABLE;
}

/* Takes the stores that were read, and the replies that are owed, where the options ask for them. Where
   there are none they stay empty. */
static bool take_stores(struct disk *disk, const struct options *options)
{
    size_t length = pfcp_table_length(options->session_limit);
    uint8_t *stores = disk->kept + length;
    static const size_t none[PFCP_PEERS];
    char why[96];

    if (!disk->stored.has_stores || !options->repeats)
        return true;
    memcpy(stores, disk->stored.stores, STORES_ROOM);
    stored_owe_all(disk->file, disk->stored.replies, disk->stored.replies_length, none);
    for (uint32_t peer = 1; peer <= PFCP_PEERS; peer++)
        if (!is_sound(disk->kept, length, peer, stores_at(stores, peer))) {
            snprintf(why, sizeof why,
                     "the store of repeats of peer %" PRIu32 " is broken (--no-repeats leaves it "
                     "out)",
                     peer);
            return fail(disk, disk->path, why);
        }
    return true;
}

/* A file of the form before is written anew at once, unless that would take the stores out of it or give
   it another session limit: this is left to the next change, as ever. Where the disk does not take it the
   unit starts all the same. */
static void rewrite(struct disk *disk, const struct options *options)
{
    if (disk->stored.settings || disk->stored.limit != options->session_limit ||
        (disk->stored.has_stores && !options->repeats))
        return;
    disk->rewritten = write_file(disk);
    disk->failing = !disk->rewritten;
}

/* The file may be of a unit that was killed between the renaming and the disk: so the disk is waited
   for here, before anything is answered. */
static bool read_stored(struct disk *disk, const struct options *options)
{
    struct stat found;

    if (lstat(disk->path, &found) != 0) {
        disk->made = errno == ENOENT;
        return disk->made ? write_file(disk) : fail(disk, disk->path, strerror(errno));
    }
    if (!read_file(disk, &found) || !restore(disk, options, (size_t)found.st_size) ||
        !take_stores(disk, options))
        return false;
    if (disk->sync && !(sync_path(disk->path) && sync_path(disk->folder)))
        return fail(disk, disk->path, strerror(errno));
    rewrite(disk, options);
    return true;
}

bool disk_start(struct disk *disk, const struct options *options, uint8_t *file)
{
    struct stat found;

    memset(disk, 0, sizeof *disk);
    disk->lock = -1;
    disk->status = STATUS_REFUSED;
    disk->path = options->table;
    disk->sync = options->table_sync;
    disk->file = file;
    disk->kept = file + STORED_FRONT;
    disk->length = pfcp_table_length(options->session_limit) + stores_length(options);
    if (!disk->path)
        return true;
    bool usable = name_files(disk) && take_lock(disk);
    disk->unfinished = usable && lstat(disk->beside, &found) == 0;
    bool started = usable && read_stored(disk, options);
    wipe(disk->before, sizeof disk->before);
    if (started)
        return true;
    complaint("--table %s", disk->trouble);
    return false;
}
