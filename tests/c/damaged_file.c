/*
 * Damages a stored table's file in every way and starts from it: damaged_file OPTIONS.., the unit's
 * options with --table FILE, whose sessions were stored with them. Every bit is flipped (of the stores
 * where an octet is not zero; of their empty room one bit of every seventh octet), the file is cut to
 * every length, made longer, and made one of other versions and of parts that do not fit, these two with
 * the right SHA-256. Each start must be refused with the line that says which, and leave FILE as it is.
 */
#define _DEFAULT_SOURCE /* ftruncate */

#include <fcntl.h>
#include <inttypes.h>
#include <nettle/sha2.h>
#include <stdio.h>
#include <stdlib.h>
#include <string.h>
#include <unistd.h>

#include "disk.h"
#include "stores.h"
#include "table.h"

static struct options options;
static struct disk disk;
static uint8_t file[STORED_MOST + 16]; /* FILE's octets as they were stored */
static size_t length;
static uint8_t room[STORED_MOST];
static int said; /* standard error */
static unsigned long passed;
static unsigned long failed;

static void give_up(const char *what)
{
    printf("damaged_file: %s\n0 passed, 1 failed\n", what);
    exit(EXIT_FAILURE);
}

static void write_file(const uint8_t *octets, size_t count)
{
    int to = open(options.table, O_WRONLY);

    if (to < 0 || ftruncate(to, (off_t)count) != 0 ||
        pwrite(to, octets, count, 0) != (ssize_t)count || close(to) != 0)
        give_up("the file cannot be written");
}

/* Writes one octet in its place. */
static void write_octet(size_t at, uint8_t octet)
{
    int to = open(options.table, O_WRONLY);

    if (to < 0 || pwrite(to, &octet, 1, (off_t)at) != 1 || close(to) != 0)
        give_up("the file cannot be written");
}

/* A start as the unit's; gives the line that it says, without its time and its end, or nothing where it
   succeeds. */
static const char *start(void)
{
    static char line[8192];
    uint8_t *kept = room + STORED_FRONT;

    if (ftruncate(said, 0) != 0 || lseek(said, 0, SEEK_SET) != 0)
        give_up("no file for standard error");
    memset(room, 0, sizeof room);
    stored_begin(room, &options);
    if (!table_make(kept, &options, options.session_limit))
        give_up("no table");
    stores_make(kept + pfcp_table_length(options.session_limit), &options);
    bool started = disk_start(&disk, &options, room);
    disk_stop(&disk);
    ssize_t got = pread(said, line, sizeof line - 1, 0);
    line[got > 0 ? got : 0] = '\0';
    line[strcspn(line, "\n")] = '\0';
    if (started && line[0] != '\0')
        give_up("a start that succeeds complains");
    const char *space = strchr(line, ' ');
    return space ? space + 1 : line;
}

static void expect(const char *what, size_t at, const char *wanted)
{
    char line[8192];
    const char *got = start();

    snprintf(line, sizeof line, "pfcp-unit: --table %s: %s", options.table, wanted);
    /* An ending of '..' stands for any. */
    size_t compared = strlen(line);
    if (compared >= 2 && strcmp(line + compared - 2, "..") == 0)
        compared -= 2;
    else
        compared++;
    if (strncmp(line, got, compared) == 0) {
        passed++;
        return;
    }
    if (failed++ < 20)
        printf("failed: %s %zu: '%s' and not '%s'\n", what, at, got[0] ? got : "it starts", line);
}

/* The line of a flipped bit. In the magic word it leaves a file of no form; in a length, one that seems
   to be cut or too long. */
static const char *line_at(size_t at)
{
    if (at < 8)
        return "..";
    if (at >= 12 && at < STORED_HEAD)
        return "..";
    return "damaged: its SHA-256 is not that of its octets";
}

/* Whether all bits of an octet are flipped; else one of every seventh is. */
static bool is_used(size_t at)
{
    size_t stores = STORED_FRONT + pfcp_table_length(options.session_limit);

    return at < stores || at >= length - STORED_DIGEST || file[at] != 0;
}

static void flip_bits(void)
{
    for (size_t at = 0; at < length; at++) {
        if (!is_used(at) && at % 7 != 0)
            continue;
        for (unsigned bit = 0; bit < (is_used(at) ? 8u : 1u); bit++) {
            write_octet(at, (uint8_t)(file[at] ^ 1u << bit));
            expect("a bit of octet", at, line_at(at));
        }
        write_octet(at, file[at]);
    }
}

static void cut(void)
{
    size_t step = length > 20000 ? 13 : 1;
    char line[128];

    for (size_t rest = length - 1;; rest -= rest > 2000 ? step : 1) {
        if (truncate(options.table, (off_t)rest) != 0)
            give_up("the file cannot be cut");
        if (rest == 0)
            snprintf(line, sizeof line, "0 octets long, which no table is");
        else if (rest < STORED_HEAD)
            snprintf(line, sizeof line, "cut: %zu octets, fewer than a head has", rest);
        else
            snprintf(line, sizeof line, "cut: %zu octets of %zu", rest, length);
        expect("cut to", rest, line);
        if (rest == 0)
            break;
    }
    for (size_t more = 1; more <= 16; more++) {
        write_file(file, length + more);
        snprintf(line, sizeof line, "longer than it says: %zu octets, not %zu", length + more,
                 length);
        expect("longer by", more, line);
    }
}

/* A number of the head is another one, and the SHA-256 is right. */
static void expect_number(size_t at, uint32_t number, const char *line)
{
    static uint8_t other[STORED_MOST];
    struct sha256_ctx context;

    memcpy(other, file, length);
    for (size_t i = 0; i < 4; i++)
        other[at + i] = (uint8_t)(number >> (24 - 8 * i));
    sha256_init(&context);
    sha256_update(&context, length - STORED_DIGEST, other);
    sha256_digest(&context, STORED_DIGEST, other + length - STORED_DIGEST);
    write_file(other, length);
    expect("a number of the head at", at, line);
}

static void change_head(void)
{
    static const uint32_t versions[] = {0, 2, 3, 256, 0x01000000, UINT32_MAX};
    char line[128];

    for (size_t i = 0; i < sizeof versions / sizeof versions[0]; i++) {
        snprintf(line, sizeof line, "of version %" PRIu32 " of the stored form, not 1",
                 versions[i]);
        expect_number(8, versions[i], line);
    }
    for (size_t at = 12; at < STORED_HEAD; at += 4) {
        expect_number(at, 1, "its parts do not fit together");
        expect_number(at, 604, "its parts do not fit together");
        expect_number(at, UINT32_MAX, "its parts do not fit together");
    }
}

static bool is_as_stored(void)
{
    static uint8_t found[STORED_MOST + 16];
    FILE *from = fopen(options.table, "rb");
    size_t got = from ? fread(found, 1, sizeof found, from) : 0;

    if (from)
        fclose(from);
    return got == length && memcmp(found, file, length) == 0;
}

int main(int argc, char **argv)
{
    if (!read_options(&options, argc, argv) || !options.table)
        return 2;
    FILE *from = fopen(options.table, "rb");
    length = from ? fread(file, 1, sizeof file - 16, from) : 0;
    if (!from || length != stored_room(&options) - STORED_REPLIES)
        give_up("no stored file of these options");
    fclose(from);
    FILE *errors = tmpfile();
    said = errors ? fileno(errors) : -1;
    if (said < 0 || dup2(said, 2) < 0)
        give_up("no file for standard error");
    if (start()[0] != '\0' || disk.restored == 0)
        give_up("the file as it is does not start");
    printf("sessions: %" PRIu32 ", octets: %zu\n", disk.restored, length);
    flip_bits();
    bool left = is_as_stored(); /* but for what was put there here */
    cut();
    change_head();
    write_file(file, length);
    left = left && start()[0] == '\0' && is_as_stored();
    passed += left;
    failed += !left;
    printf("%lu passed, %lu failed\n", passed, failed);
    return failed == 0 ? EXIT_SUCCESS : EXIT_FAILURE;
}
