/*
 * Looks for octets in the whole memory of a process: remains PID NAME=OCTETS.., the octets in hexadecimal.
 * Every mapping that can be read is. Prints where they were found; exit status 0 where they were not, 1
 * where they were, 2 where the memory cannot be read.
 */
#define _DEFAULT_SOURCE /* memmem */
#define _GNU_SOURCE

#include <fcntl.h>
#include <inttypes.h>
#include <stdio.h>
#include <stdlib.h>
#include <string.h>
#include <unistd.h>

enum { MOST = 32, PIECE = 1 << 20 };

/* What is looked for. */
struct wanted {
    const char *name;
    uint8_t octets[MOST];
    size_t length;
};

static struct wanted wanted[64];
static size_t wanted_count;
static unsigned long found;
static unsigned long long looked_at;

static void give_up(const char *what)
{
    fprintf(stderr, "remains: %s\n", what);
    exit(2);
}

static void read_wanted(struct wanted *one, char *word)
{
    char *hex = strchr(word, '=');

    if (!hex)
        give_up("usage: remains PID NAME=OCTETS..");
    *hex++ = '\0';
    one->name = word;
    for (; hex[0] && hex[1] && one->length < MOST; hex += 2) {
        char digits[3] = {hex[0], hex[1], '\0'};

        one->octets[one->length++] = (uint8_t)strtoul(digits, NULL, 16);
    }
    if (one->length < 4)
        give_up("under four octets are found by chance");
}

static void look_at(const uint8_t *octets, size_t length, unsigned long long start,
                    const char *name)
{
    for (size_t i = 0; i < wanted_count; i++) {
        const uint8_t *from = octets;
        const uint8_t *at;

        while ((at = memmem(from, length - (size_t)(from - octets), wanted[i].octets,
                            wanted[i].length))) {
            printf("%s at %llx in %s", wanted[i].name, start + (unsigned long long)(at - octets),
                   name);
            found++;
            from = at + 1;
        }
    }
}

/* The last octets of a piece are looked at again with the next one. */
static void read_mapping(int memory, unsigned long long start, unsigned long long end,
                         const char *name)
{
    static uint8_t room[PIECE + MOST];
    size_t kept = 0;

    while (start < end) {
        size_t size = end - start < PIECE ? (size_t)(end - start) : PIECE;
        ssize_t got = pread(memory, room + kept, size, (off_t)start);

        if (got <= 0)
            return;
        look_at(room, kept + (size_t)got, start - kept, name);
        looked_at += (unsigned long long)got;
        start += (unsigned long long)got;
        size_t all = kept + (size_t)got;
        kept = all < MOST - 1 ? all : MOST - 1;
        memmove(room, room + all - kept, kept);
    }
}

int main(int argc, char **argv)
{
    char path[64];
    char line[4096];

    for (int i = 2; i < argc && wanted_count < 64; i++)
        read_wanted(&wanted[wanted_count++], argv[i]);
    if (wanted_count == 0)
        give_up("usage: remains PID NAME=OCTETS..");
    snprintf(path, sizeof path, "/proc/%s/mem", argv[1]);
    int memory = open(path, O_RDONLY);
    snprintf(path, sizeof path, "/proc/%s/maps", argv[1]);
    FILE *maps = fopen(path, "r");
    if (memory < 0 || !maps)
        give_up("the memory cannot be read");
    while (fgets(line, sizeof line, maps)) {
        unsigned long long start;
        unsigned long long end;
        char readable;

        if (sscanf(line, "%llx-%llx %c", &start, &end, &readable) == 3 && readable == 'r' &&
            !strstr(line, "[vvar") && !strstr(line, "[vsyscall]"))
            read_mapping(memory, start, end, line);
    }
    if (looked_at < 1 << 20)
        give_up("hardly any memory could be read");
    return found > 0;
}
