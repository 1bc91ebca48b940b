#include "stored_unit.h"

#include <errno.h>
#include <stdio.h>
#include <string.h>

#include "counts.h"

/* One octet more than the longest file has, so that a longer one is seen. */
static uint8_t octets[STORED_MOST + 1];

static bool refuse(char *why, const char *words)
{
    snprintf(why, STORED_WHY, "%s", words);
    return false;
}

static bool read_file(const char *path, size_t *length, char *why)
{
    FILE *file = fopen(path, "rb");

    if (!file)
        return refuse(why, strerror(errno));
    *length = fread(octets, 1, sizeof octets, file);
    bool failed = ferror(file) != 0;
    int error = errno;
    fclose(file);
    if (failed)
        return refuse(why, strerror(error));
    return *length <= STORED_MOST || refuse(why, "longer than any table's file");
}

bool stored_unit_read(struct unit *unit, const char *path, char why[STORED_WHY])
{
    struct stored stored;
    size_t length;

    memset(unit, 0, sizeof *unit);
    if (!read_file(path, &length, why) || !stored_read(octets, length, &stored, why))
        return false;
    unit->table = octets + (stored.table - octets);
    unit->table_length = stored.table_length;
    return count_table(unit) || refuse(why, "not a sound table");
}
