/* Prints the list of a stored table's sessions as the unit does, without counters: list_table TABLE
   text|json [SEID [PEER]]. A SEID of 0 stands for all sessions, a peer 0 for both. */
#include <inttypes.h>
#include <stdio.h>
#include <stdlib.h>
#include <string.h>

#include "counts.h"
#include "listing.h"
#include "message.h"
#include "unit.h"

static struct options options;
static uint8_t table[PFCP_LONGEST_TABLE];
static struct unit unit;
static struct listing listing;
static struct text piece;

/* The pools' sizes stand in the settings (docs/layout.md). */
static bool read_unit(const char *path)
{
    FILE *file = fopen(path, "rb");
    bool whole;

    if (!file)
        return false;
    unit.table = table;
    unit.table_length = fread(table, 1, sizeof table, file);
    whole = getc(file) == EOF;
    fclose(file);
    options.pool_size = (uint32_t)number_at(table + 25, 4);
    options.address_count = (uint32_t)number_at(table + 33, 4);
    unit.options = &options;
    return whole && count_table(&unit);
}

int main(int argc, char **argv)
{
    struct wanted wanted = {.seid = 0};

    if (argc < 3 || argc > 5 || !read_unit(argv[1])) {
        fputs("usage: list_table TABLE text|json [SEID [PEER]], with a sound table\n", stderr);
        return 2;
    }
    wanted.form = strcmp(argv[2], "json") == 0 ? LIST_JSON : 0;
    wanted.seid = argc > 3 ? strtoull(argv[3], NULL, 10) : 0;
    wanted.peer = argc > 4 ? (uint32_t)strtoul(argv[4], NULL, 10) : 0;
    if (!listing_start(&listing, &unit, &wanted, 0))
        return 1;
    while (listing_next(&listing, &piece)) {
        fwrite(piece.octets, 1, piece.length, stdout);
        piece.length = 0;
    }
    return fflush(stdout) == 0 ? 0 : 1;
}
