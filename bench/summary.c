/*
 * Sums up what several processes of bench printed: summary [PICTURE] <LINES. Medians, lowest and
 * highest of each row; with PICTURE also that file. The last line is 'ratio X.XX': of a request's
 * median ratios on the tables with the most live sessions, the worst.
 */
#include <errno.h>
#include <inttypes.h>
#include <stdlib.h>
#include <string.h>

#include "picture.h"
#include "samples.h"

/* What a table of figures says above its rows, and its columns. */
struct heading {
    const char *what;
    const char *text;
    const char *measured;
    const char *other;
};

static const struct heading headings[] = {
    {"request", "a request of the cycle", "archive", "ordinary"},
    {"check", "the check alone (free count)", "archive", "ordinary"},
    {"eight", "the check alone, over eight different tables in turn", "archive", "ordinary"},
    {"kind", "a request by its kind, each timed by itself", "archive", "ordinary"},
    {"pass", "one check of a full table, and plain passes over its octets", "check", "pass"},
    {"longest", "requests of the greatest length, and one check of their table", "request",
     "check"},
    {"store", "requests through a full store of repeated ones, and requests without one", "with",
     "without"},
};

static void print_spread(struct spread s, int width)
{
    char text[64];

    snprintf(text, sizeof text, "%.2f (%.2f to %.2f)", s.median, s.lowest, s.highest);
    printf("  %-*s", width, text);
}

static void print_rows(const struct samples *samples, const struct heading *heading)
{
    int headed = 0;

    for (size_t i = 0; i < samples->rows; i++) {
        const struct row *row = &samples->row[i];

        if (strcmp(row->what, heading->what) != 0)
            continue;
        if (!headed) {
            printf("== %s, microseconds: median (lowest to highest) of %zu processes\n",
                   heading->text, row->count);
            printf("%-28s %-10s  %-25s  %-25s  %s\n", "", "live", heading->measured, heading->other,
                   "ratio");
            headed = 1;
        }
        printf("%-28s %3zu of %3zu", row->name, row->live, row->limit);
        print_spread(spread_of(row->measured, row->count), 25);
        print_spread(spread_of(row->other, row->count), 25);
        print_spread(ratio_of(row), 0);
        putchar('\n');
    }
}

/* The worst median ratio of a request, where the most sessions live. */
static double worst_ratio(const struct samples *samples)
{
    size_t most = 0;
    double worst = 0;

    for (size_t i = 0; i < samples->rows; i++) {
        const struct row *row = &samples->row[i];

        if (strcmp(row->what, "request") != 0 || row->live < most)
            continue;
        double ratio = ratio_of(row).median;
        worst = row->live > most || ratio > worst ? ratio : worst;
        most = row->live;
    }
    return worst;
}

static int save_picture(const struct samples *samples, const char *path)
{
    FILE *out = fopen(path, "w");

    if (out)
        write_picture(samples, out);
    if (!out || fclose(out) != 0) {
        fprintf(stderr, "summary: %s cannot be written: %s\n", path, strerror(errno));
        return 0;
    }
    return 1;
}

int main(int argc, char **argv)
{
    static struct samples samples;

    if (argc > 2) {
        fputs("usage: summary [PICTURE] <LINES\n", stderr);
        return 2;
    }
    read_samples(&samples, stdin);
    double worst = worst_ratio(&samples);
    if (worst <= 0) {
        fputs("summary: there is no line 'request'\n", stderr);
        return 2;
    }
    for (size_t k = 0; k < sizeof headings / sizeof headings[0]; k++)
        print_rows(&samples, &headings[k]);
    if (argc == 2 && !save_picture(&samples, argv[1]))
        return EXIT_FAILURE;
    printf("octets of replies and tables compared: %" PRIu64 "\n", samples.compared);
    printf("ratio %.2f\n", worst);
    return EXIT_SUCCESS;
}
