#include "samples.h"

#include <inttypes.h>
#include <stdlib.h>
#include <string.h>

#include "measure.h"

static void refuse(const char *line)
{
    fprintf(stderr, "summary: not a line of bench, or one too many: %s\n", line);
    exit(2);
}

static int same_thing(const struct row *a, const struct row *b)
{
    return strcmp(a->what, b->what) == 0 && strcmp(a->name, b->name) == 0 && a->live == b->live &&
           a->limit == b->limit;
}

/* The row of this thing, a new one if there is none; NULL where there is no room for it. */
static struct row *row_of(struct samples *samples, const struct row *thing)
{
    for (size_t i = 0; i < samples->rows; i++)
        if (same_thing(&samples->row[i], thing))
            return &samples->row[i];
    if (samples->rows == MOST_ROWS)
        return NULL;
    samples->row[samples->rows] = *thing;
    return &samples->row[samples->rows++];
}

static void read_line(struct samples *samples, const char *line)
{
    struct row thing = {.count = 0};
    double measured;
    double other;
    uint64_t compared;

    if (sscanf(line, "compared %" SCNu64, &compared) == 1) {
        samples->compared += compared;
        return;
    }
    if (sscanf(line, "%47s %47s %zu %zu %lf %lf", thing.what, thing.name, &thing.live, &thing.limit,
               &measured, &other) != 6 ||
        measured <= 0 || other <= 0)
        refuse(line);
    struct row *row = row_of(samples, &thing);
    if (row == NULL || row->count == MOST_SAMPLES)
        refuse(line);
    row->measured[row->count] = measured;
    row->other[row->count++] = other;
}

void read_samples(struct samples *samples, FILE *in)
{
    char line[256];

    samples->rows = 0;
    samples->compared = 0;
    while (fgets(line, sizeof line, in)) {
        line[strcspn(line, "\n")] = '\0';
        read_line(samples, line);
    }
}

struct spread spread_of(const double *values, size_t count)
{
    double sorted[MOST_SAMPLES];

    memcpy(sorted, values, count * sizeof *values);
    double middle = median(sorted, count);
    return (struct spread){sorted[0], middle, sorted[count - 1]};
}

struct spread ratio_of(const struct row *row)
{
    double ratios[MOST_SAMPLES];

    for (size_t i = 0; i < row->count; i++)
        ratios[i] = row->measured[i] / row->other[i];
    return spread_of(ratios, row->count);
}
