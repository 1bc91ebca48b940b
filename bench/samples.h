/* The lines that bench prints, of several processes: one row for each measured thing. */
#ifndef SAMPLES_H
#define SAMPLES_H

#include <stddef.h>
#include <stdint.h>
#include <stdio.h>

enum { MOST_ROWS = 256, MOST_SAMPLES = 64, WORD_ROOM = 48 };

/* The times of one thing, and of what it is compared with, in each process. */
struct row {
    char what[WORD_ROOM];
    char name[WORD_ROOM];
    size_t live;
    size_t limit;
    size_t count;
    double measured[MOST_SAMPLES];
    double other[MOST_SAMPLES];
};

struct samples {
    size_t rows;
    struct row row[MOST_ROWS];
    uint64_t compared; /* octets, in all processes */
};

struct spread {
    double lowest;
    double median;
    double highest;
};

/* Reads lines to the end; ends the program at one of another form. */
void read_samples(struct samples *samples, FILE *in);

struct spread spread_of(const double *values, size_t count);

/* The spread of the measured over the other, process by process. */
struct spread ratio_of(const struct row *row);

#endif
