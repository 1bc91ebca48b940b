#include "measure.h"

#include <stdio.h>
#include <stdlib.h>
#include <time.h>

static double microseconds(clockid_t clock)
{
    struct timespec now;

    clock_gettime(clock, &now);
    return (double)now.tv_sec * 1e6 + (double)now.tv_nsec * 1e-3;
}

double processor_time(void)
{
    return microseconds(CLOCK_PROCESS_CPUTIME_ID);
}

double wall_time(void)
{
    return microseconds(CLOCK_MONOTONIC);
}

double wall_time_cost(void)
{
    static double costs[1001];
    size_t count = sizeof costs / sizeof costs[0];

    for (size_t i = 0; i < count; i++) {
        double start = wall_time();
        costs[i] = wall_time() - start;
    }
    return median(costs, count);
}

static int ascending(const void *a, const void *b)
{
    double x = *(const double *)a;
    double y = *(const double *)b;

    return (x > y) - (x < y);
}

double median(double *values, size_t count)
{
    qsort(values, count, sizeof *values, ascending);
    return count % 2 == 1 ? values[count / 2] : (values[count / 2 - 1] + values[count / 2]) / 2;
}

size_t read_count(const char *program, const char *text, size_t most)
{
    char *end;
    unsigned long value = strtoul(text, &end, 10);

    if (text[0] < '0' || text[0] > '9' || *end != '\0' || value < 1 || value > most) {
        fprintf(stderr, "%s: %s is not a number from 1 to %zu\n", program, text, most);
        exit(2);
    }
    return value;
}
