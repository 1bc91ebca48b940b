/* Clocks, medians and arguments of the measuring programs. */
#ifndef MEASURE_H
#define MEASURE_H

#include <stddef.h>

/* The time that this process has had of a processor, in microseconds. A system call: for long
   stretches only. */
double processor_time(void);

/* The time of day, in microseconds from some start. Quick to read: for single calls, of which the
   median is taken, so that those in which the processor was away do not count. */
double wall_time(void);

/* What two readings of wall_time after one another differ by: the median of many. */
double wall_time_cost(void);

/* Sorts the values. */
double median(double *values, size_t count);

/* An argument of a program, a number from 1 to the most; ends the program if it is none. */
size_t read_count(const char *program, const char *text, size_t most);

#endif
