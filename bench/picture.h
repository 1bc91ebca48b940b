#ifndef PICTURE_H
#define PICTURE_H

#include "samples.h"

/* Writes an SVG picture of the rows "request" with the largest session limit: the time over the live
   sessions of both sides, a panel for each table, and the floor. */
void write_picture(const struct samples *samples, FILE *out);

#endif
