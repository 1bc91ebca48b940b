/* What a unit's table holds and what its pools have left. */
#ifndef COUNTS_H
#define COUNTS_H

#include <stdbool.h>

#include "unit.h"

/* Counts all of it, by one check of the table; gives false where the table is broken. */
bool count_table(struct unit *unit);

#endif
