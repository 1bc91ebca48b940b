/* A stored table as a unit, for a list: a file of the unit's --table in the form of stored.h or of the form
   before, or the table's octets alone. */
#ifndef STORED_UNIT_H
#define STORED_UNIT_H

#include "stored.h"
#include "unit.h"

/* Reads the table of a file, and what its peers have, into a unit that has no options; says why and gives
   false where the file is not whole or has no sound table. */
bool stored_unit_read(struct unit *unit, const char *path, char why[STORED_WHY]);

#endif
