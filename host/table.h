/* Tables with the options' settings, and the sessions of one table brought into another. Nothing in this
   directory knows where anything stands in a table. */
#ifndef TABLE_H
#define TABLE_H

#include <stdbool.h>
#include <stddef.h>
#include <stdint.h>

#include "options.h"

/* Makes an empty table with the options' settings but this session limit, in a room of just the length
   that the limit asks for or a longer one; gives false where these settings are refused. */
bool table_make(uint8_t *room, const struct options *options, uint32_t session_limit);

/* The session limit of tables of this length; 0 where no table has it. */
uint32_t table_limit(size_t length);

/* Runs the restoration requests of a sound table on an empty one, each under its peer; gives whether all
   were accepted and the two have the same sessions now. */
bool table_restore(const uint8_t *stored, size_t stored_length, uint8_t *table, size_t length);

#endif
