/*
 * Lines on standard error. Each has the time (UTC) and the program's name; where the journal of systemd
 * reads them, as JOURNAL_STREAM says, its level comes first, as in sd-daemon(3).
 */
#ifndef COMPLAINT_H
#define COMPLAINT_H

#include "text.h"

/* The levels of sd-daemon(3): somebody has to do something; and something is not as it should be. */
enum level { LEVEL_ERROR = 3, LEVEL_WARNING = 4 };

/* Adds such a line to a text. The words have no end of line. */
void complaint_add(struct text *text, enum level level, const char *words);

/* Writes a line of the level LEVEL_ERROR at once, as printf would. */
__attribute__((format(printf, 1, 2))) void complaint(const char *format, ...);

#endif
