#include "complaint.h"

#include <inttypes.h>
#include <stdarg.h>
#include <stdbool.h>
#include <stdio.h>
#include <stdlib.h>
#include <string.h>
#include <sys/stat.h>
#include <unistd.h>

#include "words.h"

/* JOURNAL_STREAM is the device and the inode of the journal's end. Standard error may have been sent
   elsewhere since. */
static bool is_journal(void)
{
    const char *stream = getenv("JOURNAL_STREAM");
    char own[64];
    struct stat found;

    if (!stream || fstat(STDERR_FILENO, &found) != 0)
        return false;
    snprintf(own, sizeof own, "%" PRIuMAX ":%" PRIuMAX, (uintmax_t)found.st_dev,
             (uintmax_t)found.st_ino);
    return strcmp(own, stream) == 0;
}

void complaint_add(struct text *text, enum level level, const char *words)
{
    char time[TIME_ROOM];

    if (is_journal())
        text_add(text, "<%d>", level);
    text_add(text, "%s pfcp-unit: %s\n", time_in_words(NULL, time, sizeof time), words);
}

void complaint(const char *format, ...)
{
    struct text line = {.length = 0};
    char words[8192];
    va_list values;

    va_start(values, format);
    vsnprintf(words, sizeof words, format, values);
    va_end(values);
    complaint_add(&line, LEVEL_ERROR, words);
    fputs(line.octets, stderr);
}
