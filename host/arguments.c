#include "arguments.h"

#include <stdbool.h>
#include <stdio.h>
#include <string.h>

int next_option(int argc, char **argv, const struct option *known, int *index,
                char wrong[WRONG_ROOM])
{
    const char *word = optind < argc ? argv[optind] : NULL;

    if (!word)
        return -1;
    opterr = 0;
    *index = -1;
    int found = getopt_long(argc, argv, "+:hV", known, index);
    bool is_short = *index >= 0 && strcspn(word + 2, "=") != strlen(known[*index].name);
    if (found != -1 && found != '?' && found != ':' && !is_short)
        return found;
    const char *value = strchr(word, '=');
    if (found == ':')
        snprintf(wrong, WRONG_ROOM, "%s needs a value", word);
    else if (found == '?' && value && optopt != 0)
        snprintf(wrong, WRONG_ROOM, "%.*s takes no value", (int)(value - word), word);
    else
        snprintf(wrong, WRONG_ROOM, "unknown option %s (--help lists them)", word);
    return '?';
}
