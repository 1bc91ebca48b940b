/* The words of a command line, as the programs here read them: --name value, --name=value, -h. */
#ifndef ARGUMENTS_H
#define ARGUMENTS_H

#include <getopt.h>

/* Room for what is wrong with a word. */
enum { WRONG_ROOM = 256 };

/* The next option, by getopt_long and with its value in optarg; index gets its place among the known
   ones. Names are written in full: what is short for one option today could be short for two tomorrow.
   Gives -1 at the end, and '?' with words where it is no option that may stand so. */
int next_option(int argc, char **argv, const struct option *known, int *index,
                char wrong[WRONG_ROOM]);

#endif
