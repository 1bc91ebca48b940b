/* Requests of the greatest length, each full of one content: what a hostile peer can ask for. */
#ifndef LONGEST_H
#define LONGEST_H

#include "workload.h"

/* The table that they go to: one session less than it can hold, so that one can be established. */
enum { LONGEST_LIVE = MOST_SESSIONS - 1 };
extern const struct size longest_size;

struct longest {
    const char *name; /* content, and how it stands there */
    uint8_t cause;    /* of the reply on that table */
    void (*write)(struct message *m);
};

enum { LONGEST_MESSAGES = 24 };
extern const struct longest longest_messages[LONGEST_MESSAGES];

void fill_for_longest(struct pair *pair);

/* Writes the request, and sees that both sides answer it with its cause; the tables stay. */
void write_longest(struct request *r, const struct longest *longest, struct pair *pair);

#endif
