/* Requests through a full store of repeated ones, on full tables. */
#ifndef REPEATS_H
#define REPEATS_H

#include "workload.h"

/* A request of the cycle with a new number; the newest stored one again; one with its number and
   other octets, which is dropped. SLOW: a repeat of the newest in a store that is forged to be slow,
   whose eight messages have the greatest length and differ in their last octet only. */
enum repeats { NEW, REPEAT, DROPPED, SLOW, REPEATS };
extern const char *const repeat_names[REPEATS];

/* The table that they go to, and the cycle whose requests are new. */
extern struct request repeats_cycle[MOST_CYCLE];
void fill_for_repeats(struct pair *pair);

/* Gives a request the number after the last one that was given. */
void renumber(struct request *r);

/* Fills the stores of both sides for this kind, compares all that they answer, and writes the request
   that is asked for; for NEW it is the next one of the cycle. */
void write_repeat(struct request *r, struct pair *pair, enum repeats kind);

/* Whether an answer to this kind is the right one. */
bool answers_repeat(const struct place *place, enum repeats kind);

#endif
