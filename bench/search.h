/* Tables in which the lowest free TEID stands after so many taken ones, and a request for it. */
#ifndef SEARCH_H
#define SEARCH_H

#include "workload.h"

/* A pool of as many TEIDs as the sessions can hold, so that all can be taken. */
enum { SEARCHED_POOL = MOST_SESSIONS * (MOST_PDRS + MOST_ENDPOINTS) };

/* Fills both tables by restorations with records that hold so many TEIDs one after another, from
   the pool's first or second one on, and writes a request for one more. So two tables with the same
   number of TEIDs differ only in where the lowest free one stands: after all of them, or first. */
enum first_taken { FROM_FIRST, FROM_SECOND };
void fill_for_search(struct pair *pair, struct request *r, uint32_t taken, enum first_taken from);

#endif
