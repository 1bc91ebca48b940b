/* The counters and gauges of a list in the text form of Prometheus, by peer. */
#ifndef PROMETHEUS_H
#define PROMETHEUS_H

#include "listing.h"

/* Adds the next metric of the list, with what it is, or a peer's part of it; gives false when there is
   none left. */
bool metrics_add(struct text *text, struct listing *listing);

#endif
