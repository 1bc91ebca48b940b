/* The unit's service until a signal ends it. */
#ifndef SERVICE_H
#define SERVICE_H

#include "options.h"

/* Serves until SIGINT or SIGTERM comes; gives the exit status. */
int run_service(const struct options *options);

#endif
