/* Where the service has its files, as host/pfcp-unit.service says. */
#ifndef PATHS_H
#define PATHS_H

/* The control socket on which pfcp-list asks where no other one is named. */
#define USUAL_CONTROL "/run/pfcp-unit/control"

#endif
