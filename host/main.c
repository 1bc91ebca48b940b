/* A user-plane unit for PFCP session requests over UDP; see usage in options.c. */
#include <errno.h>
#include <fcntl.h>
#include <stdio.h>
#include <stdlib.h>
#include <string.h>

#include "complaint.h"
#include "options.h"
#include "pfcp_session.h"
#include "service.h"
#include "status.h"
#include "unit.h"

/* A closed standard descriptor would be taken by the next socket. Writing to this one fails. */
static void fill_standard_descriptors(void)
{
    for (int fd = 0; fd <= 2; fd++)
        if (fcntl(fd, F_GETFD) < 0 && open("/dev/null", O_RDONLY) < 0)
            exit(EXIT_FAILURE);
}

static int end_of_text(void)
{
    if (fflush(stdout) == 0)
        return EXIT_SUCCESS;
    complaint("the output could not be written: %s", strerror(errno));
    return EXIT_FAILURE;
}

/* A scripted exchange with a unit of its own; gives the exit status. */
static int run_with_unit(const struct options *options, int (*run)(struct unit *))
{
    static struct unit unit;

    bool started = unit_start(&unit, options);
    int status = started ? run(&unit) : unit.status;
    unit_stop(&unit);
    return status;
}

/* The demonstration of two control planes, with a pool of its own. */
static void share(struct options *options)
{
    options->first_teid = 4096;
    options->pool_size = 8;
    options->peer_count = PFCP_PEERS;
    options->peers[0] = (struct peer){.address = 0x7F000001, .guarantee = 3, .limit = 8};
    options->peers[1] = (struct peer){.address = 0x7F000002, .guarantee = 3, .limit = 5};
    address_read(&options->peers[0].listen, "127.0.0.1");
    address_read(&options->peers[1].listen, "127.0.0.2");
    for (size_t i = 0; i < PFCP_PEERS; i++)
        address_set_port(&options->peers[i].listen, options->port);
}

/* Runs the demonstration; gives the exit status. */
static int run_demonstration(const struct options *options)
{
    struct options shared = *options;
    int status = run_with_unit(options, run_demo);

    share(&shared);
    if (status == EXIT_SUCCESS)
        status = run_with_unit(&shared, run_shared_demo);
    if (status == STATUS_REFUSED || status == STATUS_PASSING)
        return status;
    return end_of_text() == EXIT_SUCCESS ? status : EXIT_FAILURE;
}

int main(int argc, char **argv)
{
    struct options options;

    fill_standard_descriptors();
    if (!read_options(&options, argc, argv))
        return STATUS_REFUSED;
    if (options.help || options.version) {
        fputs(options.help ? usage : "pfcp-unit " PFCP_VERSION "\n", stdout);
        return end_of_text();
    }
    if (options.demo)
        return run_demonstration(&options);
    return run_service(&options);
}
