/* The time of one check of a full table against that of one pass over the same octets, and of a copy
   of as many octets as the map of TEIDs has. */
#include <string.h>

#include "measure.h"
#include "pass.h"
#include "times.h"

enum { CALLS = 256, TURNS = 11, PASSES = 4, MAP_OCTETS = POOL / 8 };

static struct pair pair;

/* By the C library, as the archive's copies are; so its length is not known beforehand. */
static uint32_t copy_map(const uint8_t *octets, size_t length)
{
    static uint8_t map[MAP_OCTETS];

    memcpy(map, octets, length < sizeof map ? length : sizeof map);
    return map[0];
}

static const struct {
    const char *name;
    uint32_t (*run)(const uint8_t *, size_t);
} passes[PASSES] = {{"sum,gcc-O2", sum_by_octet},
                    {"sum,gcc-O3", sum_by_vector},
                    {"floor", floor_by_vector},
                    {"copy-of-8192-octets", copy_map}};

static double time_checks(void)
{
    double start = processor_time();

    for (size_t i = 0; i < CALLS; i++)
        check(&pair.ours);
    return (processor_time() - start) / CALLS;
}

static double time_pass(uint32_t (*run)(const uint8_t *, size_t))
{
    volatile uint32_t sink = 0;
    double start = processor_time();

    for (size_t i = 0; i < CALLS; i++)
        sink += run(pair.ours.table, pair.ours.length);
    return (processor_time() - start) / CALLS;
}

void time_passes(void)
{
    static double checks[TURNS];
    static double times[PASSES][TURNS];

    fill(&pair, &workloads[ALIKE], full);
    for (size_t turn = 0; turn < TURNS; turn++) {
        checks[turn] = time_checks();
        for (size_t k = 0; k < PASSES; k++)
            times[k][turn] = time_pass(passes[k].run);
    }
    double one_check = median(checks, TURNS);
    for (size_t k = 0; k < PASSES; k++)
        print_times("pass", passes[k].name, full, one_check, median(times[k], TURNS));
}
