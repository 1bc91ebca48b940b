#include "counts.h"

#include "pfcp_session.h"

bool count_table(struct unit *unit)
{
    struct holding *one = &unit->holdings[0];
    struct holding *two = &unit->holdings[1];

    if (pfcp_counts(unit->table, unit->table_length, &one->sessions, &one->teids, &two->sessions,
                    &two->teids, &unit->free_teids, &unit->free_addresses) != PFCP_FOUND)
        return false;
    unit->live_sessions = one->sessions + two->sessions;
    return true;
}
