/* Every legal complete schedule of a small program, one by one, under the reference's steps. */
#ifndef SCHEDULES_H
#define SCHEDULES_H

#include "reference.h"

enum { SMALL = 8 }; /* commands */

/* What all schedules have in common. Demand 3 speaks of schedules alone, so no relation is looked at here. */
struct common {
    unsigned long schedules;
    int agree;     /* every one ends clean with the same generation for each command */
    int one_order; /* every two conflicting accesses stand in the same order in all of them */
};

/* For tables that pass refusals 1 to 3 and have at most SMALL commands. */
struct common try_all(const struct tables *tables);

/* Is it legal and complete? */
int is_legal_complete(const struct tables *tables, const uint32_t *schedule, size_t steps);

#endif
