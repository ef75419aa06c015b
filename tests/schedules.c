/* All schedules of a small program by brute force: at each state every allowed thread steps. */
#include <string.h>

#include "schedules.h"

/* The schedule under way, and what the first one that ended clean had. */
struct walk {
    const struct tables *tables;
    struct common common;
    uint32_t generations[SMALL], first_generations[SMALL];
    size_t ran_at[SMALL]; /* the step that ran the command */
    int stood_before[SMALL][SMALL];
};

/* One more schedule, which ended where no step is allowed. */
static void ended(struct walk *walk, const struct state *state)
{
    size_t rows = rows_of(walk->tables);
    if (!ends_clean(walk->tables, state)) {
        walk->common.agree = 0;
        return;
    }
    if (walk->common.schedules == 1)
        memcpy(walk->first_generations, walk->generations, sizeof walk->generations);
    if (memcmp(walk->first_generations, walk->generations, rows * sizeof *walk->generations) != 0)
        walk->common.agree = 0;
    for (size_t x = 0; x < rows; x++)
        for (size_t y = 0; y < rows; y++)
            if (walk->ran_at[x] < walk->ran_at[y])
                walk->stood_before[x][y] = 1;
}

/* "A schedule is legal and complete if each step is allowed and it ends either at its first mismatch or where no step is allowed." */
static void go_on(struct walk *walk, const struct state *state, size_t steps)
{
    int over = 1;
    for (uint32_t t = 0; t < walk->tables->threads; t++) {
        if (!is_allowed(walk->tables, state, t))
            continue;
        over = 0;
        struct state next = *state;
        walk->ran_at[next_command(walk->tables, state, t)] = steps;
        if (step(walk->tables, &next, t, walk->generations) == STEPPED) {
            go_on(walk, &next, steps + 1);
        } else {
            walk->common.schedules++;
            walk->common.agree = 0;
        }
    }
    if (over) {
        walk->common.schedules++;
        ended(walk, state);
    }
}

struct common try_all(const struct tables *tables)
{
    struct walk walk;
    struct state state;
    memset(&walk, 0, sizeof walk);
    walk.tables = tables;
    walk.common.agree = walk.common.one_order = 1;
    start(&state);
    go_on(&walk, &state, 0);
    for (size_t x = 0; x < rows_of(tables); x++)
        for (size_t y = 0; y < x; y++)
            if (conflict(tables, x, y) && walk.stood_before[x][y] && walk.stood_before[y][x])
                walk.common.one_order = 0;
    return walk.common;
}

int is_legal_complete(const struct tables *tables, const uint32_t *schedule, size_t steps)
{
    uint32_t generations[SMALL];
    struct state state;
    start(&state);
    for (size_t s = 0; s < steps; s++) {
        enum did did = step(tables, &state, schedule[s], generations);
        if (did != STEPPED)
            return did == MISMATCHED && s + 1 == steps;
    }
    return is_over(tables, &state);
}
