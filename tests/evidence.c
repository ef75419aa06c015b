/* Evidence by the words of request 2026-04. It knows nothing of how the code finds its schedules. */
#include "evidence.h"

enum { NEVER = ROWS }; /* no schedule has so many steps */

/* One schedule played to its end: what is wrong with it, the generations, and the step that ran each command. */
struct played {
    struct shown shown;
    uint32_t generations[ROWS];
    size_t when[ROWS];
};

static struct shown flaw(const char *what, size_t at)
{
    struct shown it = {what, at, 0};
    return it;
}

static struct shown ended_in(uint32_t number)
{
    struct shown it = {NULL, 0, number};
    return it;
}

/* Where no step is allowed and none mismatched: 8 if some thread is blocked, 9 if all finished and a barrier is still set. */
static uint32_t end_of(const struct tables *tables, const struct state *state)
{
    for (uint32_t t = 0; t < tables->threads; t++)
        if (state->blocked[t] != UNBLOCKED)
            return 8;
    return ends_clean(tables, state) ? 0 : 9;
}

/*
 * "A schedule is legal and complete if each step is allowed and it ends either at its first mismatch or where no step is allowed." So a part of one is
 * none, and neither is one with numbers after its end.
 */
static struct shown play(const struct tables *tables, const uint32_t *steps, size_t n, struct played *out)
{
    struct state state;
    start(&state);
    for (size_t c = 0; c < rows_of(tables); c++)
        out->when[c] = NEVER;
    for (size_t s = 0; s < n; s++) {
        if (!is_allowed(tables, &state, steps[s]))
            return flaw("a step is not allowed", s);
        size_t c = next_command(tables, &state, steps[s]);
        if (step(tables, &state, steps[s], out->generations) == MISMATCHED)
            return s + 1 == n ? ended_in(7) : flaw("there are steps after a mismatch", s);
        out->when[c] = s;
    }
    if (!is_over(tables, &state))
        return flaw("a schedule stops while a step is allowed", n);
    return ended_in(end_of(tables, &state));
}

/* 10: "a second legal, complete schedule of the same program in which some command has another generation, or which ends in 7, 8 or 9". */
static struct shown check_second(const struct tables *tables, const struct review *judged, const uint32_t *evidence, size_t count)
{
    struct played played;
    struct shown shown = play(tables, evidence, count, &played);
    if (shown.flaw != NULL || shown.ended != 0)
        return shown;
    for (size_t c = 0; c < rows_of(tables); c++)
        if (played.generations[c] != judged->generations[c])
            return shown;
    return flaw("it ends clean with every generation as in the offered schedule", 0);
}

/* One schedule of M steps in which both commands are run, in this order. */
static struct shown check_order(const struct tables *tables, const uint32_t *steps, uint32_t first, uint32_t second)
{
    struct played played;
    struct shown shown = play(tables, steps, rows_of(tables), &played);
    if (shown.flaw != NULL)
        return shown;
    if (played.when[first] == NEVER || played.when[second] == NEVER)
        return flaw("a command of the pair is not run", 0);
    if (played.when[first] > played.when[second])
        return flaw("the pair stands in the other order", played.when[second]);
    return shown;
}

/*
 * 11: "For each race kept on the sheet write two legal, complete schedules with the pair in opposite orders, end to end, x first before y first; the answer
 * says how many entries." Every schedule of a program that gets 11 runs all M commands.
 */
static struct shown check_races(const struct tables *tables, const struct sheet *sheet, const uint32_t *evidence, size_t count)
{
    size_t rows = rows_of(tables), kept = sheet->total < KEPT ? sheet->total : KEPT;
    struct shown shown = ended_in(0);
    if (count != 2 * kept * rows)
        return flaw("the number of entries is not twice the kept pairs times M", count);
    for (size_t at = 0; at < count && shown.flaw == NULL; at += rows) {
        size_t part = at / rows, y_first = part % 2;
        const uint32_t *pair = sheet->pairs[part / 2];
        shown = check_order(tables, evidence + at, pair[y_first], pair[1 - y_first]);
        shown.at += at;
    }
    return shown;
}

/* "Other verdicts write nothing." No schedule has more than M steps, so no more are looked at. */
struct shown check_evidence(const struct tables *tables, const struct review *judged, const uint32_t *evidence, size_t count)
{
    if (judged->verdict.number == 11)
        return check_races(tables, &judged->sheet, evidence, count);
    if (judged->verdict.number != 10)
        return count == 0 ? ended_in(0) : flaw("there are entries for a verdict that needs none", 0);
    if (count > rows_of(tables))
        return flaw("there are more entries than commands", rows_of(tables));
    return check_second(tables, judged, evidence, count);
}
