/*
 * Holds the run of a warp, request 2026-11, to the reference of document 001's Table 2 (warp.c), and the steps of the reference to Table 4 (threads.c).
 *
 *   warps SEED COUNT         COUNT numbered kernels of that seed
 *   warps SEED COUNT FIRST   the same from number FIRST on, to repeat a failure
 *
 * Each kernel that is not refused is run from the start with every number of steps from 0 to 200, and at least two past its end, and then with numbers past 32 bits if it ended. After each
 * call the number returned, the answer, every cell, every number of every lent room and the bytes beside it are compared.
 *
 * "Every warp step must be matched by some run, possibly empty, of single-thread steps of Table 4 that ends in the same memory and leaves each lane the statements and contexts that the
 * warp's stack and disable states still hold for it": of small kernels such a run is searched for every step that the reference takes. Before that the search is tried on steps that it must
 * not find: wrong ends, an assignment in one step, and Table 5 as the copy prints it. Some of these are tried all along.
 *
 * It ends with one line of figures, or with status 1 at the first difference, told with the seed, the number and the input; also if something that is to be tried came up too seldom.
 */
#include <stdio.h>
#include <stdlib.h>
#include <string.h>

#include "../include/probe.h"
#include "call.h"
#include "kernels.h"
#include "threads.h"

enum { ANSWER = 36, EACH = 200, FAR = 1200, OFTEN = 5, SMALL = 13 };
enum mark { START_OVERFULL, START_FULL, JUST_FULL, BY_IF, BY_WHILE, BY_IDLE, BY_CALL, PARTED, DISPUTED, WOKEN_BY_BRK, WOKEN_BY_CALL, LEFT_ASLEEP, PASSED_BY, LONG_RUN, FAR_END, ALL_LANES, ONE_LANE,
            EMPTY, SHORT_ANSWER, DEEP, TESTED_BY_ALL, TESTED_APART, TESTED_ALONE, LATE_TEST, LAST_TEST, MARKS };

static const char *const marks[MARKS] = {"a start of 257 entries", "a start of 256 entries", "a stack of just 256 entries after a step", "an if that would overfill", "a while that would overfill",
                                         "a while that no lane enters and that would overfill", "a call that would overfill", "a branch on which lanes part",
                                         "a write of different values by several lanes", "a lane that broke, woken by a brk token", "a lane that returned, woken by a call token",
                                         "a lane in a token's mask that stays disabled", "a lane outside of a token's mask that awaits such a token", "a finished run of over 100 steps",
                                         "an end past 200 steps", "32 lanes", "one lane", "a kernel of no statement", "an answer room that is too short", "a call within a call",
                                         "a test by 32 lanes", "a test by lanes that are not neighbours", "a test by one lane of several", "a test by several lanes of an expression from row 64 on",
                                         "a test by several lanes of the last of 256 expressions"};
static const char *const reasons[REASONS] = {"accepted", "no lanes", "over 32 lanes", "a short room of cells", "part of a statement row", "over 256 statements", "part of an expression row",
                                             "over 256 expressions", "an expression of unknown kind", "an expression of an unknown cell", "an operand that is no earlier row",
                                             "a statement of unknown kind", "an assignment to an unknown cell", "an expression that is missing", "a body that is missing", "the kernel as a body",
                                             "a body used twice", "both arms the same", "a body inside itself", "a function that is missing", "a call of a body", "a break outside of loops"};
static const char *const rules[RULES] = {"skip", "assign", "if", "while", "underlined while", "break", "call", "return", "token", "inact"};
static const char *const ends[GOES_ON] = {"refused", "finished", "used up", "would overfill"};

/* Kernels; calls; by reason, by what the last call said, by mark; steps of the reference by rule, those searched, and of these the returns out of a loop. */
static unsigned long kernels, calls, refused[REASONS], ended[GOES_ON], marked[MARKS], by_rule[RULES], searched_by_rule[RULES], left_loops;
static unsigned long small, searched, wrong_ends, beyond_one_step, beyond_printed;
static struct lent statements, expressions, cells, answer;
static struct drawn_kernel drawn_kernel;

/* ---- one call of the door */

/* What a run has to leave. */
struct outcome {
    uint32_t number, place;
    enum said said;
    uint64_t taken;
    const uint32_t *cells;
};

/* A refusal keeps the cells that were lent. */
static void must_hold_outcome(const struct outcome *it)
{
    uint32_t *told = must_hold(&answer);
    if (it->number == 0)
        memcpy(must_hold(&cells), it->cells, CELLS * sizeof *it->cells);
    told[0] = it->place;
    told[1] = 0;
    told[2] = it->said;
    told[3] = 0;
    told[4] = (uint32_t)it->taken;
    told[5] = (uint32_t)(it->taken >> 32);
}

/* Lends the cells' room anew; its first cells are the kernel's, and junk follows. */
static uint32_t *lend_cells(size_t n, const uint32_t *from)
{
    uint32_t *room = lend_places(&cells, n);
    size_t first = n < CELLS ? n : CELLS;
    memcpy(room, from, first * sizeof *room);
    memcpy(must_hold(&cells), from, first * sizeof *room);
    return room;
}

/* Too short once in so many calls. */
static size_t answer_room(uint32_t seldom)
{
    if (below(&drawn, seldom) == 0)
        return chance(&drawn, 50) ? ANSWER - 1 : below(&drawn, ANSWER);
    return chance(&drawn, 50) ? ANSWER : ANSWER + below(&drawn, 5);
}

/* Told beside an input that fails, as neither is lent in a table. */
static uint64_t steps_now;
static uint32_t lanes_now;

static void tell_run(void)
{
    fprintf(stderr, "  %lu lanes, %llu steps\n", (unsigned long)lanes_now, (unsigned long long)steps_now);
    fprintf(stderr, "  cells before:");
    for (size_t i = 0; i < CELLS; i++)
        fprintf(stderr, " %lu", (unsigned long)drawn_kernel.cells[i]);
    fprintf(stderr, "\n");
}

/* Calls the door with so many steps, over the tables that are lent already. */
static void call_door(const struct kernel *kernel, uint64_t steps, struct outcome it)
{
    size_t room = answer_room(it.number == 0 ? 200 : 10);
    uint32_t *c = lend_cells(kernel->cells_len, drawn_kernel.cells), *a = lend_places(&answer, room);
    steps_now = steps;
    lanes_now = kernel->lanes;
    is_called = 1;
    uint32_t found = probe_warp(kernel->statements, kernel->statements_len, kernel->expressions, kernel->expressions_len, kernel->lanes, c, kernel->cells_len, steps, a, room);
    is_called = 0;
    calls++;
    if (room < ANSWER) {
        marked[SHORT_ANSWER]++;
        it.number = 14;
    } else {
        must_hold_outcome(&it);
    }
    if (found != it.number)
        fail("the number returned", 0, found, it.number);
    check_call();
}

/* ---- the search */

static void fail_search(const char *what, const struct warp *before, uint64_t taken)
{
    tell_where();
    fprintf(stderr, "%s: step %llu, a stack of %lu, active %lx\n", what, (unsigned long long)taken, (unsigned long)before->height, (unsigned long)before->active);
    tell_input();
    exit(1);
}

/* Each active lane may need two steps; one more is tried, so that the search is not cut to what it has to find. */
static uint32_t most_steps(const struct kernel *kernel)
{
    return 2 * kernel->lanes + 1;
}

/* Is the warp step from the one to the other matched under these rules? Answers -1 where the stacks are too high to tell. */
static int is_matched(const struct kernel *kernel, struct rules rules, const struct warp *before, const struct warp *after)
{
    static struct threads from, to;
    if (!project(kernel, before, rules, &from) || !project(kernel, after, rules, &to))
        return -1;
    return reaches(kernel, rules, &from, &to, most_steps(kernel));
}

static const struct rules right = {0, 0}, one_step = {1, 0}, as_printed = {0, 1};

/* Ends that no run can have: a cell that the kernel has nothing to do with is another, or a stack has a brk context below the kernel's call. */
static int is_wrong_end_found(const struct kernel *kernel, const struct warp *before, const struct warp *after, uint32_t lane, int by_stack)
{
    static struct threads from, to;
    if (!project(kernel, before, right, &from) || !project(kernel, after, right, &to) || to.of[lane].height == LOW)
        return 0;
    struct thread *thread = &to.of[lane];
    if (by_stack) {
        memmove(thread->stack + 1, thread->stack, thread->height * sizeof *thread->stack);
        memset(thread->stack, 0, sizeof *thread->stack);
        thread->stack[0].kind = T_BRK;
        thread->height++;
    } else {
        to.cells[CELLS - 1]++;
    }
    wrong_ends++;
    return reaches(kernel, right, &from, &to, most_steps(kernel)) == 1;
}

/* Does a brk token with a statement of the same function below it come before the next call token? A return must skip both. */
static int is_in_loop(const struct warp *warp)
{
    size_t i = warp->height;
    while (i-- > 0 && warp->stack[i].kind != CALL_TOKEN)
        if (warp->stack[i].kind == BRK_TOKEN)
            return !is_token(&warp->stack[i - 1]);
    return 0;
}

static void search_step(const struct kernel *kernel, const struct warp *before, const struct warp *after, uint64_t taken, enum rule rule)
{
    int found = is_matched(kernel, right, before, after);
    if (found < 0)
        return;
    searched++;
    searched_by_rule[rule]++;
    left_loops += rule == RETURN_W && is_in_loop(after);
    if (found == 0)
        fail_search("no run of single-thread steps", before, taken);
    if (below(&drawn, 8) != 0)
        return;
    uint32_t lane = below(&drawn, kernel->lanes);
    if (is_wrong_end_found(kernel, before, after, lane, chance(&drawn, 50)))
        fail_search("a run of single-thread steps to a wrong end", before, taken);
    beyond_one_step += is_matched(kernel, one_step, before, after) == 0;
    beyond_printed += is_matched(kernel, as_printed, before, after) == 0;
}

/* ---- what came of it */

static void mark_assignment(const struct kernel *kernel, const struct warp *before, struct statement it)
{
    int is_first = 1, differ = 0;
    uint32_t first = 0;
    for (uint32_t lane = 0; lane < kernel->lanes; lane++) {
        if (!has_lane(before->active, lane))
            continue;
        uint32_t value = value_of(kernel, it.y, lane, before->cells);
        differ |= !is_first && value != first;
        first = is_first ? value : first;
        is_first = 0;
    }
    marked[DISPUTED] += (unsigned long)differ;
}

static void mark_test(const struct kernel *kernel, uint32_t active, uint32_t expression)
{
    uint32_t lanes = 0, first = LANES, last = 0;
    for (uint32_t lane = 0; lane < kernel->lanes; lane++)
        if (has_lane(active, lane)) {
            first = lanes == 0 ? lane : first;
            last = lane;
            lanes++;
        }
    marked[TESTED_BY_ALL] += lanes == LANES;
    marked[TESTED_APART] += lanes > 1 && last - first + 1 > lanes;
    marked[TESTED_ALONE] += lanes == 1 && kernel->lanes > 1;
    marked[LATE_TEST] += lanes > 1 && expression >= 64;
    marked[LAST_TEST] += lanes > 1 && expression == EXPRESSIONS - 1;
}

static void mark_token(const struct kernel *kernel, const struct warp *before, const struct warp *after, struct entry token)
{
    int brk = 0, call = 0, asleep = 0, passed_by = 0;
    for (uint32_t lane = 0; lane < kernel->lanes; lane++) {
        int was = before->disabled[lane] != NOT_DISABLED, is = after->disabled[lane] != NOT_DISABLED;
        brk |= was && !is && token.kind == BRK_TOKEN;
        call |= was && !is && token.kind == CALL_TOKEN;
        asleep |= is && has_lane(token.mask, lane);
        passed_by |= is && !has_lane(token.mask, lane) && awaits(after->disabled[lane], token.kind);
    }
    marked[WOKEN_BY_BRK] += (unsigned long)brk;
    marked[WOKEN_BY_CALL] += (unsigned long)call;
    marked[LEFT_ASLEEP] += (unsigned long)asleep;
    marked[PASSED_BY] += (unsigned long)passed_by;
}

static void mark_step(const struct kernel *kernel, const struct warp *before, const struct warp *after, enum rule rule)
{
    struct entry top = before->stack[before->height - 1];
    by_rule[rule]++;
    marked[JUST_FULL] += after->height == ENTRIES && before->height < ENTRIES;
    if (rule == ASSIGN_W)
        mark_assignment(kernel, before, statement_at(kernel, top.row));
    if (rule == IF_W || rule == WHILE_W || rule == WHILE_AGAIN_W)
        mark_test(kernel, before->active, statement_at(kernel, top.row).x);
    if (rule == IF_W)
        marked[PARTED] += after->active != 0 && after->active != before->active;
    if (rule == TOKEN_W)
        mark_token(kernel, before, after, top);
    if (rule == CALL_W) {
        uint32_t depth = 0;
        for (size_t i = 0; i < after->height; i++)
            depth += after->stack[i].kind == CALL_TOKEN;
        marked[DEEP] += depth > 2;
    }
}

/* A further round of a loop comes to the height of the first, and cannot overfill. */
static void mark_overfill(const struct kernel *kernel, const struct warp *warp)
{
    static const int by[RULES] = {[IF_W] = BY_IF, [WHILE_W] = BY_WHILE, [CALL_W] = BY_CALL};
    static struct warp next;
    if (warp->height > ENTRIES) {
        marked[START_OVERFULL]++;
        return;
    }
    next = *warp;
    enum rule rule = warp_step(kernel, &next);
    marked[by[rule]]++;
    marked[BY_IDLE] += rule == WHILE_W && next.active == 0;
}

static void mark_end(const struct kernel *kernel, const struct warp *warp, enum said said, uint64_t taken)
{
    ended[said]++;
    if (said == WOULD_OVERFILL)
        mark_overfill(kernel, warp);
    marked[LONG_RUN] += said == FINISHED && taken > 100;
    marked[FAR_END] += said != USED_UP && taken > EACH;
    marked[START_FULL] += length_of(kernel, KERNEL) == ENTRIES - 1;
    marked[EMPTY] += length_of(kernel, KERNEL) == 0;
    marked[ALL_LANES] += kernel->lanes == LANES;
    marked[ONE_LANE] += kernel->lanes == 1;
}

/* ---- a kernel that is run */

static void advance(const struct kernel *kernel, struct warp *warp, uint64_t taken, int is_small)
{
    static struct warp before;
    before = *warp;
    enum rule rule = warp_step(kernel, warp);
    mark_step(kernel, &before, warp, rule);
    if (is_small)
        search_step(kernel, &before, warp, taken, rule);
}

/* What a run with so many steps says, which is one more than have been taken, or any number past the end. */
static enum said go_on(const struct kernel *kernel, struct warp *warp, uint64_t *taken, uint64_t steps, int is_small)
{
    enum said said = say(kernel, warp, steps - *taken);
    while (said == GOES_ON) {
        advance(kernel, warp, (*taken)++, is_small);
        said = say(kernel, warp, steps - *taken);
    }
    return said;
}

static struct outcome outcome(const struct warp *warp, enum said said, uint64_t taken)
{
    struct outcome it = {0, 0, said, taken, warp->cells};
    return it;
}

/* A run that has ended does not go on, however many steps are left: numbers whose lower half is 0 or small, too. */
static void call_past_end(const struct kernel *kernel, const struct warp *warp, enum said said, uint64_t taken)
{
    uint64_t more = (uint64_t)1 << (32 + below(&drawn, 32));
    call_door(kernel, UINT64_MAX, outcome(warp, said, taken));
    call_door(kernel, more, outcome(warp, said, taken));
    call_door(kernel, more + below(&drawn, 8), outcome(warp, said, taken));
}

/* Of a kernel that goes on after the last of these runs: far ahead, and just before and at its end if that is met. */
static void run_far(const struct kernel *kernel, struct warp *warp, uint64_t *taken)
{
    static struct warp before;
    enum said said = USED_UP;
    while (said == USED_UP && *taken < FAR) {
        before = *warp;
        said = go_on(kernel, warp, taken, *taken + 1, 0);
    }
    if (said == FINISHED)
        call_door(kernel, *taken - 1, outcome(&before, USED_UP, *taken - 1));
    call_door(kernel, said == WOULD_OVERFILL ? *taken + 1 : *taken, outcome(warp, said, *taken));
    if (said != USED_UP)
        call_past_end(kernel, warp, said, *taken);
}

static void run_kernel(const struct kernel *kernel, int is_small)
{
    static struct warp warp;
    enum said said = USED_UP;
    uint64_t taken = 0;
    int past = 0;
    start_warp(kernel, drawn_kernel.cells, &warp);
    for (uint64_t steps = 0; steps <= EACH && past < 3; steps++) {
        said = go_on(kernel, &warp, &taken, steps, is_small);
        past += said != USED_UP;
        call_door(kernel, steps, outcome(&warp, said, taken));
    }
    if (said != USED_UP)
        call_past_end(kernel, &warp, said, taken);
    else if (chance(&drawn, 15))
        run_far(kernel, &warp, &taken);
    said = say(kernel, &warp, 1);
    mark_end(kernel, &warp, said == GOES_ON ? USED_UP : said, taken);
}

static void refuse_kernel(const struct kernel *kernel, struct refusal refusal)
{
    struct outcome it = {refusal.number, (uint32_t)refusal.place, REFUSED, 0, NULL};
    call_door(kernel, 0, it);
    call_door(kernel, draw(&drawn), it);
}

/* ---- the kernels */

/* To be searched: it has nothing to do with the last cell, which wrong ends change, and so is not damaged. */
static void draw_small(void)
{
    small_kernel(&drawn, &drawn_kernel);
    if (chance(&drawn, 50))
        return;
    parted_kernel(&drawn, &drawn_kernel);
    drawn_kernel.lanes = 2 + below(&drawn, FEW_LANES - 1);
}

/* Answers whether its steps are to be searched. */
static int draw_kernel(void)
{
    uint32_t which = below(&drawn, 100);
    if (which < SMALL)
        draw_small();
    else if (which < 28)
        mixed_kernel(&drawn, &drawn_kernel);
    else if (which < 43)
        parted_kernel(&drawn, &drawn_kernel);
    else if (which < 49)
        deep_kernel(&drawn, &drawn_kernel);
    else if (which < 59)
        tall_kernel(&drawn, &drawn_kernel);
    else if (which < 68)
        full_kernel(&drawn, &drawn_kernel);
    else
        wild_kernel(&drawn, &drawn_kernel);
    if (which >= SMALL && chance(&drawn, 20))
        damage_kernel(&drawn, &drawn_kernel);
    if (which >= SMALL && chance(&drawn, 25))
        spoil_kernel(&drawn, &drawn_kernel);
    return which < SMALL;
}

static void try_number(void)
{
    int is_small = draw_kernel();
    struct kernel kernel = {drawn_kernel.statements, drawn_kernel.statements_len, drawn_kernel.expressions, drawn_kernel.expressions_len, drawn_kernel.lanes, drawn_kernel.cells_len};
    open_call("probe_warp");
    kernel.statements = lend_numbers(&statements, kernel.statements, kernel.statements_len);
    kernel.expressions = lend_numbers(&expressions, kernel.expressions, kernel.expressions_len);
    struct refusal refusal = check_kernel(&kernel);
    kernels++;
    refused[refusal.reason]++;
    small += is_small && refusal.number == 0;
    if (refusal.number == 0)
        run_kernel(&kernel, is_small);
    else
        refuse_kernel(&kernel, refusal);
    close_call();
}

/* ---- the search on what it must find and must not */

/* Of the first so many steps of a kernel: how many are matched, and how many are not, under these rules. */
static void walk(const struct kernel *kernel, struct rules rules, int steps, int *matched, int *unmatched)
{
    static const uint32_t zero[CELLS];
    static struct warp warp, before;
    *matched = *unmatched = 0;
    start_warp(kernel, zero, &warp);
    while (steps-- > 0 && warp.height > 0) {
        before = warp;
        warp_step(kernel, &warp);
        int found = is_matched(kernel, rules, &before, &warp);
        *matched += found == 1;
        *unmatched += found != 1;
    }
}

static void must_walk(const char *what, const struct kernel *kernel, struct rules rules, int expected_matched, int expected_unmatched)
{
    int matched, unmatched;
    walk(kernel, rules, 50, &matched, &unmatched);
    if (matched == expected_matched && unmatched == expected_unmatched)
        return;
    fprintf(stderr, "warps: the search on %s: %d steps matched and %d not, in place of %d and %d\n", what, matched, unmatched, expected_matched, expected_unmatched);
    exit(1);
}

/* "Consider a statement x = x + 1 for some shared variable x": the warp adds 1 in total, and threads that read and write in one step add as many as they are. */
static void check_increments(void)
{
    static const uint32_t increment[] = {0, ASSIGN, 0, 2, 0}, sum[] = {CELL, 0, 0, NUMBER, 1, 0, SUM, 0, 1};
    struct kernel kernel = {increment, 5, sum, 9, 1, CELLS};
    must_walk("x = x + 1 by one lane in one step", &kernel, one_step, 2, 0);
    for (kernel.lanes = 2; kernel.lanes <= FEW_LANES; kernel.lanes++) {
        must_walk("x = x + 1", &kernel, right, 2, 0);
        must_walk("x = x + 1 in one step", &kernel, one_step, 1, 1);
    }
}

/* if (tid < 1) x = 1; else ; by two lanes. By Table 5 as printed a lane that waits has nothing left to do: lane 0 at the if, which it has again at the div token, as has lane 1 at the sync token. */
static void check_branches(void)
{
    static const uint32_t branch[] = {0, IF, 2, 1, 2, 1, ASSIGN, 0, 1, 0, 2, SKIP, 0, 0, 0}, under[] = {LANE, 0, 0, NUMBER, 1, 0, LESS, 0, 1};
    struct kernel kernel = {branch, 15, under, 9, 2, CELLS};
    must_walk("a branch", &kernel, right, 6, 0);
    must_walk("a branch, by Table 5 as printed", &kernel, as_printed, 3, 3);
}

/* while (x < 2) x = x + 1; leaves the underlined while and the brk context at once for the warp, and in two steps for a thread. */
static void check_loops(void)
{
    static const uint32_t loop[] = {0, WHILE, 4, 1, 0, 1, ASSIGN, 0, 2, 0}, sum[] = {CELL, 0, 0, NUMBER, 1, 0, SUM, 0, 1, NUMBER, 2, 0, LESS, 0, 3};
    static const uint32_t zero[CELLS];
    static struct warp before, after;
    struct kernel kernel = {loop, 10, sum, 15, 2, CELLS};
    must_walk("a loop", &kernel, right, 8, 0);
    start_warp(&kernel, zero, &before);
    after = before;
    warp_step(&kernel, &after);
    for (uint32_t lane = 0; lane < 2; lane++)
        if (is_wrong_end_found(&kernel, &before, &after, lane, 0) || is_wrong_end_found(&kernel, &before, &after, lane, 1)) {
            fprintf(stderr, "warps: the search found a wrong end of a loop's first step\n");
            exit(1);
        }
}

/* ---- figures */

static void demand(const char *what, const char *of, unsigned long came)
{
    if (came >= OFTEN)
        return;
    fprintf(stderr, "warps: seed %llu: %s%s came up %lu times, under %d\n", input.seed, of, what, came, OFTEN);
    exit(1);
}

static void demand_all(void)
{
    for (int r = 0; r < REASONS; r++)
        demand(reasons[r], "", refused[r]);
    for (int e = FINISHED; e < GOES_ON; e++)
        demand(ends[e], "a run that ", ended[e]);
    for (int r = 0; r < RULES; r++) {
        demand(rules[r], "the rule of ", by_rule[r]);
        demand(rules[r], "a search by the rule of ", searched_by_rule[r]);
    }
    demand("a search of a return out of a loop", "", left_loops);
    for (int m = 0; m < MARKS; m++)
        demand(marks[m], "", marked[m]);
    demand("a step that is not matched by assignments in one step", "", beyond_one_step);
    demand("a step that is not matched by Table 5 as printed", "", beyond_printed);
    demand("a wrong end", "", wrong_ends);
}

/* One line. tests/tools.sh adds up the figures of two processes: no other number may stand in it by itself. */
static void print_figures(void)
{
    unsigned long steps = 0;
    for (int r = 0; r < RULES; r++)
        steps += by_rule[r];
    printf("%lu kernels, %lu of them refused, in %lu calls; %lu finished, %lu used their steps up, %lu would overfill; %lu warp steps;", kernels, kernels - refused[ACCEPTED], calls, ended[FINISHED],
           ended[USED_UP], ended[WOULD_OVERFILL], steps);
    printf(" of %lu small kernels each of %lu steps matched by single threads, and none of %lu wrong ends;", small, searched, wrong_ends);
    printf(" not matched, as must be, %lu steps with assignments in one and %lu by the table as printed\n", beyond_one_step, beyond_printed);
}

/* With WARPS_DETAILS set: how often each reason, rule and mark came. */
static void print_details(void)
{
    for (int r = 0; r < REASONS; r++)
        printf("  %s: %lu\n", reasons[r], refused[r]);
    for (int r = 0; r < RULES; r++)
        printf("  the rule of %s: %lu, searched %lu\n", rules[r], by_rule[r], searched_by_rule[r]);
    printf("  a return out of a loop, searched: %lu\n", left_loops);
    for (int m = 0; m < MARKS; m++)
        printf("  %s: %lu\n", marks[m], marked[m]);
}

static void make_all(void)
{
    make_lent(&statements, "statements", sizeof drawn_kernel.statements);
    make_lent(&expressions, "expressions", sizeof drawn_kernel.expressions);
    make_lent(&cells, "cells", sizeof drawn_kernel.cells);
    make_lent(&answer, "answer", 4 * (ANSWER + 8));
}

int main(int argc, char **argv)
{
    if (argc != 3 && argc != 4) {
        fprintf(stderr, "usage: warps SEED COUNT [FIRST]\n");
        return 2;
    }
    input.test = "warps";
    input.seed = strtoull(argv[1], NULL, 10);
    unsigned long long count = strtoull(argv[2], NULL, 10), first = argc == 4 ? strtoull(argv[3], NULL, 10) : 0;
    make_all();
    check_increments();
    check_branches();
    check_loops();
    wrong_ends = 0;
    tell_more = tell_run;
    watch_touches();
    for (unsigned long long i = 0; i < count; i++) {
        begin_input(first + i);
        try_number();
    }
    print_figures();
    if (getenv("WARPS_DETAILS") != NULL)
        print_details();
    if (argc == 3)
        demand_all();
    return 0;
}
