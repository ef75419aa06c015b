/*
 * How long a step of a warp takes in the archive, and how long ordinary C (bench/plain_warp.c) takes for the same. bench/README.md tells the method and what it does not say.
 * Built with BEFORE, over a second archive whose functions have `before_` put before their names: also how long that one takes.
 * Every answer is checked; a wrong one ends the program with status 1. No time does.
 */
#define _POSIX_C_SOURCE 199309L
#include <stdio.h>
#include <stdlib.h>
#include <string.h>
#include <time.h>

#include "../include/probe.h"
#include "plain_warp.h"

/* The header once more, for the function of the second archive. */
#ifdef BEFORE
#undef PROBE_H
#define probe_warp before_probe_warp
#include "../include/probe.h"
#undef probe_warp
#endif

enum { CELLS = 64, ANSWER = 36, ROWS = 256, STEPS = 10000, FILLING = 0xa5 };
enum { SKIP, ASSIGN, IF, WHILE, BREAK, CALL, RETURN };
enum { NUMBER, CELL, LANE, SUM, DIFFERENCE, LESS };
enum { KINDS = 5, SIZES = 2, ROUNDS = 41 };
enum part { OURS, PLAIN, OURS_CHECK, PLAIN_CHECK, EARLIER, PARTS };
static const uint32_t sizes[SIZES] = {1, 32}; /* lanes */
static const double SAMPLE = 0.002;          /* seconds: a sample repeats its call until so much is spent */

/* Two tables that are written row by row. */
struct task {
    const char *name;
    uint32_t statements[5 * ROWS], expressions[3 * ROWS], lanes;
    size_t statements_len, expressions_len;
};

static struct task tasks[KINDS][SIZES];
static double times[KINDS][SIZES][PARTS][ROUNDS];
static uint32_t cells[CELLS], answer[ANSWER];

static void expect(const struct task *task, const char *what, uint32_t found, uint32_t expected)
{
    if (found == expected)
        return;
    printf("WRONG: %s, %u lanes: %s is %u, not %u\n", task->name, task->lanes, what, found, expected);
    exit(1);
}

/* ---- kernels, none of which ends */

static void put(struct task *task, uint32_t list, uint32_t kind, uint32_t x, uint32_t y, uint32_t z)
{
    const uint32_t row[5] = {list, kind, x, y, z};
    memcpy(task->statements + task->statements_len, row, sizeof row);
    task->statements_len += 5;
}

static uint32_t term(struct task *task, uint32_t kind, uint32_t x, uint32_t y)
{
    const uint32_t row[3] = {kind, x, y};
    memcpy(task->expressions + task->expressions_len, row, sizeof row);
    task->expressions_len += 3;
    return (uint32_t)task->expressions_len / 3 - 1;
}

/* while (tid + 1) x = x + tid + 1; */
static void loop(struct task *task)
{
    uint32_t x = term(task, CELL, 0, 0), one = term(task, NUMBER, 1, 0), tid = term(task, LANE, 0, 0), own = term(task, SUM, tid, one), more = term(task, SUM, x, own);
    put(task, 0, WHILE, own, 1, 0);
    put(task, 1, ASSIGN, 0, more, 0);
}

/* Half of the lanes take one path and half the other, in each of which they part again. */
static void branches(struct task *task)
{
    uint32_t tid = term(task, LANE, 0, 0), one = term(task, NUMBER, 1, 0), half = term(task, NUMBER, 16, 0), is_low = term(task, LESS, tid, half);
    uint32_t x = term(task, CELL, 0, 0), sum = term(task, SUM, x, tid), part = term(task, NUMBER, 8, 0), is_lower = term(task, LESS, tid, part);
    put(task, 0, WHILE, one, 1, 0);
    put(task, 1, IF, is_low, 2, 3);
    put(task, 2, IF, is_lower, 4, 5);
    put(task, 3, ASSIGN, 0, sum, 0);
    put(task, 4, ASSIGN, 1, sum, 0);
    put(task, 5, ASSIGN, 2, sum, 0);
}

/* Functions that call functions; the lanes break and return at their own times. */
static void calls(struct task *task)
{
    uint32_t tid = term(task, LANE, 0, 0), one = term(task, NUMBER, 1, 0), half = term(task, NUMBER, 16, 0), is_low = term(task, LESS, tid, half), x = term(task, CELL, 0, 0);
    uint32_t sum = term(task, SUM, x, one);
    put(task, 0, WHILE, one, 1, 0);
    put(task, 1, CALL, 2, 0, 0);
    put(task, 2, WHILE, one, 3, 0);
    put(task, 2, RETURN, 0, 0, 0);
    put(task, 3, CALL, 4, 0, 0);
    put(task, 3, BREAK, 0, 0, 0);
    put(task, 4, IF, is_low, 5, 6);
    put(task, 4, ASSIGN, 0, sum, 0);
    put(task, 5, RETURN, 0, 0, 0);
    put(task, 6, SKIP, 0, 0, 0);
}

/* A test of 38 rows and an assignment of 33. */
static void expressions(struct task *task)
{
    uint32_t one = term(task, NUMBER, 1, 0), e = term(task, CELL, 0, 0);
    for (int i = 0; i < 16; i++) {
        uint32_t tid = term(task, LANE, 0, 0);
        e = term(task, i % 2 ? SUM : DIFFERENCE, e, tid);
    }
    uint32_t zero = term(task, NUMBER, 0, 0), is_any = term(task, LESS, zero, one), mixed = term(task, LESS, e, zero), test = term(task, SUM, is_any, mixed);
    put(task, 0, WHILE, test, 1, 0);
    put(task, 1, ASSIGN, 0, e, 0);
}

/* The loop above as the last rows of a full table of statements. */
static void full(struct task *task)
{
    for (uint32_t row = 0; row < ROWS - 2; row++)
        put(task, 2 + row, SKIP, 0, 0, 0);
    loop(task);
}

static const struct kind {
    const char *name;
    void (*write)(struct task *task);
} kinds[KINDS] = {{"loop", loop}, {"branches", branches}, {"calls", calls}, {"expressions", expressions}, {"full table", full}};

/* ---- calls */

static uint32_t run(__typeof__(&probe_warp) door, const struct task *task, uint64_t steps)
{
    return door(task->statements, task->statements_len, task->expressions, task->expressions_len, task->lanes, cells, CELLS, steps, answer, ANSWER);
}

static uint64_t steps_of(enum part part)
{
    return part == OURS_CHECK || part == PLAIN_CHECK ? 0 : STEPS;
}

static uint32_t call(enum part part, const struct task *task)
{
    __typeof__(&probe_warp) door = part == PLAIN || part == PLAIN_CHECK ? plain_warp : probe_warp;
#ifdef BEFORE
    if (part == EARLIER)
        door = before_probe_warp;
#endif
    return run(door, task, steps_of(part));
}

/* Both leave the same cells and answers. */
static void try_steps(const struct task *task, uint64_t steps)
{
    static uint32_t first_cells[CELLS], first_answer[ANSWER];
    memset(cells, 0, sizeof cells);
    memset(answer, FILLING, sizeof answer);
    expect(task, "the number returned", run(probe_warp, task, steps), 0);
    expect(task, "how it ended", answer[2], 2);
    expect(task, "the steps taken", answer[4], (uint32_t)steps);
    memcpy(first_cells, cells, sizeof cells);
    memcpy(first_answer, answer, sizeof answer);
    memset(cells, 0, sizeof cells);
    memset(answer, FILLING, sizeof answer);
    expect(task, "the number returned by ordinary C", run(plain_warp, task, steps), 0);
    expect(task, "the same cells", memcmp(cells, first_cells, sizeof cells) == 0, 1);
    expect(task, "the same answer", memcmp(answer, first_answer, sizeof answer) == 0, 1);
}

static void make(struct task *task, const struct kind *kind, uint32_t lanes)
{
    task->name = kind->name;
    task->lanes = lanes;
    kind->write(task);
    for (uint64_t steps = 0; steps < 300; steps++)
        try_steps(task, steps);
    try_steps(task, STEPS);
}

/* ---- times */

static double now(void)
{
    struct timespec t;
    clock_gettime(CLOCK_MONOTONIC, &t);
    return (double)t.tv_sec + (double)t.tv_nsec * 1e-9;
}

/* The seconds of one call. */
static double sample(enum part part, const struct task *task)
{
    double start = now(), spent = 0;
    int n = 0;
    while (spent < SAMPLE) {
        expect(task, "a timed answer", call(part, task), 0);
        expect(task, "the steps of a timed answer", answer[4], (uint32_t)steps_of(part));
        n++;
        spent = now() - start;
    }
    return spent / n;
}

/* One round takes a sample of everything, those that are compared side by side. */
static void take_round(int round)
{
    for (int kind = 0; kind < KINDS; kind++)
        for (int size = 0; size < SIZES; size++)
            for (int part = 0; part < PARTS; part++)
                times[kind][size][part][round] = sample((enum part)part, &tasks[kind][size]);
}

static int by_size(const void *a, const void *b)
{
    double x = *(const double *)a, y = *(const double *)b;
    return (x > y) - (x < y);
}

static double median(const double *values)
{
    double sorted[ROUNDS];
    memcpy(sorted, values, sizeof sorted);
    qsort(sorted, ROUNDS, sizeof *sorted, by_size);
    return sorted[ROUNDS / 2];
}

/* The median of the ratios that are taken within each round. */
static double ratio(const double *a, const double *b)
{
    double ratios[ROUNDS];
    for (int round = 0; round < ROUNDS; round++)
        ratios[round] = a[round] / b[round];
    return median(ratios);
}

/* ---- what is printed */

static void print_method(void)
{
    printf("Five kernels that do not end, by 1 lane and by 32, %d steps a call. %d rounds; each takes the time of everything.\n", STEPS, ROUNDS);
    printf("ordinary C: plain_warp, built at -O3. Both left the same cells and answers after each of 0 to 299 steps, and after %d.\n", STEPS);
    printf("A ratio is taken within each round; the median over the rounds is printed.\n");
    printf("Compare ratios only: the figures in brackets are this machine's, at this hour.\n");
}

/* The older archive's time, or this one's once more where there is none. */
static void print_earlier(void)
{
#ifdef BEFORE
    printf("\nA step: the time by the archive before, as a ratio to the time now\n");
#else
    printf("\nA step: the same archive's time once more, as a ratio to the first: what ratios near 1 are worth\n");
#endif
    printf("%-12s%9s%9s\n", "", "1 lane", "32 lanes");
    for (int kind = 0; kind < KINDS; kind++)
        printf("%-12s%9.2f%9.2f\n", kinds[kind].name, ratio(times[kind][0][EARLIER], times[kind][0][OURS]), ratio(times[kind][1][EARLIER], times[kind][1][OURS]));
}

/* One row a kernel: ordinary C's time as a ratio to ours by 1 lane and by 32, our time by 32 lanes as a ratio to that by 1, and ours in nanoseconds. */
static void print_steps(void)
{
    printf("\nA step: ordinary C's time as a ratio to ours, and ours by 32 lanes as a ratio to that by 1\n");
    printf("%-12s%9s%9s%9s%13s%13s\n", "", "1 lane", "32 lanes", "32/1", "(1: ns)", "(32: ns)");
    for (int kind = 0; kind < KINDS; kind++) {
        const double *narrow = times[kind][0][OURS], *wide = times[kind][1][OURS];
        printf("%-12s%9.2f%9.2f%9.1f", kinds[kind].name, ratio(times[kind][0][PLAIN], narrow), ratio(times[kind][1][PLAIN], wide), ratio(wide, narrow));
        printf("%13.1f%13.1f\n", 1e9 * median(narrow) / STEPS, 1e9 * median(wide) / STEPS);
    }
}

/* What a call takes before its first step. */
static void print_checks(void)
{
    printf("\nA call of no steps: ordinary C's time as a ratio to ours, and ours as a ratio to one of our steps by 32 lanes\n");
    printf("%-12s%9s%9s%13s\n", "", "C/ours", "steps", "(ns)");
    for (int kind = 0; kind < KINDS; kind++) {
        const double *ours = times[kind][1][OURS_CHECK];
        printf("%-12s%9.2f%9.1f%13.1f\n", kinds[kind].name, ratio(times[kind][1][PLAIN_CHECK], ours), STEPS * ratio(ours, times[kind][1][OURS]), 1e9 * median(ours));
    }
}

int main(void)
{
    for (int kind = 0; kind < KINDS; kind++)
        for (int size = 0; size < SIZES; size++)
            make(&tasks[kind][size], &kinds[kind], sizes[size]);
    for (int round = 0; round < ROUNDS; round++)
        take_round(round);
    print_method();
    print_steps();
    print_earlier();
    print_checks();
    return 0;
}
