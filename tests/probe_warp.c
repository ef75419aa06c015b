/*
 * The fifth door of include/probe.h, the run of a warp, on document 001's own programs and on what request 2026-11 and document 01 say of it. Every call is made twice, over two fillings of
 * the rooms that differ everywhere, with a page that cannot be touched at either end of what is lent. The reference (warp.c), to which tests/warps.c holds the door, is itself held to
 * Table 1 and Example 2 here, configuration by configuration. Ends with a line `probe_warp: N passed`, N the number of calls, or at the first difference with that difference and
 * status 1. tests/run builds and runs it.
 */
#include <stdio.h>
#include <stdlib.h>
#include <string.h>

#include "../include/probe.h"
#include "lent.h"
#include "warp.h"

enum { ANSWER = 36, MORE = 9, MOST_NUMBERS = IN_STATEMENT * (STATEMENTS + 2) };

/* ---- what is lent, and what comes back */

struct table {
    const uint32_t *numbers;
    size_t length;
};
#define TABLE(numbers) {numbers, sizeof numbers / sizeof *numbers}

/* A program with the names of its rows, for what is printed of a stack. */
struct program {
    const char *name;
    struct table statements, expressions;
    const char *const *rows;
};

static int turn, calls;
static const char *trying = "";
static struct lent statements, expressions, cells, answer;

static void expect(const char *what, long place, unsigned long found, unsigned long expected)
{
    if (found == expected)
        return;
    printf("probe_warp: %s: %s at %ld is %lu, not %lu\n", trying, what, place, found, expected);
    exit(1);
}

/* What a room holds at a place that is wrong, as numbers. */
static void holds(struct lent *lent)
{
    uint32_t found = 0, expected = 0;
    long byte = wrong_byte(lent);
    if (byte == NONE)
        return;
    if (byte < 0 || (size_t)byte >= lent->bytes)
        expect(lent->name, byte, 1, 0);
    memcpy(&found, lent->at + byte / 4 * 4, 4);
    memcpy(&expected, (uint8_t *)must_hold(lent) + byte / 4 * 4, 4);
    expect(lent->name, byte / 4, found, expected);
}

/* A call, and what it has to answer: the cells are 0 before it but for those given, and after it as given. */
struct run {
    const struct program *program;
    uint32_t lanes;
    size_t cells_len, answer_len;
    uint64_t steps;
    const uint32_t *before, *after;
    uint32_t number, place, said;
    uint64_t taken;
};

static uint32_t *lend_cells(const struct run *run)
{
    uint32_t *room = lend_room(&cells, 4 * run->cells_len, 4, turn, 17 + (uint64_t)turn);
    size_t bytes = 4 * (run->cells_len < CELLS ? run->cells_len : CELLS);
    memcpy(room, run->before, bytes);
    memcpy(must_hold(&cells), run->number == 0 ? run->after : run->before, bytes);
    return room;
}

static void tell(const struct run *run)
{
    const uint32_t told[6] = {run->place, 0, run->said, 0, (uint32_t)run->taken, (uint32_t)(run->taken >> 32)};
    if (run->number != 14)
        memcpy(must_hold(&answer), told, sizeof told);
}

static void call(const struct run *run)
{
    const struct table *s = &run->program->statements, *e = &run->program->expressions;
    for (turn = 0; turn < 2; turn++) {
        const uint32_t *rows = lend(&statements, s->numbers, 4 * s->length, 4, turn), *terms = lend(&expressions, e->numbers, 4 * e->length, 4, turn);
        uint32_t *c = lend_cells(run), *a = lend_room(&answer, 4 * run->answer_len, 4, !turn, 23 + (uint64_t)turn);
        tell(run);
        calls++;
        expect("the number returned", (long)run->steps, probe_warp(rows, s->length, terms, e->length, run->lanes, c, run->cells_len, run->steps, a, run->answer_len), run->number);
        holds(&statements);
        holds(&expressions);
        holds(&cells);
        holds(&answer);
        give_back(&statements);
        give_back(&expressions);
    }
}

static const uint32_t zeros[CELLS];

/* The usual rooms, and cells of 0. */
static struct run usual(const struct program *program, uint32_t lanes)
{
    struct run run = {program, lanes, CELLS, ANSWER, 0, zeros, zeros, 0, 0, FINISHED, 0};
    trying = program->name;
    return run;
}

/* With so many steps this comes of it. */
static void after(struct run run, uint64_t steps, enum said said, uint64_t taken, const uint32_t *cells_after)
{
    run.steps = steps;
    run.said = said;
    run.taken = taken;
    run.after = cells_after;
    call(&run);
}

/* ---- Program 1, Table 1 and Example 2 */

/*
 * Cells are shared and have fixed numbers here, where the document's threads have an i and a j of their own. So these are expressions that have the document's values in every lane: i is
 * (0 < tid) - (t < tid), where t is 3 at first, and the only lane that comes to `--i`, which is 3, makes it 2; j, which is b[tid] = 0, 1, 1, 3, is (0 < tid) + (u < tid) + (u < tid) with u = 2.
 * Line 3 sets t and u. The only lane that comes to line 6 is 3 as well, so that b[tid] is a fixed cell there.
 */
enum { B = 0, B_3 = 3, T = 10, U = 11 };
enum { MAIN = 0, FUNC = 7, LOOP = 8, THEN = 9, ELSE = 10 };
enum { E_ZERO, E_TID, E_SOME, E_T, E_LAST, E_I, E_U, E_THIRD, E_J1, E_J, E_2I, E_TEST, E_B, E_ADDED, E_ONE, E_LESS_T, E_3, E_2 };

static const uint32_t program_1[] = {
    MAIN, CALL,   FUNC,   0,       0,    /* 14 */
    MAIN, RETURN, 0,      0,       0,    /* 15 */
    FUNC, ASSIGN, T,      E_3,     0,    /* 3: i = a[tid] */
    FUNC, ASSIGN, U,      E_2,     0,    /* 3: j = b[tid] */
    FUNC, WHILE,  E_I,    LOOP,    0,    /* 4: i > 0 */
    FUNC, RETURN, 0,      0,       0,    /* 11 */
    LOOP, IF,     E_TEST, THEN,    ELSE, /* 5: j > 2 * i */
    LOOP, ASSIGN, T,      E_LESS_T, 0,   /* 9: --i */
    THEN, ASSIGN, B_3,    E_ADDED, 0,    /* 6: b[tid] += i */
    ELSE, BREAK,  0,      0,       0,    /* 8 */
};
static const char *const rows_1[] = {"func", "return", "i=", "j=", "while", "return", "if", "--i", "+=", "break"};
static const uint32_t terms_1[] = {
    NUMBER, 0, 0,              /* E_ZERO */
    LANE, 0, 0,                /* E_TID */
    LESS, E_ZERO, E_TID,       /* E_SOME */
    CELL, T, 0,                /* E_T */
    LESS, E_T, E_TID,          /* E_LAST */
    DIFFERENCE, E_SOME, E_LAST, /* E_I */
    CELL, U, 0,                /* E_U */
    LESS, E_U, E_TID,          /* E_THIRD */
    SUM, E_SOME, E_THIRD,      /* E_J1 */
    SUM, E_J1, E_THIRD,        /* E_J */
    SUM, E_I, E_I,             /* E_2I */
    LESS, E_2I, E_J,           /* E_TEST */
    CELL, B_3, 0,              /* E_B */
    SUM, E_B, E_I,             /* E_ADDED */
    NUMBER, 1, 0,              /* E_ONE */
    DIFFERENCE, E_T, E_ONE,    /* E_LESS_T */
    NUMBER, 3, 0,              /* E_3 */
    NUMBER, 2, 0,              /* E_2 */
};
static const struct program one = {"Program 1", TABLE(program_1), TABLE(terms_1), rows_1};

/* The rules in their order, and the configuration that each leads to: the masks have lane 0 on the left, as in the document, and the stack its top. The first three are of Table 1. */
struct configuration {
    enum rule rule;
    const char *active, *disabled, *stack;
};
#define W "call1111 return call1111"
static const struct configuration example_2[] = {
    {CALL_W, "1111", "0000", "i= j= while return " W},
    {ASSIGN_W, "1111", "0000", "j= while return " W},
    {ASSIGN_W, "1111", "0000", "while return " W},
    {WHILE_W, "0111", "0000", "if --i again brk1111 return " W},
    {IF_W, "0110", "0000", "break div0001 += sync0111 --i again brk1111 return " W},
    {BREAK_W, "0000", "0bb0", "div0001 += sync0111 --i again brk1111 return " W},
    {TOKEN_W, "0001", "0bb0", "+= sync0111 --i again brk1111 return " W},
    {ASSIGN_W, "0001", "0bb0", "sync0111 --i again brk1111 return " W},
    {TOKEN_W, "0001", "0bb0", "--i again brk1111 return " W},
    {ASSIGN_W, "0001", "0bb0", "again brk1111 return " W},
    {WHILE_AGAIN_W, "0000", "0bb0", "if --i again brk1111 return " W},
    {INACT_W, "0000", "0bb0", "brk1111 return " W},
    {TOKEN_W, "1111", "0000", "return " W},
    {RETURN_W, "0000", "rrrr", W},
    {TOKEN_W, "1111", "0000", "return call1111"},
    {RETURN_W, "0000", "rrrr", "call1111"},
    {TOKEN_W, "1111", "0000", ""},
};
enum { STEPS_1 = sizeof example_2 / sizeof *example_2 };

static size_t print_mask(char *to, uint32_t mask, uint32_t lanes)
{
    for (uint32_t lane = 0; lane < lanes; lane++)
        to[lane] = has_lane(mask, lane) ? '1' : '0';
    to[lanes] = 0;
    return lanes;
}

static void print_stack(char *to, const struct program *program, const struct warp *warp, uint32_t lanes)
{
    static const char *const tokens[] = {[DIV_TOKEN] = "div", [SYNC_TOKEN] = "sync", [BRK_TOKEN] = "brk", [CALL_TOKEN] = "call"};
    *to = 0;
    for (size_t i = warp->height; i-- > 0;) {
        const struct entry *entry = &warp->stack[i];
        to += sprintf(to, "%s%s", i + 1 == warp->height ? "" : " ", is_token(entry) ? tokens[entry->kind] : entry->kind == WHILE_AGAIN ? "again" : program->rows[entry->row]);
        if (is_token(entry))
            to += print_mask(to, entry->mask, lanes);
    }
}

static void same_text(const char *what, int step, const char *found, const char *expected)
{
    if (strcmp(found, expected) == 0)
        return;
    printf("probe_warp: the reference, Example 2, step %d: %s is `%s`, not `%s`\n", step, what, found, expected);
    exit(1);
}

/* The reference against the document. */
static void follow_example(const struct kernel *kernel)
{
    static struct warp warp;
    char text[400];
    start_warp(kernel, zeros, &warp);
    for (int step = 0; step < STEPS_1; step++) {
        const struct configuration *it = &example_2[step];
        expect("the rule of a step", step, warp_step(kernel, &warp), it->rule);
        print_mask(text, warp.active, 4);
        same_text("the active mask", step, text, it->active);
        for (int lane = 0; lane < 4; lane++)
            text[lane] = "0br"[warp.disabled[lane]];
        same_text("the disable mask", step, text, it->disabled);
        print_stack(text, &one, &warp, 4);
        same_text("the stack", step, text, it->stack);
    }
}

/* The door against the document: what the cells hold after each number of steps. */
static void tries_program_1(void)
{
    uint32_t held[CELLS] = {0}, before[CELLS] = {0};
    struct kernel kernel = {program_1, one.statements.length, terms_1, one.expressions.length, 4, CELLS};
    struct run run = usual(&one, 4);
    follow_example(&kernel);
    static const uint32_t b[4] = {0, 1, 1, 3};
    memcpy(before, b, sizeof b);
    memcpy(held, b, sizeof b);
    run.before = before;
    for (uint32_t steps = 0; steps <= STEPS_1 + 2; steps++) {
        if (steps == 2)
            held[T] = 3;
        if (steps == 3)
            held[U] = 2;
        if (steps == 8)
            held[B_3] = 4; /* lane 3 alone took the then-path, with i = 1 */
        if (steps == 10)
            held[T] = 2;
        after(run, steps, steps < STEPS_1 ? USED_UP : FINISHED, steps < STEPS_1 ? steps : STEPS_1, held);
    }
}

/* ---- Programs 2 to 4; a body that is empty there has a skip here */

enum { LOCK = 0 };
/* if (tid == 0) lock = 1; else while (lock != 1) {} */
static const uint32_t program_2[] = {0, IF, 2, 1, 2, 1, ASSIGN, LOCK, 1, 0, 2, WHILE, 4, 3, 0, 3, SKIP, 0, 0, 0};
static const uint32_t turned_2[] = {0, IF, 5, 2, 1, 1, ASSIGN, LOCK, 1, 0, 2, WHILE, 4, 3, 0, 3, SKIP, 0, 0, 0};
static const uint32_t terms_2[] = {LANE, 0, 0, NUMBER, 1, 0, LESS, 0, 1, CELL, LOCK, 0, DIFFERENCE, 3, 1, LANE, 0, 0};
static const struct program two = {"Program 2", TABLE(program_2), TABLE(terms_2), NULL}, two_turned = {"Program 2 with its paths exchanged", TABLE(turned_2), TABLE(terms_2), NULL};

/* while (lock != tid) {} ++lock; */
static const uint32_t program_3[] = {0, WHILE, 2, 1, 0, 0, ASSIGN, LOCK, 4, 0, 1, SKIP, 0, 0, 0};
static const uint32_t terms_3[] = {CELL, LOCK, 0, LANE, 0, 0, DIFFERENCE, 0, 1, NUMBER, 1, 0, SUM, 0, 3};
static const struct program three = {"Program 3", TABLE(program_3), TABLE(terms_3), NULL};

/* while (next != 32) { if (tid == next) ++next; } */
static const uint32_t program_4[] = {0, WHILE, 2, 1, 0, 1, IF, 6, 2, 3, 2, ASSIGN, 0, 7, 0, 3, SKIP, 0, 0, 0};
static const uint32_t terms_4[] = {CELL, 0, 0, NUMBER, 32, 0, DIFFERENCE, 0, 1, LANE, 0, 0, DIFFERENCE, 3, 0, NUMBER, 1, 0, LESS, 4, 5, SUM, 0, 5};
static const struct program four = {"Program 4", TABLE(program_4), TABLE(terms_4), NULL};

static const uint32_t one_at_0[CELLS] = {1};

/* "The loop therefore never terminates": no number of steps is enough, and no lane writes. */
static void never_ends(const struct program *program, uint32_t lanes)
{
    static const uint64_t some[] = {0, 1, 2, 3, 4, 5, 6, 7, 8, 9, 10, 100, 1000, 20011};
    struct run run = usual(program, lanes);
    for (size_t i = 0; i < sizeof some / sizeof *some; i++)
        after(run, some[i], USED_UP, some[i], zeros);
}

static void tries_unfairness(void)
{
    for (uint32_t lanes = 2; lanes <= LANES; lanes += 15) {
        never_ends(&two, lanes);
        never_ends(&three, lanes);
        /* Lane 0 takes the else-path: if, assign, div; while, inact, brk, as lock is 1 by then; sync, call */
        after(usual(&two_turned, lanes), 7, USED_UP, 7, one_at_0);
        after(usual(&two_turned, lanes), 100, FINISHED, 8, one_at_0);
    }
    /* One lane waits for nobody: if, inact, div, assign, sync, call; and while, inact, brk, assign, call */
    after(usual(&two, 1), 100, FINISHED, 6, one_at_0);
    after(usual(&three, 1), 100, FINISHED, 5, one_at_0);
}

/* Each round is six steps: the test, if, skip, div, assign, sync; then the last test, inact, brk and call. */
static void tries_program_4(void)
{
    struct run run = usual(&four, 32);
    for (uint32_t steps = 0; steps <= 6 * 32 + 6; steps++) {
        uint32_t held[CELLS] = {(steps + 1) / 6};
        held[0] = held[0] < 32 ? held[0] : 32;
        after(run, steps, steps < 196 ? USED_UP : FINISHED, steps < 196 ? steps : 196, held);
    }
    /* Numbers of steps whose low word is small. How many were taken is seen with a high word of 0 alone, as a run of over 2^32 steps takes too long. */
    uint32_t all[CELLS] = {32};
    after(run, (uint64_t)1 << 32, FINISHED, 196, all);
    after(run, ((uint64_t)1 << 32) + 5, FINISHED, 196, all);
    after(run, UINT64_MAX, FINISHED, 196, all);
    /* With 31 lanes nobody makes 31 of it 32: the test, if, skip, inact and so on for ever. */
    uint32_t most[CELLS] = {31};
    after(usual(&four, 31), 20011, USED_UP, 20011, most);
}

/* ---- what lanes write */

static const uint32_t increment[] = {0, ASSIGN, 0, 2, 0}, increment_terms[] = {CELL, 0, 0, NUMBER, 1, 0, SUM, 0, 1};
static const struct program added = {"x = x + 1", TABLE(increment), TABLE(increment_terms), NULL};

/* x = tid; if (tid < 5) y = tid; else z = tid + 1; */
static const uint32_t lane_numbers[] = {0, ASSIGN, 0, 0, 0, 0, IF, 2, 1, 2, 1, ASSIGN, 1, 0, 0, 2, ASSIGN, 63, 4, 0};
static const uint32_t lane_terms[] = {LANE, 0, 0, NUMBER, 5, 0, LESS, 0, 1, NUMBER, 1, 0, SUM, 0, 3};
static const struct program highest = {"the highest lane", TABLE(lane_numbers), TABLE(lane_terms), NULL};

/* x = 0 - 1; y = x + 2; z = x < y; w = y < x: wrapping, and unsigned. */
static const uint32_t wraps[] = {0, ASSIGN, 0, 2, 0, 0, ASSIGN, 1, 5, 0, 0, ASSIGN, 2, 7, 0, 0, ASSIGN, 3, 8, 0};
static const uint32_t wraps_terms[] = {NUMBER, 0, 0, NUMBER, 1, 0, DIFFERENCE, 0, 1, CELL, 0, 0, NUMBER, 2, 0, SUM, 3, 4, CELL, 1, 0, LESS, 3, 6, LESS, 6, 3};
static const struct program wrapping = {"wrapping", TABLE(wraps), TABLE(wraps_terms), NULL};

static void tries_writes(void)
{
    for (uint32_t lanes = 1; lanes <= LANES; lanes++) {
        uint32_t held[CELLS] = {lanes - 1};
        after(usual(&added, lanes), 1, USED_UP, 1, one_at_0);
        after(usual(&added, lanes), 9, FINISHED, 2, one_at_0);
        after(usual(&highest, lanes), 1, USED_UP, 1, held);
        held[1] = lanes < 5 ? lanes - 1 : 4;
        held[63] = lanes > 5 ? lanes : 0;
        after(usual(&highest, lanes), 9, FINISHED, 7, held);
    }
    uint32_t held[CELLS] = {0xffffffffu, 1, 0, 1};
    after(usual(&wrapping, 1), 9, FINISHED, 5, held);
}

/* ---- break and return */

/* while (1) { if (tid < x) break; else x = x + 1; } y = tid; by four lanes: all go on until x is 1, and then one by one. */
static const uint32_t breaks[] = {0, WHILE, 1, 1, 0, 0, ASSIGN, 1, 0, 0, 1, IF, 3, 2, 3, 2, BREAK, 0, 0, 0, 3, ASSIGN, 0, 4, 0};
static const uint32_t breaks_terms[] = {LANE, 0, 0, NUMBER, 1, 0, CELL, 0, 0, LESS, 0, 2, SUM, 2, 1};
static const struct program broken = {"break", TABLE(breaks), TABLE(breaks_terms), NULL};

/*
 * Section 3.3: "a thread that executes a return in the else-path of a branch, while the other threads call another function f' when they later execute the if-path. Once the control flow
 * returns from f', its disable state remains unchanged." Lane 0 calls, lane 1 returned: so x = tid + 1 after the branch is lane 0's alone, and z = tid after the function is lane 1's.
 */
enum { F = 1, F_THEN = 2, F_ELSE = 3, F_2 = 4 };
static const uint32_t returns[] = {0, CALL, F, 0, 0, 0, ASSIGN, 2, 0, 0, F, IF, 2, F_THEN, F_ELSE, F, ASSIGN, 0, 3, 0, F_THEN, CALL, F_2, 0, 0, F_ELSE, RETURN, 0, 0, 0, F_2, ASSIGN, 1, 3, 0};
static const uint32_t returns_terms[] = {LANE, 0, 0, NUMBER, 1, 0, LESS, 0, 1, SUM, 0, 1};
static const struct program returned = {"return", TABLE(returns), TABLE(returns_terms), NULL};

/* func() { while (1) { if (tid < 2) return; else x = tid; while (1) break; if (x < 9) break; else ; } y = tid; } func(); z = tid; by four lanes: a return leaves the loops too, and a break one. */
static const uint32_t leaves[] = {0, CALL, 1, 0, 0, 0, ASSIGN, 2, 0, 0, 1, WHILE, 1, 2, 0, 1, ASSIGN, 1, 0, 0, 2, IF, 3, 3, 4, 2, WHILE, 1, 5, 0, 2, IF, 6, 6, 7, 3, RETURN, 0, 0, 0,
                                  4, ASSIGN, 0, 0, 0, 5, BREAK, 0, 0, 0, 6, BREAK, 0, 0, 0, 7, SKIP, 0, 0, 0};
static const uint32_t leaves_terms[] = {LANE, 0, 0, NUMBER, 1, 0, NUMBER, 2, 0, LESS, 0, 2, CELL, 0, 0, NUMBER, 9, 0, LESS, 4, 5};
static const struct program left = {"a return within loops", TABLE(leaves), TABLE(leaves_terms), NULL};

/*
 * Rounds of six steps: the test, if, assign by those that stay, div, break by the one that leaves, sync. In the first nobody leaves, and inact stands for the break; in the fifth nobody stays,
 * and inact stands for the assignment. Then inact, brk, assign, call.
 */
static void tries_breaks(void)
{
    uint32_t held[CELLS] = {4, 3};
    after(usual(&broken, 4), 33, USED_UP, 33, held);
    after(usual(&broken, 4), 1000, FINISHED, 34, held);
    for (uint32_t round = 1; round <= 5; round++) {
        uint32_t counted[CELLS] = {round < 4 ? round : 4};
        after(usual(&broken, 4), 6 * round, USED_UP, 6 * round, counted);
    }
}

/* call; if; return (lane 1); div; call (lane 0); assign; call token; sync; assign; call token; assign; call token */
static void tries_returns(void)
{
    uint32_t by[CELLS] = {0};
    after(usual(&returned, 2), 5, USED_UP, 5, by);
    by[1] = 1;
    after(usual(&returned, 2), 6, USED_UP, 6, by);
    by[0] = 1; /* lane 1 would have left 2 */
    after(usual(&returned, 2), 9, USED_UP, 9, by);
    by[2] = 1;
    after(usual(&returned, 2), 100, FINISHED, 12, by);
    /* call, while, if, assign, div, return, sync; while, break, brk; if, inact, div, break, sync; inact, brk, which lanes 0 and 1 sleep through; assign, call token, assign, call token */
    uint32_t last[CELLS] = {3, 3, 3};
    after(usual(&left, 4), 100, FINISHED, 21, last);
    /* Two lanes return before they write x or y: call, while, if, inact, div, return, sync, inact, brk, inact, call token, assign, call token */
    uint32_t none[CELLS] = {0, 0, 1};
    after(usual(&left, 2), 100, FINISHED, 13, none);
}

/* ---- refusals */

struct refused {
    const char *name;
    uint32_t lanes, number, place;
    size_t statements, expressions; /* numbers lent */
    uint32_t rows[40], terms[12];
};

/* Expressions where nothing else is said: 0: the number 1; 1: cell 63; 2: their sum. */
#define TERMS {NUMBER, 1, 99, CELL, 63, 99, SUM, 0, 1}
static const struct refused refusals[] = {
    {"no lanes", 0, 17, 0, 5, 9, {0, SKIP}, TERMS},
    {"33 lanes", 33, 17, 0, 5, 9, {0, SKIP}, TERMS},
    {"2^32 - 1 lanes", 0xffffffffu, 17, 0, 5, 9, {0, SKIP}, TERMS},
    {"four numbers of statements", 1, 17, 0, 4, 9, {0, SKIP}, TERMS},
    {"six numbers of statements", 1, 17, 0, 6, 9, {0, SKIP}, TERMS},
    {"eight numbers of expressions", 1, 17, 0, 5, 8, {0, SKIP}, TERMS},
    {"an expression of kind 6", 1, 17, 0, 10, 9, {0, SKIP, 0, 0, 0, 0, 7}, {NUMBER, 1, 0, 6, 0, 0}},
    {"an expression of cell 64", 1, 17, 0, 10, 9, {0, SKIP, 0, 0, 0, 0, 7}, {NUMBER, 1, 0, CELL, 64, 0}},
    {"an operand that is the row itself", 1, 17, 0, 10, 6, {0, SKIP, 0, 0, 0, 0, 7}, {NUMBER, 1, 0, SUM, 0, 1}},
    {"an operand of the first row", 1, 17, 0, 5, 3, {0, SKIP}, {LESS, 0, 0}},
    {"a kind of 7", 1, 17, 1, 10, 9, {0, SKIP, 0, 0, 0, 0, 7}, TERMS},
    {"an assignment to cell 64", 1, 17, 1, 10, 9, {0, SKIP, 0, 0, 0, 0, ASSIGN, 64, 0}, TERMS},
    {"an assignment of a missing expression", 1, 17, 1, 10, 9, {0, SKIP, 0, 0, 0, 0, ASSIGN, 63, 3}, TERMS},
    {"an assignment where there are no expressions", 1, 17, 0, 5, 0, {0, ASSIGN, 0, 0}, TERMS},
    {"an if by a missing expression", 1, 17, 2, 15, 9, {1, SKIP, 0, 0, 0, 2, SKIP, 0, 0, 0, 0, IF, 3, 1, 2}, TERMS},
    {"a while by a missing expression", 1, 17, 1, 10, 9, {1, SKIP, 0, 0, 0, 0, WHILE, 3, 1}, TERMS},
    {"a missing then-list", 1, 17, 1, 10, 9, {2, SKIP, 0, 0, 0, 0, IF, 0, 1, 2}, TERMS},
    {"a missing else-list", 1, 17, 1, 10, 9, {1, SKIP, 0, 0, 0, 0, IF, 0, 1, 2}, TERMS},
    {"a missing body", 1, 17, 0, 5, 9, {0, WHILE, 0, 1}, TERMS},
    {"the kernel as a body", 1, 17, 1, 10, 9, {0, SKIP, 0, 0, 0, 1, WHILE, 0, 0}, TERMS},
    {"the kernel as an arm", 1, 17, 1, 15, 9, {0, SKIP, 0, 0, 0, 1, IF, 0, 2, 0, 2, SKIP}, TERMS},
    {"both arms the same", 1, 17, 1, 10, 9, {1, SKIP, 0, 0, 0, 0, IF, 0, 1, 1}, TERMS},
    {"a body of two loops", 1, 17, 1, 15, 9, {1, SKIP, 0, 0, 0, 0, WHILE, 0, 1, 0, 0, WHILE, 0, 1}, TERMS},
    {"an arm that is called before", 1, 17, 0, 20, 9, {0, CALL, 1, 0, 0, 0, IF, 0, 1, 2, 1, SKIP, 0, 0, 0, 2, SKIP}, TERMS},
    {"an arm that is called after", 1, 17, 0, 20, 9, {0, IF, 0, 2, 1, 0, CALL, 1, 0, 0, 1, SKIP, 0, 0, 0, 2, SKIP}, TERMS},
    {"a loop that is its own body", 1, 17, 1, 10, 9, {0, SKIP, 0, 0, 0, 1, WHILE, 0, 1}, TERMS},
    {"loops in each other", 1, 17, 1, 15, 9, {0, SKIP, 0, 0, 0, 1, WHILE, 0, 2, 0, 2, WHILE, 0, 1}, TERMS},
    {"an if in its own arm", 1, 17, 0, 10, 9, {1, IF, 0, 2, 1, 2, SKIP}, TERMS},
    {"a call of a missing function", 1, 17, 1, 10, 9, {0, SKIP, 0, 0, 0, 0, CALL, 1}, TERMS},
    {"a call of an empty kernel", 1, 17, 0, 5, 9, {1, CALL, 0}, TERMS},
    {"a break in the kernel", 1, 18, 1, 10, 9, {0, SKIP, 0, 0, 0, 0, BREAK}, TERMS},
    {"a break in an arm outside of loops", 1, 18, 1, 15, 9, {0, IF, 0, 1, 2, 1, BREAK, 0, 0, 0, 2, SKIP}, TERMS},
    {"a break in a function that a loop calls", 1, 18, 2, 15, 9, {0, WHILE, 0, 1, 0, 1, CALL, 2, 0, 0, 2, BREAK}, TERMS},
    {"a break beside its loop", 1, 18, 2, 15, 9, {1, SKIP, 0, 0, 0, 0, WHILE, 0, 1, 0, 0, BREAK}, TERMS},
    {"a break in a list that nobody has", 1, 18, 0, 5, 9, {9, BREAK}, TERMS},
    {"17 in a later row than a break's", 1, 17, 1, 10, 9, {0, BREAK, 0, 0, 0, 0, 7}, TERMS},
    {"the first of two breaks", 1, 18, 0, 10, 9, {0, BREAK, 0, 0, 0, 0, BREAK}, TERMS},
    {"a break in an arm in a loop", 1, 0, 0, 20, 9, {0, WHILE, 0, 1, 0, 1, IF, 0, 2, 3, 2, BREAK, 0, 0, 0, 3, SKIP}, TERMS},
    {"a call of the kernel by nobody", 1, 0, 0, 10, 9, {0, SKIP, 0, 0, 0, 1, CALL, 0}, TERMS},
    {"two calls of one function", 1, 0, 0, 15, 9, {0, CALL, 7, 0, 0, 0, CALL, 7, 0, 0, 7, SKIP}, TERMS},
    {"numbers that are not looked at", 32, 0, 0, 10, 9, {0, SKIP, 0xffffffffu, 64, 99, 0, ASSIGN, 63, 2, 99}, {NUMBER, 0xffffffffu, 99, CELL, 63, 99, LANE, 99, 99}},
    {"list numbers of any size", 1, 0, 0, 10, 9, {0xffffffffu, BREAK, 0, 0, 0, 0, WHILE, 0, 0xffffffffu}, TERMS},
};

static const struct refused *refusal_named(const char *name)
{
    size_t i = 0;
    while (strcmp(refusals[i].name, name) != 0)
        i++;
    return &refusals[i];
}

/* What is accepted is not run: a budget of 0 says that it is used up. */
static void refuses(const struct refused *it, size_t cells_len, size_t answer_len, uint32_t number, uint32_t place)
{
    struct program program = {it->name, {it->rows, it->statements}, {it->terms, it->expressions}, NULL};
    uint32_t before[CELLS];
    for (uint32_t i = 0; i < CELLS; i++)
        before[i] = 1000 + i;
    struct run run = {&program, it->lanes, cells_len, answer_len, 0, before, before, number, place, number == 0 ? USED_UP : REFUSED, 0};
    trying = it->name;
    call(&run);
    run.steps = UINT64_MAX;
    if (number != 0)
        call(&run);
}

static void tries_refusals(void)
{
    for (size_t i = 0; i < sizeof refusals / sizeof *refusals; i++) {
        const struct refused *it = &refusals[i];
        refuses(it, CELLS, ANSWER, it->number, it->place);
        refuses(it, CELLS + MORE, ANSWER + MORE, it->number, it->place);
        refuses(it, CELLS, ANSWER - 1, 14, 0);
        refuses(it, 0, 0, 14, 0);
    }
}

/* "A cells room under 64 numbers is 17 with place 0": of a kernel that is accepted, one that is 18 at 1, one that is 17 at 0, and one that is 17 at 1. */
static void tries_rooms(void)
{
    static const char *const names[] = {"two calls of one function", "a break in the kernel", "no lanes", "a kind of 7"};
    static const size_t rooms[] = {0, 1, 32, 63};
    for (size_t i = 0; i < 16; i++)
        refuses(refusal_named(names[i % 4]), rooms[i / 4], ANSWER + i % 2, 17, 0);
}

/* ---- limits */

static uint32_t many[MOST_NUMBERS];

/* So many skips, in the kernel or in a list that nobody has. */
static struct program skips(uint32_t rows, uint32_t list)
{
    struct program program = {"skips", {many, IN_STATEMENT * (size_t)rows}, {terms_2, 0}, NULL};
    memset(many, 0, sizeof many);
    for (uint32_t row = 0; row < rows; row++)
        many[IN_STATEMENT * row] = list;
    return program;
}

static void tries_limits(void)
{
    struct program program = skips(255, 0);
    after(usual(&program, 1), 0, USED_UP, 0, zeros);
    after(usual(&program, 1), 255, USED_UP, 255, zeros);
    after(usual(&program, 1), 256, FINISHED, 256, zeros);
    program = skips(256, 0); /* 257 entries with the call token */
    after(usual(&program, 1), 0, USED_UP, 0, zeros);
    after(usual(&program, 1), 1, WOULD_OVERFILL, 0, zeros);
    after(usual(&program, 32), UINT64_MAX, WOULD_OVERFILL, 0, zeros);
    program = skips(256, 1); /* a kernel of no statement pops its token */
    after(usual(&program, 32), 0, USED_UP, 0, zeros);
    after(usual(&program, 32), 1, FINISHED, 1, zeros);
    program = skips(0, 0);
    after(usual(&program, 1), 1, FINISHED, 1, zeros);
    program = skips(257, 0);
    struct run run = usual(&program, 1);
    run.number = 17;
    after(run, 5, REFUSED, 0, zeros);
}

/* func() { func(); }: after call k there are 2 + k entries. */
static const uint32_t calls_itself[] = {0, CALL, 1, 0, 0, 1, CALL, 1, 0, 0};
/* The same with x = x + 1 first: two steps a call. */
static const uint32_t counts_itself[] = {0, CALL, 1, 0, 0, 1, ASSIGN, 0, 2, 0, 1, CALL, 1, 0, 0};

static void tries_overfill(void)
{
    struct program plain = {"a function that calls itself", TABLE(calls_itself), TABLE(increment_terms), NULL};
    after(usual(&plain, 4), 254, USED_UP, 254, zeros);
    after(usual(&plain, 4), 255, WOULD_OVERFILL, 254, zeros);
    after(usual(&plain, 4), UINT64_MAX, WOULD_OVERFILL, 254, zeros);
    struct program counts = {"a function that counts and calls itself", TABLE(counts_itself), TABLE(increment_terms), NULL};
    /* After call k there are 3 + k entries. */
    uint32_t held[CELLS] = {253};
    after(usual(&counts, 4), 1000, WOULD_OVERFILL, 506, held);
}

static void make_all(void)
{
    make_lent(&statements, "statements", 4 * MOST_NUMBERS);
    make_lent(&expressions, "expressions", 4 * MOST_NUMBERS);
    make_lent(&cells, "cells", 4 * (CELLS + MORE));
    make_lent(&answer, "answer", 4 * (ANSWER + MORE));
}

int main(void)
{
    make_all();
    tries_program_1();
    tries_unfairness();
    tries_program_4();
    tries_writes();
    tries_breaks();
    tries_returns();
    tries_refusals();
    tries_rooms();
    tries_limits();
    tries_overfill();
    printf("probe_warp: %d passed\n", calls);
    return 0;
}
