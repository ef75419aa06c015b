/*
 * How much stack the doors take, measured: each is called on a stack of its own that was painted before, and the lowest byte that lost its paint tells. The headers say how much that is at most,
 * and tests/run hands these figures over.
 *
 *   stack TEXTS EVIDENCE WARPS FILE...   the most bytes for review_text, for review_text_evidence and for probe_warp
 *
 * Texts are the files, texts at the limits of document 01 with every verdict, and seeded ones; kernels are seeded. Each call is made on two paints, so that a byte that happens to be the paint's is
 * seen once. It ends with one line of figures, or with status 1 if a door took more, or so much less than the header says that the figure tells nothing.
 */
#define _DEFAULT_SOURCE
#define _XOPEN_SOURCE 700
#include <stdio.h>
#include <stdlib.h>
#include <string.h>
#include <sys/mman.h>
#include <ucontext.h>

#include "../include/desk.h"
#include "../include/probe.h"
#include "kernels.h"

enum { STACK = 1 << 18, PAGE = 1 << 12, SEEDED = 1500, KERNELS = 1500, ANSWER = 36, STEPS = 300, ANSWERS = 20 };
enum door { TEXTS, EVIDENCE, WARPS, DOORS };

static const char *const doors[DOORS] = {"review_text", "review_text_evidence", "probe_warp"};
static size_t most[DOORS];
static unsigned long calls[DOORS], answered[ANSWERS];
static uint8_t *stack;
static ucontext_t caller, callee;

/* ---- one call */

static enum door door;
static uint8_t text[MOST_TEXT + 64], report[PRINTED];
static size_t length;
static struct drawn_kernel kernel;
static uint32_t cells[MOST_CELLS], answer[ANSWER], answers_with;
static const volatile uint8_t *frame; /* a byte of the caller's frame: what the door takes lies below it */

static void call_door(void)
{
    volatile uint8_t here = 0;
    frame = &here;
    switch (door) {
    case TEXTS:
        answers_with = review_text(text, length, report, REPORT);
        break;
    case EVIDENCE:
        answers_with = review_text_evidence(text, length, report, PRINTED);
        break;
    default:
        memcpy(cells, kernel.cells, sizeof cells);
        answers_with = probe_warp(kernel.statements, kernel.statements_len, kernel.expressions, kernel.expressions_len, kernel.lanes, cells, kernel.cells_len, STEPS, answer, ANSWER);
    }
}

/* How many bytes below the caller's frame lost their paint. */
static size_t taken_over(int paint)
{
    size_t lowest = 0;
    memset(stack, paint, STACK);
    if (getcontext(&callee) != 0) {
        fprintf(stderr, "stack: no context\n");
        exit(2);
    }
    callee.uc_stack.ss_sp = stack;
    callee.uc_stack.ss_size = STACK;
    callee.uc_link = &caller;
    makecontext(&callee, call_door, 0);
    swapcontext(&caller, &callee);
    while (stack[lowest] == (uint8_t)paint)
        lowest++;
    return (size_t)(frame - (stack + lowest));
}

static void measure(enum door which)
{
    door = which;
    calls[door]++;
    for (int turn = 0; turn < 2; turn++) {
        size_t taken = taken_over(turn == 0 ? 0x5a : 0xa5);
        most[door] = taken > most[door] ? taken : most[door];
    }
    if (answers_with < ANSWERS)
        answered[answers_with]++;
}

static void measure_text(void)
{
    measure(TEXTS);
    measure(EVIDENCE);
}

/* ---- texts */

static void read_file(const char *path)
{
    FILE *file = fopen(path, "rb");
    if (file == NULL) {
        fprintf(stderr, "stack: %s cannot be opened\n", path);
        exit(2);
    }
    length = fread(text, 1, TEXT + 1, file);
    fclose(file);
    measure_text();
}

/* 64 threads of eight such commands, a `%d` in which is the thread's number; as many as a table may have. */
static void full_table(const char *command)
{
    length = 0;
    for (int thread = 0; thread < THREADS; thread++) {
        length += (size_t)sprintf((char *)text + length, thread == 0 ? "" : "||");
        for (int i = 0; i < ROWS / THREADS; i++)
            length += (size_t)sprintf((char *)text + length, command, thread);
        length += (size_t)sprintf((char *)text + length, "return");
    }
    measure_text();
}

static void texts_at_the_limits(void)
{
    full_table("write %d;");                 /* 0 */
    full_table("sync 0 64;");                /* 0, as dense as can be */
    full_table("write 0;");                  /* 11 */
    full_table("arrive 0 64;");              /* 10 */
    full_table("sync 0 2;");                 /* 10 */
    full_table("sync 0 1;");                 /* 10 */
    full_table("read 0; sync 15 63;");       /* 13: over 512 commands */
    full_table("arrive 0 63;");              /* 9 */
    full_table("sync 0 63;");                /* 8 */
    full_table("sync %d 64;");               /* 3 */
    memset(text, ' ', TEXT);                 /* 12, at the longest text's end */
    length = TEXT;
    measure_text();
    memcpy(text + TEXT - 6, "return", 6); /* 0, after as many blanks as there may be */
    measure_text();
    memset(text, 'a', TEXT); /* 12, one word */
    measure_text();
    memset(text, '9', TEXT); /* 12, one number */
    memcpy(text, "read ", 5);
    measure_text();
}

static void seeded_texts(void)
{
    static struct program program;
    struct random random;
    for (uint64_t number = 0; number < SEEDED; number++) {
        seed(&random, 1, number);
        uint32_t which = below(&random, 10);
        if (which == 0)
            big_program(&random, &program);
        else if (which < 3)
            faulty_program(&random, THREADS, ROWS, &program);
        else if (which < 5)
            ordered_program(&random, THREADS, ROWS, &program);
        else
            small_program(&random, 60, &program);
        length = which < 8 ? spell_text(&random, &program, 2, text) : make_text(&random, &program, text);
        measure_text();
    }
}

/* ---- kernels */

static void seeded_kernels(void)
{
    static void (*const kinds[])(struct random *, struct drawn_kernel *) = {small_kernel, mixed_kernel, parted_kernel, deep_kernel, tall_kernel, full_kernel, wild_kernel};
    struct random random;
    for (uint64_t number = 0; number < KERNELS; number++) {
        seed(&random, 2, number);
        kinds[number % (sizeof kinds / sizeof *kinds)](&random, &kernel);
        measure(WARPS);
    }
}

/* ---- what is asked */

/* A figure that is twice what is taken, or more, would be held by a door that took twice as much. */
static void hold_to(enum door which, const char *figure)
{
    size_t said = strtoul(figure, NULL, 10);
    if (most[which] <= said && 2 * most[which] > said)
        return;
    printf("stack: %s took %lu bytes, and its header says at most %lu\n", doors[which], (unsigned long)most[which], (unsigned long)said);
    exit(1);
}

/* Each end of a review, or some end would not be measured. */
static void demand_verdicts(void)
{
    static const uint32_t numbers[] = {0, 3, 7, 8, 9, 10, 11, 12, 13, 17};
    for (size_t i = 0; i < sizeof numbers / sizeof *numbers; i++)
        if (answered[numbers[i]] == 0) {
            printf("stack: %lu was never answered\n", (unsigned long)numbers[i]);
            exit(1);
        }
}

/* Below it lies a page that cannot be touched. */
static void make_stack(void)
{
    uint8_t *pages = mmap(NULL, PAGE + STACK, PROT_READ | PROT_WRITE, MAP_PRIVATE | MAP_ANONYMOUS, -1, 0);
    if (pages == MAP_FAILED || mprotect(pages, PAGE, PROT_NONE) != 0) {
        fprintf(stderr, "stack: no memory\n");
        exit(2);
    }
    stack = pages + PAGE;
}

int main(int argc, char **argv)
{
    if (argc < 1 + DOORS) {
        fprintf(stderr, "usage: stack TEXTS EVIDENCE WARPS FILE...\n");
        return 2;
    }
    make_stack();
    for (int i = 1 + DOORS; i < argc; i++)
        read_file(argv[i]);
    texts_at_the_limits();
    seeded_texts();
    seeded_kernels();
    demand_verdicts();
    for (int d = 0; d < DOORS; d++)
        hold_to((enum door)d, argv[1 + d]);
    printf("stack: at most %lu bytes for a text, %lu with evidence, %lu for a kernel; %lu texts and %lu kernels\n", (unsigned long)most[TEXTS], (unsigned long)most[EVIDENCE],
           (unsigned long)most[WARPS], calls[TEXTS], calls[WARPS]);
    return 0;
}
