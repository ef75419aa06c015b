/*
 * Where the time of a review goes, how it grows with the number of commands, what a step of the schedule writer and of the replay takes, and how long ordinary C (bench/plain.c) takes for the same.
 * bench/README.md tells the method and what it does not say.
 * Built with BEFORE, over a second archive whose functions have `before_` put before their names: also how long that one takes. With BARE as well, its review
 * has no evidence slice, as before request 2026-04, and is named `bare_probe_review`.
 * Every answer is checked; a wrong one ends the program with status 1. No time does.
 */
#define _POSIX_C_SOURCE 199309L
#include <stdarg.h>
#include <stdio.h>
#include <stdlib.h>
#include <string.h>
#include <time.h>

#include "../include/probe.h"
#include "plain.h"

/* The header once more, for the functions of the second archive. */
#ifdef BEFORE
#undef PROBE_H
#define probe_review before_probe_review
#define probe_schedule before_probe_schedule
#define probe_read before_probe_read
#define probe_close before_probe_close
#include "../include/probe.h"
#undef probe_review
#undef probe_schedule
#undef probe_read
#undef probe_close
#endif

/* The second archive's review by the parameters that it has: one call more, and no evidence. */
#ifdef BARE
uint32_t bare_probe_review(const uint32_t *commands, size_t commands_len, const uint32_t *lengths, size_t lengths_len,
                           const uint32_t *schedule, size_t schedule_len, uint32_t *relation, size_t relation_len,
                           uint32_t *generations, size_t generations_len, uint32_t *answer, size_t answer_len);

uint32_t before_probe_review(const uint32_t *commands, size_t commands_len, const uint32_t *lengths, size_t lengths_len,
                             const uint32_t *schedule, size_t schedule_len, uint32_t *relation, size_t relation_len,
                             uint32_t *generations, size_t generations_len, uint32_t *evidence, size_t evidence_len,
                             uint32_t *answer, size_t answer_len)
{
    (void)evidence;
    (void)evidence_len;
    return bare_probe_review(commands, commands_len, lengths, lengths_len, schedule, schedule_len, relation, relation_len, generations,
                             generations_len, answer, answer_len);
}
enum { IS_BARE = 1 };
#else
enum { IS_BARE = 0 };
#endif

struct archive {
    __typeof__(&probe_review) review;
    __typeof__(&probe_schedule) schedule;
    __typeof__(&probe_read) read;
    __typeof__(&probe_close) close;
};

static const struct archive archives[] = {
    {probe_review, probe_schedule, probe_read, probe_close},
#ifdef BEFORE
    {before_probe_review, before_probe_schedule, before_probe_read, before_probe_close},
#endif
};

enum { COMMANDS = 512, THREADS = 64, WORDS = COMMANDS * COMMANDS / 32, KEPT = 16, EVIDENCE = 2 * KEPT * COMMANDS };
enum { ANSWER = 36, ENTRIES = 3, PAIRS = 4, TEXT = 32768, FILLING = 0xa5 };
enum { ARRIVE = 2, SYNC = 3 };
enum { KINDS = 6, SIZES = 4, LAST = SIZES - 1, ROUNDS = 41 };
enum { NOW, THEN, ARCHIVES = sizeof archives / sizeof *archives };
enum part { READING, WRITING, REPLAY, REVIEW, ORDINARY, WRITING_FRONT, REPLAY_FRONT, PLAIN_REPLAY, PARTS };
static const double SAMPLE = 0.002; /* seconds: a sample repeats its call until so much is spent */

/* What a review writes and document 01 leaves no choice of; the evidence stands apart. */
struct rooms {
    uint32_t relation[WORDS], generations[COMMANDS], answer[ANSWER];
};

/* One text and all that the doors make of it. */
struct task {
    const struct kind *kind;
    uint32_t rows, threads, length; /* commands, threads, commands to a thread */
    size_t bytes;
    char text[TEXT];
    uint32_t commands[3 * COMMANDS], lengths[THREADS], schedule[COMMANDS];
    uint32_t stopping[3 * COMMANDS], stopped[COMMANDS]; /* commands whose second mismatches; the writer's two steps of them */
    struct rooms rooms, first; /* lent to each call; as the first review left them */
    uint32_t evidence[EVIDENCE];
};

/* A pattern of texts: what one thread does, and the verdict. Either all threads have a given length, or there are given threads. */
struct kind {
    const char *name;
    uint32_t verdict, length, threads;
    void (*thread)(struct task *task, uint32_t t);
};

static struct task tasks[KINDS][SIZES];
static double times[2][KINDS][SIZES][PARTS][ROUNDS]; /* of the archive, and of the one before it */

static void expect(const struct task *task, const char *what, uint32_t found, uint32_t expected)
{
    if (found == expected)
        return;
    printf("WRONG: %s, %u commands: %s is %u, not %u\n", task->kind->name, task->rows, what, found, expected);
    exit(1);
}

/* ---- texts */

static void put(struct task *task, const char *format, ...)
{
    va_list values;
    va_start(values, format);
    size_t left = TEXT - task->bytes;
    size_t n = (size_t)vsnprintf(task->text + task->bytes, left, format, values);
    va_end(values);
    expect(task, "a text that fits", n < left, 1);
    task->bytes += n;
}

/* Half of the threads fill two tiles by turns, the other half use them: a tile is written once it is empty and read once it is full. */
static void clean(struct task *task, uint32_t t)
{
    uint32_t all = task->threads, half = all / 2, n = t % half, rounds = task->length / 4;
    if (t >= half)
        put(task, "arrive 0 %u; arrive 1 %u; ", all, all);
    for (uint32_t round = 0; round < rounds; round++) {
        uint32_t empty = round % 2, full = empty + 2, tile = empty * all;
        if (t < half) {
            put(task, "sync %u %u; write %u; write %u; arrive %u %u; ", empty, all, tile + n, tile + half + n, full, all);
            continue;
        }
        put(task, "sync %u %u; read %u; read %u; ", full, all, tile + n, tile + half + (n + 1) % half);
        if (round + 2 < rounds)
            put(task, "arrive %u %u; ", empty, all);
    }
}

/* Each thread writes its own address and reads its neighbour's, and all threads meet after each access. */
static void dense(struct task *task, uint32_t t)
{
    for (uint32_t k = 0; k < task->length; k += 4) {
        put(task, "write %u; sync 0 %u; ", t, task->threads);
        put(task, "read %u; sync 1 %u; ", (t + 1) % task->threads, task->threads);
    }
}

/* Each thread keeps to its own address; the first thread's last command meets the second thread's first. */
static void sparse(struct task *task, uint32_t t)
{
    for (uint32_t k = 0; k < task->length; k++) {
        if (t == 0 && k == task->length - 1)
            put(task, "arrive 0 2; ");
        else if (t == 1 && k == 0)
            put(task, "sync 0 2; ");
        else
            put(task, k % 2 ? "read %u; " : "write %u; ", t);
    }
}

/*
 * One address goes from the last thread down to the first, against the order of the rows, and then to the last again. Its first holder waits for
 * nobody and its last holder hands it to nobody: in these places stands one more access.
 */
static void ring(struct task *task, uint32_t t)
{
    uint32_t lower = (t + task->threads - 1) % task->threads, laps = task->length / 4;
    for (uint32_t lap = 0; lap < laps; lap++) {
        if (lap == 0 && t == task->threads - 1)
            put(task, "read 0; ");
        else
            put(task, "sync %u 2; ", t);
        put(task, "read 0; write 0; ");
        if (lap == laps - 1 && t == 0)
            put(task, "write 0; ");
        else
            put(task, "arrive %u 2; ", lower);
    }
}

/* All arrive at one barrier again and again, and none waits. Each generation has as many commands as there are threads, and every two of neighbouring ones are a fault. */
static void reuse(struct task *task, uint32_t t)
{
    (void)t;
    for (uint32_t k = 0; k < task->length; k++)
        put(task, "arrive 0 %u; ", task->threads);
}

/* All write one address, and none waits: every two commands of different threads race. */
static void race(struct task *task, uint32_t t)
{
    (void)t;
    for (uint32_t k = 0; k < task->length; k++)
        put(task, "write 0; ");
}

static const struct kind kinds[KINDS] = {{"clean", 0, 16, 0, clean}, {"dense", 0, 8, 0, dense}, {"sparse", 0, 8, 0, sparse},
                                         {"ring", 0, 0, 16, ring}, {"reuse", 10, 8, 0, reuse}, {"race", 11, 8, 0, race}};

static uint32_t total(const struct task *task)
{
    switch (task->kind->verdict) {
    case 10:
        return (task->length - 1) * task->threads * task->threads;
    case 11:
        return task->length * task->length * task->threads * (task->threads - 1) / 2;
    default:
        return 0;
    }
}

/* ---- calls */

static uint32_t review(__typeof__(&probe_review) door, struct task *task, size_t steps)
{
    return door(task->commands, 3 * task->rows, task->lengths, task->threads, task->schedule, steps, task->rooms.relation, WORDS,
                task->rooms.generations, COMMANDS, task->evidence, EVIDENCE, task->rooms.answer, ANSWER);
}

static uint32_t write_steps(__typeof__(&probe_schedule) door, struct task *task, const uint32_t *commands, uint32_t *room)
{
    return door(commands, 3 * task->rows, task->lengths, task->threads, room, COMMANDS, task->rooms.answer, ANSWER);
}

static uint32_t call(int archive, enum part part, struct task *task)
{
    switch (part) {
    case READING:
        return archives[archive].read((const uint8_t *)task->text, task->bytes, task->commands, 3 * COMMANDS, task->lengths,
                                      THREADS, task->rooms.answer, ANSWER);
    case WRITING:
        return write_steps(archives[archive].schedule, task, task->commands, task->schedule);
    case WRITING_FRONT:
        return write_steps(archives[archive].schedule, task, task->stopping, task->stopped);
    case REPLAY:
        return review(archives[archive].review, task, task->rows - 1);
    case REPLAY_FRONT:
        return review(archives[archive].review, task, 0);
    case PLAIN_REPLAY:
        return review(plain_review, task, task->rows - 1);
    case REVIEW:
        return review(archives[archive].review, task, task->rows);
    default:
        return review(plain_review, task, task->rows);
    }
}

static uint32_t answered(enum part part, const struct task *task)
{
    const uint32_t verdict = task->kind->verdict, answers[PARTS] = {0, 0, 6, verdict, verdict, 0, 6, 6};
    return answers[part];
}

/* ---- happens-before, drawn here from the generations by document 01's rule */

static int is_edge(const struct task *task, uint32_t i, uint32_t j)
{
    const uint32_t *a = task->commands + 3 * i, *b = task->commands + 3 * j, *generations = task->first.generations;
    int next = j == i + 1 && i / task->length == j / task->length;
    int meets = a[0] >= ARRIVE && b[0] == SYNC && a[1] == b[1] && generations[i] == generations[j];
    return i == j || next || meets;
}

static void draw(struct task *task)
{
    size_t width = (task->rows + 31) / 32;
    memset(task->rooms.relation, 0, task->rows * width * sizeof *task->rooms.relation);
    for (uint32_t i = 0; i < task->rows; i++)
        for (uint32_t j = 0; j < task->rows; j++)
            if (is_edge(task, i, j))
                task->rooms.relation[i * width + j / 32] |= (uint32_t)1 << j % 32;
}

/* ---- a text made, every part called once, and all that they tell checked */

static void try_part(int archive, struct task *task, enum part part, const char *what, uint32_t expected, int at)
{
    memset(&task->rooms, FILLING, sizeof task->rooms);
    expect(task, "an answer", call(archive, part, task), answered(part, task));
    expect(task, what, task->rooms.answer[at], expected);
}

/* The archive's own review of a schedule, over rooms of its own; answers its verdict, 10 only where some generation is another than in the text's schedule. */
static uint32_t judge(const struct task *task, const uint32_t *steps, size_t n)
{
    static struct rooms rooms;
    static uint32_t evidence[EVIDENCE];
    uint32_t number = probe_review(task->commands, 3 * task->rows, task->lengths, task->threads, steps, n, rooms.relation, WORDS, rooms.generations, COMMANDS,
                                   evidence, EVIDENCE, rooms.answer, ANSWER);
    int same = memcmp(rooms.generations, task->rooms.generations, task->rows * sizeof *rooms.generations) == 0;
    return number == 10 && same ? 0 : number;
}

/* The step that runs a command. */
static uint32_t when(const struct task *task, const uint32_t *steps, uint32_t command)
{
    uint32_t s = 0;
    for (uint32_t before = command % task->length;; s++)
        if (steps[s] == command / task->length && before-- == 0)
            return s;
}

/* For 11: two schedules a kept pair, with the pair in both orders. */
static void try_races(const struct task *task, size_t entries)
{
    uint32_t kept = total(task) < KEPT ? total(task) : KEPT;
    expect(task, "the number of entries", (uint32_t)entries, 2 * kept * task->rows);
    for (uint32_t part = 0; part < 2 * kept; part++) {
        const uint32_t *steps = task->evidence + part * task->rows, *pair = task->rooms.answer + PAIRS + part / 2 * 2;
        expect(task, "a schedule of the evidence", judge(task, steps, task->rows), 11);
        expect(task, "a pair with y first", when(task, steps, pair[0]) > when(task, steps, pair[1]), part % 2);
    }
}

/* The evidence shows the verdict. Its number of entries is then taken out of the answer, as another review may write other schedules. */
static void try_evidence(struct task *task, int is_bare)
{
    size_t entries = task->rooms.answer[ENTRIES];
    if (is_bare || (task->kind->verdict != 10 && task->kind->verdict != 11)) {
        expect(task, "the number of entries", (uint32_t)entries, 0);
    } else if (task->kind->verdict == 11) {
        try_races(task, entries);
    } else {
        uint32_t number = judge(task, task->evidence, entries);
        expect(task, "a second schedule that shows a reuse fault", number >= 7 && number <= 10, 1);
    }
    task->rooms.answer[ENTRIES] = 0;
}

/* A review's verdict and total are the kind's. All that it leaves in the three rooms, to their ends, is what the first archive's review left. */
static void try_review(int archive, struct task *task, enum part part, const char *what)
{
    memset(task->evidence, FILLING, sizeof task->evidence);
    try_part(archive, task, part, "the total", total(task), 2);
    try_evidence(task, IS_BARE && archive == THEN && part == REVIEW);
    if (archive == NOW && part == REVIEW)
        task->first = task->rooms;
    expect(task, what, memcmp(&task->rooms, &task->first, sizeof task->rooms) == 0, 1);
}

/* The closed edges must be the table that the first archive's review left. */
static void try_closing(int archive, struct task *task)
{
    memset(&task->rooms, FILLING, sizeof task->rooms);
    draw(task);
    expect(task, "the answer of closing", archives[archive].close(task->rooms.relation, WORDS, task->rows), 1);
    int same = memcmp(task->rooms.relation, task->first.relation, sizeof task->rooms.relation) == 0;
    expect(task, "closed edges equal to the review's table", (uint32_t)same, 1);
}

/* Also makes the commands whose second mismatches: two of the first thread, which is the lowest. */
static void try_reading(int archive, struct task *task)
{
    static const uint32_t stop[2][3] = {{ARRIVE, 0, 2}, {ARRIVE, 0, 3}};
    try_part(archive, task, READING, "the number of commands", task->rows, 2);
    expect(task, "the number of threads", task->rooms.answer[3], task->threads);
    for (uint32_t t = 0; t < task->threads; t++)
        expect(task, "a thread's length", task->lengths[t], task->length);
    memcpy(task->stopping, task->commands, sizeof task->commands);
    memcpy(task->stopping, stop, sizeof stop);
}

static void try_archive(int archive, struct task *task)
{
    try_reading(archive, task);
    try_part(archive, task, WRITING_FRONT, "the length of a schedule that ends at its second step", 2, 2);
    try_part(archive, task, WRITING, "the schedule's length", task->rows, 2);
    try_part(archive, task, REPLAY_FRONT, "no steps given", 0, 0);
    try_part(archive, task, REPLAY, "the number of steps given", task->rows - 1, 0);
    try_part(archive, task, PLAIN_REPLAY, "the number of steps given to ordinary C", task->rows - 1, 0);
    try_review(archive, task, REVIEW, "the same rooms by both archives");
    try_review(archive, task, ORDINARY, "the same rooms by ordinary C");
    try_closing(archive, task);
}

static void make(struct task *task, const struct kind *kind, uint32_t rows)
{
    task->kind = kind;
    task->rows = rows;
    task->threads = kind->threads > 0 ? kind->threads : rows / kind->length;
    task->length = rows / task->threads;
    for (uint32_t t = 0; t < task->threads; t++) {
        put(task, t == 0 ? "" : " || ");
        kind->thread(task, t);
        put(task, "return");
    }
    for (int archive = NOW; archive < ARCHIVES; archive++)
        try_archive(archive, task);
}

/* ---- times */

static double now(void)
{
    struct timespec t;
    clock_gettime(CLOCK_MONOTONIC, &t);
    return (double)t.tv_sec + (double)t.tv_nsec * 1e-9;
}

/* The seconds of one call. */
static double sample(int archive, enum part part, struct task *task)
{
    double start = now(), spent = 0;
    int calls = 0;
    while (spent < SAMPLE) {
        expect(task, "a timed answer", call(archive, part, task), answered(part, task));
        calls++;
        spent = now() - start;
    }
    return spent / calls;
}

/* The writer and the replay by an archive, and what each does before its first step. */
static int is_of_steps(int part)
{
    return part == WRITING || part == WRITING_FRONT || part == REPLAY || part == REPLAY_FRONT;
}

/* Only what is printed: at the last size everything but an older archive's reading, at the others the reviews and the replay now. */
static int is_timed(int archive, int size, int part)
{
    if (archive == THEN)
        return part == REVIEW || (size == LAST && is_of_steps(part));
    return size == LAST || part == REPLAY || part == REVIEW || part == ORDINARY;
}

/* One round takes a sample of everything, those that are compared side by side, so that a change of the machine's load meets all alike. */
static void take_round(int round)
{
    for (int kind = 0; kind < KINDS; kind++)
        for (int size = 0; size < SIZES; size++)
            for (int part = 0; part < PARTS; part++)
                for (int archive = NOW; archive < ARCHIVES; archive++)
                    if (is_timed(archive, size, part))
                        times[archive][kind][size][part][round] = sample(archive, (enum part)part, &tasks[kind][size]);
}

static int by_size(const void *a, const void *b)
{
    double x = *(const double *)a, y = *(const double *)b;
    return (x > y) - (x < y);
}

/* What stands at a part of the order by size: 0.5 is the median. */
static double quantile(const double *values, double part)
{
    double sorted[ROUNDS];
    memcpy(sorted, values, sizeof sorted);
    qsort(sorted, ROUNDS, sizeof *sorted, by_size);
    return sorted[(int)(part * (ROUNDS - 1))];
}

static double median(const double *values)
{
    return quantile(values, 0.5);
}

/* The median of the ratios that are taken within each round. */
static double ratio(const double *a, const double *b)
{
    double ratios[ROUNDS];
    for (int round = 0; round < ROUNDS; round++)
        ratios[round] = a[round] / b[round];
    return median(ratios);
}

/* ---- what is printed */

static void print_method(void)
{
    printf("Six kinds of text, each of 64, 128, 256 and 512 commands. %d rounds; each takes the time of everything.\n", ROUNDS);
    printf("reading: probe_read. writing: probe_schedule. review: probe_review with the written schedule.\n");
    printf("replay: the same review without the schedule's last step, which stops at verdict 6.\n");
    printf("order and faults: the rest of the review. ordinary C: plain_review, the whole review, built at -O3.\n");
    printf("before the first step: what a call takes that makes no step (replay), or two, the second a mismatch (writer).\n");
    printf("All reviews of a text left the same answer, sheet, table and generations; its edges, closed by probe_close, were that table.\n");
    printf("Reviews of reuse and race write evidence, ordinary C's too; each schedule of it was reviewed, and showed the verdict.\n");
    printf("A share or ratio is taken within each round; the median over the rounds is printed.\n");
    printf("Compare shares and ratios only: the figures in brackets are this machine's, at this hour.\n");
}

/* The parts of one round, with the rest of the review in the review's place. Together they are 100. */
static void share_round(int kind, int round, double shares[ORDINARY])
{
    double t[ORDINARY];
    for (int part = 0; part < ORDINARY; part++)
        t[part] = times[NOW][kind][LAST][part][round];
    double all = t[READING] + t[WRITING] + t[REVIEW];
    t[REVIEW] -= t[REPLAY];
    for (int part = 0; part < ORDINARY; part++)
        shares[part] = 100 * t[part] / all;
}

static void print_shares(void)
{
    printf("\nShares of reading, writing and review together, 512 commands, in percent\n");
    printf("%-8s%9s%9s%9s%18s\n", "", "reading", "writing", "replay", "order and faults");
    for (int kind = 0; kind < KINDS; kind++) {
        double shares[ORDINARY][ROUNDS], one[ORDINARY];
        for (int round = 0; round < ROUNDS; round++) {
            share_round(kind, round, one);
            for (int part = 0; part < ORDINARY; part++)
                shares[part][round] = one[part];
        }
        printf("%-8s", kinds[kind].name);
        for (int part = 0; part < ORDINARY; part++)
            printf(part == REVIEW ? "%18.1f\n" : "%9.1f", median(shares[part]));
    }
}

static void print_growth(void)
{
    printf("\nThe review's time as commands grow, as a ratio to 64 commands, and that of 512 as a ratio to 256\n");
    printf("%-8s%9d%9d%9d%9d%9s%13s%15s\n", "", 64, 128, 256, 512, "512/256", "(512: ms)", "(middle half)");
    for (int kind = 0; kind < KINDS; kind++) {
        printf("%-8s", kinds[kind].name);
        for (int size = 0; size < SIZES; size++)
            printf("%9.1f", ratio(times[NOW][kind][size][REVIEW], times[NOW][kind][0][REVIEW]));
        const double *last = times[NOW][kind][LAST][REVIEW];
        printf("%9.1f%13.3f", ratio(last, times[NOW][kind][LAST - 1][REVIEW]), 1000 * median(last));
        printf("%8.3f -%6.3f\n", 1000 * quantile(last, 0.25), 1000 * quantile(last, 0.75));
    }
}

/* Each kind's times of one part as ratios to the times of our review, at each size. */
static void print_ratios(const char *title, int archive, enum part part, double unit, int decimals)
{
    printf("\n%s\n%-8s%9d%9d%9d%9d\n", title, "", 64, 128, 256, 512);
    for (int kind = 0; kind < KINDS; kind++) {
        printf("%-8s", kinds[kind].name);
        for (int size = 0; size < SIZES; size++)
            printf("%9.*f", decimals, unit * ratio(times[archive][kind][size][part], times[NOW][kind][size][REVIEW]));
        printf("\n");
    }
}

/* ---- the writer and the replay by themselves */

/* A call, what it does before its first step, and how many steps it makes. */
static const struct stepper {
    const char *name;
    enum part whole, front;
    uint32_t steps;
} steppers[] = {{"writer", WRITING, WRITING_FRONT, COMMANDS}, {"replay", REPLAY, REPLAY_FRONT, COMMANDS - 1}};
enum { STEPPERS = sizeof steppers / sizeof *steppers };

/* The kinds one after the other, and the mean of these figures. */
static void print_line(const char *name, const double values[KINDS], int decimals)
{
    double sum = 0;
    printf("%-24s", name);
    for (int kind = 0; kind < KINDS; kind++) {
        printf("%9.*f", decimals, values[kind]);
        sum += values[kind];
    }
    printf("%9.*f\n", decimals, sum / KINDS);
}

static void print_kinds(const char *title)
{
    printf("\n%s\n%-24s", title, "");
    for (int kind = 0; kind < KINDS; kind++)
        printf("%9s", kinds[kind].name);
    printf("%9s\n", "mean");
}

static void take_off(const double *whole, const double *front, double *rest)
{
    for (int round = 0; round < ROUNDS; round++)
        rest[round] = whole[round] - front[round];
}

static void print_nanoseconds(const char *name, enum part part, uint32_t steps)
{
    double values[KINDS];
    for (int kind = 0; kind < KINDS; kind++)
        values[kind] = 1e9 * median(times[NOW][kind][LAST][part]) / steps;
    print_line(name, values, 1);
}

/* The times of one part as ratios to those of another now. */
static void print_beside(const char *name, int archive, enum part part, enum part now)
{
    double values[KINDS];
    for (int kind = 0; kind < KINDS; kind++)
        values[kind] = ratio(times[archive][kind][LAST][part], times[NOW][kind][LAST][now]);
    print_line(name, values, 2);
}

static void print_steps_beside(const char *name, enum part whole, enum part front)
{
    double values[KINDS], before[ROUNDS], now[ROUNDS];
    for (int kind = 0; kind < KINDS; kind++) {
        take_off(times[THEN][kind][LAST][whole], times[THEN][kind][LAST][front], before);
        take_off(times[NOW][kind][LAST][whole], times[NOW][kind][LAST][front], now);
        values[kind] = ratio(before, now);
    }
    print_line(name, values, 2);
}

static void print_steppers(void)
{
    print_kinds("The writer and the replay, 512 commands (nanoseconds a step)");
    for (const struct stepper *it = steppers; it < steppers + STEPPERS; it++) {
        print_nanoseconds(it->name, it->whole, it->steps);
        print_nanoseconds("  before the first step", it->front, it->steps);
    }
    print_kinds("Ordinary C's time for the replay, 512 commands, as a ratio to ours");
    print_beside("replay", NOW, PLAIN_REPLAY, REPLAY);
    if (ARCHIVES == 1)
        return;
    print_kinds("The writer's and the replay's time by the archive before, 512 commands, as a ratio to the time now");
    for (const struct stepper *it = steppers; it < steppers + STEPPERS; it++) {
        print_beside(it->name, THEN, it->whole, it->whole);
        print_steps_beside("  the steps alone", it->whole, it->front);
    }
}

int main(void)
{
    for (int kind = 0; kind < KINDS; kind++)
        for (int size = 0; size < SIZES; size++)
            make(&tasks[kind][size], &kinds[kind], 64u << size);
    for (int round = 0; round < ROUNDS; round++)
        take_round(round);
    print_method();
    print_shares();
    print_growth();
    print_ratios("Replay's share of the review, in percent", NOW, REPLAY, 100, 1);
    print_ratios("Ordinary C's time as a ratio to ours", NOW, ORDINARY, 1, 2);
    if (IS_BARE)
        print_ratios("The review's time by the archive before, which writes no evidence, as a ratio to the time now", THEN, REVIEW, 1, 2);
    else if (ARCHIVES > 1)
        print_ratios("The review's time by the archive before, as a ratio to the time now", THEN, REVIEW, 1, 2);
    print_steppers();
    return 0;
}
