/*
 * The doors of include/probe.h but for that of a warp, which has probe_warp.c, on examples of document 01 and of its later requests, with guard numbers around every room.
 * Everything is called twice, over two fillings of the rooms that differ everywhere, so that a number that was not written cannot pass for one that was. Evidence is held to its
 * words by evidence.c, which is itself tried here on what is evidence and what is none. Ends with a line `probe: N passed`, N the number of calls, or at the first difference with
 * that difference and status 1. tests/run builds and runs it.
 */
#include <stdio.h>
#include <stdlib.h>
#include <string.h>

#include "../include/probe.h"
#include "evidence.h"

enum { GUARD = 16, MOST = 240, CELLS = GUARD + MOST + GUARD, ANSWER = 36, LENT = 40, FEW = 7 };

/* `lent` numbers between guards. */
struct room {
    const char *name;
    size_t lent;
    uint32_t cells[CELLS];
};

static int turn, calls;
static const char *trying = "";
static struct room commands = {.name = "commands"}, lengths = {.name = "lengths"}, schedule = {.name = "schedule"};
static struct room relation = {.name = "relation"}, generations = {.name = "generations"}, evidence = {.name = "evidence"}, answer = {.name = "answer"};

static uint32_t filling(size_t i)
{
    uint32_t number = (uint32_t)(i + 1) * 2654435761u;
    return turn == 0 ? number : ~number;
}

static uint32_t *at(struct room *room)
{
    return room->cells + GUARD;
}

/* Lends so many numbers anew, the first ones given. */
static void lend(struct room *room, size_t lent, const uint32_t *first, size_t n)
{
    room->lent = lent;
    for (size_t i = 0; i < CELLS; i++)
        room->cells[i] = filling(i);
    for (size_t i = 0; i < n; i++)
        at(room)[i] = first[i];
}

static void expect(const char *what, long place, uint32_t found, uint32_t expected)
{
    if (found == expected)
        return;
    printf("probe: %s: %s at %ld is %u, not %u\n", trying, what, place, found, expected);
    exit(1);
}

/* The room begins with these numbers, and all else is as it was lent. */
static void holds(const struct room *room, const uint32_t *first, size_t n)
{
    for (size_t i = 0; i < CELLS; i++) {
        int written = i >= GUARD && i < GUARD + n;
        expect(room->name, (long)i - GUARD, room->cells[i], written ? first[i - GUARD] : filling(i));
    }
}

static void returned(uint32_t found, uint32_t expected)
{
    calls++;
    expect("the number returned", 0, found, expected);
}

/* ---- the calls: `rows` and `threads` are lent of the tables, `steps` of the schedule */

struct example {
    const char *name, *text;
    uint32_t rows, threads, table[3 * FEW], each[FEW];  /* the two tables that the text spells */
    uint32_t steps, order[FEW], verdict, told[ANSWER];  /* a schedule, the verdict, and the answer, but for the entries of evidence for 10 */
    int written;                                        /* does the schedule writer write this one? */
    uint32_t number[FEW], words[FEW];                   /* generations and relation, for 0, 10 and 11 */
};

static void lend_tables(const struct example *x)
{
    lend(&commands, 3 * x->rows, x->table, 3 * x->rows);
    lend(&lengths, x->threads, x->each, x->threads);
    lend(&schedule, x->steps, x->order, x->steps);
    lend(&relation, LENT, NULL, 0);
    lend(&generations, LENT, NULL, 0);
    lend(&evidence, evidence_numbers(x->rows), NULL, 0);
    lend(&answer, LENT, NULL, 0);
}

static uint32_t call_read(const char *text)
{
    return probe_read((const uint8_t *)text, strlen(text), at(&commands), commands.lent, at(&lengths), lengths.lent, at(&answer), answer.lent);
}

static uint32_t call_schedule(void)
{
    return probe_schedule(at(&commands), commands.lent, at(&lengths), lengths.lent, at(&schedule), schedule.lent, at(&answer), answer.lent);
}

static uint32_t call_review(void)
{
    return probe_review(at(&commands), commands.lent, at(&lengths), lengths.lent, at(&schedule), schedule.lent, at(&relation), relation.lent,
                        at(&generations), generations.lent, at(&evidence), evidence.lent, at(&answer), answer.lent);
}

/* ---- the examples */

static void reads(const struct example *x)
{
    lend(&commands, LENT, NULL, 0);
    lend(&lengths, LENT, NULL, 0);
    lend(&answer, LENT, NULL, 0);
    returned(call_read(x->text), 0);
    const uint32_t told[5] = {0, 0, x->rows, x->threads, (uint32_t)strlen(x->text)};
    holds(&commands, x->table, 3 * x->rows);
    holds(&lengths, x->each, x->threads);
    holds(&answer, told, 5);
}

static void writes(const struct example *x)
{
    lend_tables(x);
    lend(&schedule, LENT, NULL, 0);
    returned(call_schedule(), 0);
    const uint32_t told[4] = {0, 0, x->steps, 0};
    holds(&schedule, x->order, x->steps);
    holds(&answer, told, 4);
}

/* What the checker says of some entries, if the example were given this verdict. */
static struct shown checked(const struct example *x, uint32_t verdict, const uint32_t *entries, size_t count)
{
    static struct review judged;
    struct tables tables = {x->table, 3 * x->rows, x->each, x->threads};
    judged.verdict.number = verdict;
    judged.sheet.total = x->told[2];
    memcpy(judged.sheet.pairs, x->told + 4, sizeof judged.sheet.pairs);
    memcpy(judged.generations, x->number, sizeof x->number);
    return check_evidence(&tables, &judged, entries, count);
}

/* The evidence shows the verdict, and the rest of the room was kept. */
static void shows(const struct example *x, size_t count)
{
    uint32_t written[MOST];
    struct shown shown = checked(x, x->verdict, at(&evidence), count);
    if (shown.flaw != NULL) {
        printf("probe: %s: evidence of %lu entries: %s, at %lu\n", trying, (unsigned long)count, shown.flaw, (unsigned long)shown.at);
        exit(1);
    }
    memcpy(written, at(&evidence), count * sizeof *written);
    holds(&evidence, written, count);
}

static void judges(const struct example *x)
{
    uint32_t told[ANSWER];
    memcpy(told, x->told, sizeof told);
    int fills = x->verdict == 0 || x->verdict == 10 || x->verdict == 11;
    lend_tables(x);
    returned(call_review(), x->verdict);
    shows(x, at(&answer)[3]);
    if (x->verdict == 10)
        told[3] = at(&answer)[3];
    holds(&answer, told, ANSWER);
    holds(&generations, x->number, fills ? x->rows : 0);
    holds(&relation, x->words, fills ? x->rows : 0);
    holds(&commands, x->table, 3 * x->rows);
    holds(&lengths, x->each, x->threads);
    holds(&schedule, x->order, x->steps);
}

#define TEXT_A "write 7; arrive 0 2; return || sync 0 2; read 7; return", 4, 2, {1, 7, 0, 2, 0, 2, 3, 0, 2, 0, 7, 0}, {2, 2}
#define TEXT_B "arrive 0 2; write 7; return || read 7; sync 0 2; return", 4, 2, {2, 0, 2, 1, 7, 0, 0, 7, 0, 3, 0, 2}, {2, 2}
#define TEXT_C "sync 0 2; return || sync 0 2; return||sync 0 2;return\n|| sync 0 2 ; return", 4, 4, {3, 0, 2, 3, 0, 2, 3, 0, 2, 3, 0, 2}, {1, 1, 1, 1}
#define TEXT_E "sync 0 2; return || return", 1, 2, {3, 0, 2}, {1, 0}
#define TEXT_F "arrive 0 2; return || return", 1, 2, {2, 0, 2}, {1, 0}
#define TEXT_G "arrive 0 2; return || sync 0 3; return || return", 2, 3, {2, 0, 2, 3, 0, 3}, {1, 1, 0}
#define TEXT_H "sync 0 1; sync 0 1; return", 2, 1, {3, 0, 1, 3, 0, 1}, {2}
#define TEXT_K "return", 0, 1, {0}, {0}
#define TEXT_L "arrive 0 2; arrive 0 2; return || return", 2, 2, {2, 0, 2, 2, 0, 2}, {2, 0}
#define TEXT_J "sync 0 2; return || sync 0 2; arrive 0 2; return || sync 0 2; return", 4, 3, {3, 0, 2, 3, 0, 2, 2, 0, 2, 3, 0, 2}, {1, 2, 1}

/* Seven threads that write one address; a command of count 1 that may come before or after two of count 2, or between them; two threads that register twice. */
#define WRITE_0 "write 0; return"
#define TEXT_SEVEN WRITE_0 "||" WRITE_0 "||" WRITE_0 "||" WRITE_0 "||" WRITE_0 "||" WRITE_0 "||" WRITE_0, 7, 7, \
    {1, 0, 0, 1, 0, 0, 1, 0, 0, 1, 0, 0, 1, 0, 0, 1, 0, 0, 1, 0, 0}, {1, 1, 1, 1, 1, 1, 1}
#define TEXT_BETWEEN "arrive 0 1; return || arrive 0 2; arrive 0 2; return", 3, 2, {2, 0, 1, 2, 0, 2, 2, 0, 2}, {1, 2}
#define TEXT_TWICE "arrive 0 2; arrive 0 2; return || arrive 0 2; arrive 0 2; return", 4, 2, {2, 0, 2, 2, 0, 2, 2, 0, 2, 2, 0, 2}, {2, 2}
#define TEXT_ALONE "arrive 0 1; arrive 0 1; return", 2, 1, {2, 0, 1, 2, 0, 1}, {2}

/* Request 2026-02: counts of as many as there are threads, the empty ones with them, and of one more. */
#define TEXT_ALL "sync 0 3; return || sync 0 3; return || sync 0 3; return", 3, 3, {3, 0, 3, 3, 0, 3, 3, 0, 3}, {1, 1, 1}
#define TEXT_EMPTY "return || arrive 5 3; return || return", 1, 3, {2, 5, 3}, {0, 1, 0}
#define TEXT_OVER "read 0; return || sync 0 2; sync 0 3; return", 3, 2, {0, 0, 0, 3, 0, 2, 3, 0, 3}, {1, 2}
#define TEXT_NEW_FIRST "read 0; sync 0 3; return || read 4096; return", 3, 2, {0, 0, 0, 3, 0, 3, 0, 4096, 0}, {2, 1}
#define TEXT_OLD_FIRST "read 0; read 4096; return || sync 0 3; return", 3, 2, {0, 0, 0, 0, 4096, 0, 3, 0, 3}, {2, 1}

/*
 * Document 01 gives the verdicts, places, pairs and totals, and the rooms of A and H; the rest was worked out by its rules by hand. The fourth number told for
 * 11 is twice the kept pairs times the commands. A thread that uses a barrier again after itself is at no fault: `alone`.
 */
static const struct example examples[] = {
    {"A", TEXT_A, 4, {0, 0, 1, 1}, 0, {0}, 1, {0, 1, 1, 0}, {15, 14, 12, 8}},
    {"A2", TEXT_A, 2, {1, 1}, 5, {1}, 0, {0}, {0}},
    {"B", TEXT_B, 4, {0, 0, 1, 1}, 11, {1, 2, 1, 8, 1, 2}, 1, {1, 0, 0, 1}, {11, 2, 12, 8}},
    {"C", TEXT_C, 4, {0, 1, 2, 3}, 10, {0, 2, 4, 0, 0, 2, 1, 2, 0, 3, 1, 3}, 1, {1, 1, 2, 2}, {3, 3, 12, 12}},
    {"E", TEXT_E, 1, {0}, 8, {0}, 1, {0}, {0}},
    {"F", TEXT_F, 1, {0}, 9, {0}, 1, {0}, {0}},
    {"G", TEXT_G, 2, {0, 1}, 7, {1}, 1, {0}, {0}},
    {"G turned", TEXT_G, 2, {1, 0}, 7, {0}, 0, {0}, {0}},
    {"H", TEXT_H, 2, {0, 0}, 0, {0}, 1, {1, 2}, {3, 2}},
    {"J", TEXT_J, 4, {0, 1, 1, 2}, 10, {0, 3, 2, 0, 0, 3, 1, 3}, 1, {1, 1, 2, 2}, {15, 15, 12, 8}},
    {"J2", TEXT_J, 3, {0, 2, 1}, 8, {1}, 0, {0}, {0}},
    {"K", TEXT_K, 0, {0}, 0, {0}, 1, {0}, {0}},
    {"L", TEXT_L, 2, {0, 0}, 0, {0}, 1, {1, 1}, {3, 2}},
    {"seven", TEXT_SEVEN, 7, {0, 1, 2, 3, 4, 5, 6}, 11,
     {0, 1, 21, 224, 0, 1, 0, 2, 0, 3, 0, 4, 0, 5, 0, 6, 1, 2, 1, 3, 1, 4, 1, 5, 1, 6, 2, 3, 2, 4, 2, 5, 2, 6, 3, 4}, 1, {0}, {1, 2, 4, 8, 16, 32, 64}},
    {"between", TEXT_BETWEEN, 3, {0, 1, 1}, 10, {0, 1, 2, 0, 0, 1, 0, 2}, 1, {1, 2, 2}, {1, 6, 4}},
    {"twice", TEXT_TWICE, 4, {0, 0, 1, 1}, 10, {0, 2, 4, 0, 0, 2, 1, 2, 0, 3, 1, 3}, 1, {1, 1, 2, 2}, {3, 2, 12, 8}},
    {"alone", TEXT_ALONE, 2, {0, 0}, 0, {0}, 1, {1, 2}, {3, 2}},
    {"all", TEXT_ALL, 3, {0, 1, 2}, 0, {0}, 1, {1, 1, 1}, {7, 7, 7}},
    {"empty", TEXT_EMPTY, 1, {1}, 9, {5}, 1, {0}, {0}},
    {"over", TEXT_OVER, 3, {0, 1, 1}, 3, {2}, 0, {0}, {0}},
    {"new first", TEXT_NEW_FIRST, 3, {0, 0, 1}, 3, {1}, 0, {0}, {0}},
    {"old first", TEXT_OLD_FIRST, 3, {0, 0, 1}, 3, {1}, 0, {0}, {0}},
};
enum { EXAMPLES = sizeof examples / sizeof *examples };

static const struct example *named(const char *name)
{
    size_t i = 0;
    while (i < EXAMPLES && strcmp(examples[i].name, name) != 0)
        i++;
    if (i == EXAMPLES) {
        printf("probe: there is no example %s\n", name);
        exit(1);
    }
    return &examples[i];
}

/* ---- what is evidence, and what is none */

struct trial {
    const char *name;
    uint32_t verdict, count, entries[9];
    int is_evidence;
    uint32_t ended;
};

/* By hand. B's pair is the second command of the first thread and the first of the second. F stands for any program, as no clean one can end in 9. */
static const struct trial trials[] = {
    {"C", 10, 4, {0, 2, 1, 3}, 1, 0},                   /* other pairs meet */
    {"C", 10, 4, {3, 2, 1, 0}, 1, 0},                   /* and here the same ones, in the other turn */
    {"C", 10, 4, {0, 1, 2, 3}, 0, 0},                   /* the offered schedule */
    {"C", 10, 4, {1, 0, 3, 2}, 0, 0},                   /* another one, with the same generations */
    {"C", 10, 3, {0, 2, 1}, 0, 0},                      /* cut short */
    {"C", 10, 0, {0}, 0, 0},                            /* nothing */
    {"C", 10, 5, {0, 2, 1, 3, 3}, 0, 0},                /* one entry more */
    {"C", 10, 4, {0, 0, 1, 2}, 0, 0},                   /* a blocked thread steps */
    {"C", 10, 4, {0, 2, 1, 4}, 0, 0},                   /* a thread that is not there steps */
    {"J", 10, 3, {0, 2, 1}, 1, 8},                      /* the second thread waits for ever */
    {"J", 10, 2, {0, 2}, 0, 0},                         /* and here it could still come */
    {"J", 10, 4, {0, 2, 1, 1}, 0, 0},                   /* a step after the end */
    {"J", 10, 4, {1, 2, 1, 0}, 1, 0},                   /* the third thread is let go first */
    {"between", 10, 2, {1, 0}, 1, 7},                   /* a count of 1 where 2 is expected */
    {"between", 10, 3, {1, 0, 1}, 0, 0},                /* a step after the mismatch */
    {"between", 10, 3, {1, 1, 0}, 1, 0},                /* the other two first */
    {"F", 10, 1, {0}, 1, 9},
    {"B", 11, 8, {0, 0, 1, 1, 1, 0, 0, 1}, 1, 0},       /* x first, then y first */
    {"B", 11, 8, {0, 0, 1, 1, 1, 1, 0, 0}, 1, 0},       /* another way to have y first */
    {"B", 11, 8, {1, 0, 0, 1, 0, 0, 1, 1}, 0, 0},       /* y first, then x first */
    {"B", 11, 8, {0, 0, 1, 1, 0, 0, 1, 1}, 0, 0},       /* x first twice */
    {"B", 11, 8, {1, 0, 0, 1, 1, 0, 0, 1}, 0, 0},       /* y first twice */
    {"B", 11, 4, {0, 0, 1, 1}, 0, 0},                   /* one of the two */
    {"B", 11, 7, {0, 0, 1, 1, 1, 0, 0}, 0, 0},          /* cut short */
    {"B", 11, 9, {0, 0, 1, 1, 1, 0, 0, 1, 1}, 0, 0},    /* one entry more */
    {"B", 11, 8, {0, 0, 1, 1, 1, 0, 1, 1}, 0, 0},       /* the last thread steps too often */
    {"A", 0, 0, {0}, 1, 0},                             /* nothing is to be shown */
    {"A", 0, 4, {0, 0, 1, 1}, 0, 0},                    /* and nothing is to be written */
};

static void tries_checker(void)
{
    for (size_t i = 0; i < sizeof trials / sizeof *trials; i++) {
        const struct trial *trial = &trials[i];
        trying = trial->name;
        struct shown shown = checked(named(trial->name), trial->verdict, trial->entries, trial->count);
        expect("the checker, that a trial is evidence,", (long)i, shown.flaw == NULL, (uint32_t)trial->is_evidence);
        expect("the end of a trial's last schedule,", (long)i, shown.ended, trial->ended);
    }
}

/* ---- refusals of rooms and texts */

static void untouched(const struct example *x)
{
    holds(&commands, x->table, 3 * x->rows);
    holds(&lengths, x->each, x->threads);
    holds(&schedule, x->order, x->steps);
    holds(&relation, NULL, 0);
    holds(&generations, NULL, 0);
    holds(&evidence, NULL, 0);
}

static void short_answers(const struct example *x)
{
    trying = "a short answer room";
    lend_tables(x);
    answer.lent = ANSWER - 1;
    returned(call_review(), 14);
    returned(call_schedule(), 14);
    returned(call_read("return"), 14);
    untouched(x);
    holds(&answer, NULL, 0);
}

/* The review is refused by this number at this place, with these rooms of the ones that were lent. */
static void refuses(uint32_t number, uint32_t place, size_t relation_room, size_t generation_room, size_t evidence_room)
{
    uint32_t told[ANSWER] = {place};
    relation.lent = relation_room;
    generations.lent = generation_room;
    evidence.lent = evidence_room;
    returned(call_review(), number);
    holds(&answer, told, ANSWER);
}

/* "The lowest digit if several": 0 the relation, 1 the generations, 4 the evidence. */
static void short_rooms(const struct example *x)
{
    trying = "a short room";
    const uint32_t told[4] = {2};
    size_t rows = x->rows, enough = evidence_numbers(rows);
    lend_tables(x);
    refuses(4, 0, rows - 1, rows, enough);
    refuses(4, 0, rows - 1, rows - 1, enough);
    refuses(4, 0, rows - 1, rows, enough - 1);
    refuses(4, 0, 0, 0, 0);
    refuses(4, 1, rows, rows - 1, enough);
    refuses(4, 1, rows, rows - 1, enough - 1);
    refuses(4, 1, rows, 0, 0);
    refuses(4, 4, rows, rows, enough - 1);
    refuses(4, 4, rows, rows, rows);
    refuses(4, 4, rows, rows, 0);
    untouched(x);
    lend(&answer, LENT, NULL, 0);
    schedule.lent = rows - 1;
    returned(call_schedule(), 4);
    holds(&answer, told, 4);
    untouched(x);
}

/* 1 to 3 come before the rooms are looked at, and 4 before the schedule is. */
static void refused_tables(const struct example *x)
{
    trying = "a refused table";
    lend_tables(x);
    commands.lent--;
    lengths.lent = 0;
    refuses(1, 0, LENT, LENT, 0);
    commands.lent++;
    refuses(2, 0, LENT, LENT, 0);
    refuses(2, 0, 0, 0, 0);
    lengths.lent = x->threads;
    at(&commands)[3] = 4;
    refuses(3, 1, LENT, LENT, 0);
    at(&commands)[3] = x->table[3];
    at(&schedule)[0] = x->threads;
    refuses(4, 4, LENT, LENT, evidence_numbers(x->rows) - 1);
    refuses(5, 0, LENT, LENT, evidence_numbers(x->rows));
    at(&schedule)[0] = x->order[0];
    untouched(x);
}

/* The number of threads passes as a count, with a schedule that then mismatches, and one more is 3, for the schedule writer too. */
static void refused_counts(const struct example *x)
{
    trying = "a count";
    const uint32_t written[4] = {0, 0, 2, 0}, refused[4] = {1, 0, 0, 0}, before_it[2] = {0, 1};
    lend_tables(x);
    at(&commands)[5] = x->threads;
    refuses(7, 1, LENT, LENT, evidence_numbers(x->rows));
    lend(&answer, LENT, NULL, 0);
    lend(&schedule, LENT, NULL, 0);
    returned(call_schedule(), 0);
    holds(&answer, written, 4);
    holds(&schedule, before_it, 2);
    at(&commands)[5] = x->threads + 1;
    refuses(3, 1, 0, 0, 0);
    lend(&answer, LENT, NULL, 0);
    lend(&schedule, 0, NULL, 0);
    returned(call_schedule(), 3);
    holds(&answer, refused, 4);
    holds(&schedule, NULL, 0);
    holds(&relation, NULL, 0);
    holds(&generations, NULL, 0);
    holds(&evidence, NULL, 0);
}

static void refused_texts(const struct example *x)
{
    trying = "a refused text";
    lend_tables(x);
    answer.lent = ANSWER;
    const uint32_t empty[5] = {0}, unfit[5] = {9, 0, 0, 0, 9}, over[5] = {0, 0, 0, 0, 27};
    returned(call_read(""), 12);
    holds(&answer, empty, 5);
    returned(call_read("write 7; w 1; return"), 12);
    holds(&answer, unfit, 5);
    lengths.lent = 1;
    returned(call_read("sync 0 2; return || return "), 13);
    holds(&answer, over, 5);
    untouched(x);
}

/* ---- closing */

static void closes(void)
{
    trying = "closing";
    const uint32_t chain[3] = {2 | 8, 4 | 16, 0}, closed[3] = {6, 4, 0}; /* 0 to 1 to 2; the bits 3 and 4 are padding */
    lend(&relation, 2, chain, 3);
    returned(probe_close(at(&relation), relation.lent, 3), 0);
    holds(&relation, chain, 3);
    lend(&relation, 3, chain, 3);
    returned(probe_close(at(&relation), relation.lent, 3), 1);
    holds(&relation, closed, 3);

    uint32_t wide[66] = {0}; /* 33 rows of two words: 0 to 32 to 5 */
    wide[1] = 1;
    wide[64] = 32;
    lend(&relation, 66, wide, 66);
    returned(probe_close(at(&relation), relation.lent, 33), 1);
    wide[0] = 32;
    holds(&relation, wide, 66);
}

int main(void)
{
    tries_checker();
    for (turn = 0; turn < 2; turn++) {
        for (size_t i = 0; i < EXAMPLES; i++) {
            trying = examples[i].name;
            reads(&examples[i]);
            judges(&examples[i]);
            if (examples[i].written)
                writes(&examples[i]);
        }
        short_answers(named("A"));
        short_rooms(named("A"));
        short_rooms(named("C"));
        short_rooms(named("seven"));
        refused_tables(named("C"));
        refused_tables(named("seven"));
        refused_counts(named("C"));
        refused_texts(named("A"));
        closes();
    }
    printf("probe: %d passed\n", calls);
    return 0;
}
