/*
 * Document 01 once more, with what document 02 changed, in plain C, for the tests to hold the archives to. It was written from the documents' sentences and
 * shares nothing with the code, its definitions or its proofs. It is slow and simple on purpose.
 */
#ifndef REFERENCE_H
#define REFERENCE_H

#include <stddef.h>
#include <stdint.h>

enum { ROWS = 512, THREADS = 64, BARRIERS = 16, LAST_ADDRESS = 4095, LAST_COUNT = 1024, KEPT = 16, LAST_NUMBER = 65535 };
enum { TEXT = 32768, REPORT = 192, PRINTED = REPORT + 2 * KEPT * 1600 }; /* PRINTED: a report and its evidence */
enum { SPELLED_ROWS = TEXT / 6 + 1, SPELLED_THREADS = TEXT / 6 }; /* a text holds no more: `read0;` and `return` have six bytes; one row may be begun */
enum { READ, WRITE, ARRIVE, SYNC };

/* Lent tables, of any numbers. */
struct tables {
    const uint32_t *commands;
    size_t numbers;
    const uint32_t *lengths;
    size_t threads;
};

struct verdict {
    uint32_t number;
    size_t p, q;
};

/* `expected` is 0 while the barrier is unset. */
struct barrier {
    uint32_t expected, registered, completed;
};

enum { UNBLOCKED = -1 };
struct state {
    uint32_t ran[THREADS];
    int blocked[THREADS]; /* the barrier, or UNBLOCKED */
    struct barrier barriers[BARRIERS];
};

enum did { STEPPED, NOT_ALLOWED, MISMATCHED };

struct sheet {
    uint32_t total, pairs[KEPT][2];
};

/* Generations and reaches are told for 0, 10 and 11 alone. */
struct review {
    struct verdict verdict;
    struct sheet sheet;
    uint32_t generations[ROWS];
    uint8_t reaches[ROWS][ROWS];
};

/* How many words and numbers the rooms have that a review is lent. */
struct rooms {
    size_t relation, generations, evidence;
};

struct schedule {
    struct verdict verdict;
    size_t length;
    uint32_t steps[ROWS];
};

/* Counts and tables are told for 0 alone. */
struct reading {
    struct verdict verdict;
    size_t rest, commands, threads;
    uint32_t rows[3 * SPELLED_ROWS], lengths[SPELLED_THREADS];
};

/* The review of a text, before it is printed: the tables are told where the reading was accepted, and the verdict is the reading's where it was not. */
struct text_review {
    struct reading reading;
    struct tables tables;
    struct review review;
};

size_t rows_of(const struct tables *tables);
size_t relation_words(size_t rows);
size_t evidence_numbers(size_t rows);

/* The rules of document 01 for a row, and that of 2026-02; `check_tables` tests both, and the tests tell which of them refused. */
int keeps_rules(const uint32_t *row);
int is_above_threads(const struct tables *tables, const uint32_t *row);
struct verdict check_tables(const struct tables *tables);

void start(struct state *state);
int is_allowed(const struct tables *tables, const struct state *state, uint32_t thread);
int is_over(const struct tables *tables, const struct state *state);
int ends_clean(const struct tables *tables, const struct state *state);
size_t next_command(const struct tables *tables, const struct state *state, uint32_t thread);
enum did step(const struct tables *tables, struct state *state, uint32_t thread, uint32_t *generations);

/* Verdicts 5 to 9, or 0 where the schedule ends clean. */
struct verdict replay(const struct tables *tables, const uint32_t *schedule, size_t steps, uint32_t *generations);

/* Chains of one edge or more, from every row to every row. */
void close_under_chains(size_t rows, uint8_t relation[ROWS][ROWS]);
int conflict(const struct tables *tables, size_t x, size_t y);

void review(const struct tables *tables, const uint32_t *schedule, size_t steps, struct rooms lent, struct review *out);
void write_schedule(const struct tables *tables, size_t room, struct schedule *out);
void read_text(const uint8_t *text, size_t length, size_t commands_room, size_t lengths_room, struct reading *out);

void review_of_text(const uint8_t *text, size_t length, struct text_review *out);

/* Answers the report's length. `report` has twice REPORT bytes, so that a report that is too long can be seen. */
size_t print_report(const struct review *review, char *report);

/* What the text review answers, with a report room of `room` bytes where `least` are asked for. */
uint32_t text_answer(const struct text_review *review, size_t room, size_t least);

#endif
