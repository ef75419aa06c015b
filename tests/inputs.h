/* Seeded inputs: programs, tables, schedules and texts, valid and damaged. The same seed and number make the same input. */
#ifndef INPUTS_H
#define INPUTS_H

#include "reference.h"

enum { MOST_NUMBERS = 2400, MOST_LENGTHS = 200, MOST_STEPS = 3000, MOST_TEXT = 45000 };

struct random {
    uint64_t state;
};

/* Two tables to lend, of any numbers; as drawn they keep the rules, and damage may break them. */
struct program {
    size_t numbers, threads;
    uint32_t commands[MOST_NUMBERS], lengths[MOST_LENGTHS];
};

void seed(struct random *random, uint64_t seed, uint64_t number);
uint64_t draw(struct random *random);
uint32_t below(struct random *random, uint32_t n);
int chance(struct random *random, uint32_t percent);
uint32_t odd_number(struct random *random);

/* 1 to 6 threads and the empty ones that the counts ask for, few barriers and counts, at most `most` commands: every verdict past 3 comes. */
void small_program(struct random *random, uint32_t most, struct program *program);

/* At most so many threads and commands, and often a reuse fault or a race in what else ends clean. */
void faulty_program(struct random *random, uint32_t threads, uint32_t most, struct program *program);

/*
 * At most so many threads and commands, which are two and 16 at least. Barriers that are mostly used again put every conflict in order; then, now and then, one row is spoiled, or
 * there are a few accesses more, which nothing orders.
 */
void ordered_program(struct random *random, uint32_t threads, uint32_t most, struct program *program);

/* Up to 512 rows and 64 threads, and often just so many. */
void big_program(struct random *random, struct program *program);

/* More commands or threads than a table may have. */
void over_program(struct random *random, struct program *program);

/* Row numbers, lengths and both tables' sizes, at and past their limits. */
void damage_program(struct random *random, struct program *program);

/* Counts at the number of threads and above it, in one row or in all, and rows before or after such a one that break another rule. What comes of it can be spelled. */
void strain_counts(struct random *random, struct program *program);

/* The writer's schedule, a legal complete one, a damaged one, or any numbers; answers how many steps. */
size_t make_schedule(struct random *random, const struct tables *tables, uint32_t *steps);

/* A legal complete schedule by random choice, of tables that pass 1 to 3. */
size_t legal_schedule(struct random *random, const struct tables *tables, uint32_t *steps);

/* Another, of such tables: the threads in some order, and always the first of them that is allowed. */
size_t eager_schedule(struct random *random, const struct tables *tables, uint32_t *steps);

/* The program in the written notation with random blanks, and often damaged; answers how many bytes. */
size_t make_text(struct random *random, const struct program *program, uint8_t *text);

/* The same, never damaged, with at most so many blanks at a place where none are needed. */
size_t spell_text(struct random *random, const struct program *program, uint32_t blanks, uint8_t *text);

#endif
