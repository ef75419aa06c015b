/* Seeded kernels for a warp, valid and damaged. The same seed and number make the same kernel. */
#ifndef KERNELS_H
#define KERNELS_H

#include "inputs.h"
#include "warp.h"

enum { MORE_ROWS = 12, MOST_CELLS = CELLS + 40 };

/* Two tables to lend, of any numbers, and what is lent besides. As drawn they keep the rules, but for a break now and then; damage may break them. */
struct drawn_kernel {
    size_t statements_len, expressions_len, cells_len;
    uint32_t statements[IN_STATEMENT * (STATEMENTS + MORE_ROWS)], expressions[IN_EXPRESSION * (EXPRESSIONS + MORE_ROWS)], lanes, cells[MOST_CELLS];
};

/* 1 to 3 lanes, few statements, and no cell above FEW_CELLS: to be searched. */
enum { FEW_CELLS = 5 };
void small_kernel(struct random *random, struct drawn_kernel *kernel);

/* Up to 32 lanes; nests, loops and functions, which may call themselves and each other. */
void mixed_kernel(struct random *random, struct drawn_kernel *kernel);

/* Lanes that part, and then break, return and call, in functions that do not call themselves. */
void parted_kernel(struct random *random, struct drawn_kernel *kernel);

/* Branches in branches, as deep as 60. */
void deep_kernel(struct random *random, struct drawn_kernel *kernel);

/* Long lists, and functions that go on calling: most overfill the stack, or come near it. */
void tall_kernel(struct random *random, struct drawn_kernel *kernel);

/* As many rows as there may be, or one fewer or more, in either table; and kernels of so many statements. */
void full_kernel(struct random *random, struct drawn_kernel *kernel);

/* Rows that name rows, lists and cells at random, many of which are there. */
void wild_kernel(struct random *random, struct drawn_kernel *kernel);

/* Some numbers of either table, its length, the lanes or the cells' room, at and past their limits. */
void damage_kernel(struct random *random, struct drawn_kernel *kernel);

/* One row that breaks a rule, or just keeps it. */
void spoil_kernel(struct random *random, struct drawn_kernel *kernel);

#endif
