/*
 * Source document 001, Table 2, in plain C with the document's names, and the refusals 17 and 18 of document 01, for the tests to hold the archive to. It was written from the
 * documents' words and shares nothing with the code, its definitions or its proofs. It is slow and simple on purpose.
 */
#ifndef WARP_H
#define WARP_H

#include <stddef.h>
#include <stdint.h>

enum { LANES = 32, CELLS = 64, STATEMENTS = 256, EXPRESSIONS = 256, ENTRIES = 256 };
enum { IN_STATEMENT = 5, IN_EXPRESSION = 3 }; /* numbers a row */
enum { KERNEL = 0 };                          /* its list */
enum { SKIP, ASSIGN, IF, WHILE, BREAK, CALL, RETURN, STATEMENT_KINDS };
enum { NUMBER, CELL, LANE, SUM, DIFFERENCE, LESS, EXPRESSION_KINDS };

/* Lent tables, of any numbers. */
struct kernel {
    const uint32_t *statements;
    size_t statements_len;
    const uint32_t *expressions;
    size_t expressions_len;
    uint32_t lanes;
    size_t cells_len;
};

/* A row of statements. */
struct statement {
    uint32_t list, kind, x, y, z;
};

size_t statements_of(const struct kernel *kernel);
size_t expressions_of(const struct kernel *kernel);
struct statement statement_at(const struct kernel *kernel, size_t row);

/* How many rows a list has. */
size_t length_of(const struct kernel *kernel, uint32_t list);

/* Why a kernel is refused: those before STATEMENT_KIND have place 0, LOOSE_BREAK is 18. The tests count them. */
enum reason { ACCEPTED, NO_LANES, MANY_LANES, SHORT_CELLS, PART_STATEMENT, MANY_STATEMENTS, PART_EXPRESSION, MANY_EXPRESSIONS, EXPRESSION_KIND, EXPRESSION_CELL, LATER_OPERAND,
              STATEMENT_KIND, ASSIGNED_CELL, NO_EXPRESSION, NO_BODY, KERNEL_BODY, USED_TWICE, SAME_ARMS, INSIDE_ITSELF, NO_FUNCTION, CALLED_BODY, LOOSE_BREAK, REASONS };

struct refusal {
    uint32_t number;
    size_t place;
    enum reason reason;
};

struct refusal check_kernel(const struct kernel *kernel);

/* ---- a warp's configuration, of a kernel that is not refused */

/* On the stack: a statement, the underlined while, or a token with its mask. */
enum entry_kind { STATEMENT, WHILE_AGAIN, DIV_TOKEN, SYNC_TOKEN, BRK_TOKEN, CALL_TOKEN };
struct entry {
    enum entry_kind kind;
    size_t row;    /* of a statement or an underlined while */
    uint32_t mask; /* of a token: bit n for lane n */
};

/* "The disable state of each thread: b or r ..., whereas 0 means that the thread is not disabled." */
enum disable { NOT_DISABLED, BROKE, RETURNED };

enum { MOST_ENTRIES = 2 * ENTRIES + 4 }; /* so that a step that overfills the stack can be taken and seen: an if pushes at most all statements and two tokens */
struct warp {
    size_t height;
    struct entry stack[MOST_ENTRIES]; /* the top is the last */
    uint32_t active;
    enum disable disabled[LANES];
    uint32_t cells[CELLS];
};

/* The rules of Table 2, in its order. */
enum rule { SKIP_W, ASSIGN_W, IF_W, WHILE_W, WHILE_AGAIN_W, BREAK_W, CALL_W, RETURN_W, TOKEN_W, INACT_W, RULES };

int is_token(const struct entry *entry);
int has_lane(uint32_t mask, uint32_t lane);
int awaits(enum disable disabled, enum entry_kind token);

/* An expression's value for a lane. */
uint32_t value_of(const struct kernel *kernel, size_t expression, uint32_t lane, const uint32_t *cells);

void start_warp(const struct kernel *kernel, const uint32_t *cells, struct warp *warp);

/* Takes a step, by the one rule that can be applied; the stack must not be empty, nor overfull. */
enum rule warp_step(const struct kernel *kernel, struct warp *warp);

/* What a run says where it stands, with so many steps left. The first four are numbers of the door. */
enum said { REFUSED, FINISHED, USED_UP, WOULD_OVERFILL, GOES_ON };
enum said say(const struct kernel *kernel, const struct warp *warp, uint64_t left);

#endif
