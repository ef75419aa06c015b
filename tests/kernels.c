/*
 * Seeded kernels. What is drawn here need not be even, only varied: warps.c counts what came of it. No two draws stand in one expression whose order C leaves open, so
 * that every compiler makes the same kernels.
 */
#include <string.h>

#include "kernels.h"

/* ---- a draft: rows list by list, which are laid out in another order afterwards */

enum { DRAFT_ROWS = STATEMENTS + MORE_ROWS, LISTS = DRAFT_ROWS + 1 };

static struct draft {
    uint32_t rows, most, lists, functions; /* lists 1 to `functions` are functions */
    uint32_t from;                         /* calls are of functions from here on */
    struct statement row[DRAFT_ROWS];
    uint32_t expressions, expression[EXPRESSIONS + MORE_ROWS][IN_EXPRESSION];
} draft;

struct style {
    uint32_t cells, in_list, depth;         /* at most so many */
    uint32_t branches, loops;               /* percent */
    uint32_t breaks, calls, returns, sets;  /* percent of the others; the rest are skips */
};

static void begin(uint32_t most, uint32_t functions)
{
    draft.rows = draft.expressions = 0;
    draft.most = most;
    draft.functions = functions;
    draft.lists = 1 + functions;
    draft.from = 1;
}

/* Numbers that a kind does not use stay 0 until the layout. */
static void put(uint32_t list, uint32_t kind, uint32_t x, uint32_t y, uint32_t z)
{
    struct statement it = {list, kind, x, y, z};
    if (draft.rows < draft.most)
        draft.row[draft.rows++] = it;
}

static int has_room(uint32_t rows)
{
    return draft.rows + rows <= draft.most;
}

/* ---- expressions */

/* Answers the row; where the table is full, an earlier one. */
static uint32_t expression(struct random *random, uint32_t kind, uint32_t x, uint32_t y)
{
    if (draft.expressions >= EXPRESSIONS - 40)
        return below(random, draft.expressions);
    uint32_t *row = draft.expression[draft.expressions];
    row[0] = kind;
    row[1] = x;
    row[2] = y;
    return draft.expressions++;
}

static uint32_t number(struct random *random, uint32_t n)
{
    return expression(random, NUMBER, n, 0);
}

static uint32_t some_number(struct random *random)
{
    uint32_t n = chance(random, 80) ? below(random, 6) : odd_number(random);
    return number(random, n);
}

static uint32_t lane(struct random *random)
{
    return expression(random, LANE, 0, 0);
}

static uint32_t cell(struct random *random, uint32_t cell)
{
    return expression(random, CELL, cell, 0);
}

static uint32_t some_leaf(struct random *random, const struct style *style)
{
    switch (below(random, 4)) {
    case 0:
        return some_number(random);
    case 1:
        return lane(random);
    default:
        return cell(random, below(random, style->cells));
    }
}

static uint32_t some_expression(struct random *random, const struct style *style, uint32_t depth)
{
    if (depth == 0 || chance(random, 30))
        return some_leaf(random, style);
    uint32_t x = some_expression(random, style, depth - 1), y = some_expression(random, style, depth - 1);
    uint32_t kind = SUM + below(random, 3);
    return expression(random, kind, x, y);
}

/* A cell, or a cell and the lane together, under a number: by the one all lanes go the same way, by the other they part. */
static uint32_t is_under(struct random *random, uint32_t counter, uint32_t limit)
{
    uint32_t counted = cell(random, counter);
    if (chance(random, 60)) {
        uint32_t own = lane(random);
        counted = expression(random, SUM, counted, own);
    }
    uint32_t end = number(random, limit);
    return expression(random, LESS, counted, end);
}

static uint32_t some_condition(struct random *random, const struct style *style)
{
    uint32_t which = below(random, 10), counter = below(random, style->cells), limit = below(random, 8);
    if (which < 4)
        return is_under(random, counter, limit);
    if (which < 6) {
        uint32_t own = lane(random), other = number(random, limit);
        return expression(random, which == 4 ? LESS : DIFFERENCE, own, other);
    }
    return some_expression(random, style, 2);
}

/* ---- lists */

static void some_list(struct random *random, const struct style *style, uint32_t list, uint32_t depth, int in_loop);

static void put_set(struct random *random, const struct style *style, uint32_t list)
{
    uint32_t to = below(random, style->cells), from = some_expression(random, style, 2);
    put(list, ASSIGN, to, from, 0);
}

static void put_step(struct random *random, uint32_t list, uint32_t counter)
{
    uint32_t before = cell(random, counter), one = number(random, 1), after = expression(random, SUM, before, one);
    put(list, ASSIGN, counter, after, 0);
}

static void put_branch(struct random *random, const struct style *style, uint32_t list, uint32_t depth, int in_loop)
{
    uint32_t condition = some_condition(random, style), then = draft.lists++, other = draft.lists++;
    put(list, IF, condition, then, other);
    some_list(random, style, then, depth - 1, in_loop);
    some_list(random, style, other, depth - 1, in_loop);
}

/* Most loops count in a cell up to a limit; any of them may have no end. */
static void put_loop(struct random *random, const struct style *style, uint32_t list, uint32_t depth)
{
    uint32_t counter = below(random, style->cells), limit = 1 + below(random, 6), body = draft.lists++;
    int counts = chance(random, 75);
    uint32_t condition = counts ? is_under(random, counter, limit) : some_condition(random, style);
    put(list, WHILE, condition, body, 0);
    if (counts)
        put_step(random, body, counter);
    some_list(random, style, body, depth - 1, 1);
}

static void put_call(struct random *random, uint32_t list)
{
    int is_kernel = draft.from == 1 && below(random, 20) == 0;
    put(list, CALL, is_kernel ? KERNEL : draft.from + below(random, 1 + draft.functions - draft.from), 0, 0);
}

/* A break is put outside of loops now and then, for 18. */
static void put_plain(struct random *random, const struct style *style, uint32_t list, int in_loop)
{
    uint32_t which = below(random, 100), calls = style->breaks + style->calls, returns = calls + style->returns;
    if (which < style->breaks && (in_loop || below(random, 100) == 0))
        put(list, BREAK, 0, 0, 0);
    else if (which >= style->breaks && which < calls && draft.functions >= draft.from)
        put_call(random, list);
    else if (which >= calls && which < returns)
        put(list, RETURN, 0, 0, 0);
    else if (which < returns + style->sets)
        put_set(random, style, list);
    else
        put(list, SKIP, 0, 0, 0);
}

static void put_one(struct random *random, const struct style *style, uint32_t list, uint32_t depth, int in_loop)
{
    uint32_t which = below(random, 100);
    int may_open = depth > 0 && has_room(16);
    if (may_open && which < style->branches)
        put_branch(random, style, list, depth, in_loop);
    else if (may_open && which < style->branches + style->loops)
        put_loop(random, style, list, depth);
    else
        put_plain(random, style, list, in_loop);
}

/* Where the draft is full a list gets no row, and is missing: room is asked for before lists are opened. */
static void some_list(struct random *random, const struct style *style, uint32_t list, uint32_t depth, int in_loop)
{
    uint32_t n = 1 + below(random, style->in_list);
    put_one(random, style, list, 0, in_loop);
    for (uint32_t i = 1; i < n && has_room(16); i++)
        put_one(random, style, list, depth, in_loop);
}

/* ---- layout */

/* Some number for a place that is not looked at. */
static uint32_t unused(struct random *random, int is_dirty)
{
    return is_dirty ? odd_number(random) : 0;
}

/* Lists get other numbers, which differ; the kernel keeps 0. */
static void name_lists(struct random *random, uint32_t *names)
{
    uint32_t which = below(random, 4), step = 1 + 2 * below(random, 1000000);
    names[0] = KERNEL;
    for (uint32_t list = 1; list < LISTS; list++)
        names[list] = which == 0 ? list : which == 1 ? 0 - list : list * step;
}

static void write_statement(struct random *random, const struct statement *from, const uint32_t *names, int is_dirty, uint32_t *to)
{
    to[0] = names[from->list];
    to[1] = from->kind;
    for (int i = 2; i < IN_STATEMENT; i++)
        to[i] = unused(random, is_dirty);
    if (from->kind == ASSIGN || from->kind == IF || from->kind == WHILE)
        to[2] = from->x;
    if (from->kind == CALL)
        to[2] = names[from->x];
    if (from->kind == ASSIGN)
        to[3] = from->y;
    if (from->kind == IF || from->kind == WHILE)
        to[3] = names[from->y];
    if (from->kind == IF)
        to[4] = names[from->z];
}

/* Rows of different lists stand in any order; within a list they keep theirs: the row that is drawn gives way to the first of its list that is left. */
static uint32_t next_row(struct random *random, const uint8_t *is_laid, int is_mixed)
{
    uint32_t row = is_mixed ? below(random, draft.rows) : 0;
    while (is_laid[row])
        row = (row + 1) % draft.rows;
    for (uint32_t i = 0; i < row; i++)
        if (!is_laid[i] && draft.row[i].list == draft.row[row].list)
            return i;
    return row;
}

static void lay_statements(struct random *random, struct drawn_kernel *kernel, int is_dirty)
{
    uint8_t is_laid[DRAFT_ROWS] = {0};
    uint32_t names[LISTS];
    int is_mixed = chance(random, 60);
    name_lists(random, names);
    kernel->statements_len = IN_STATEMENT * (size_t)draft.rows;
    for (uint32_t i = 0; i < draft.rows; i++) {
        uint32_t row = next_row(random, is_laid, is_mixed);
        is_laid[row] = 1;
        write_statement(random, &draft.row[row], names, is_dirty, kernel->statements + IN_STATEMENT * i);
    }
}

static void lay_expressions(struct random *random, struct drawn_kernel *kernel, int is_dirty)
{
    kernel->expressions_len = IN_EXPRESSION * (size_t)draft.expressions;
    for (uint32_t i = 0; i < draft.expressions; i++) {
        uint32_t *to = kernel->expressions + IN_EXPRESSION * i;
        memcpy(to, draft.expression[i], IN_EXPRESSION * sizeof *to);
        if (to[0] == LANE)
            to[1] = unused(random, is_dirty);
        if (to[0] < SUM)
            to[2] = unused(random, is_dirty);
    }
}

static uint32_t some_lanes(struct random *random)
{
    static const uint32_t often[] = {1, 2, 3, 4, 31, 32, 32, 32};
    return chance(random, 70) ? often[below(random, 8)] : 1 + below(random, LANES);
}

/* Mostly small, so that loops that count end soon. */
static void fill_cells(struct random *random, struct drawn_kernel *kernel)
{
    uint32_t how = below(random, 3);
    for (size_t i = 0; i < MOST_CELLS; i++)
        kernel->cells[i] = how == 0 ? 0 : how == 1 || chance(random, 80) ? below(random, 4) : odd_number(random);
}

static void lay_out(struct random *random, uint32_t lanes, struct drawn_kernel *kernel)
{
    int is_dirty = chance(random, 70);
    memset(kernel, 0, sizeof *kernel); /* so that rows past the end, which damage may reach, do not hang on earlier kernels */
    lay_statements(random, kernel, is_dirty);
    lay_expressions(random, kernel, is_dirty);
    fill_cells(random, kernel);
    kernel->lanes = lanes;
    kernel->cells_len = chance(random, 60) ? CELLS : CELLS + below(random, MOST_CELLS - CELLS);
}

/* ---- kinds of kernels */

/* Lists for the kernel and the functions, which may be layered: then each calls only later ones. */
static void draft_lists(struct random *random, const struct style *style, uint32_t most, uint32_t functions, int is_layered)
{
    begin(most, functions);
    for (uint32_t list = 0; list <= functions; list++) {
        draft.from = is_layered ? list + 1 : 1;
        some_list(random, style, list, style->depth, 0);
    }
}

void small_kernel(struct random *random, struct drawn_kernel *kernel)
{
    uint32_t cells = 1 + below(random, FEW_CELLS), functions = below(random, 3), lanes = chance(random, 10) ? 1 : 2 + below(random, 2);
    struct style style = {cells, 4, 3, 28, 24, 25, 8, 8, 40};
    draft_lists(random, &style, 40, functions, chance(random, 50));
    lay_out(random, lanes, kernel);
}

void mixed_kernel(struct random *random, struct drawn_kernel *kernel)
{
    uint32_t cells = 1 + below(random, chance(random, 80) ? 4 : CELLS), depth = 1 + below(random, 4), rows = 40 + below(random, 160), functions = below(random, 4);
    struct style style = {cells, 6, depth, 25, 18, 25, 5, 4, 45};
    draft_lists(random, &style, rows, functions, 0);
    lay_out(random, some_lanes(random), kernel);
}

void parted_kernel(struct random *random, struct drawn_kernel *kernel)
{
    uint32_t cells = 2 + below(random, 3), depth = 2 + below(random, 2), functions = 1 + below(random, 3), lanes = 2 + below(random, 7);
    struct style style = {cells, 4, depth, 40, 24, 20, 20, 20, 30};
    draft_lists(random, &style, 120, functions, 1);
    lay_out(random, lanes, kernel);
}

/* Each level is one branch: the next level lies in one of its arms or in its body, and beside it stands something short. */
void deep_kernel(struct random *random, struct drawn_kernel *kernel)
{
    struct style style = {1 + below(random, 3), 1, 0, 0, 0, 10, 0, 5, 60};
    uint32_t levels = 5 + below(random, 56), list = KERNEL;
    int in_loop = 0;
    begin(240, 0);
    for (uint32_t level = 0; level < levels; level++) {
        uint32_t condition = some_condition(random, &style), one = draft.lists++, other = draft.lists++;
        int is_loop = chance(random, 30), is_then = chance(random, 50);
        if (is_loop)
            put(list, WHILE, condition, one, 0);
        else
            put(list, IF, condition, is_then ? one : other, is_then ? other : one);
        if (!is_loop)
            put_plain(random, &style, other, in_loop);
        if (chance(random, 40))
            put_plain(random, &style, list, in_loop);
        in_loop |= is_loop;
        list = one;
    }
    put_set(random, &style, list);
    lay_out(random, some_lanes(random), kernel);
}

static void put_many(uint32_t list, uint32_t rows)
{
    for (uint32_t i = 0; i < rows; i++)
        put(list, SKIP, 0, 0, 0);
}

/*
 * A function that calls itself or the next one first, and has much to do afterwards, by itself, in an arm or in a loop. It stops calling where a cell has counted far enough, if it
 * tests that.
 */
static void put_function(struct random *random, const struct style *style, uint32_t list, uint32_t rows)
{
    uint32_t next = chance(random, 70) ? list : 1 + list % draft.functions, counter = below(random, style->cells), limit = 2 + below(random, 30), how = below(random, 3);
    uint32_t condition = chance(random, 60) ? is_under(random, counter, limit) : number(random, 1);
    put_step(random, list, counter);
    uint32_t body = draft.lists++, other = draft.lists++;
    if (how == 0) {
        if (chance(random, 50)) { /* a loop that no lane enters: its body is pushed all the same */
            put(list, WHILE, number(random, 0), body, 0);
            put_many(body, 1 + below(random, 60));
        }
        put(list, CALL, next, 0, 0);
        put_many(list, rows);
        return;
    }
    put(list, how == 1 ? IF : WHILE, condition, body, other);
    put(body, CALL, next, 0, 0);
    put_many(body, rows);
    if (how == 1)
        put(other, chance(random, 50) ? SKIP : RETURN, 0, 0, 0);
}

/* Long arms and bodies, one in the other. */
static void put_long(struct random *random, const struct style *style, uint32_t list)
{
    uint32_t rows = 20 + below(random, 60), condition = some_condition(random, style), one = draft.lists++, other = draft.lists++;
    int is_loop = chance(random, 40);
    put(list, is_loop ? WHILE : IF, condition, one, other);
    put(one, IF, condition, other + 1, other + 2);
    put_many(one, rows);
    put(other + 1, SKIP, 0, 0, 0);
    put(other + 2, SKIP, 0, 0, 0);
    put_many(other + 1 + below(random, 2), rows);
    if (!is_loop)
        put(other, SKIP, 0, 0, 0);
    draft.lists += 2;
}

void tall_kernel(struct random *random, struct drawn_kernel *kernel)
{
    struct style style = {1 + below(random, 3), 3, 1, 15, 15, 10, 30, 5, 60};
    uint32_t functions = 1 + below(random, 3);
    begin(STATEMENTS, functions);
    if (chance(random, 40))
        put_long(random, &style, KERNEL);
    put(KERNEL, CALL, 1, 0, 0);
    if (chance(random, 30))
        put_many(KERNEL, below(random, 100));
    for (uint32_t list = 1; list <= functions; list++)
        put_function(random, &style, list, below(random, chance(random, 50) ? 4 : 30));
    lay_out(random, some_lanes(random), kernel);
}

/* Sums of the row before with itself: as many as there is room for. */
static void double_up(uint32_t rows)
{
    for (; draft.expressions < rows; draft.expressions++) {
        uint32_t *row = draft.expression[draft.expressions], last = draft.expressions - 1;
        row[0] = draft.expressions == 0 ? LANE : draft.expressions % 7 == 0 ? DIFFERENCE : SUM;
        row[1] = row[2] = draft.expressions == 0 ? 0 : last;
        if (row[0] == DIFFERENCE)
            row[2] = last / 2;
    }
}

/* One row more, and a branch on it that lanes take and do not take. */
static void put_last_branch(void)
{
    uint32_t last = draft.expressions++, one = draft.lists++, other = draft.lists++, *row = draft.expression[last];
    row[0] = LESS;
    row[1] = last - 1;
    row[2] = last / 2;
    put(KERNEL, IF, last, one, other);
    put(one, ASSIGN, 0, last - 1, 0);
    put(other, SKIP, 0, 0, 0);
}

void full_kernel(struct random *random, struct drawn_kernel *kernel)
{
    uint32_t cells = 1 + below(random, 4), depth = 2 * below(random, 2), rows = STATEMENTS - 1 + below(random, 3), functions = depth > 0 ? below(random, 3) : 0;
    struct style style = {cells, 4, depth, 15, 15, 10, 10, 3, 60};
    draft_lists(random, &style, 60, functions, 0);
    draft.most = rows;
    if (chance(random, 50)) {
        double_up(EXPRESSIONS - 2 + below(random, 3));
        put(KERNEL, ASSIGN, 0, draft.expressions - 1, 0);
        put_last_branch();
    }
    uint32_t nobodys = draft.lists++;
    put_many(chance(random, 60) ? KERNEL : chance(random, 50) ? nobodys : 1, rows - draft.rows);
    lay_out(random, some_lanes(random), kernel);
}

/* ---- damage */

static uint32_t edge(struct random *random)
{
    static const uint32_t edges[] = {0, 1, 2, 3, 4, 5, 6, 7, 8, 31, 32, 33, 62, 63, 64, 65, 254, 255, 256, 257, 258, 0x7fffffff, 0x80000000u, 0xfffffffeu, 0xffffffffu};
    return chance(random, 10) ? (uint32_t)draw(random) : edges[below(random, sizeof edges / sizeof *edges)];
}

/* Lists 0 to `lists`, so that most are there; places that are not looked at get anything. */
static void wild_statement(struct random *random, uint32_t lists, uint32_t expressions, uint32_t *row)
{
    row[0] = below(random, lists);
    row[1] = below(random, 50) == 0 ? edge(random) : below(random, STATEMENT_KINDS);
    for (int i = 2; i < IN_STATEMENT; i++) {
        int is_list = row[1] == CALL || i > 2;
        row[i] = below(random, 40) == 0 ? edge(random) : is_list && row[1] != ASSIGN ? below(random, lists + 1) : below(random, expressions + 1);
    }
}

static void wild_expression(struct random *random, uint32_t at, uint32_t *row)
{
    row[0] = below(random, 200) == 0 ? edge(random) : below(random, at == 0 ? SUM : EXPRESSION_KINDS);
    for (int i = 1; i < IN_EXPRESSION; i++)
        row[i] = below(random, 100) == 0 ? edge(random) : row[0] == NUMBER ? edge(random) : row[0] == CELL ? below(random, CELLS) : below(random, at > 0 ? at : 1);
}

void wild_kernel(struct random *random, struct drawn_kernel *kernel)
{
    uint32_t statements = 1 + below(random, chance(random, 70) ? 8 : 40), expressions = 1 + below(random, 5), lists = 1 + below(random, chance(random, 50) ? statements : 2 * statements);
    memset(kernel, 0, sizeof *kernel);
    for (uint32_t i = 0; i < statements; i++)
        wild_statement(random, lists, expressions, kernel->statements + IN_STATEMENT * i);
    for (uint32_t i = 0; i < expressions; i++)
        wild_expression(random, i, kernel->expressions + IN_EXPRESSION * i);
    kernel->statements_len = IN_STATEMENT * (size_t)statements;
    kernel->expressions_len = IN_EXPRESSION * (size_t)expressions;
    kernel->lanes = some_lanes(random);
    fill_cells(random, kernel);
    kernel->cells_len = CELLS;
}

/* A number of a table becomes an odd one, that of another place, or its neighbour. */
static void damage_number(struct random *random, uint32_t *table, size_t n)
{
    if (n == 0)
        return;
    uint32_t to = below(random, (uint32_t)n), from = below(random, (uint32_t)n), how = below(random, 4);
    table[to] = how == 0 ? edge(random) : how == 1 ? table[from] : how == 2 ? table[to] + 1 : table[to] - 1;
}

/* The same place of another row: a list's number for a list's number, a kind for a kind. */
static void copy_place(struct random *random, uint32_t *table, size_t n, uint32_t in_row)
{
    uint32_t rows = (uint32_t)n / in_row;
    if (rows == 0)
        return;
    uint32_t to = below(random, rows), from = below(random, rows), place = below(random, in_row);
    table[in_row * to + place] = table[in_row * from + place];
}

/* Some numbers more or fewer, or none. */
static void damage_length(struct random *random, size_t *length, size_t most)
{
    uint32_t by = 1 + below(random, 6), how = below(random, 10);
    if (how < 2)
        *length = 0;
    else if (how < 6)
        *length = *length > by ? *length - by : 0;
    else
        *length = *length + by < most ? *length + by : most;
}

void damage_kernel(struct random *random, struct drawn_kernel *kernel)
{
    static const uint32_t lanes[] = {0, 33, 34, 64, 0x80000000u, 0xffffffffu, 0x100, 0x10001};
    static const size_t rooms[] = {0, 1, 32, 62, 63, 63, 63, 64};
    uint32_t times = 1 + below(random, 3);
    for (uint32_t i = 0; i < times; i++) {
        uint32_t which = below(random, 100);
        if (which < 45)
            damage_number(random, kernel->statements, kernel->statements_len);
        else if (which < 65)
            copy_place(random, kernel->statements, kernel->statements_len, IN_STATEMENT);
        else if (which < 80)
            damage_number(random, kernel->expressions, kernel->expressions_len);
        else if (which < 85)
            damage_length(random, &kernel->statements_len, sizeof kernel->statements / sizeof *kernel->statements);
        else if (which < 90)
            damage_length(random, &kernel->expressions_len, sizeof kernel->expressions / sizeof *kernel->expressions);
        else if (which < 95)
            kernel->lanes = lanes[below(random, 8)];
        else
            kernel->cells_len = rooms[below(random, 8)];
    }
}

/* A row's number at its limit or just before it. */
static uint32_t near_limit(struct random *random, size_t limit)
{
    return (uint32_t)limit - below(random, 2);
}

static void spoil_branch(struct random *random, struct drawn_kernel *kernel, uint32_t *row)
{
    uint32_t rows = (uint32_t)kernel->statements_len / IN_STATEMENT, other = IN_STATEMENT * below(random, rows), place = 3 + below(random, row[1] == IF ? 2 : 1);
    switch (below(random, 8)) {
    case 0:
        row[2] = near_limit(random, kernel->expressions_len / IN_EXPRESSION);
        break;
    case 1:
        row[place] = row[0]; /* its own list */
        break;
    case 2:
    case 3:
    case 4:
        row[4] = row[3]; /* which is not looked at in a while */
        break;
    case 5:
        row[place] = KERNEL;
        break;
    case 6:
        row[place] = kernel->statements[other + 3]; /* another's body, or no list */
        break;
    default:
        row[place] = kernel->statements[other]; /* any list */
    }
}

static void spoil_statement(struct random *random, struct drawn_kernel *kernel, uint32_t *row)
{
    uint32_t rows = (uint32_t)kernel->statements_len / IN_STATEMENT, other = IN_STATEMENT * below(random, rows), how = below(random, 3);
    if (row[1] == IF || row[1] == WHILE)
        spoil_branch(random, kernel, row);
    else if (row[1] == ASSIGN && how > 0)
        row[1 + how] = near_limit(random, how == 1 ? CELLS : kernel->expressions_len / IN_EXPRESSION);
    else if (row[1] == CALL && how > 0)
        row[2] = kernel->statements[other + (how == 1 ? 0 : 3)];
    else
        row[1] = chance(random, 50) ? BREAK : near_limit(random, STATEMENT_KINDS);
}

/* The first row from a drawn one on, and round, that is a branch or a loop, or that is none; or how many rows there are. */
static uint32_t find_row(struct random *random, const struct drawn_kernel *kernel, int is_branch)
{
    uint32_t rows = (uint32_t)kernel->statements_len / IN_STATEMENT, first = below(random, rows);
    for (uint32_t i = 0; i < rows; i++) {
        uint32_t row = (first + i) % rows, kind = kernel->statements[IN_STATEMENT * row + 1];
        if ((kind == IF || kind == WHILE) == is_branch)
            return row;
    }
    return rows;
}

/* Some row calls another's body. */
static void spoil_call(struct random *random, struct drawn_kernel *kernel)
{
    uint32_t rows = (uint32_t)kernel->statements_len / IN_STATEMENT, from = find_row(random, kernel, 1), to = find_row(random, kernel, 0);
    if (from == rows || to == rows)
        return;
    uint32_t *row = kernel->statements + IN_STATEMENT * to, *branch = kernel->statements + IN_STATEMENT * from;
    row[1] = CALL;
    row[2] = branch[3 + below(random, branch[1] == IF ? 2 : 1)];
}

static void spoil_expression(struct random *random, uint32_t at, uint32_t *row)
{
    if (row[0] == CELL)
        row[1] = near_limit(random, CELLS);
    else if (row[0] > LANE && at > 0)
        row[1 + below(random, 2)] = near_limit(random, at);
    else
        row[0] = at == 0 || chance(random, 50) ? EXPRESSION_KINDS : CELL;
}

void spoil_kernel(struct random *random, struct drawn_kernel *kernel)
{
    uint32_t statements = (uint32_t)kernel->statements_len / IN_STATEMENT, expressions = (uint32_t)kernel->expressions_len / IN_EXPRESSION;
    uint32_t which = below(random, 100);
    if (which < 10 && statements > 0)
        spoil_call(random, kernel);
    if (which >= 10 && which < 70 && statements > 0) {
        uint32_t at = which < 40 ? find_row(random, kernel, 1) : below(random, statements);
        spoil_statement(random, kernel, kernel->statements + IN_STATEMENT * (at % statements));
    }
    if (which >= 70 && which < 90 && expressions > 0) {
        uint32_t at = below(random, expressions);
        spoil_expression(random, at, kernel->expressions + IN_EXPRESSION * at);
    }
    if (which >= 90)
        kernel->lanes = which < 95 ? 0 : near_limit(random, LANES + 1);
}
