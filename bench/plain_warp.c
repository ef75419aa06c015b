/*
 * The run of a warp as one writes it in C: lists are found once, before the first step; masks are words; an expression's rows are worked out in their order, and only those that
 * its value needs, for all lanes at once where several are active. Nothing of it is proved.
 */
#include <string.h>

#include "plain_warp.h"

enum { LANES = 32, CELLS = 64, ROWS = 256, ENTRIES = 256, ANSWER = 36, SLOTS = 512 };
enum { SKIP, ASSIGN, IF, WHILE, BREAK, CALL, RETURN };
enum { NUMBER, CELL, LANE, SUM, DIFFERENCE, LESS };
enum { STATEMENT, AGAIN, DIV, SYNC, BRK, CALLED };
enum { NONE = -1 };

struct row {
    uint32_t list, kind, x, y, z;
};

struct term {
    uint32_t kind, x, y;
};

/* A list's rows, in order, stand at `order` from `first` on. */
struct list {
    uint32_t name;
    int first, rows, holder, users; /* holder: the row that has it for an arm or body */
};

struct entry {
    uint32_t kind, mask; /* the row, where it is a statement */
};

static struct program {
    const struct row *rows;
    const struct term *terms;
    int statements, expressions, lists;
    struct list list[ROWS];
    int16_t slot[SLOTS];            /* where a list is found by its name: its place in `list` and one, or 0 */
    int order[ROWS], of[ROWS];      /* rows list by list; each row's list */
    int body[ROWS][2];              /* the lists that a row names, by place in `list` */
    uint8_t needs[ROWS][ROWS];      /* the rows that an expression's value needs, in order */
    int needed[ROWS];               /* how many; 0 until it is asked for */
} p;

/* ---- tables */

static int slot_of(uint32_t name)
{
    int at = (int)(name * 2654435761u >> 23); /* one of SLOTS */
    while (p.slot[at] != 0 && p.list[p.slot[at] - 1].name != name)
        at = (at + 1) % SLOTS;
    return at;
}

static int find(uint32_t name)
{
    return p.slot[slot_of(name)] - 1;
}

static void find_lists(void)
{
    int laid = 0, filled[ROWS];
    p.lists = 0;
    memset(p.slot, 0, sizeof p.slot);
    for (int i = 0; i < p.statements; i++) {
        int slot = slot_of(p.rows[i].list);
        if (p.slot[slot] == 0) {
            p.list[p.lists] = (struct list){p.rows[i].list, 0, 0, NONE, 0};
            p.slot[slot] = (int16_t)++p.lists;
        }
        p.of[i] = p.slot[slot] - 1;
        p.list[p.of[i]].rows++;
    }
    for (int at = 0; at < p.lists; at++) {
        p.list[at].first = filled[at] = laid;
        laid += p.list[at].rows;
    }
    for (int i = 0; i < p.statements; i++)
        p.order[filled[p.of[i]]++] = i;
}

static void use(int row, int place, uint32_t name, int is_body)
{
    int at = find(name);
    p.body[row][place] = at;
    if (at == NONE)
        return;
    p.list[at].users++;
    if (is_body && p.list[at].holder == NONE)
        p.list[at].holder = row;
}

static void find_users(void)
{
    for (int i = 0; i < p.statements; i++) {
        const struct row *row = &p.rows[i];
        if (row->kind == IF || row->kind == WHILE)
            use(i, 0, row->y, 1);
        if (row->kind == IF)
            use(i, 1, row->z, 1);
        if (row->kind == CALL)
            use(i, 0, row->x, 0);
    }
}

static int is_bad_term(int i)
{
    const struct term *term = &p.terms[i];
    return term->kind > LESS || (term->kind == CELL && term->x >= CELLS) || (term->kind >= SUM && (term->x >= (uint32_t)i || term->y >= (uint32_t)i));
}

static int is_bad_body(int at)
{
    return at == NONE || p.list[at].name == 0 || p.list[at].users != 1;
}

static int is_bad_branch(int i)
{
    const struct row *row = &p.rows[i];
    if (row->x >= (uint32_t)p.expressions || is_bad_body(p.body[i][0]) || (row->kind == IF && is_bad_body(p.body[i][1])))
        return 1;
    int at = i;
    for (int n = 0; n <= p.statements; n++) {
        at = p.list[p.of[at]].holder;
        if (at == NONE)
            return 0;
        if (at == i)
            return 1;
    }
    return 0;
}

static int is_bad_row(int i)
{
    const struct row *row = &p.rows[i];
    switch (row->kind) {
    case ASSIGN:
        return row->x >= CELLS || row->y >= (uint32_t)p.expressions;
    case IF:
    case WHILE:
        return is_bad_branch(i);
    case CALL:
        return p.body[i][0] == NONE || p.list[p.body[i][0]].holder != NONE;
    default:
        return row->kind > RETURN;
    }
}

static int is_loose(int i)
{
    do
        i = p.list[p.of[i]].holder;
    while (i != NONE && p.rows[i].kind != WHILE);
    return i == NONE;
}

/* Answers 0, 17 or 18. */
static uint32_t check(uint32_t *place)
{
    *place = 0;
    for (int i = 0; i < p.expressions; i++)
        if (is_bad_term(i))
            return 17;
    find_lists();
    find_users();
    for (int i = 0; i < p.statements; i++)
        if (is_bad_row(i)) {
            *place = (uint32_t)i;
            return 17;
        }
    for (int i = 0; i < p.statements; i++)
        if (p.rows[i].kind == BREAK && is_loose(i)) {
            *place = (uint32_t)i;
            return 18;
        }
    return 0;
}

/* ---- expressions */

static void find_needs(uint32_t e)
{
    uint8_t is_needed[ROWS] = {0};
    is_needed[e] = 1;
    for (uint32_t i = e + 1; i-- > 0;)
        if (is_needed[i] && p.terms[i].kind >= SUM)
            is_needed[p.terms[i].x] = is_needed[p.terms[i].y] = 1;
    p.needed[e] = 0;
    for (uint32_t i = 0; i <= e; i++)
        if (is_needed[i])
            p.needs[e][p.needed[e]++] = (uint8_t)i;
}

static uint32_t highest(uint32_t active)
{
    return (uint32_t)(31 - __builtin_clz(active));
}

static uint32_t value(uint32_t e, uint32_t lane, const uint32_t *cells)
{
    uint32_t values[ROWS];
    if (p.needed[e] == 0)
        find_needs(e);
    for (int k = 0; k < p.needed[e]; k++) {
        uint32_t i = p.needs[e][k];
        struct term term = p.terms[i];
        values[i] = term.kind == NUMBER ? term.x : term.kind == CELL ? cells[term.x] : term.kind == LANE ? lane : term.kind == SUM ? values[term.x] + values[term.y] :
                    term.kind == DIFFERENCE ? values[term.x] - values[term.y] : values[term.x] < values[term.y];
    }
    return values[e];
}

/* A row for all lanes, in loops that the compiler takes several lanes of at a time. */
static void fill(uint32_t values[][LANES], uint32_t i, const uint32_t *cells)
{
    struct term term = p.terms[i];
    uint32_t *to = values[i], x = term.kind == CELL ? cells[term.x] : term.x;
    const uint32_t *a = values[term.kind < SUM ? i : term.x], *b = values[term.kind < SUM ? i : term.y];
    switch (term.kind) {
    case NUMBER:
    case CELL:
        for (uint32_t lane = 0; lane < LANES; lane++)
            to[lane] = x;
        break;
    case LANE:
        for (uint32_t lane = 0; lane < LANES; lane++)
            to[lane] = lane;
        break;
    case SUM:
        for (uint32_t lane = 0; lane < LANES; lane++)
            to[lane] = a[lane] + b[lane];
        break;
    case DIFFERENCE:
        for (uint32_t lane = 0; lane < LANES; lane++)
            to[lane] = a[lane] - b[lane];
        break;
    default:
        for (uint32_t lane = 0; lane < LANES; lane++)
            to[lane] = a[lane] < b[lane];
    }
}

static uint32_t act(uint32_t e, uint32_t active, const uint32_t *cells)
{
    uint32_t values[ROWS][LANES], mask = 0;
    if ((active & (active - 1)) == 0)
        return value(e, highest(active), cells) != 0 ? active : 0;
    if (p.needed[e] == 0)
        find_needs(e);
    for (int k = 0; k < p.needed[e]; k++)
        fill(values, p.needs[e][k], cells);
    for (uint32_t lane = 0; lane < LANES; lane++)
        mask |= (uint32_t)(values[e][lane] != 0) << lane;
    return active & mask;
}

/* All read one memory and the highest lane's value stays: so only that lane's is worked out. */
static uint32_t last_value(uint32_t e, uint32_t active, const uint32_t *cells)
{
    return value(e, highest(active), cells);
}

/* ---- the run */

struct run {
    int height;
    uint32_t active, broke, returned, lanes;
    struct entry stack[ENTRIES + 1];
};

static void push(struct run *run, uint32_t kind, uint32_t mask)
{
    run->stack[run->height++] = (struct entry){kind, mask};
}

static void push_list(struct run *run, int at)
{
    if (at == NONE)
        return;
    for (int i = p.list[at].rows; i-- > 0;)
        push(run, STATEMENT, (uint32_t)p.order[p.list[at].first + i]);
}

/* How many entries a step adds to what is left when its statement is off the stack. */
static int added(const struct entry *top)
{
    if (top->kind > AGAIN)
        return 0;
    const struct row *row = &p.rows[top->mask];
    const int *body = p.body[top->mask];
    switch (row->kind) {
    case IF:
        return p.list[body[0]].rows + p.list[body[1]].rows + 2;
    case WHILE:
        return p.list[body[0]].rows + (top->kind == AGAIN ? 1 : 2);
    case CALL:
        return p.list[body[0]].rows + 1;
    default:
        return 0;
    }
}

static void drop_statements(struct run *run)
{
    while (run->stack[run->height - 1].kind <= AGAIN)
        run->height--;
}

static void take_token(struct run *run, struct entry token)
{
    if (token.kind == BRK)
        run->broke &= ~token.mask;
    if (token.kind == CALLED)
        run->returned &= ~token.mask;
    run->active = token.mask & ~run->broke & ~run->returned;
}

static void take_branch(struct run *run, uint32_t row, const uint32_t *cells)
{
    uint32_t taken = act(p.rows[row].x, run->active, cells);
    push(run, SYNC, run->active);
    push_list(run, p.body[row][0]);
    push(run, DIV, taken);
    push_list(run, p.body[row][1]);
    run->active &= ~taken;
}

static void take_loop(struct run *run, uint32_t row, int is_again, const uint32_t *cells)
{
    if (!is_again)
        push(run, BRK, run->active);
    push(run, AGAIN, row);
    push_list(run, p.body[row][0]);
    run->active = act(p.rows[row].x, run->active, cells);
}

static void leave(struct run *run, uint32_t *disabled)
{
    *disabled |= run->active;
    run->active = 0;
    drop_statements(run);
}

static void take_statement(struct run *run, struct entry top, uint32_t *cells)
{
    const struct row *row = &p.rows[top.mask];
    switch (row->kind) {
    case ASSIGN:
        cells[row->x] = last_value(row->y, run->active, cells);
        break;
    case IF:
        take_branch(run, top.mask, cells);
        break;
    case WHILE:
        take_loop(run, top.mask, top.kind == AGAIN, cells);
        break;
    case BREAK:
        leave(run, &run->broke);
        break;
    case CALL:
        push(run, CALLED, run->active);
        push_list(run, p.body[top.mask][0]);
        break;
    case RETURN:
        leave(run, &run->returned);
        break;
    }
}

/* Answers how it ended, 1 to 3. */
static uint32_t go(struct run *run, uint32_t *cells, uint64_t steps, uint64_t *taken)
{
    for (;; ++*taken) {
        if (run->height == 0)
            return 1;
        if (*taken == steps)
            return 2;
        struct entry top = run->stack[run->height - 1];
        int is_asleep = top.kind <= AGAIN && run->active == 0;
        if (run->height > ENTRIES || (!is_asleep && run->height - 1 + added(&top) > ENTRIES))
            return 3;
        if (is_asleep) {
            drop_statements(run);
            continue;
        }
        run->height--;
        if (top.kind > AGAIN)
            take_token(run, top);
        else
            take_statement(run, top, cells);
    }
}

static uint32_t told(uint32_t *answer, uint32_t number, uint32_t place, uint32_t ended, uint64_t taken)
{
    answer[0] = place;
    answer[1] = 0;
    answer[2] = ended;
    answer[3] = 0;
    answer[4] = (uint32_t)taken;
    answer[5] = (uint32_t)(taken >> 32);
    return number;
}

uint32_t plain_warp(const uint32_t *statements, size_t statements_len, const uint32_t *expressions, size_t expressions_len, uint32_t lanes,
                    uint32_t *cells, size_t cells_len, uint64_t steps, uint32_t *answer, size_t answer_len)
{
    struct run run;
    uint32_t place;
    uint64_t taken = 0;
    if (answer_len < ANSWER)
        return 14;
    if (lanes == 0 || lanes > LANES || cells_len < CELLS || statements_len % 5 != 0 || statements_len / 5 > ROWS || expressions_len % 3 != 0 || expressions_len / 3 > ROWS)
        return told(answer, 17, 0, 0, 0);
    p.rows = (const struct row *)statements;
    p.terms = (const struct term *)expressions;
    p.statements = (int)(statements_len / 5);
    p.expressions = (int)(expressions_len / 3);
    memset(p.needed, 0, sizeof p.needed);
    uint32_t number = check(&place);
    if (number != 0)
        return told(answer, number, place, 0, 0);
    run.height = 0;
    run.lanes = lanes;
    run.active = lanes == 32 ? 0xffffffffu : ((uint32_t)1 << lanes) - 1;
    run.broke = run.returned = 0;
    push(&run, CALLED, run.active);
    push_list(&run, find(0));
    uint32_t ended = go(&run, cells, steps, &taken);
    return told(answer, 0, 0, ended, taken);
}
