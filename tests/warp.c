/* Table 2 of document 001 rule by rule, and before it the refusals. Each part stands under the words that it is written from. */
#include "warp.h"

/* ---- the tables */

/* "Statements, five numbers a row (list, kind, x, y, z), at most 256." */
size_t statements_of(const struct kernel *kernel)
{
    return kernel->statements_len / IN_STATEMENT;
}

/* "Expressions, three numbers a row (kind, x, y), at most 256." */
size_t expressions_of(const struct kernel *kernel)
{
    return kernel->expressions_len / IN_EXPRESSION;
}

struct statement statement_at(const struct kernel *kernel, size_t row)
{
    const uint32_t *at = kernel->statements + IN_STATEMENT * row;
    struct statement it = {at[0], at[1], at[2], at[3], at[4]};
    return it;
}

/* "A body or function is the list of the rows with its number, in order." */
size_t length_of(const struct kernel *kernel, uint32_t list)
{
    size_t n = 0;
    for (size_t row = 0; row < statements_of(kernel); row++)
        n += statement_at(kernel, row).list == list;
    return n;
}

/* ---- 17: "over a limit, 0 lanes, an unknown kind or cell, a body or function missing, a body used twice or inside itself" */

/* What is wrong with the tables as wholes. */
static enum reason wrong_sizes(const struct kernel *kernel)
{
    if (kernel->lanes == 0)
        return NO_LANES;
    if (kernel->lanes > LANES)
        return MANY_LANES;
    if (kernel->cells_len < CELLS)
        return SHORT_CELLS;
    if (kernel->statements_len % IN_STATEMENT != 0)
        return PART_STATEMENT;
    if (statements_of(kernel) > STATEMENTS)
        return MANY_STATEMENTS;
    if (kernel->expressions_len % IN_EXPRESSION != 0)
        return PART_EXPRESSION;
    return expressions_of(kernel) > EXPRESSIONS ? MANY_EXPRESSIONS : ACCEPTED;
}

/* "0 a number x, 1 a cell x, 2 the lane number, 3 sum, 4 difference, 5 unsigned less-than, of the values of rows x and y, which are earlier rows." */
static enum reason wrong_expression(const struct kernel *kernel, size_t row)
{
    const uint32_t *at = kernel->expressions + IN_EXPRESSION * row;
    if (at[0] >= EXPRESSION_KINDS)
        return EXPRESSION_KIND;
    if (at[0] == CELL && at[1] >= CELLS)
        return EXPRESSION_CELL;
    return at[0] >= SUM && (at[1] >= row || at[2] >= row) ? LATER_OPERAND : ACCEPTED;
}

/* "2 if (expression x, then-list y, else-list z), 3 while (expression x, body y)". */
static int has_body(struct statement it, uint32_t list)
{
    return (it.kind == IF && (it.y == list || it.z == list)) || (it.kind == WHILE && it.y == list);
}

static int uses(struct statement it, uint32_t list)
{
    return has_body(it, list) || (it.kind == CALL && it.x == list);
}

static int is_used_by_another(const struct kernel *kernel, size_t row, uint32_t list)
{
    for (size_t other = 0; other < statements_of(kernel); other++)
        if (other != row && uses(statement_at(kernel, other), list))
            return 1;
    return 0;
}

static int is_body(const struct kernel *kernel, uint32_t list)
{
    for (size_t row = 0; row < statements_of(kernel); row++)
        if (has_body(statement_at(kernel, row), list))
            return 1;
    return 0;
}

/* The first row that has a list for an arm or a body; where there is none, how many rows there are. */
static size_t holder_of(const struct kernel *kernel, uint32_t list)
{
    size_t row = 0;
    while (row < statements_of(kernel) && !has_body(statement_at(kernel, row), list))
        row++;
    return row;
}

/*
 * Does a row lie inside its own body? Walks up from the list that it lies in; a way up that is longer than the table goes round. Where two rows have a list they are both refused, as it is used
 * twice, and the walk goes on from the first of them: by the other one an earlier row might be found at fault.
 */
static int is_inside_itself(const struct kernel *kernel, size_t row)
{
    size_t at = row;
    for (size_t n = 0; n <= statements_of(kernel); n++) {
        at = holder_of(kernel, statement_at(kernel, at).list);
        if (at == row)
            return 1;
        if (at == statements_of(kernel))
            return 0;
    }
    return 0;
}

static enum reason wrong_body(const struct kernel *kernel, size_t row, uint32_t list)
{
    if (list == KERNEL)
        return KERNEL_BODY;
    if (length_of(kernel, list) == 0)
        return NO_BODY;
    return is_used_by_another(kernel, row, list) ? USED_TWICE : ACCEPTED;
}

/* An if or a while. */
static enum reason wrong_branch(const struct kernel *kernel, size_t row)
{
    struct statement it = statement_at(kernel, row);
    if (it.x >= expressions_of(kernel))
        return NO_EXPRESSION;
    enum reason reason = wrong_body(kernel, row, it.y);
    if (reason == ACCEPTED && it.kind == IF)
        reason = it.z == it.y ? SAME_ARMS : wrong_body(kernel, row, it.z);
    if (reason == ACCEPTED && is_inside_itself(kernel, row))
        reason = INSIDE_ITSELF;
    return reason;
}

static enum reason wrong_call(const struct kernel *kernel, uint32_t list)
{
    if (length_of(kernel, list) == 0)
        return NO_FUNCTION;
    return is_body(kernel, list) ? CALLED_BODY : ACCEPTED;
}

static enum reason wrong_statement(const struct kernel *kernel, size_t row)
{
    struct statement it = statement_at(kernel, row);
    switch (it.kind) {
    case SKIP:
    case BREAK:
    case RETURN:
        return ACCEPTED;
    case ASSIGN:
        return it.x >= CELLS ? ASSIGNED_CELL : it.y >= expressions_of(kernel) ? NO_EXPRESSION : ACCEPTED;
    case IF:
    case WHILE:
        return wrong_branch(kernel, row);
    case CALL:
        return wrong_call(kernel, it.x);
    default:
        return STATEMENT_KIND;
    }
}

/* ---- 18: "a break outside its own function's loops" */

/* Of a break in tables that pass 17, where the way up ends: at a while, or at a list that is nobody's body, which is a function or the kernel. */
static int is_in_loop(const struct kernel *kernel, size_t row)
{
    do
        row = holder_of(kernel, statement_at(kernel, row).list);
    while (row < statements_of(kernel) && statement_at(kernel, row).kind != WHILE);
    return row < statements_of(kernel);
}

static struct refusal refusal(uint32_t number, size_t place, enum reason reason)
{
    struct refusal it = {number, place, reason};
    return it;
}

/* "Place the first such statement, 0 if none: 17 ...; then 18 ..." */
struct refusal check_kernel(const struct kernel *kernel)
{
    enum reason reason = wrong_sizes(kernel);
    for (size_t row = 0; reason == ACCEPTED && row < expressions_of(kernel); row++)
        reason = wrong_expression(kernel, row);
    if (reason != ACCEPTED)
        return refusal(17, 0, reason);
    for (size_t row = 0; row < statements_of(kernel); row++) {
        reason = wrong_statement(kernel, row);
        if (reason != ACCEPTED)
            return refusal(17, row, reason);
    }
    for (size_t row = 0; row < statements_of(kernel); row++)
        if (statement_at(kernel, row).kind == BREAK && !is_in_loop(kernel, row))
            return refusal(18, row, LOOSE_BREAK);
    return refusal(0, 0, ACCEPTED);
}

/* ---- expressions */

/* The operation of one row, given the values of the rows before it. */
static uint32_t operation(const uint32_t *at, const uint32_t *values, uint32_t lane, const uint32_t *cells)
{
    switch (at[0]) {
    case NUMBER:
        return at[1];
    case CELL:
        return cells[at[1]];
    case LANE:
        return lane;
    case SUM:
        return values[at[1]] + values[at[2]];
    case DIFFERENCE:
        return values[at[1]] - values[at[2]];
    default:
        return values[at[1]] < values[at[2]];
    }
}

/* Row after row, since a row that is used twice, by rows that are used twice, and so on, would be worked out without end otherwise. */
uint32_t value_of(const struct kernel *kernel, size_t expression, uint32_t lane, const uint32_t *cells)
{
    uint32_t values[EXPRESSIONS];
    for (size_t row = 0; row <= expression; row++)
        values[row] = operation(kernel->expressions + IN_EXPRESSION * row, values, lane, cells);
    return values[expression];
}

/* ---- the stack and the masks */

int is_token(const struct entry *entry)
{
    return entry->kind >= DIV_TOKEN;
}

int has_lane(uint32_t mask, uint32_t lane)
{
    return mask >> lane & 1;
}

static void push(struct warp *warp, enum entry_kind kind, size_t row, uint32_t mask)
{
    struct entry entry = {kind, row, mask};
    warp->stack[warp->height++] = entry;
}

/* The first row of a list comes to lie on top. */
static void push_list(const struct kernel *kernel, struct warp *warp, uint32_t list)
{
    for (size_t row = statements_of(kernel); row-- > 0;)
        if (statement_at(kernel, row).list == list)
            push(warp, STATEMENT, row, 0);
}

/* "All statements up to the next token on the stack are skipped." */
static void skip_statements(struct warp *warp)
{
    while (!is_token(&warp->stack[warp->height - 1]))
        warp->height--;
}

/* "act(Theta, e, eta, mu): the threads of Theta for which e is not 0." */
static uint32_t act(const struct kernel *kernel, const struct warp *warp, size_t expression)
{
    uint32_t mask = 0;
    for (uint32_t lane = 0; lane < kernel->lanes; lane++)
        if (has_lane(warp->active, lane) && value_of(kernel, expression, lane, warp->cells) != 0)
            mask |= (uint32_t)1 << lane;
    return mask;
}

/* "awaits(delta, t): delta = b implies t = brk, and delta = r implies t = call." */
int awaits(enum disable disabled, enum entry_kind token)
{
    return (disabled != BROKE || token == BRK_TOKEN) && (disabled != RETURNED || token == CALL_TOKEN);
}

/* "enable(Delta, t_Theta): the threads of Theta whose disable state is then 0, where it was cleared of all threads of Theta for which awaits holds." */
static void enable(const struct kernel *kernel, struct warp *warp, struct entry token)
{
    warp->active = 0;
    for (uint32_t lane = 0; lane < kernel->lanes; lane++) {
        if (!has_lane(token.mask, lane))
            continue;
        if (awaits(warp->disabled[lane], token.kind))
            warp->disabled[lane] = NOT_DISABLED;
        if (warp->disabled[lane] == NOT_DISABLED)
            warp->active |= (uint32_t)1 << lane;
    }
}

/* ---- the rules; each finds its statement taken off the stack */

/* (assign^w): "all active threads evaluate e before any of them write to x". 2026-11: "the highest lane's value stays", so it writes last. */
static void assign_w(const struct kernel *kernel, struct warp *warp, struct statement it)
{
    uint32_t values[LANES];
    for (uint32_t lane = 0; lane < kernel->lanes; lane++)
        values[lane] = value_of(kernel, it.y, lane, warp->cells);
    for (uint32_t lane = 0; lane < kernel->lanes; lane++)
        if (has_lane(warp->active, lane))
            warp->cells[it.x] = values[lane];
}

/* (if^w): S2 div_act S1 sync_Theta, and the threads that are not in act go on. */
static void if_w(const struct kernel *kernel, struct warp *warp, struct statement it)
{
    uint32_t taken = act(kernel, warp, it.x);
    push(warp, SYNC_TOKEN, 0, warp->active);
    push_list(kernel, warp, it.y);
    push(warp, DIV_TOKEN, 0, taken);
    push_list(kernel, warp, it.z);
    warp->active &= ~taken;
}

/* The underlined while: S while(e) S, and the threads in act go on. */
static void while_again_w(const struct kernel *kernel, struct warp *warp, size_t row)
{
    struct statement it = statement_at(kernel, row);
    push(warp, WHILE_AGAIN, row, 0);
    push_list(kernel, warp, it.y);
    warp->active = act(kernel, warp, it.x);
}

/* (while^w): the same above brk_Theta. */
static void while_w(const struct kernel *kernel, struct warp *warp, size_t row)
{
    push(warp, BRK_TOKEN, 0, warp->active);
    while_again_w(kernel, warp, row);
}

/* (break^w) and (return^w): no thread is active then, and those that were are disabled. */
static void disable_w(const struct kernel *kernel, struct warp *warp, enum disable disabled)
{
    skip_statements(warp);
    for (uint32_t lane = 0; lane < kernel->lanes; lane++)
        if (has_lane(warp->active, lane))
            warp->disabled[lane] = disabled;
    warp->active = 0;
}

/* (call^w): the function above call_Theta. */
static void call_w(const struct kernel *kernel, struct warp *warp, struct statement it)
{
    push(warp, CALL_TOKEN, 0, warp->active);
    push_list(kernel, warp, it.x);
}

/* The rules for a statement with at least one active thread. */
static enum rule statement_w(const struct kernel *kernel, struct warp *warp, size_t row)
{
    struct statement it = statement_at(kernel, row);
    switch (it.kind) {
    case SKIP:
        return SKIP_W;
    case ASSIGN:
        assign_w(kernel, warp, it);
        return ASSIGN_W;
    case IF:
        if_w(kernel, warp, it);
        return IF_W;
    case WHILE:
        while_w(kernel, warp, row);
        return WHILE_W;
    case BREAK:
        disable_w(kernel, warp, BROKE);
        return BREAK_W;
    case CALL:
        call_w(kernel, warp, it);
        return CALL_W;
    default:
        disable_w(kernel, warp, RETURNED);
        return RETURN_W;
    }
}

enum rule warp_step(const struct kernel *kernel, struct warp *warp)
{
    struct entry top = warp->stack[warp->height - 1];
    if (!is_token(&top) && warp->active == 0) {
        skip_statements(warp);
        return INACT_W;
    }
    warp->height--;
    if (is_token(&top)) {
        enable(kernel, warp, top);
        return TOKEN_W;
    }
    if (top.kind == STATEMENT)
        return statement_w(kernel, warp, top.row);
    while_again_w(kernel, warp, top.row);
    return WHILE_AGAIN_W;
}

/* ---- a run */

/* "P call_Theta, Theta, {Theta |-> 0}, mu", with all lanes in Theta. */
void start_warp(const struct kernel *kernel, const uint32_t *cells, struct warp *warp)
{
    uint32_t all = 0;
    for (uint32_t lane = 0; lane < kernel->lanes; lane++)
        all |= (uint32_t)1 << lane;
    warp->height = 0;
    push(warp, CALL_TOKEN, 0, all);
    push_list(kernel, warp, KERNEL);
    warp->active = all;
    for (uint32_t lane = 0; lane < LANES; lane++)
        warp->disabled[lane] = NOT_DISABLED;
    for (size_t cell = 0; cell < CELLS; cell++)
        warp->cells[cell] = cells[cell];
}

/* "The next step would overfill its stack of 256 statements and tokens": tried on a copy. The start alone may have one entry more, and no step leads on from there. */
static int would_overfill(const struct kernel *kernel, const struct warp *warp)
{
    struct warp next = *warp;
    if (warp->height > ENTRIES)
        return 1;
    warp_step(kernel, &next);
    return next.height > ENTRIES;
}

/* "A run says, tested in this order, that it finished, that they are used up, or that the next step would overfill." */
enum said say(const struct kernel *kernel, const struct warp *warp, uint64_t left)
{
    if (warp->height == 0)
        return FINISHED;
    if (left == 0)
        return USED_UP;
    return would_overfill(kernel, warp) ? WOULD_OVERFILL : GOES_ON;
}
