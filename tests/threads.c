/* Tables 4 and 5 of document 001, and the search. */
#include <string.h>

#include "threads.h"

/* ---- Table 5 */

/* "actToken_theta(t_Theta, delta): theta is in Theta, and awaits(delta, t)." */
static int act_token(const struct entry *token, uint32_t lane, enum disable disabled)
{
    return has_lane(token->mask, lane) && awaits(disabled, token->kind);
}

/* What an active thread's projection puts out for an entry; answers 0 for a sync or a div token, which puts out nothing. */
static int item_of(const struct entry *entry, struct item *item)
{
    static const uint8_t kinds[] = {[STATEMENT] = T_STATEMENT, [WHILE_AGAIN] = T_WHILE_AGAIN, [BRK_TOKEN] = T_BRK, [CALL_TOKEN] = T_CALL};
    if (entry->kind == DIV_TOKEN || entry->kind == SYNC_TOKEN)
        return 0;
    memset(item, 0, sizeof *item);
    item->kind = kinds[entry->kind];
    item->row = (uint16_t)entry->row;
    return 1;
}

static void turn_over(struct thread *thread)
{
    for (uint32_t i = 0; i < thread->height / 2; i++) {
        struct item *one = &thread->stack[i], *other = &thread->stack[thread->height - 1 - i], kept = *one;
        *one = *other;
        *other = kept;
    }
}

/*
 * From the top down. "Whenever a div token is encountered" an active thread is deactivated; an inactive one "skips all instructions until it encounters an activation token", and
 * goes on as active, with a disable state of 0.
 */
static int project_one(const struct warp *warp, uint32_t lane, struct rules rules, struct thread *out)
{
    int is_active = has_lane(warp->active, lane);
    enum disable disabled = warp->disabled[lane];
    out->height = 0;
    for (size_t i = warp->height; i-- > 0;) {
        const struct entry *entry = &warp->stack[i];
        if (!is_active) {
            is_active = is_token(entry) && act_token(entry, lane, disabled) && !rules.as_printed;
            disabled = is_active ? NOT_DISABLED : disabled;
            continue;
        }
        if (out->height == LOW)
            return 0;
        out->height += (uint32_t)item_of(entry, &out->stack[out->height]);
        is_active = entry->kind != DIV_TOKEN;
    }
    turn_over(out);
    return 1;
}

int project(const struct kernel *kernel, const struct warp *warp, struct rules rules, struct threads *out)
{
    memcpy(out->cells, warp->cells, sizeof out->cells);
    for (uint32_t lane = 0; lane < kernel->lanes; lane++)
        if (lane >= FEW_LANES || !project_one(warp, lane, rules, &out->of[lane]))
            return 0;
    return 1;
}

/* ---- Table 4 */

/* Answers 0 where the stack would be too high. */
static int put(struct thread *thread, enum item_kind kind, size_t row, uint32_t value)
{
    struct item item;
    if (thread->height == LOW)
        return 0;
    memset(&item, 0, sizeof item);
    item.kind = (uint8_t)kind;
    item.row = (uint16_t)row;
    item.value = value;
    thread->stack[thread->height++] = item;
    return 1;
}

static int put_list(const struct kernel *kernel, struct thread *thread, uint32_t list)
{
    for (size_t row = statements_of(kernel); row-- > 0;)
        if (statement_at(kernel, row).list == list && !put(thread, T_STATEMENT, row, 0))
            return 0;
    return 1;
}

/* (break^t): "break; [S] brk", where only statements stand between. */
static int leave_loop(struct thread *thread)
{
    while (thread->height > 0 && thread->stack[thread->height - 1].kind < T_BRK)
        thread->height--;
    return thread->height > 0 && thread->stack[--thread->height].kind == T_BRK;
}

/* (return^t): "return; T call", where T has no call context. */
static int leave_function(struct thread *thread)
{
    while (thread->height > 0 && thread->stack[thread->height - 1].kind != T_CALL)
        thread->height--;
    if (thread->height == 0)
        return 0;
    thread->height--;
    return 1;
}

/* (assign^t_rd): `x = e;` becomes `x = v;`. With the wrong rule the write is done as well. */
static int read_value(struct thread *thread, size_t row, struct rules rules, uint32_t value, uint32_t *cell)
{
    if (!rules.in_one_step)
        return put(thread, T_WRITE, row, value);
    *cell = value;
    return 1;
}

/* The rules for an expression that is 0 (ff) or not (tt). The underlined while stays above the context that is there already. */
static int branch(const struct kernel *kernel, struct thread *thread, struct item item, int holds)
{
    struct statement it = statement_at(kernel, item.row);
    if (it.kind == IF)
        return put_list(kernel, thread, holds ? it.y : it.z);
    if (!holds)
        return 1;
    return (item.kind == T_WHILE_AGAIN || put(thread, T_BRK, 0, 0)) && put(thread, T_WHILE_AGAIN, item.row, 0) && put_list(kernel, thread, it.y);
}

/* The statement has been taken off the stack. */
static int statement_t(const struct kernel *kernel, uint32_t lane, struct rules rules, struct threads *threads, struct item item)
{
    struct thread *thread = &threads->of[lane];
    struct statement it = statement_at(kernel, item.row);
    switch (it.kind) {
    case SKIP:
        return 1;
    case ASSIGN:
        return read_value(thread, item.row, rules, value_of(kernel, it.y, lane, threads->cells), &threads->cells[it.x]);
    case IF:
    case WHILE:
        return branch(kernel, thread, item, value_of(kernel, it.x, lane, threads->cells) != 0);
    case BREAK:
        return leave_loop(thread);
    case CALL:
        return put(thread, T_CALL, 0, 0) && put_list(kernel, thread, it.x);
    default:
        return leave_function(thread);
    }
}

int thread_step(const struct kernel *kernel, uint32_t lane, struct rules rules, struct threads *threads)
{
    struct thread *thread = &threads->of[lane];
    if (thread->height == 0)
        return 0;
    struct item top = thread->stack[--thread->height];
    if (top.kind == T_BRK || top.kind == T_CALL) /* (context^t) */
        return 1;
    if (top.kind == T_WRITE) { /* (assign^t_wr) */
        threads->cells[statement_at(kernel, top.row).x] = top.value;
        return 1;
    }
    return statement_t(kernel, lane, rules, threads, top);
}

/* ---- the search: breadth first over states that were not met before */

enum { MOST_STATES = 8192, BUCKETS = 16384 };
static struct threads states[MOST_STATES];
static uint32_t met, depths[MOST_STATES];
static uint16_t buckets[BUCKETS]; /* one more than the state's number, or 0 */

static int same_item(struct item a, struct item b)
{
    return a.kind == b.kind && a.row == b.row && a.value == b.value;
}

static int same_thread(const struct thread *a, const struct thread *b)
{
    if (a->height != b->height)
        return 0;
    for (uint32_t i = a->height; i-- > 0;)
        if (!same_item(a->stack[i], b->stack[i]))
            return 0;
    return 1;
}

int same_threads(const struct kernel *kernel, const struct threads *a, const struct threads *b)
{
    for (uint32_t lane = 0; lane < kernel->lanes; lane++)
        if (!same_thread(&a->of[lane], &b->of[lane]))
            return 0;
    return memcmp(a->cells, b->cells, sizeof a->cells) == 0;
}

/* Only spreads the states: equal ones get equal numbers. */
static uint32_t bucket_of(const struct kernel *kernel, const struct threads *it)
{
    uint32_t hash = 2166136261u;
    for (uint32_t lane = 0; lane < kernel->lanes; lane++) {
        const struct thread *thread = &it->of[lane];
        hash = (hash ^ thread->height) * 16777619u;
        for (uint32_t i = 0; i < thread->height; i++)
            hash = (hash ^ thread->stack[i].kind ^ (uint32_t)thread->stack[i].row << 3 ^ thread->stack[i].value << 12) * 16777619u;
    }
    for (size_t cell = 0; cell < CELLS; cell++)
        hash = (hash ^ it->cells[cell]) * 16777619u;
    return (hash ^ hash >> 15) % BUCKETS;
}

/* Keeps the state that was written after the last, unless it was met before. */
static void keep(const struct kernel *kernel, uint32_t depth)
{
    uint32_t bucket = bucket_of(kernel, &states[met]);
    for (; buckets[bucket] != 0; bucket = (bucket + 1) % BUCKETS)
        if (same_threads(kernel, &states[buckets[bucket] - 1], &states[met]))
            return;
    depths[met] = depth;
    buckets[bucket] = (uint16_t)++met;
}

int reaches(const struct kernel *kernel, struct rules rules, const struct threads *from, const struct threads *to, uint32_t most)
{
    met = 0;
    memset(buckets, 0, sizeof buckets);
    states[0] = *from;
    keep(kernel, 0);
    for (uint32_t next = 0; next < met; next++) {
        if (same_threads(kernel, &states[next], to))
            return 1;
        for (uint32_t lane = 0; depths[next] < most && lane < kernel->lanes; lane++) {
            if (met == MOST_STATES - 1)
                return -1;
            states[met] = states[next];
            if (thread_step(kernel, lane, rules, &states[met]))
                keep(kernel, depths[next] + 1);
        }
    }
    return 0;
}
