/*
 * The review of documents 01 and 02 as one writes it in C from the page: tables, replay, edges, Warshall's closing by whole words, then every pair for
 * faults, and the schedules that show them. It is neither slow on purpose nor clever, as the benchmark compares the archive with it. tests/reference.c is another program, slower and
 * simpler, to which the tests hold the archives.
 */
#include <string.h>

#include "plain.h"

enum { ROWS = 512, THREADS = 64, BARRIERS = 16, LAST_ADDRESS = 4095, LAST_COUNT = 1024, KEPT = 16, ANSWER = 36, NONE = ROWS };
enum { READ, WRITE, ARRIVE, SYNC };
enum { P, Q, TOTAL, ENTRIES, PAIRS }; /* places of the answer */

/* What the parts of one review share. The generations are copied to the room that was lent only when both rooms are to be filled. */
struct review {
    const uint32_t *commands, *lengths;
    size_t rows, threads, width;
    uint32_t *relation, *answer;
    uint32_t generations[ROWS], thread_of[ROWS];
    uint8_t is_first[ROWS]; /* of its thread */
};

/* `expected` is 0 while the barrier is unset; `waiting` has a bit for each thread that is blocked there. */
struct barrier {
    uint32_t expected, registered, completed;
    uint64_t waiting;
};

struct state {
    uint32_t next[THREADS], end[THREADS]; /* commands */
    uint64_t blocked;
    struct barrier barriers[BARRIERS];
};

static uint32_t verdict(struct review *review, uint32_t number, size_t p)
{
    review->answer[P] = (uint32_t)p;
    return number;
}

/* ---- refusals 1 to 4 */

/* No count may be above the number of threads (document 02). */
static int keeps_rules(const uint32_t *row, size_t threads)
{
    if (row[0] == READ || row[0] == WRITE)
        return row[1] <= LAST_ADDRESS && row[2] == 0;
    return (row[0] == ARRIVE || row[0] == SYNC) && row[1] < BARRIERS && row[2] >= 1 && row[2] <= LAST_COUNT && row[2] <= threads;
}

static uint32_t check_tables(struct review *review, size_t numbers)
{
    if (numbers % 3 != 0 || review->rows > ROWS)
        return verdict(review, 1, 0);
    if (review->threads == 0 || review->threads > THREADS)
        return verdict(review, 2, 0);
    uint64_t sum = 0;
    for (size_t t = 0; t < review->threads; t++)
        sum += review->lengths[t];
    if (sum != review->rows)
        return verdict(review, 2, 0);
    for (size_t c = 0; c < review->rows; c++)
        if (!keeps_rules(review->commands + 3 * c, review->threads))
            return verdict(review, 3, c);
    return 0;
}

static uint32_t check_rooms(struct review *review, size_t relation_len, size_t generations_len, size_t evidence_len)
{
    if (relation_len < review->rows * review->width)
        return verdict(review, 4, 0);
    if (generations_len < review->rows)
        return verdict(review, 4, 1);
    if (evidence_len < 2 * KEPT * review->rows)
        return verdict(review, 4, 4);
    return 0;
}

/* ---- replay: verdicts 5 to 9 */

/* Also fills the arrays that tell the thread of a command. */
static void start(struct review *review, struct state *state)
{
    uint32_t c = 0;
    memset(state, 0, sizeof *state);
    for (uint32_t t = 0; t < review->threads; t++) {
        state->next[t] = c;
        state->end[t] = c + review->lengths[t];
        for (; c < state->end[t]; c++) {
            review->thread_of[c] = t;
            review->is_first[c] = c == state->next[t];
        }
    }
}

static int is_allowed(const struct review *review, const struct state *state, uint32_t t)
{
    return t < review->threads && state->next[t] < state->end[t] && !(state->blocked >> t & 1);
}

static void complete(struct state *state, struct barrier *barrier)
{
    state->blocked &= ~barrier->waiting;
    barrier->waiting = 0;
    barrier->expected = barrier->registered = 0;
    barrier->completed++;
}

/* An allowed step; answers whether it went without a mismatch. */
static int step(struct review *review, struct state *state, uint32_t t)
{
    uint32_t c = state->next[t];
    const uint32_t *row = review->commands + 3 * c;
    review->generations[c] = 0;
    if (row[0] >= ARRIVE) {
        struct barrier *barrier = &state->barriers[row[1]];
        if (barrier->expected != 0 && barrier->expected != row[2])
            return 0;
        barrier->expected = row[2];
        barrier->registered++;
        review->generations[c] = barrier->completed + 1;
        if (row[0] == SYNC) {
            barrier->waiting |= (uint64_t)1 << t;
            state->blocked |= (uint64_t)1 << t;
        }
        if (barrier->registered == barrier->expected)
            complete(state, barrier);
    }
    state->next[t]++;
    return 1;
}

static uint32_t judge_end(struct review *review, const struct state *state, size_t steps)
{
    for (uint32_t t = 0; t < review->threads; t++)
        if (is_allowed(review, state, t))
            return verdict(review, 6, steps);
    for (uint32_t t = 0; t < review->threads; t++)
        if (state->blocked >> t & 1)
            return verdict(review, 8, state->next[t] - 1);
    for (uint32_t b = 0; b < BARRIERS; b++)
        if (state->barriers[b].expected != 0)
            return verdict(review, 9, b);
    return 0;
}

static uint32_t replay(struct review *review, const uint32_t *schedule, size_t steps)
{
    struct state state;
    start(review, &state);
    for (size_t s = 0; s < steps; s++) {
        uint32_t t = schedule[s];
        if (!is_allowed(review, &state, t))
            return verdict(review, 5, s);
        if (!step(review, &state, t))
            return verdict(review, 7, state.next[t]);
    }
    return judge_end(review, &state, steps);
}

/* ---- happens-before */

static int reaches(const struct review *review, size_t i, size_t j)
{
    return review->relation[i * review->width + j / 32] >> j % 32 & 1;
}

static void set(struct review *review, size_t i, size_t j)
{
    review->relation[i * review->width + j / 32] |= (uint32_t)1 << j % 32;
}

static void draw_edges(struct review *review)
{
    memset(review->relation, 0, review->rows * review->width * sizeof *review->relation);
    for (size_t i = 0; i < review->rows; i++) {
        set(review, i, i);
        if (i + 1 < review->rows && !review->is_first[i + 1])
            set(review, i, i + 1);
        if (review->commands[3 * i] < ARRIVE)
            continue;
        uint32_t name = review->commands[3 * i + 1], generation = review->generations[i];
        for (size_t j = 0; j < review->rows; j++)
            if (review->commands[3 * j] == SYNC && review->commands[3 * j + 1] == name && review->generations[j] == generation)
                set(review, i, j);
    }
}

/* Warshall's rounds. */
static void close_under_chains(uint32_t *relation, size_t rows, size_t width)
{
    for (size_t k = 0; k < rows; k++) {
        const uint32_t *from = relation + k * width;
        for (size_t i = 0; i < rows; i++) {
            uint32_t *to = relation + i * width;
            if (to[k / 32] >> k % 32 & 1)
                for (size_t w = 0; w < width; w++)
                    to[w] |= from[w];
        }
    }
}

/* ---- faults: verdicts 10 and 11 */

static void add(uint32_t *answer, size_t first, size_t second)
{
    if (answer[TOTAL] < KEPT) {
        answer[PAIRS + 2 * answer[TOTAL]] = (uint32_t)first;
        answer[PAIRS + 2 * answer[TOTAL] + 1] = (uint32_t)second;
    }
    answer[TOTAL]++;
}

static void find_reuse(struct review *review)
{
    const uint32_t *commands = review->commands;
    for (size_t c2 = 0; c2 < review->rows; c2++) {
        uint32_t name = commands[3 * c2 + 1], generation = review->generations[c2];
        int is_first = review->is_first[c2];
        if (commands[3 * c2] < ARRIVE)
            continue;
        for (size_t c1 = 0; c1 < review->rows; c1++)
            if (commands[3 * c1] >= ARRIVE && commands[3 * c1 + 1] == name && review->generations[c1] + 1 == generation &&
                (is_first || !reaches(review, c1, c2 - 1)))
                add(review->answer, c1, c2);
    }
}

static void find_races(struct review *review)
{
    const uint32_t *commands = review->commands;
    for (size_t x = 0; x < review->rows; x++) {
        uint32_t kind = commands[3 * x], name = commands[3 * x + 1], thread = review->thread_of[x];
        if (kind > WRITE)
            continue;
        for (size_t y = x + 1; y < review->rows; y++)
            if (commands[3 * y] <= WRITE && commands[3 * y + 1] == name && (kind == WRITE || commands[3 * y] == WRITE) &&
                review->thread_of[y] != thread && !reaches(review, x, y) && !reaches(review, y, x))
                add(review->answer, x, y);
    }
}

static uint32_t find_faults(struct review *review)
{
    uint32_t number = 10;
    find_reuse(review);
    if (review->answer[TOTAL] == 0) {
        number = 11;
        find_races(review);
    }
    if (review->answer[TOTAL] == 0)
        return 0;
    review->answer[P] = review->answer[PAIRS];
    review->answer[Q] = review->answer[PAIRS + 1];
    return number;
}

/* ---- evidence for 10 and 11 */

/* Each thread goes on as far as it can, but not to a command that `held` reaches, until none can. Answers whether no step mismatched. */
static int run_on(struct review *review, struct state *state, size_t held, uint32_t *room, size_t *n)
{
    int moved = 1;
    while (moved) {
        moved = 0;
        for (uint32_t t = 0; t < review->threads; t++)
            while (is_allowed(review, state, t) && (held == NONE || !reaches(review, held, state->next[t]))) {
                moved = 1;
                room[(*n)++] = t;
                if (!step(review, state, t))
                    return 0;
            }
    }
    return 1;
}

/* A schedule in which `late` and all that it reaches is held back until nothing else can run, and `early` comes before it; answers its length. */
static size_t write_apart(struct review *review, size_t late, size_t early, uint32_t *room)
{
    struct state state;
    uint32_t t = review->thread_of[early];
    size_t n = 0;
    start(review, &state);
    if (!run_on(review, &state, late, room, &n))
        return n;
    if (is_allowed(review, &state, t) && state.next[t] == early) {
        room[n++] = t;
        if (!step(review, &state, t))
            return n;
    }
    run_on(review, &state, NONE, room, &n);
    return n;
}

/* Answers how many entries. The generations were copied before, so that the steps may write over them. */
static size_t write_evidence(struct review *review, uint32_t number, uint32_t *room)
{
    const uint32_t *pairs = review->answer + PAIRS;
    size_t kept = review->answer[TOTAL] < KEPT ? review->answer[TOTAL] : KEPT, n = 0;
    if (number == 10)
        return write_apart(review, pairs[0], pairs[1], room);
    for (size_t i = 0; number == 11 && i < kept; i++) {
        n += write_apart(review, pairs[2 * i + 1], pairs[2 * i], room + n);
        n += write_apart(review, pairs[2 * i], pairs[2 * i + 1], room + n);
    }
    return n;
}

static uint32_t judge(struct review *review, size_t numbers, const uint32_t *schedule, size_t steps, const size_t rooms[3])
{
    uint32_t number = check_tables(review, numbers);
    if (number == 0)
        number = check_rooms(review, rooms[0], rooms[1], rooms[2]);
    return number == 0 ? replay(review, schedule, steps) : number;
}

uint32_t plain_review(const uint32_t *commands, size_t commands_len, const uint32_t *lengths, size_t lengths_len,
                      const uint32_t *schedule, size_t schedule_len, uint32_t *relation, size_t relation_len,
                      uint32_t *generations, size_t generations_len, uint32_t *evidence, size_t evidence_len,
                      uint32_t *answer, size_t answer_len)
{
    struct review review;
    const size_t rooms[3] = {relation_len, generations_len, evidence_len};
    if (answer_len < ANSWER)
        return 14;
    memset(answer, 0, ANSWER * sizeof *answer);
    review.commands = commands;
    review.lengths = lengths;
    review.rows = commands_len / 3;
    review.threads = lengths_len;
    review.width = (review.rows + 31) / 32;
    review.relation = relation;
    review.answer = answer;
    uint32_t number = judge(&review, commands_len, schedule, schedule_len, rooms);
    if (number != 0)
        return number;
    memcpy(generations, review.generations, review.rows * sizeof *generations);
    draw_edges(&review);
    close_under_chains(relation, review.rows, review.width);
    number = find_faults(&review);
    answer[ENTRIES] = (uint32_t)write_evidence(&review, number, evidence);
    return number;
}
