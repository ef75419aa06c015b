/*
 * Seeded inputs. What is drawn here need not be even, only varied: compare.c counts what came of it. No two draws stand in one expression whose order C
 * leaves open, so that every compiler makes the same inputs.
 */
#include <stdio.h>
#include <string.h>

#include "inputs.h"

/* ---- numbers */

uint64_t draw(struct random *random)
{
    uint64_t z = random->state += 0x9e3779b97f4a7c15u;
    z = (z ^ (z >> 30)) * 0xbf58476d1ce4e5b9u;
    z = (z ^ (z >> 27)) * 0x94d049bb133111ebu;
    return z ^ (z >> 31);
}

void seed(struct random *random, uint64_t seed, uint64_t number)
{
    random->state = seed;
    random->state = draw(random) ^ (number * 0xd1342543de82ef95u);
    random->state = draw(random);
}

uint32_t below(struct random *random, uint32_t n)
{
    return (uint32_t)((draw(random) >> 32) * n >> 32);
}

int chance(struct random *random, uint32_t percent)
{
    return below(random, 100) < percent;
}

/* A number at the edge of some rule. */
uint32_t odd_number(struct random *random)
{
    static const uint32_t odd[] = {0, 1, 2, 3, 4, 5, 14, 15, 16, 17, 31, 32, 33, 63, 64, 65, 511, 512, 513, 1023, 1024, 1025, 4095, 4096, 65535, 65536,
                                   0x7fffffff, 0x80000000u, 0x80000001u, 0xfffffffeu, 0xffffffffu};
    return chance(random, 10) ? (uint32_t)draw(random) : odd[below(random, sizeof odd / sizeof *odd)];
}

/* ---- programs: drafted thread by thread, then laid out row after row */

enum { DRAFT_THREADS = 80, DRAFT_ROWS = 700 };

static struct draft {
    uint32_t threads, rows, most;
    uint32_t lengths[DRAFT_THREADS];
    uint32_t row[DRAFT_THREADS][DRAFT_ROWS][3];
} draft;

struct style {
    uint32_t barriers, addresses, counts;
    uint32_t syncs, everyone, accesses; /* percent */
};

static void begin(uint32_t threads, uint32_t most)
{
    draft.threads = threads;
    draft.rows = 0;
    draft.most = most;
    memset(draft.lengths, 0, sizeof draft.lengths);
}

static void put(uint32_t thread, uint32_t kind, uint32_t name, uint32_t count)
{
    if (draft.rows == draft.most)
        return;
    uint32_t *row = draft.row[thread][draft.lengths[thread]++];
    row[0] = kind;
    row[1] = name;
    row[2] = count;
    draft.rows++;
}

static uint32_t largest_count(const struct program *program)
{
    uint32_t largest = 0;
    for (size_t i = 0; i < program->numbers; i += 3)
        if (program->commands[i + 2] > largest)
            largest = program->commands[i + 2];
    return largest;
}

/* Before the other threads, between two of them, or after them. */
static void add_empty_thread(struct random *random, struct program *program)
{
    size_t at = below(random, (uint32_t)program->threads + 1);
    memmove(program->lengths + at + 1, program->lengths + at, (program->threads - at) * sizeof *program->lengths);
    program->lengths[at] = 0;
    program->threads++;
}

/* A count above the threads is refused: where one was drafted, empty threads let the program pass and keep what it was drafted for. */
static void lay_out(struct random *random, struct program *program)
{
    program->threads = draft.threads;
    program->numbers = 0;
    for (uint32_t t = 0; t < draft.threads; t++) {
        program->lengths[t] = draft.lengths[t];
        memcpy(program->commands + program->numbers, draft.row[t], draft.lengths[t] * sizeof draft.row[t][0]);
        program->numbers += 3 * (size_t)draft.lengths[t];
    }
    uint32_t largest = largest_count(program);
    while (program->threads < largest && program->threads < THREADS)
        add_empty_thread(random, program);
}

static void put_access(struct random *random, const struct style *style, uint32_t thread)
{
    uint32_t kind = chance(random, 50) ? READ : WRITE;
    put(thread, kind, below(random, style->addresses), 0);
}

/* Any command anywhere. */
static void scatter(struct random *random, const struct style *style, uint32_t commands)
{
    for (uint32_t i = 0; i < commands; i++) {
        uint32_t thread = below(random, draft.threads);
        if (chance(random, style->accesses)) {
            put_access(random, style, thread);
            continue;
        }
        uint32_t kind = chance(random, style->syncs) ? SYNC : ARRIVE, barrier = below(random, style->barriers);
        put(thread, kind, barrier, 1 + below(random, style->counts));
    }
}

/* One generation: some threads or all come to a barrier that expects so many. Where the draft has no room for all, fewer come. */
static void round_of(struct random *random, const struct style *style)
{
    uint32_t barrier = below(random, style->barriers), count = 0, come[DRAFT_THREADS];
    int everyone = chance(random, style->everyone);
    uint32_t room = draft.most - draft.rows;
    for (uint32_t t = 0; t < draft.threads && count < room; t++)
        if (everyone || chance(random, 50))
            come[count++] = t;
    for (uint32_t i = 0; i < count; i++) {
        if (chance(random, style->accesses) && draft.most - draft.rows > count - i)
            put_access(random, style, come[i]);
        put(come[i], chance(random, style->syncs) ? SYNC : ARRIVE, barrier, count);
    }
}

static void rounds(struct random *random, const struct style *style, uint32_t n)
{
    for (uint32_t i = 0; i < n; i++)
        round_of(random, style);
    for (uint32_t t = 0; t < draft.threads; t++)
        if (chance(random, style->accesses / 2))
            put_access(random, style, t);
}

/* What one thread accesses it hands over to another through a barrier, which is a new one each time or often the same: conflicts in one order. */
static void hand_over(struct random *random, uint32_t commands)
{
    uint32_t holder = below(random, draft.threads), barriers = chance(random, 70) ? BARRIERS : 2;
    for (uint32_t i = 0; 3 * i < commands; i++) {
        uint32_t other = below(random, draft.threads), barrier = i % barriers;
        uint32_t kind = chance(random, 60) ? WRITE : READ;
        put(holder, kind, below(random, 2), 0);
        if (other == holder || draft.most - draft.rows < 3)
            continue;
        put(holder, chance(random, 50) ? ARRIVE : SYNC, barrier, 2);
        put(other, SYNC, barrier, 2);
        holder = other;
    }
    put(holder, READ, below(random, 2), 0);
}

/* One row is removed or changed, so that a program that was clean is often not. */
static void spoil(struct random *random)
{
    uint32_t t = below(random, draft.threads);
    if (draft.lengths[t] == 0)
        return;
    uint32_t i = below(random, draft.lengths[t]), *row = draft.row[t][i];
    switch (below(random, 4)) {
    case 0:
        memmove(row, row + 3, (draft.lengths[t] - i - 1) * sizeof draft.row[t][0]);
        draft.lengths[t]--;
        draft.rows--;
        break;
    case 1:
        row[0] ^= 1;
        break;
    case 2:
        row[1] = below(random, 3);
        break;
    default:
        row[2] = row[0] < ARRIVE ? 0 : row[2] < THREADS && (row[2] == 1 || chance(random, 50)) ? row[2] + 1 : row[2] - 1;
    }
}

/* One barrier and one count: whoever comes first meets whoever comes next. */
static void meet_in_twos(struct random *random, struct style *style, uint32_t commands)
{
    style->barriers = 1;
    style->accesses = 10;
    scatter(random, style, commands);
    for (uint32_t t = 0; t < draft.threads; t++)
        for (uint32_t i = 0; i < draft.lengths[t]; i++)
            draft.row[t][i][2] = draft.row[t][i][0] < ARRIVE ? 0 : 2;
}

static void draft_program(struct random *random, uint32_t commands)
{
    uint32_t barriers = 1 + below(random, 3), addresses = 1 + below(random, 3), counts = 1 + below(random, 3);
    struct style style = {barriers, addresses, counts, 50, 30, 30};
    switch (below(random, 6)) {
    case 0:
        if (chance(random, 30)) { /* more races than a sheet keeps */
            style.accesses = 97;
            style.addresses = 1;
        }
        scatter(random, &style, commands);
        return;
    case 1:
        meet_in_twos(random, &style, commands);
        return;
    case 2: /* all meet: clean, or a race */
        style.syncs = style.everyone = 100;
        style.addresses = 1 + below(random, 4 * draft.threads);
        break;
    case 3:
        style.syncs = 80;
        style.everyone = 60;
        style.barriers = 1 + below(random, BARRIERS);
        break;
    case 4:
        style.addresses = 1 + below(random, LAST_ADDRESS + 1);
        break;
    default:
        break;
    }
    if (chance(random, 15))
        hand_over(random, commands);
    else
        rounds(random, &style, 1 + commands / (1 + draft.threads / 2));
    if (chance(random, 25))
        spoil(random);
}

/* Groups of the same size come to one barrier, and most of their threads do not wait: nothing tells one group from the next. */
static void groups(struct random *random, uint32_t commands)
{
    uint32_t count = 1 + below(random, draft.threads < 4 ? draft.threads : 4), syncs = 10 + below(random, 60);
    for (uint32_t done = 0; done + count <= commands && draft.most - draft.rows >= count; done += count) {
        uint32_t first = below(random, draft.threads);
        for (uint32_t i = 0; i < count; i++)
            put((first + i) % draft.threads, chance(random, syncs) ? SYNC : ARRIVE, 0, count);
        if (chance(random, 20) && draft.rows < draft.most)
            put(first, READ, 0, 0);
    }
}

/* Two threads take turns, each saying by a barrier of its own that it is the other's; then one sync is made an arrive, so that one turn may come too soon. */
static void turns(struct random *random, uint32_t commands)
{
    uint32_t addresses = 1 + below(random, 3), spoiled = below(random, 2);
    for (uint32_t i = 0; 6 * i < commands && draft.most - draft.rows >= 6; i++)
        for (uint32_t t = 0; t < 2; t++) {
            uint32_t one = t % draft.threads, other = (t + 1) % draft.threads;
            put(one, chance(random, 70) ? WRITE : READ, below(random, addresses), 0);
            put(one, ARRIVE, t, 2);
            put(other, SYNC, t, 2);
        }
    for (uint32_t i = below(random, 6); spoiled && i < draft.lengths[0]; i++)
        if (draft.row[0][i][0] == SYNC) {
            draft.row[0][i][0] = ARRIVE;
            return;
        }
}

/* So many of the drafted threads that a round of so many commands each goes into the commands at least once, and two at least. */
static uint32_t taking_part(struct random *random, uint32_t commands, uint32_t each)
{
    uint32_t fit = commands / (each * (1 + below(random, 2)));
    return fit < 2 ? 2 : fit < draft.threads ? fit : draft.threads;
}

/* Each thread writes a tile, all meet, each reads another's, and they meet again, at one barrier or at two in turn. */
static void tiles(struct random *random, uint32_t commands)
{
    uint32_t threads = taking_part(random, commands, 4), barriers = 1 + below(random, 2), shift = 1 + below(random, threads - 1), met = 0;
    while (draft.rows + 4 * threads <= commands)
        for (uint32_t half = 0; half < 2; half++, met++)
            for (uint32_t t = 0; t < threads; t++) {
                put(t, half == 0 ? WRITE : READ, half == 0 ? t : (t + shift) % threads, 0);
                put(t, SYNC, met % barriers, threads);
            }
}

/* The right to a few variables goes round: each thread says by a barrier of its own that it is the next one's turn. Round after round the barriers are the same. */
static void ring(struct random *random, uint32_t commands)
{
    uint32_t part = taking_part(random, commands, 3), threads = part < BARRIERS ? part : BARRIERS, addresses = 1 + below(random, 3), turn = 0;
    for (; draft.rows + 3 <= commands; turn = (turn + 1) % threads) {
        put(turn, chance(random, 70) ? WRITE : READ, below(random, addresses), 0);
        put(turn, ARRIVE, turn, 2);
        put((turn + 1) % threads, SYNC, turn, 2);
    }
}

/* The same program with other names, so that the last barrier and the last address come up as the first ones do. */
static void rename_all(struct random *random)
{
    uint32_t barriers = chance(random, 60) ? 0 : below(random, BARRIERS), addresses = chance(random, 60) ? 0 : below(random, LAST_ADDRESS + 1);
    for (uint32_t t = 0; t < draft.threads; t++)
        for (uint32_t i = 0; i < draft.lengths[t]; i++) {
            uint32_t *row = draft.row[t][i];
            row[1] = row[0] < ARRIVE ? (row[1] + addresses) % (LAST_ADDRESS + 1) : (row[1] + barriers) % BARRIERS;
        }
}

void small_program(struct random *random, uint32_t most, struct program *program)
{
    begin(1 + below(random, 6), most);
    draft_program(random, below(random, most + 1));
    rename_all(random);
    lay_out(random, program);
}

void faulty_program(struct random *random, uint32_t threads, uint32_t most, struct program *program)
{
    uint32_t commands = 1 + below(random, most), addresses = 1 + below(random, 3);
    struct style style = {2, addresses, 1, 100, 100, 70};
    begin(1 + below(random, threads), most);
    switch (below(random, 4)) {
    case 0: /* all meet, and before that they touch a few addresses */
        rounds(random, &style, below(random, 1 + commands / draft.threads));
        break;
    case 1:
        turns(random, commands);
        break;
    default:
        groups(random, commands);
    }
    while (chance(random, 70) && draft.rows < draft.most)
        put_access(random, &style, below(random, draft.threads));
    rename_all(random);
    lay_out(random, program);
}

void ordered_program(struct random *random, uint32_t threads, uint32_t most, struct program *program)
{
    uint32_t commands = most / 2 + below(random, most / 2 + 1);
    struct style style = {1, 2, 1, 0, 0, 0};
    begin(chance(random, 25) ? threads : 2 + below(random, threads - 1), most);
    if (chance(random, 50))
        tiles(random, commands);
    else
        ring(random, commands);
    uint32_t what = below(random, 100);
    if (what < 15)
        spoil(random);
    for (uint32_t i = what < 60 ? 0 : 1 + below(random, 3); i > 0; i--)
        put_access(random, &style, below(random, draft.threads));
    rename_all(random);
    lay_out(random, program);
}

void big_program(struct random *random, struct program *program)
{
    uint32_t most = chance(random, 50) ? ROWS : 100 + below(random, ROWS - 100);
    begin(chance(random, 50) ? THREADS : 1 + below(random, THREADS), most);
    draft_program(random, most);
    for (uint32_t t = 0; chance(random, 99) && draft.rows < draft.most; t = (t + 1) % draft.threads)
        put(t, READ, below(random, LAST_ADDRESS + 1), 0);
    lay_out(random, program);
}

void over_program(struct random *random, struct program *program)
{
    int more_threads = chance(random, 50);
    uint32_t rows = more_threads ? below(random, ROWS + 1) : ROWS + below(random, DRAFT_ROWS - ROWS);
    begin(more_threads ? THREADS + below(random, DRAFT_THREADS - THREADS + 1) : 1 + below(random, THREADS), DRAFT_ROWS);
    draft_program(random, below(random, 100));
    while (draft.rows < rows)
        put(below(random, draft.threads), WRITE, draft.rows % 10, 0);
    lay_out(random, program);
}

/* ---- damaged tables */

static uint32_t *any_length(struct random *random, struct program *program)
{
    return &program->lengths[program->threads == 0 ? 0 : below(random, (uint32_t)program->threads)];
}

/* One row gets numbers at the limits, such as 4,096 for an address, or the number of threads or 1,025 for a count. */
static void damage_row(struct random *random, struct program *program)
{
    uint32_t threads = (uint32_t)program->threads;
    const uint32_t names[2][4] = {{0, 4095, 4096, 4097}, {0, 15, 16, 17}}, counts[2][6] = {{0, 0, 0, 0, 1, 1}, {0, 1, threads, threads + 1, 1024, 1025}};
    if (program->numbers < 3)
        return;
    uint32_t *row = program->commands + 3 * (size_t)below(random, (uint32_t)program->numbers / 3);
    if (chance(random, 40)) {
        row += below(random, 3);
        *row = odd_number(random);
        return;
    }
    row[0] = below(random, 4);
    row[1] = chance(random, 50) ? 1 : names[row[0] / 2][below(random, 4)];
    row[2] = chance(random, 50) ? row[0] / 2 : counts[row[0] / 2][below(random, 6)];
}

/* The lengths add up to M only if the sum wraps at 32 bits. */
static void wrap_lengths(struct random *random, struct program *program)
{
    uint32_t less = chance(random, 50) ? 0x80000000u : (uint32_t)draw(random);
    if (program->threads < 2)
        program->lengths[program->threads++] = 0;
    uint32_t t = 1 + below(random, (uint32_t)program->threads - 1);
    program->lengths[0] += less;
    program->lengths[t] -= less;
}

static void more_threads(struct random *random, struct program *program)
{
    size_t threads = chance(random, 60) ? THREADS + below(random, 3) : below(random, MOST_LENGTHS + 1);
    for (size_t t = program->threads; t < threads; t++)
        program->lengths[t] = chance(random, 98) ? 0 : odd_number(random);
    program->threads = threads;
}

/* So many numbers that M is about 512; the last thread gets the new rows. */
static void more_rows(struct random *random, struct program *program)
{
    size_t rows = ROWS - 1 + below(random, 4);
    if (program->threads == 0 || program->numbers / 3 > rows)
        return;
    program->lengths[program->threads - 1] += (uint32_t)(rows - program->numbers / 3);
    for (size_t i = program->numbers; i < 3 * rows; i++)
        program->commands[i] = 0;
    program->numbers = 3 * rows;
}

void damage_program(struct random *random, struct program *program)
{
    uint32_t *length = any_length(random, program);
    switch (below(random, 12)) {
    case 0:
        program->commands[program->numbers] = odd_number(random);
        program->commands[program->numbers + 1] = odd_number(random);
        program->numbers += 1 + below(random, 2);
        break;
    case 1:
        program->numbers -= program->numbers == 0 ? 0 : 1 + below(random, program->numbers < 3 ? 1 : 3);
        break;
    case 2:
        more_rows(random, program);
        break;
    case 3:
        more_threads(random, program);
        break;
    case 4:
        wrap_lengths(random, program);
        break;
    case 5:
        *length += chance(random, 50) ? 1u : 0xffffffffu;
        break;
    case 6:
        *length = odd_number(random);
        break;
    default:
        damage_row(random, program);
        break;
    }
}

/* ---- counts about the number of threads */

/* A row of an arrive or a sync, the first from some place on; if there is none, the row there becomes one. */
static uint32_t *barrier_row(struct random *random, struct program *program)
{
    size_t rows = program->numbers / 3, from = below(random, (uint32_t)rows);
    uint32_t *row = program->commands + 3 * from;
    for (size_t i = 0; i < rows && row[0] < ARRIVE; i++)
        row = program->commands + 3 * ((from + i) % rows);
    if (row[0] < ARRIVE) {
        row[0] = chance(random, 50) ? ARRIVE : SYNC;
        row[1] %= BARRIERS;
    }
    return row;
}

/* The threads, which pass; one more; the rows, which are not the threads; or any of the counts above the threads that document 01 let pass. */
static uint32_t count_about(struct random *random, const struct program *program)
{
    uint32_t threads = (uint32_t)program->threads, rows = (uint32_t)(program->numbers / 3);
    switch (below(random, 7)) {
    case 0:
    case 1:
        return threads;
    case 2:
    case 3:
        return threads + 1;
    case 4:
        return rows;
    case 5:
        return threads < THREADS ? threads + 1 + below(random, THREADS - threads) : LAST_COUNT;
    default:
        return threads + 1 + below(random, LAST_COUNT - threads);
    }
}

/* Two neighbours become one thread, so that a count that all could meet is one too many. */
static void join_threads(struct random *random, struct program *program)
{
    if (program->threads < 2)
        return;
    size_t t = below(random, (uint32_t)program->threads - 1);
    program->lengths[t] += program->lengths[t + 1];
    program->threads--;
    memmove(program->lengths + t + 1, program->lengths + t + 2, (program->threads - t - 1) * sizeof *program->lengths);
}

/* Every arrive and sync gets the same count. */
static void set_counts(struct program *program, uint32_t count)
{
    for (size_t i = 0; i < program->numbers; i += 3)
        if (program->commands[i] >= ARRIVE)
            program->commands[i + 2] = count;
}

/* Breaks a rule of document 01, in numbers that a text spells too. A count of 1,025 is above the threads as well. */
static void break_old_rule(struct random *random, uint32_t *row)
{
    if (row[0] < ARRIVE)
        row[1] = LAST_ADDRESS + 1 + below(random, 2);
    else if (chance(random, 50))
        row[1] = BARRIERS + below(random, 2);
    else
        row[2] = chance(random, 50) ? 0 : LAST_COUNT + 1;
}

/* One row's count is above the threads, and another row, before it or after it, breaks an older rule. */
static void break_two_rows(struct random *random, struct program *program)
{
    uint32_t rows = (uint32_t)(program->numbers / 3), *above = barrier_row(random, program);
    above[2] = (uint32_t)program->threads + 1 + below(random, 3);
    uint32_t at = (uint32_t)(above - program->commands) / 3;
    if (rows > 1)
        break_old_rule(random, program->commands + 3 * ((at + 1 + below(random, rows - 1)) % rows));
}

void strain_counts(struct random *random, struct program *program)
{
    if (program->numbers == 0)
        return;
    int to_the_last = chance(random, 20);
    while (to_the_last && program->threads < THREADS)
        add_empty_thread(random, program);
    uint32_t count = count_about(random, program);
    switch (below(random, 8)) {
    case 0:
    case 1:
        join_threads(random, program);
        break;
    case 2:
        set_counts(program, count);
        break;
    case 3:
    case 4:
        break_two_rows(random, program);
        break;
    default:
        barrier_row(random, program)[2] = count;
    }
}

/* ---- schedules */

size_t legal_schedule(struct random *random, const struct tables *tables, uint32_t *steps)
{
    uint32_t generations[ROWS];
    struct state state;
    size_t n = 0;
    enum did did = STEPPED;
    start(&state);
    while (did == STEPPED && !is_over(tables, &state)) {
        uint32_t thread = below(random, (uint32_t)tables->threads);
        if (!is_allowed(tables, &state, thread))
            continue;
        steps[n++] = thread;
        did = step(tables, &state, thread, generations);
    }
    return n;
}

size_t eager_schedule(struct random *random, const struct tables *tables, uint32_t *steps)
{
    uint32_t generations[ROWS], order[THREADS] = {0};
    struct state state;
    size_t n = 0;
    enum did did = STEPPED;
    for (uint32_t t = 0; t < tables->threads; t++) { /* t goes to any place among those before it */
        uint32_t at = below(random, t + 1);
        order[t] = order[at];
        order[at] = t;
    }
    start(&state);
    while (did == STEPPED && !is_over(tables, &state)) {
        size_t first = 0;
        while (!is_allowed(tables, &state, order[first]))
            first++;
        steps[n++] = order[first];
        did = step(tables, &state, order[first], generations);
    }
    return n;
}

static size_t any_numbers(struct random *random, const struct tables *tables, uint32_t *steps)
{
    size_t n = below(random, chance(random, 95) ? (uint32_t)rows_of(tables) + 4 : MOST_STEPS);
    if (n > MOST_STEPS)
        n = MOST_STEPS;
    for (size_t i = 0; i < n; i++)
        steps[i] = chance(random, 98) && tables->threads > 0 ? below(random, (uint32_t)tables->threads) : odd_number(random);
    return n;
}

static size_t damage_schedule(struct random *random, uint32_t *steps, size_t n)
{
    size_t at = n == 0 ? 0 : below(random, (uint32_t)n);
    switch (below(random, 5)) {
    case 0: /* cut short */
        return chance(random, 50) || n == 0 ? at : n - 1;
    case 1: /* after the end */
        steps[n] = chance(random, 70) ? below(random, 6) : odd_number(random);
        steps[n + 1] = odd_number(random);
        return n + 1 + below(random, 2);
    case 2: /* one step fewer, within */
        if (n == 0)
            return 0;
        memmove(steps + at, steps + at + 1, (n - at - 1) * sizeof *steps);
        return n - 1;
    case 3: /* one step more, within */
        memmove(steps + at + 1, steps + at, (n - at) * sizeof *steps);
        steps[at] = below(random, 6);
        return n + 1;
    default:
        steps[at] = chance(random, 60) ? below(random, 6) : odd_number(random);
        return n;
    }
}

size_t make_schedule(struct random *random, const struct tables *tables, uint32_t *steps)
{
    static struct schedule written;
    if (check_tables(tables).number != 0 || chance(random, 10))
        return any_numbers(random, tables, steps);
    size_t n;
    if (chance(random, 40)) {
        write_schedule(tables, ROWS, &written);
        memcpy(steps, written.steps, written.length * sizeof *steps);
        n = written.length;
    } else {
        n = legal_schedule(random, tables, steps);
    }
    return chance(random, 25) ? damage_schedule(random, steps, n) : n;
}

/* ---- texts: tokens first, then blanks between them */

enum { MOST_TOKENS = 6 * DRAFT_ROWS, TOKEN = 32 };

static struct {
    size_t n;
    char token[MOST_TOKENS][TOKEN];
} spelled;

static void spell_word(const char *word)
{
    strcpy(spelled.token[spelled.n++], word);
}

static void spell_number(uint32_t number)
{
    sprintf(spelled.token[spelled.n++], "%lu", (unsigned long)number);
}

static void spell(const struct program *program)
{
    static const char *const words[] = {"read", "write", "arrive", "sync"};
    const uint32_t *row = program->commands;
    spelled.n = 0;
    for (size_t t = 0; t < program->threads; t++) {
        if (t > 0)
            spell_word("||");
        for (uint32_t i = 0; i < program->lengths[t]; i++, row += 3) {
            spell_word(words[row[0]]);
            spell_number(row[1]);
            if (row[0] >= ARRIVE)
                spell_number(row[2]);
            spell_word(";");
        }
        spell_word("return");
    }
}

static void remove_tokens(size_t at, size_t n)
{
    memmove(spelled.token[at], spelled.token[at + n], (spelled.n - at - n) * TOKEN);
    spelled.n -= n;
}

/* A `return ||` goes, the first from some place on, and with it a thread: what is left is well written. */
static void remove_thread(struct random *random)
{
    size_t at = below(random, (uint32_t)spelled.n);
    while (at + 1 < spelled.n && (strcmp(spelled.token[at], "return") != 0 || strcmp(spelled.token[at + 1], "||") != 0))
        at++;
    if (at + 1 < spelled.n)
        remove_tokens(at, 2);
}

/* A token is changed to another, or to none; two are exchanged; one is removed or doubled; a thread goes. */
static void damage_tokens(struct random *random)
{
    static const char *const others[] = {"read", "write", "arrive", "sync", "return", ";", "||", "|", "|||", "0", "7", "00", "01", "65535", "65536", "4096", "1025",
                                         "4294967297", "18446744073709551617", "99999999999999999999999999", ",", "reads", "retur", "Read", "-1", "\t", "1a", "a1", ""};
    size_t at = below(random, (uint32_t)spelled.n), other = below(random, (uint32_t)spelled.n);
    char kept[TOKEN];
    switch (below(random, 5)) {
    case 0:
        strcpy(kept, spelled.token[at]);
        memmove(spelled.token[at], spelled.token[other], TOKEN);
        strcpy(spelled.token[other], kept);
        break;
    case 1:
        remove_tokens(at, 1);
        break;
    case 2:
        memmove(spelled.token[at + 1], spelled.token[at], (spelled.n - at) * TOKEN);
        spelled.n++;
        break;
    case 3:
        remove_thread(random);
        break;
    default:
        strcpy(spelled.token[at], others[below(random, sizeof others / sizeof *others)]);
    }
}

static int is_in(char c, char lowest, char highest)
{
    return c >= lowest && c <= highest;
}

static int run_together(char last, char first)
{
    return (is_in(last, 'a', 'z') && is_in(first, 'a', 'z')) || (is_in(last, '0', '9') && is_in(first, '0', '9'));
}

static size_t put_blanks(struct random *random, uint8_t *text, size_t n, uint32_t most)
{
    for (uint32_t i = below(random, most + 1); i > 0 && n < MOST_TEXT; i--)
        text[n++] = chance(random, 70) ? ' ' : '\n';
    return n;
}

/* `most` blanks at a place; where tokens would run together one more, but for the percent that is careless. */
static size_t join(struct random *random, uint32_t most, uint32_t careless, uint8_t *text)
{
    size_t n = put_blanks(random, text, 0, most);
    for (size_t i = 0; i < spelled.n && n + TOKEN < MOST_TEXT; i++) {
        size_t length = strlen(spelled.token[i]);
        if (i > 0 && length > 0 && n > 0 && run_together((char)text[n - 1], spelled.token[i][0]) && !chance(random, careless))
            text[n++] = chance(random, 90) ? ' ' : '\n';
        memcpy(text + n, spelled.token[i], length);
        n = put_blanks(random, text, n + length, most);
    }
    return n;
}

/* A byte changed, removed or added, or the text cut there. */
static size_t damage_bytes(struct random *random, uint8_t *text, size_t n)
{
    static const char likely[] = " \n;|0123456789abceirstuvwy z`{/:!\t\v\x1f}az09"; /* letters, and the neighbours of each range */
    size_t at = n == 0 ? 0 : below(random, (uint32_t)n);
    uint8_t byte = chance(random, 80) ? (uint8_t)likely[below(random, sizeof likely - 1)] : (uint8_t)draw(random);
    switch (below(random, 4)) {
    case 0:
        text[at] = byte;
        return n;
    case 1:
        if (n == 0)
            return 0;
        memmove(text + at, text + at + 1, n - at - 1);
        return n - 1;
    case 2:
        if (n == MOST_TEXT)
            return n;
        memmove(text + at + 1, text + at, n - at);
        text[at] = byte;
        return n + 1;
    default:
        return at;
    }
}

/* Blanks at some place make the text about as long as a text may be, or longer. */
static size_t lengthen(struct random *random, uint8_t *text, size_t n)
{
    size_t length = chance(random, 70) ? TEXT - 1 + below(random, 4) : TEXT + below(random, MOST_TEXT - TEXT);
    if (n >= length)
        return n;
    size_t at = chance(random, 50) ? n : below(random, (uint32_t)n + 1);
    memmove(text + at + (length - n), text + at, n - at);
    memset(text + at, chance(random, 50) ? ' ' : '\n', length - n);
    return length;
}

/* As many commands as a text can hold. */
static size_t crowd(struct random *random, uint8_t *text)
{
    size_t n = 0, most = TEXT - 6 - below(random, 30);
    while (n + 6 <= most) {
        memcpy(text + n, chance(random, 1) ? "return" : "read0;", 6);
        n += 6;
        if (text[n - 1] == 'n') {
            memcpy(text + n, "||", 2);
            n += 2;
        }
    }
    memcpy(text + n, "return", 6);
    return n + 6;
}

size_t make_text(struct random *random, const struct program *program, uint8_t *text)
{
    static const uint32_t widths[] = {0, 1, 1, 2, 5};
    if (below(random, 400) == 0)
        return crowd(random, text);
    spell(program);
    for (uint32_t i = chance(random, 25) ? 1 + below(random, 3) : 0; i > 0 && spelled.n > 0; i--)
        damage_tokens(random);
    uint32_t width = widths[below(random, 5)], careless = chance(random, 5) ? 30 : 0;
    size_t n = join(random, width, careless, text);
    for (uint32_t i = chance(random, 30) ? 1 + below(random, 3) : 0; i > 0; i--)
        n = damage_bytes(random, text, n);
    return below(random, 50) == 0 ? lengthen(random, text, n) : n;
}

size_t spell_text(struct random *random, const struct program *program, uint32_t blanks, uint8_t *text)
{
    spell(program);
    return join(random, blanks, 0, text);
}
