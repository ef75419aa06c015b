/* Document 01 in plain C, in its order, with what document 02 changed. Each part stands under the sentence that it is written from. */
#include <stdio.h>
#include <string.h>

#include "reference.h"

/* ---- The tables */

/* "Commands: three numbers a row: kind, name, count. M is the number of rows." */
size_t rows_of(const struct tables *tables)
{
    return tables->numbers / 3;
}

/* "Relation room: at least M x ceil(M/32) words of 32 bits (M = 33 needs 66)." */
size_t relation_words(size_t rows)
{
    return rows * ((rows + 31) / 32);
}

/* 2026-04: "The room needs 32 x M numbers whatever the verdict." */
size_t evidence_numbers(size_t rows)
{
    return 32 * rows;
}

/* "Names: an address 0 to 4,095 for kinds 0 and 1, a barrier 0 to 15 for kinds 2 and 3. Counts: 0 for kinds 0 and 1; 1 to 1,024 for kinds 2 and 3." */
int keeps_rules(const uint32_t *row)
{
    switch (row[0]) {
    case READ:
    case WRITE:
        return row[1] <= LAST_ADDRESS && row[2] == 0;
    case ARRIVE:
    case SYNC:
        return row[1] < BARRIERS && row[2] >= 1 && row[2] <= LAST_COUNT;
    default:
        return 0;
    }
}

/* 2026-02: "A count above the number of threads in the table can't be meant." Threads are counted by their lengths: "a thread may have none", and is one. */
int is_above_threads(const struct tables *tables, const uint32_t *row)
{
    return row[2] > tables->threads;
}

/* "The lengths must add up to M as whole numbers, so a sum that wraps doesn't pass." At most 64 of 32 bits are added here: 64 bits hold the sum. */
static uint64_t sum_of_lengths(const struct tables *tables)
{
    uint64_t sum = 0;
    for (size_t t = 0; t < tables->threads; t++)
        sum += tables->lengths[t];
    return sum;
}

static struct verdict verdict(uint32_t number, size_t p, size_t q)
{
    struct verdict it = {number, p, q};
    return it;
}

/* Verdicts 1 to 3, "in the order tested". */
struct verdict check_tables(const struct tables *tables)
{
    /* "1: command numbers not a multiple of 3, or M > 512" */
    if (tables->numbers % 3 != 0 || rows_of(tables) > ROWS)
        return verdict(1, 0, 0);
    /* "2: 0 or over 64 threads, or lengths don't add up to M" */
    if (tables->threads == 0 || tables->threads > THREADS || sum_of_lengths(tables) != rows_of(tables))
        return verdict(2, 0, 0);
    /* "3: a row breaks the rules above: first such row, 0". 2026-02: "Refuse such a row as 3, in the same first-row order, after the existing row rules." */
    for (size_t c = 0; c < rows_of(tables); c++) {
        const uint32_t *row = tables->commands + 3 * c;
        if (!keeps_rules(row) || is_above_threads(tables, row))
            return verdict(3, c, 0);
    }
    return verdict(0, 0, 0);
}

/* ---- How a barrier behaves */

/* "All barriers start unset and all threads unblocked." */
void start(struct state *state)
{
    memset(state, 0, sizeof *state);
    for (int t = 0; t < THREADS; t++)
        state->blocked[t] = UNBLOCKED;
}

/* "Rows belong to threads in order." */
static size_t first_command(const struct tables *tables, uint32_t thread)
{
    size_t first = 0;
    for (uint32_t t = 0; t < thread; t++)
        first += tables->lengths[t];
    return first;
}

size_t next_command(const struct tables *tables, const struct state *state, uint32_t thread)
{
    return first_command(tables, thread) + state->ran[thread];
}

/* "A step is allowed if its thread exists, has a command left and isn't blocked." */
int is_allowed(const struct tables *tables, const struct state *state, uint32_t thread)
{
    return thread < tables->threads && state->ran[thread] < tables->lengths[thread] && state->blocked[thread] == UNBLOCKED;
}

int is_over(const struct tables *tables, const struct state *state)
{
    for (uint32_t t = 0; t < tables->threads; t++)
        if (is_allowed(tables, state, t))
            return 0;
    return 1;
}

/* "Every thread blocked there is released, the barrier is unset, and one more generation of it has completed." */
static void complete(struct state *state, int barrier)
{
    for (int t = 0; t < THREADS; t++)
        if (state->blocked[t] == barrier)
            state->blocked[t] = UNBLOCKED;
    state->barriers[barrier].expected = 0;
    state->barriers[barrier].registered = 0;
    state->barriers[barrier].completed++;
}

/* "One step runs the next command of one thread. A step that is not allowed, or that mismatches, keeps the state it met." */
enum did step(const struct tables *tables, struct state *state, uint32_t thread, uint32_t *generations)
{
    if (!is_allowed(tables, state, thread))
        return NOT_ALLOWED;
    size_t c = next_command(tables, state, thread);
    uint32_t kind = tables->commands[3 * c], name = tables->commands[3 * c + 1], count = tables->commands[3 * c + 2];
    /* "Read and write change no barrier. Reads and writes have [generation] 0." */
    if (kind == READ || kind == WRITE) {
        generations[c] = 0;
        state->ran[thread]++;
        return STEPPED;
    }
    /* "The first to register sets the expected count. A different count later is a mismatch." */
    struct barrier *barrier = &state->barriers[name];
    if (barrier->expected != 0 && barrier->expected != count)
        return MISMATCHED;
    barrier->expected = count;
    barrier->registered++;
    /* "A command's generation is one more than the completed generations of its barrier when it registers." */
    generations[c] = barrier->completed + 1;
    state->ran[thread]++;
    /* "Arrive registers and goes on. Sync registers and blocks its thread." */
    if (kind == SYNC)
        state->blocked[thread] = (int)name;
    /* "When registrations reach the count, in that same step" */
    if (barrier->registered == barrier->expected)
        complete(state, (int)name);
    return STEPPED;
}

/* The first of 0 to n - 1 with a thread blocked, or n. "A blocked thread with nothing left to run hasn't finished." */
static uint32_t lowest_blocked(const struct tables *tables, const struct state *state)
{
    uint32_t t = 0;
    while (t < tables->threads && state->blocked[t] == UNBLOCKED)
        t++;
    return t;
}

static uint32_t lowest_set(const struct state *state)
{
    uint32_t b = 0;
    while (b < BARRIERS && state->barriers[b].expected == 0)
        b++;
    return b;
}

/* "It ends clean if there was no mismatch, no thread is blocked and every barrier is unset." Asked where no step is allowed and none mismatched. */
int ends_clean(const struct tables *tables, const struct state *state)
{
    return lowest_blocked(tables, state) == tables->threads && lowest_set(state) == BARRIERS;
}

/* ---- Happens-before, reuse, race */

static uint32_t thread_of(const struct tables *tables, size_t c)
{
    uint32_t t = 0;
    while (c >= first_command(tables, t) + tables->lengths[t])
        t++;
    return t;
}

static int is_barrier_command(const struct tables *tables, size_t c)
{
    return tables->commands[3 * c] == ARRIVE || tables->commands[3 * c] == SYNC;
}

static int same_name(const struct tables *tables, size_t x, size_t y)
{
    return tables->commands[3 * x + 1] == tables->commands[3 * y + 1];
}

/*
 * "Each command reaches itself and its thread's next command, each arrive reaches every sync of the same barrier and generation, each sync reaches every
 * sync of the same barrier and generation".
 */
static int is_edge(const struct tables *tables, const uint32_t *thread, const uint32_t *generations, size_t i, size_t j)
{
    if (i == j || (j == i + 1 && thread[i] == thread[j]))
        return 1;
    return is_barrier_command(tables, i) && tables->commands[3 * j] == SYNC && same_name(tables, i, j) && generations[i] == generations[j];
}

/* "And chains count." From each row a walk along the edges, over what was not yet met. */
void close_under_chains(size_t rows, uint8_t relation[ROWS][ROWS])
{
    static uint16_t to[ROWS][ROWS];
    static size_t degree[ROWS];
    for (size_t i = 0; i < rows; i++) {
        degree[i] = 0;
        for (size_t j = 0; j < rows; j++)
            if (relation[i][j])
                to[i][degree[i]++] = (uint16_t)j;
    }
    for (size_t i = 0; i < rows; i++) {
        size_t waiting[ROWS + 1], n = 0;
        memset(relation[i], 0, rows);
        waiting[n++] = i;
        while (n > 0) {
            size_t from = waiting[--n];
            for (size_t k = 0; k < degree[from]; k++) {
                size_t j = to[from][k];
                if (!relation[i][j]) {
                    relation[i][j] = 1;
                    waiting[n++] = j;
                }
            }
        }
    }
}

/* "'Reaches' is the least relation in which" these are edges "and chains count". */
static void fill_reaches(const struct tables *tables, const uint32_t *thread, struct review *out)
{
    for (size_t i = 0; i < rows_of(tables); i++)
        for (size_t j = 0; j < rows_of(tables); j++)
            out->reaches[i][j] = (uint8_t)is_edge(tables, thread, out->generations, i, j);
    close_under_chains(rows_of(tables), out->reaches);
}

/* "Sixteen pairs, then only the total grows." */
static void add(struct sheet *sheet, size_t first, size_t second)
{
    if (sheet->total < KEPT) {
        sheet->pairs[sheet->total][0] = (uint32_t)first;
        sheet->pairs[sheet->total][1] = (uint32_t)second;
    }
    sheet->total++;
}

/*
 * "Reuse fault (c1, c2): same barrier, c2 one generation after c1, and either c2 is first in its thread or c1 does not reach the command just before c2.
 * Order: by c2, then c1."
 */
static void find_reuse(const struct tables *tables, const uint32_t *thread, struct review *out)
{
    for (size_t c2 = 0; c2 < rows_of(tables); c2++)
        for (size_t c1 = 0; c1 < rows_of(tables); c1++) {
            if (!is_barrier_command(tables, c1) || !is_barrier_command(tables, c2) || !same_name(tables, c1, c2))
                continue;
            if (out->generations[c2] != out->generations[c1] + 1)
                continue;
            int is_first = c2 == 0 || thread[c2 - 1] != thread[c2];
            if (is_first || !out->reaches[c1][c2 - 1])
                add(&out->sheet, c1, c2);
        }
}

/* "Two accesses conflict when they have the same address and at least one is a write." */
int conflict(const struct tables *tables, size_t x, size_t y)
{
    if (is_barrier_command(tables, x) || is_barrier_command(tables, y) || !same_name(tables, x, y))
        return 0;
    return tables->commands[3 * x] == WRITE || tables->commands[3 * y] == WRITE;
}

/* "Race (x, y), x < y: conflicting accesses of different threads, neither reaching the other. Order: by x, then y." */
static void find_races(const struct tables *tables, const uint32_t *thread, struct review *out)
{
    for (size_t x = 0; x < rows_of(tables); x++)
        for (size_t y = x + 1; y < rows_of(tables); y++)
            if (conflict(tables, x, y) && thread[x] != thread[y] && !out->reaches[x][y] && !out->reaches[y][x])
                add(&out->sheet, x, y);
}

/* ---- Verdict numbers, in the order tested */

/* Verdicts 5 to 9, or 0. "5 and 7 are judged step by step, whichever comes first." */
struct verdict replay(const struct tables *tables, const uint32_t *schedule, size_t steps, uint32_t *generations)
{
    struct state state;
    start(&state);
    for (size_t s = 0; s < steps; s++) {
        enum did did = step(tables, &state, schedule[s], generations);
        /* "5: a step that is not allowed ends the replay at once: step, 0" */
        if (did == NOT_ALLOWED)
            return verdict(5, s, 0);
        /* "7: an allowed step mismatches; later entries aren't read: command, 0" */
        if (did == MISMATCHED)
            return verdict(7, next_command(tables, &state, schedule[s]), 0);
    }
    /* "6: the schedule stops while a step is allowed: steps given, 0" */
    if (!is_over(tables, &state))
        return verdict(6, steps, 0);
    /* "8: no step allowed, some thread blocked: last command run by the lowest blocked thread, 0" */
    uint32_t blocked = lowest_blocked(tables, &state);
    if (blocked < tables->threads)
        return verdict(8, next_command(tables, &state, blocked) - 1, 0);
    /* "9: all finished, a barrier still set: lowest such barrier, 0" */
    if (lowest_set(&state) < BARRIERS)
        return verdict(9, lowest_set(&state), 0);
    return verdict(0, 0, 0);
}

/* "10: reuse fault: first pair; 11: race: first pair. [Races are] looked for only when there is no reuse fault." */
static struct verdict find_faults(const struct tables *tables, struct review *out)
{
    uint32_t thread[ROWS];
    for (size_t c = 0; c < rows_of(tables); c++)
        thread[c] = thread_of(tables, c);
    fill_reaches(tables, thread, out);
    find_reuse(tables, thread, out);
    if (out->sheet.total > 0)
        return verdict(10, out->sheet.pairs[0][0], out->sheet.pairs[0][1]);
    find_races(tables, thread, out);
    if (out->sheet.total > 0)
        return verdict(11, out->sheet.pairs[0][0], out->sheet.pairs[0][1]);
    return verdict(0, 0, 0);
}

/*
 * "4: relation room short (0), generation room short (1); the lowest digit if several: that digit, 0". 2026-04: "Less is 4 (digit 4), tested with the other
 * rooms."
 */
static struct verdict check_rooms(const struct tables *tables, struct rooms lent)
{
    size_t rows = rows_of(tables);
    if (lent.relation < relation_words(rows))
        return verdict(4, 0, 0);
    if (lent.generations < rows)
        return verdict(4, 1, 0);
    if (lent.evidence < evidence_numbers(rows))
        return verdict(4, 4, 0);
    return verdict(0, 0, 0);
}

/* "Unused places are 0; outside 10 and 11 the sheet is empty with total 0." */
void review(const struct tables *tables, const uint32_t *schedule, size_t steps, struct rooms lent, struct review *out)
{
    memset(&out->sheet, 0, sizeof out->sheet);
    out->verdict = check_tables(tables);
    if (out->verdict.number == 0)
        out->verdict = check_rooms(tables, lent);
    if (out->verdict.number == 0)
        out->verdict = replay(tables, schedule, steps, out->generations);
    if (out->verdict.number == 0)
        out->verdict = find_faults(tables, out);
}

/* "The schedule writer always lets the lowest allowed thread step. It answers only 1 to 4 or a legal, complete schedule and its length." */
void write_schedule(const struct tables *tables, size_t room, struct schedule *out)
{
    uint32_t generations[ROWS];
    struct state state;
    out->length = 0;
    out->verdict = check_tables(tables);
    if (out->verdict.number != 0)
        return;
    /* "4: schedule room under M (2, schedule writer only, which is lent no other room)" */
    if (room < rows_of(tables)) {
        out->verdict = verdict(4, 2, 0);
        return;
    }
    /* "[It] ends either at its first mismatch or where no step is allowed", the mismatching step with it. */
    start(&state);
    enum did did = STEPPED;
    while (did == STEPPED && !is_over(tables, &state)) {
        uint32_t lowest = 0;
        while (!is_allowed(tables, &state, lowest))
            lowest++;
        out->steps[out->length++] = lowest;
        did = step(tables, &state, lowest, generations);
    }
}

/* ---- The written notation */

enum shape { END, WORD, DIGITS, SEMICOLON, BARS, NO_TOKEN };

/* "A reader stands on the text it was lent and on a place in it", here on the token from `at` to `to`. */
struct reader {
    const uint8_t *text;
    size_t length, at, to;
    enum shape shape;
};

static size_t run(const struct reader *reader, uint8_t lowest, uint8_t highest)
{
    size_t to = reader->at;
    while (to < reader->length && reader->text[to] >= lowest && reader->text[to] <= highest)
        to++;
    return to;
}

static void found(struct reader *reader, enum shape shape, size_t to)
{
    reader->shape = shape;
    reader->to = to;
}

/*
 * "Tokens: a longest run of lower-case letters, a longest run of digits, `;`, `||`. Spaces and newlines may stand between tokens and are otherwise
 * ignored." From `to` on.
 */
static void next_token(struct reader *reader)
{
    const uint8_t *text = reader->text;
    reader->at = reader->to;
    while (reader->at < reader->length && (text[reader->at] == ' ' || text[reader->at] == '\n'))
        reader->at++;
    if (reader->at == reader->length)
        found(reader, END, reader->at);
    else if (run(reader, 'a', 'z') > reader->at)
        found(reader, WORD, run(reader, 'a', 'z'));
    else if (run(reader, '0', '9') > reader->at)
        found(reader, DIGITS, run(reader, '0', '9'));
    else if (text[reader->at] == ';')
        found(reader, SEMICOLON, reader->at + 1);
    else if (run(reader, '|', '|') >= reader->at + 2)
        found(reader, BARS, reader->at + 2);
    else
        found(reader, NO_TOKEN, reader->at + 1);
}

static int is_word(const struct reader *reader, const char *word)
{
    size_t length = strlen(word);
    return reader->shape == WORD && reader->to - reader->at == length && memcmp(reader->text + reader->at, word, length) == 0;
}

/* The functions from here on answer 1 and stand after what they read, or 0 and stand on the token that doesn't fit. */

static int read_semicolon(struct reader *reader)
{
    if (reader->shape != SEMICOLON)
        return 0;
    next_token(reader);
    return 1;
}

/* "Numbers have no leading zero (but 0 itself) and are at most 65,535." */
static int read_number(struct reader *reader, uint32_t *number)
{
    if (reader->shape != DIGITS || (reader->text[reader->at] == '0' && reader->to - reader->at > 1))
        return 0;
    *number = 0;
    for (size_t i = reader->at; i < reader->to; i++) {
        *number = *number * 10 + (uint32_t)(reader->text[i] - '0');
        if (*number > LAST_NUMBER)
            return 0;
    }
    next_token(reader);
    return 1;
}

/* "`read g;` `write g;` `arrive b n;` `sync b n;`" */
static int read_command(struct reader *reader, uint32_t *row)
{
    static const char *const words[] = {"read", "write", "arrive", "sync"};
    row[0] = READ;
    while (row[0] <= SYNC && !is_word(reader, words[row[0]]))
        row[0]++;
    if (row[0] > SYNC)
        return 0;
    next_token(reader);
    row[2] = 0;
    if (!read_number(reader, &row[1]))
        return 0;
    if (row[0] >= ARRIVE && !read_number(reader, &row[2]))
        return 0;
    return read_semicolon(reader);
}

/* "A thread is any number of [commands] and then `return`." */
static int read_thread(struct reader *reader, struct reading *out)
{
    size_t before = out->commands;
    while (!is_word(reader, "return")) {
        if (!read_command(reader, out->rows + 3 * out->commands))
            return 0;
        out->commands++;
    }
    next_token(reader);
    out->lengths[out->threads++] = (uint32_t)(out->commands - before);
    return 1;
}

/* "Threads are parted by `||`." */
static int read_threads(struct reader *reader, struct reading *out)
{
    if (!read_thread(reader, out))
        return 0;
    while (reader->shape == BARS) {
        next_token(reader);
        if (!read_thread(reader, out))
            return 0;
    }
    return reader->shape == END;
}

void read_text(const uint8_t *text, size_t length, size_t commands_room, size_t lengths_room, struct reading *out)
{
    /* "In every answer but 12 the rest is the empty end of the text." */
    out->verdict = verdict(13, 0, 0);
    out->rest = length;
    out->commands = out->threads = 0;
    /* "13 text over 32,768 bytes (tested first)" */
    if (length > TEXT)
        return;
    /*
     * "12 a token that doesn't fit or isn't one, or an end too soon: place is that token's first byte (or the text's length) and 0, and the answer gives
     * back the rest of the text from the offending token on"
     */
    struct reader reader = {text, length, 0, 0, END};
    next_token(&reader);
    if (!read_threads(&reader, out)) {
        out->verdict = verdict(12, reader.at, 0);
        out->rest = reader.at;
        return;
    }
    /* "13 also for more than 512 commands, 64 threads or the room lent, after the whole text has passed 12; its place is 0 0" */
    if (out->commands > ROWS || out->threads > THREADS || 3 * out->commands > commands_room || out->threads > lengths_room)
        return;
    /* "An accepted reading also answers how many commands and threads it found." */
    out->verdict = verdict(0, 0, 0);
}

/* "The report is `verdict V place P Q`, `total T`, then one line a kept pair, each line closed by a newline." */
size_t print_report(const struct review *review, char *report)
{
    struct verdict verdict = review->verdict;
    const struct sheet *sheet = &review->sheet;
    int n = sprintf(report, "verdict %lu place %lu %lu\n", (unsigned long)verdict.number, (unsigned long)verdict.p, (unsigned long)verdict.q);
    n += sprintf(report + n, "total %lu\n", (unsigned long)sheet->total);
    for (uint32_t i = 0; i < KEPT && i < sheet->total; i++)
        n += sprintf(report + n, "%lu %lu\n", (unsigned long)sheet->pairs[i][0], (unsigned long)sheet->pairs[i][1]);
    return (size_t)n;
}

/* "The text review reads, writes a schedule, judges it and prints. Its own rooms are full ones." */
void review_of_text(const uint8_t *text, size_t length, struct text_review *out)
{
    static struct schedule schedule;
    struct rooms full = {relation_words(ROWS), ROWS, evidence_numbers(ROWS)};
    struct reading *reading = &out->reading;
    read_text(text, length, 3 * ROWS, THREADS, reading);
    /* "A refused reading is reported like a verdict, with total 0 and no pairs." */
    memset(&out->review.sheet, 0, sizeof out->review.sheet);
    out->review.verdict = reading->verdict;
    if (reading->verdict.number != 0)
        return;
    struct tables tables = {reading->rows, 3 * reading->commands, reading->lengths, reading->threads};
    out->tables = tables;
    write_schedule(&tables, ROWS, &schedule);
    review(&tables, schedule.steps, schedule.length, full, &out->review);
}

/* "14: report room under 192 bytes, tested before all else, room untouched." 2026-04: with evidence printed the room needs 51,392 bytes. */
uint32_t text_answer(const struct text_review *review, size_t room, size_t least)
{
    return room < least ? 14 : review->review.verdict.number;
}
