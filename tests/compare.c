/*
 * Holds the archives to the reference of documents 01 and 02 (reference.c), the evidence of a review to its words (evidence.c; printed.c where it is printed), and demand 3 to
 * all schedules of small programs (schedules.c).
 *
 *   compare SEED COUNT         COUNT numbered cases of that seed; each makes a few calls
 *   compare SEED MINUTESm      as many cases as fit into so many minutes
 *   compare SEED COUNT FIRST   COUNT cases from number FIRST on, to repeat a failure
 *
 * After each call every answer, every word of every lent room and the bytes beside it are compared. It ends with one line of figures, or with status 1 at the first
 * difference, which it tells with the seed, the number and the input; also if some verdict, or something else that is to be tried, came up too seldom. The figure of inputs with
 * a count equal to the threads or one above, request 2026-02, is of calls of a review, of the schedule writer and of the text reviews that got as far as 3 and there met such an
 * arrive or sync, every other rule kept by it.
 */
#define _POSIX_C_SOURCE 200809L
#include <signal.h>
#include <stdio.h>
#include <stdlib.h>
#include <string.h>
#include <sys/wait.h>
#include <time.h>
#include <unistd.h>

#include "../include/desk.h"
#include "../include/probe.h"
#include "call.h"
#include "evidence.h"
#include "printed.h"
#include "schedules.h"

enum { ANSWER = 36, WORDS = ROWS * ROWS / 32, EVIDENCE = 32 * ROWS, OFTEN = 10 };
enum door { REVIEW, SCHEDULE, READING, TEXTS, EXHIBITS, CLOSING, DOORS };
enum mark { PAST_SIXTEEN, FULL_TABLE, ALL_THREADS, WRAPPED, BYTES, COMMANDS, MANY_THREADS, ROOM, MANY_ROWS, WIDE_ROWS, DIGIT_0, DIGIT_1, DIGIT_2, DIGIT_4, LOWER_0, LOWER_1, TABLES_FIRST,
            LONG_REUSE, LONG_RACES, TO_THE_LAST, FULL_REPORT, AGAIN, ORDERED, ALL_MEET, READ_ABOVE, LINE_0, LINE_7, LINE_8, ALL_LINES, FAR_LINES, MARKS };
enum limit { EQUAL, EQUAL_64, ABOVE_ROWS, BY_EMPTY, ONE_ABOVE, ABOVE_64, WITHIN_ROWS, PAST_64, OLD_FIRST, NEW_FIRST, LIMITS };

static const char *const doors[DOORS] = {"probe_review", "probe_schedule", "probe_read", "review_text", "review_text_evidence", "probe_close"};
static const char *const marks[MARKS] = {"a sheet past sixteen pairs", "a review of over 500 rows up to 0, 10 or 11", "a review of 64 threads up to 0, 10 or 11",
                                         "lengths that add up if the sum wraps", "13 for bytes", "13 for commands", "13 for threads", "13 for a room",
                                         "closing of over 100 rows", "closing of rows of eight words or more", "4 with digit 0", "4 with digit 1", "4 with digit 2", "4 with digit 4",
                                         "4 with digit 0, the evidence room short too", "4 with digit 1, the evidence room short too", "1 to 3, the evidence room short too",
                                         "evidence for 10 of over 100 rows", "evidence for 11 of over 100 rows", "evidence to the room's last number", "a report of sixteen pairs",
                                         "all schedules agree and a barrier is used again", "all schedules agree and a barrier orders a conflict",
                                         "all schedules agree and a count is that of the threads", "a reading of counts above the threads",
                                         "the line of another generation", "the line of 7", "the line of 8", "the lines of sixteen races", "printed evidence of over 100 rows"};
/* What 2026-02 decides, at each door that refuses by it: four that pass 1 to 3, and six of 3. An old rule is one of document 01. */
static const char *const limits[LIMITS] = {"past 3, a count equal to the threads", "past 3, a count of 64 and as many threads", "past 3, a count above the rows",
                                           "past 3, a count above the threads that are not empty", "3 for a count one above the threads", "3 for a count of 65 and one thread fewer",
                                           "3 for a count above the threads and not above the rows", "3 for a count over 64, up to 1,024",
                                           "3 at an old rule, a count above the threads in a later row", "3 at a count above the threads, an old rule broken in a later row"};
/* The answers that each door has to give OFTEN. */
static const uint32_t answers[DOORS] = {0x4fff, 0x401f, 0x7001, 0x7f89, 0x7f89, 0x3};
static const int has_limits[DOORS] = {1, 1, 0, 1, 1, 0};

static unsigned long calls[DOORS], answered[DOORS][16], marked[MARKS], programs, schedules;
static unsigned long evident[2], ended[16]; /* reviews whose evidence was checked, for 10 and for 11; how the second schedules of 10 ended */
static unsigned long printed[2];            /* text reviews whose printed evidence was checked, for 10 and for 11 */
static unsigned long met[DOORS][LIMITS], at_limit; /* what 2026-02 decided; calls with a count equal to the threads or one above */
static enum door door;
static struct lent commands, lengths, schedule, relation, generations, evidence, answer, text, report, exhibits, tables_room[2];

/* ---- one call */

static void fail_evidence(const struct shown *shown, const uint32_t *written, size_t count)
{
    tell_where();
    fprintf(stderr, "evidence of %lu entries: %s, at %lu:", (unsigned long)count, shown->flaw, (unsigned long)shown->at);
    for (size_t i = 0; i < count && i < evidence.bytes / 4; i++)
        fprintf(stderr, " %lu", (unsigned long)written[i]);
    fprintf(stderr, "\n");
    tell_input();
    exit(1);
}

static void fail_printed(const struct shown *shown, const uint8_t *bytes, size_t most)
{
    size_t length = 0;
    while (length < most && (bytes[length] == '\n' || (bytes[length] >= ' ' && bytes[length] <= '~')))
        length++;
    tell_where();
    fprintf(stderr, "what is printed after the report: %s, at %lu:\n%.*s\n", shown->flaw, (unsigned long)shown->at, (int)length, (const char *)bytes);
    tell_input();
    exit(1);
}

static void begin_call(enum door which)
{
    door = which;
    open_call(doors[door]);
}

/* The answer is the expected one, and so is everything that was lent. */
static void end_call(uint32_t found, uint32_t expected)
{
    calls[door]++;
    answered[door][expected]++;
    if (found != expected)
        fail("the answer", 0, found, expected);
    close_call();
}

/* Just enough room, more, or less; `enough` is what it takes, `most` what may be lent. */
static size_t some_room(size_t enough, size_t most)
{
    size_t less = 1 + below(&drawn, chance(&drawn, 50) ? 1 : (uint32_t)enough + 1);
    switch (below(&drawn, 20)) {
    case 0:
        return enough > less ? enough - less : 0;
    case 1:
        return most;
    default:
        return chance(&drawn, 60) || enough + 40 > most ? enough : enough + below(&drawn, 40);
    }
}

static size_t at_most(size_t n, size_t most)
{
    return n < most ? n : most;
}

static size_t answer_room(void)
{
    if (below(&drawn, 100) == 0)
        return chance(&drawn, 50) ? ANSWER - 1 : below(&drawn, ANSWER);
    return chance(&drawn, 50) ? ANSWER : ANSWER + below(&drawn, 5);
}

/* Rooms for a review of so many rows: most of them just enough, some more, some less, and now and then none at all for evidence. */
static struct rooms some_rooms(size_t rows)
{
    size_t n = rows > ROWS ? 0 : rows;
    struct rooms lent;
    lent.relation = some_room(relation_words(n), WORDS + 40);
    lent.generations = some_room(rows, MOST_STEPS);
    lent.evidence = below(&drawn, 50) == 0 ? 0 : some_room(evidence_numbers(n), EVIDENCE + 40);
    return lent;
}

static struct rooms just_enough(size_t rows)
{
    struct rooms lent = {relation_words(rows), rows, evidence_numbers(rows)};
    return lent;
}

/* Most of them just enough, some a little more, and some less. */
static size_t some_report_room(uint32_t least)
{
    if (below(&drawn, 40) == 0)
        return chance(&drawn, 50) ? least - 1 : below(&drawn, least);
    return chance(&drawn, 50) ? least : least + below(&drawn, 100);
}

static struct tables tables_of(const struct program *program)
{
    struct tables tables = {program->commands, program->numbers, program->lengths, program->threads};
    return tables;
}

/* ---- the calls */

static int fills_rooms(uint32_t verdict)
{
    return verdict == 0 || verdict == 10 || verdict == 11;
}

/* "Bit j mod 32 of word floor(j/32) in row i set exactly when i reaches j. Padding bits are 0 and later words keep their contents." */
static void must_hold_relation(struct lent *lent, size_t rows, uint8_t bits[ROWS][ROWS])
{
    uint32_t *words = must_hold(lent);
    size_t width = (rows + 31) / 32;
    memset(words, 0, rows * width * sizeof *words);
    for (size_t i = 0; i < rows; i++)
        for (size_t j = 0; j < rows; j++)
            if (bits[i][j])
                words[i * width + j / 32] |= (uint32_t)1 << (j % 32);
}

/* As include/probe.h lays the answer out; how many numbers of evidence were written is told by the answer itself. */
static void must_hold_review(const struct review *review, size_t rows)
{
    uint32_t *told = must_hold(&answer);
    told[0] = (uint32_t)review->verdict.p;
    told[1] = (uint32_t)review->verdict.q;
    told[2] = review->sheet.total;
    told[3] = 0;
    memcpy(told + 4, review->sheet.pairs, sizeof review->sheet.pairs);
    if (!fills_rooms(review->verdict.number))
        return;
    must_hold_relation(&relation, rows, ((struct review *)review)->reaches);
    memcpy(must_hold(&generations), review->generations, rows * sizeof *review->generations);
}

static void mark_evidence(const struct review *review, const struct shown *shown, size_t rows, size_t count)
{
    int is_race = review->verdict.number == 11;
    evident[is_race]++;
    ended[shown->ended] += !is_race;
    marked[is_race ? LONG_RACES : LONG_REUSE] += rows > 100;
    marked[TO_THE_LAST] += 4 * count == evidence.bytes;
}

static void must_be_refused(const struct tables *tables, const struct review *review, const uint32_t *entries, size_t count, const char *what)
{
    struct shown shown = check_evidence(tables, review, entries, count);
    if (shown.flaw != NULL)
        return;
    shown.flaw = what;
    fail_evidence(&shown, entries, count);
}

/* The checker, tried on what is no evidence: one entry fewer or more, the offered schedule once more, the two schedules of the last pair exchanged. */
static void try_checker(const struct tables *tables, const struct review *review, const uint32_t *written, size_t count)
{
    static uint32_t entries[EVIDENCE + 1];
    size_t rows = rows_of(tables);
    memcpy(entries, written, count * sizeof *entries);
    entries[count] = below(&drawn, (uint32_t)tables->threads);
    must_be_refused(tables, review, entries, count - 1, "the checker took a part of it");
    must_be_refused(tables, review, entries, count + 1, "the checker took one entry more");
    if (review->verdict.number == 10) {
        must_be_refused(tables, review, must_hold(&schedule), rows, "the checker took the offered schedule");
        return;
    }
    memcpy(entries + count - 2 * rows, written + count - rows, rows * sizeof *entries);
    memcpy(entries + count - rows, written + count - 2 * rows, rows * sizeof *entries);
    must_be_refused(tables, review, entries, count, "the checker took y first before x first");
}

/* For 10 and 11: any evidence that shows the verdict passes. The room must then hold it, and after it what was lent. */
static void must_hold_evidence(const struct tables *tables, const struct review *review, const uint32_t *written, size_t count)
{
    uint32_t *told = must_hold(&answer);
    struct shown shown = check_evidence(tables, review, written, count);
    if (shown.flaw != NULL)
        fail_evidence(&shown, written, count);
    if (below(&drawn, 4) == 0)
        try_checker(tables, review, written, count);
    told[3] = (uint32_t)count;
    memcpy(must_hold(&evidence), written, count * sizeof *written);
    mark_evidence(review, &shown, rows_of(tables), count);
}

static void mark_rooms(const struct review *review, struct rooms lent, size_t rows)
{
    uint32_t number = review->verdict.number;
    int is_short = lent.evidence < evidence_numbers(rows);
    marked[DIGIT_0] += number == 4 && review->verdict.p == 0;
    marked[DIGIT_1] += number == 4 && review->verdict.p == 1;
    marked[DIGIT_4] += number == 4 && review->verdict.p == 4;
    marked[LOWER_0] += is_short && number == 4 && review->verdict.p == 0;
    marked[LOWER_1] += is_short && number == 4 && review->verdict.p == 1;
    marked[TABLES_FIRST] += is_short && number >= 1 && number <= 3;
}

static void mark_review(const struct review *review, size_t rows, size_t threads)
{
    marked[PAST_SIXTEEN] += review->sheet.total > KEPT;
    marked[FULL_TABLE] += fills_rooms(review->verdict.number) && rows > 500;
    marked[ALL_THREADS] += fills_rooms(review->verdict.number) && threads == THREADS;
}

static void mark_passed(const struct tables *tables)
{
    uint32_t largest = 0;
    size_t busy = 0;
    for (size_t c = 0; c < rows_of(tables); c++)
        largest = tables->commands[3 * c + 2] > largest ? tables->commands[3 * c + 2] : largest;
    for (size_t t = 0; t < tables->threads; t++)
        busy += tables->lengths[t] > 0;
    met[door][EQUAL] += largest == tables->threads;
    met[door][EQUAL_64] += largest == THREADS;
    met[door][ABOVE_ROWS] += largest > rows_of(tables);
    met[door][BY_EMPTY] += largest > busy;
}

static void mark_refused(const struct tables *tables, size_t place)
{
    const uint32_t *row = tables->commands + 3 * place;
    int is_new = keeps_rules(row), old_later = 0, new_later = 0;
    for (size_t c = place + 1; c < rows_of(tables); c++) {
        const uint32_t *later = tables->commands + 3 * c;
        old_later |= !keeps_rules(later);
        new_later |= keeps_rules(later) && is_above_threads(tables, later);
    }
    met[door][ONE_ABOVE] += is_new && row[2] == tables->threads + 1;
    met[door][ABOVE_64] += is_new && tables->threads == THREADS && row[2] == THREADS + 1;
    met[door][WITHIN_ROWS] += is_new && row[2] <= rows_of(tables);
    met[door][PAST_64] += is_new && row[2] > THREADS;
    met[door][OLD_FIRST] += !is_new && new_later;
    met[door][NEW_FIRST] += is_new && old_later;
}

/* Is there an arrive or a sync of count `threads` or one more, every other rule kept, among the rows that 3 looks at: all of them, or those up to its place? */
static int is_at_limit(const struct tables *tables, const struct verdict *verdict)
{
    size_t rows = verdict->number == 3 ? verdict->p + 1 : rows_of(tables);
    for (size_t c = 0; c < rows; c++) {
        const uint32_t *row = tables->commands + 3 * c;
        if (keeps_rules(row) && (row[2] == tables->threads || row[2] == tables->threads + 1))
            return 1;
    }
    return 0;
}

/* What 2026-02 decided in this call, of tables that were not refused before it. */
static void mark_limits(const struct tables *tables, const struct verdict *verdict)
{
    if (verdict->number == 1 || verdict->number == 2)
        return;
    at_limit += (unsigned long)is_at_limit(tables, verdict);
    if (verdict->number == 3)
        mark_refused(tables, verdict->p);
    else
        mark_passed(tables);
}

/* Answers the verdict. */
static uint32_t try_review(const struct tables *tables, const uint32_t *steps, size_t n, struct rooms lent, size_t told)
{
    static struct review expected;
    begin_call(REVIEW);
    const uint32_t *c = lend_numbers(&commands, tables->commands, tables->numbers), *l = lend_numbers(&lengths, tables->lengths, tables->threads);
    const uint32_t *s = lend_numbers(&schedule, steps, n);
    uint32_t *r = lend_places(&relation, lent.relation), *g = lend_places(&generations, lent.generations);
    uint32_t *e = lend_places(&evidence, lent.evidence), *a = lend_places(&answer, told);
    is_called = 1;
    uint32_t got = probe_review(c, tables->numbers, l, tables->threads, s, n, r, lent.relation, g, lent.generations, e, lent.evidence, a, told);
    is_called = 0;
    if (told < ANSWER) {
        end_call(got, 14);
        return 14;
    }
    review(tables, steps, n, lent, &expected);
    must_hold_review(&expected, rows_of(tables));
    if (got == expected.verdict.number && (got == 10 || got == 11))
        must_hold_evidence(tables, &expected, e, a[3]);
    mark_review(&expected, rows_of(tables), tables->threads);
    mark_rooms(&expected, lent, rows_of(tables));
    mark_limits(tables, &expected.verdict);
    end_call(got, expected.verdict.number);
    return got;
}

static void try_schedule(const struct tables *tables, size_t steps_room, size_t told)
{
    static struct schedule expected;
    begin_call(SCHEDULE);
    const uint32_t *c = lend_numbers(&commands, tables->commands, tables->numbers), *l = lend_numbers(&lengths, tables->lengths, tables->threads);
    uint32_t *s = lend_places(&schedule, steps_room), *a = lend_places(&answer, told);
    is_called = 1;
    uint32_t got = probe_schedule(c, tables->numbers, l, tables->threads, s, steps_room, a, told);
    is_called = 0;
    if (told < ANSWER) {
        end_call(got, 14);
        return;
    }
    write_schedule(tables, steps_room, &expected);
    const uint32_t first[4] = {(uint32_t)expected.verdict.p, (uint32_t)expected.verdict.q, (uint32_t)expected.length, 0};
    memcpy(must_hold(&answer), first, sizeof first);
    memcpy(must_hold(&schedule), expected.steps, expected.length * sizeof *expected.steps);
    marked[DIGIT_2] += expected.verdict.number == 4 && expected.verdict.p == 2;
    mark_limits(tables, &expected.verdict);
    end_call(got, expected.verdict.number);
}

/* A reading tells which tables a text denotes, and no more: 3 is for reviews and the schedule writer. */
static int has_above(const struct reading *reading)
{
    struct tables tables = {reading->rows, 3 * reading->commands, reading->lengths, reading->threads};
    for (size_t c = 0; c < reading->commands; c++)
        if (is_above_threads(&tables, reading->rows + 3 * c))
            return 1;
    return 0;
}

static void mark_reading(const struct reading *reading, size_t length)
{
    marked[READ_ABOVE] += reading->verdict.number == 0 && has_above(reading);
    if (reading->verdict.number != 13)
        return;
    marked[BYTES] += length > TEXT;
    marked[COMMANDS] += reading->commands > ROWS;
    marked[MANY_THREADS] += reading->threads > THREADS;
    marked[ROOM] += length <= TEXT && reading->commands <= ROWS && reading->threads <= THREADS;
}

static void try_read(const uint8_t *bytes, size_t length, size_t told)
{
    static struct reading expected;
    read_text(bytes, length, 3 * ROWS, THREADS, &expected);
    size_t numbers_room = some_room(at_most(3 * expected.commands, MOST_NUMBERS), MOST_NUMBERS);
    size_t lengths_room = some_room(at_most(expected.threads, MOST_LENGTHS), MOST_LENGTHS);
    begin_call(READING);
    const uint8_t *t = lend_text(&text, bytes, length);
    uint32_t *c = lend_places(&tables_room[0], numbers_room), *l = lend_places(&tables_room[1], lengths_room), *a = lend_places(&answer, told);
    is_called = 1;
    uint32_t got = probe_read(t, length, c, numbers_room, l, lengths_room, a, told);
    is_called = 0;
    if (told < ANSWER) {
        end_call(got, 14);
        return;
    }
    read_text(bytes, length, numbers_room, lengths_room, &expected);
    mark_reading(&expected, length);
    if (expected.verdict.number != 0)
        expected.commands = expected.threads = 0;
    const uint32_t first[5] = {(uint32_t)expected.verdict.p, (uint32_t)expected.verdict.q, (uint32_t)expected.commands, (uint32_t)expected.threads,
                               (uint32_t)expected.rest};
    memcpy(must_hold(&answer), first, sizeof first);
    memcpy(must_hold(&tables_room[0]), expected.rows, 3 * expected.commands * sizeof *expected.rows);
    memcpy(must_hold(&tables_room[1]), expected.lengths, expected.threads * sizeof *expected.lengths);
    end_call(got, expected.verdict.number);
}

static void mark_text(const struct text_review *expected, uint32_t answer)
{
    if (answer != 14 && expected->reading.verdict.number == 0)
        mark_limits(&expected->tables, &expected->review.verdict);
}

static void try_report(const uint8_t *bytes, size_t length, const struct text_review *expected, size_t report_room)
{
    char front[2 * REPORT];
    begin_call(TEXTS);
    const uint8_t *t = lend_text(&text, bytes, length);
    uint8_t *r = lend_report(&report, report_room);
    is_called = 1;
    uint32_t got = review_text(t, length, r, report_room);
    is_called = 0;
    uint32_t answer = text_answer(expected, report_room, REPORT);
    size_t n = answer == 14 ? 0 : print_report(&expected->review, front);
    if (n > report_room)
        fail("the length of the report", 0, n, report_room);
    memcpy(must_hold(&report), front, n);
    size_t lines = 0;
    for (size_t i = 0; i < n; i++)
        lines += front[i] == '\n';
    marked[FULL_REPORT] += lines == 2 + KEPT;
    mark_text(expected, answer);
    end_call(got, answer);
}

static void mark_printed(const struct text_review *expected, const struct shown *shown)
{
    uint32_t number = expected->review.verdict.number;
    if (number != 10 && number != 11)
        return;
    printed[number == 11]++;
    marked[LINE_0] += number == 10 && shown->ended == 0;
    marked[LINE_7] += number == 10 && shown->ended == 7;
    marked[LINE_8] += number == 10 && shown->ended == 8;
    marked[ALL_LINES] += number == 11 && expected->review.sheet.total >= KEPT;
    marked[FAR_LINES] += rows_of(&expected->tables) > 100;
}

static void must_be_seen(const struct text_review *expected, const uint8_t *bytes, size_t length, const char *what)
{
    size_t ignored;
    struct shown shown = check_printed(expected, bytes, length, &ignored);
    if (shown.flaw != NULL)
        return;
    shown.flaw = what;
    fail_printed(&shown, bytes, length);
}

/* The checker, tried on what says something else: no last byte, another number in words, another byte that is no digit. Other digits in a schedule may show the same. */
static void try_other_bytes(const struct text_review *expected, const uint8_t *evidence, size_t length)
{
    static uint8_t other[PRINTED];
    static size_t in_words[PRINTED], no_digits[PRINTED];
    uint32_t numbers = 0, others = 0, lines = 0;
    for (size_t i = 0; i < length; i++) {
        if (evidence[i] < '0' || evidence[i] > '9')
            no_digits[others++] = i;
        else if (lines % 2 == 0)
            in_words[numbers++] = i;
        lines += evidence[i] == '\n';
    }
    must_be_seen(expected, evidence, length - 1, "the checker took it without its last byte");
    memcpy(other, evidence, length);
    size_t at = in_words[below(&drawn, numbers)];
    other[at] = (uint8_t)('0' + (evidence[at] - '0' + 1 + below(&drawn, 9)) % 10);
    must_be_seen(expected, other, length, "the checker took another number");
    other[at] = evidence[at];
    other[no_digits[below(&drawn, others)]] ^= (uint8_t)(1 + below(&drawn, 255));
    must_be_seen(expected, other, length, "the checker took another byte");
}

/* The room must begin with the report; what is printed after it must show the verdict, and then the room must hold just that, and after it what was lent. */
static void must_hold_printed(const struct text_review *expected, const uint8_t *got, size_t room)
{
    char front[2 * REPORT];
    size_t n = print_report(&expected->review, front), length;
    memcpy(must_hold(&exhibits), front, n);
    if (memcmp(got, front, n) != 0)
        return; /* the comparison of the room tells where */
    struct shown shown = check_printed(expected, got + n, room - n, &length);
    if (shown.flaw != NULL)
        fail_printed(&shown, got + n, room - n);
    if (n + length > PRINTED)
        fail("the length of what is printed", 0, n + length, PRINTED);
    memcpy((uint8_t *)must_hold(&exhibits) + n, got + n, length);
    mark_printed(expected, &shown);
    if (length > 0 && below(&drawn, 4) == 0)
        try_other_bytes(expected, got + n, length);
}

static void try_exhibits(const uint8_t *bytes, size_t length, const struct text_review *expected, size_t room)
{
    begin_call(EXHIBITS);
    const uint8_t *t = lend_text(&text, bytes, length);
    uint8_t *r = lend_report(&exhibits, room);
    is_called = 1;
    uint32_t got = review_text_evidence(t, length, r, room);
    is_called = 0;
    uint32_t answer = text_answer(expected, room, PRINTED);
    if (got == answer && answer != 14)
        must_hold_printed(expected, r, room);
    mark_text(expected, answer);
    end_call(got, answer);
}

static void try_text(const uint8_t *bytes, size_t length)
{
    static struct text_review expected;
    review_of_text(bytes, length, &expected);
    try_report(bytes, length, &expected, some_report_room(REPORT));
    try_exhibits(bytes, length, &expected, some_report_room(PRINTED));
}

/* Every bit is set with one chance. */
static void draw_even(uint32_t *held, size_t words)
{
    uint32_t density = below(&drawn, 33);
    for (size_t i = 0; i < words; i++)
        for (uint32_t bit = 0; bit < 32; bit++)
            if (below(&drawn, 33) > density)
                held[i] &= ~((uint32_t)1 << bit);
}

/* At most two bits to a row, padding bits among them: chains are long, and many rows do not reach each other. */
static void draw_thin(uint32_t *held, size_t words, size_t rows)
{
    size_t table = relation_words(rows) < words ? relation_words(rows) : words;
    memset(held, 0, 4 * table);
    for (size_t bits = table == 0 ? 0 : below(&drawn, (uint32_t)(2 * rows + 1)); bits > 0; bits--)
        held[below(&drawn, (uint32_t)table)] |= (uint32_t)1 << below(&drawn, 32);
}

static void try_close(size_t rows, size_t words, uint32_t asked)
{
    static uint8_t bits[ROWS][ROWS];
    begin_call(CLOSING);
    uint32_t *r = lend_places(&relation, words), *held = must_hold(&relation);
    if (chance(&drawn, rows > 140 ? 95 : 50))
        draw_thin(held, words, rows);
    else
        draw_even(held, words);
    memcpy(r, held, 4 * words);
    int enough = asked == rows && words >= relation_words(rows);
    for (size_t i = 0; enough && i < rows; i++)
        for (size_t j = 0; j < rows; j++)
            bits[i][j] = (uint8_t)(held[i * ((rows + 31) / 32) + j / 32] >> (j % 32) & 1);
    is_called = 1;
    uint32_t got = probe_close(r, words, asked);
    is_called = 0;
    if (enough) {
        close_under_chains(rows, bits);
        must_hold_relation(&relation, rows, bits);
    }
    marked[MANY_ROWS] += enough && rows > 100;
    marked[WIDE_ROWS] += enough && rows > 7 * 32;
    end_call(got, (uint32_t)enough);
}

/* ---- demand 3 */

/*
 * "The verdict is 0 or 11 exactly when the schedule offered is legal and complete and every legal complete schedule of that program ends clean with the same
 * generation for each command. It is 0 exactly when, besides, every two conflicting accesses stand in the same order in all of those schedules.
 * Verdicts 7 to 10 are given only where that agreement fails."
 */
static void hold_to_demand_3(const struct tables *tables, const uint32_t *steps, size_t n, const struct common *all)
{
    uint32_t verdict = try_review(tables, steps, n, just_enough(rows_of(tables)), ANSWER);
    if (verdict >= 1 && verdict <= 4)
        fail("demand 3, that tables and rooms pass: the verdict", (long)verdict, 0, 1);
    int offered = is_legal_complete(tables, steps, n);
    int agree = offered && all->agree, one_order = agree && all->one_order;
    if ((verdict == 0 || verdict == 11) != agree)
        fail("demand 3, 0 or 11: the verdict", (long)verdict, !agree, (unsigned long)agree);
    if ((verdict == 0) != one_order)
        fail("demand 3, 0: the verdict", (long)verdict, !one_order, (unsigned long)one_order);
    if (verdict >= 7 && verdict <= 10 && all->agree)
        fail("demand 3, 7 to 10: the verdict", (long)verdict, 1, 0);
}

/* ---- the cases */

static struct program program;
static uint32_t steps[MOST_STEPS + 8];
static uint8_t bytes[MOST_TEXT + 64];

static int wraps(const struct tables *tables)
{
    uint64_t sum = 0;
    for (size_t t = 0; t < tables->threads; t++)
        sum += tables->lengths[t];
    return tables->threads <= THREADS && sum != (uint32_t)sum && (uint32_t)sum == rows_of(tables);
}

static void tables_case(int damaged)
{
    if (chance(&drawn, 12))
        strain_counts(&drawn, &program);
    for (uint32_t i = damaged ? 1 + below(&drawn, 2) : 0; i > 0; i--)
        damage_program(&drawn, &program);
    struct tables tables = tables_of(&program);
    size_t rows = rows_of(&tables);
    marked[WRAPPED] += (unsigned long)wraps(&tables);
    size_t steps_room = some_room(rows, MOST_STEPS);
    try_schedule(&tables, steps_room, answer_room());
    for (int i = 0; i < (rows > 100 ? 1 : 2); i++) {
        size_t n = make_schedule(&drawn, &tables, steps);
        struct rooms lent = some_rooms(rows);
        try_review(&tables, steps, n, lent, answer_room());
    }
}

/* Often a fault; now and then a large table. Answers if it may be large. */
static int draw_faulty(void)
{
    int is_big = chance(&drawn, 4);
    faulty_program(&drawn, is_big ? THREADS : 8, is_big ? ROWS : chance(&drawn, 90) ? 14 : 60, &program);
    return is_big;
}

/* Legal schedules of programs that have faults, most of them with just the rooms that are needed. */
static void evidence_case(void)
{
    int is_big = draw_faulty();
    struct tables tables = tables_of(&program);
    for (int i = 0; i < (is_big ? 1 : 3); i++) {
        size_t n = legal_schedule(&drawn, &tables, steps);
        struct rooms lent = chance(&drawn, 70) ? just_enough(rows_of(&tables)) : some_rooms(rows_of(&tables));
        try_review(&tables, steps, n, lent, ANSWER);
    }
}

static void text_case(void)
{
    if (chance(&drawn, 12))
        strain_counts(&drawn, &program);
    for (size_t i = 0; i < program.numbers; i += 3) {
        uint32_t name_or_count = program.commands[i] < ARRIVE ? 1 : 1 + below(&drawn, 2);
        if (below(&drawn, 300) == 0)
            program.commands[i + name_or_count] = odd_number(&drawn) % 65537;
    }
    size_t n = make_text(&drawn, &program, bytes);
    try_read(bytes, n, answer_room());
    try_text(bytes, n);
}

static void close_case(void)
{
    size_t rows = below(&drawn, chance(&drawn, 90) ? 40 : chance(&drawn, 50) ? 140 : ROWS + 1), words = some_room(relation_words(rows), WORDS);
    try_close(rows, words, (uint32_t)rows);
    uint32_t asked = odd_number(&drawn);
    if (asked >= ROWS) /* more rows than a room of any size here has words for */
        try_close(0, chance(&drawn, 50) ? words : below(&drawn, ROWS), asked == ROWS ? ROWS + 1 : asked);
}

/* Agreement is to be tried where it is not plain: where barriers are used again, where two threads conflict, and at the largest count that there may be. */
static void mark_agreement(const struct tables *tables, const struct common *all)
{
    int again = 0, ordered = 0, all_meet = 0;
    uint32_t counted[BARRIERS] = {0};
    for (size_t i = 0; i < rows_of(tables); i++) {
        const uint32_t *row = tables->commands + 3 * i;
        if (row[0] >= ARRIVE)
            again |= ++counted[row[1]] > row[2];
        all_meet |= row[2] == tables->threads;
        for (size_t j = tables->lengths[0]; i < tables->lengths[0] && j < rows_of(tables); j++)
            ordered |= conflict(tables, i, j);
    }
    marked[AGAIN] += all->agree && again;
    marked[ORDERED] += all->agree && all->one_order && ordered;
    marked[ALL_MEET] += all->agree && all_meet;
}

static void all_schedules_case(void)
{
    small_program(&drawn, SMALL, &program);
    struct tables tables = tables_of(&program);
    struct common all = try_all(&tables);
    static struct schedule written;
    write_schedule(&tables, ROWS, &written);
    hold_to_demand_3(&tables, written.steps, written.length, &all);
    for (int i = 0; i < 2; i++) {
        size_t n = legal_schedule(&drawn, &tables, steps);
        hold_to_demand_3(&tables, steps, n, &all);
        n = make_schedule(&drawn, &tables, steps);
        hold_to_demand_3(&tables, steps, n, &all);
    }
    mark_agreement(&tables, &all);
    programs++;
    schedules += all.schedules;
}

static void try_number(void)
{
    uint32_t which = below(&drawn, 1000);
    if (which < 6) {
        big_program(&drawn, &program);
        tables_case(chance(&drawn, 20));
    } else if (which < 8) {
        big_program(&drawn, &program);
        text_case();
    } else if (which < 18) {
        over_program(&drawn, &program);
        text_case();
    } else if (which < 100) {
        close_case();
    } else if (which < 200) {
        all_schedules_case();
    } else if (which < 300) {
        evidence_case();
    } else {
        if (which < 900)
            small_program(&drawn, chance(&drawn, 90) ? 16 : 60, &program);
        else
            draw_faulty();
        if (which < 650)
            tables_case(chance(&drawn, 30));
        else
            text_case();
    }
}

/* ---- figures */

static void demand_often(const char *what, const char *of, unsigned long came)
{
    if (came >= OFTEN)
        return;
    fprintf(stderr, "compare: seed %llu: %s%s came up %lu times, under %d\n", input.seed, of, what, came, OFTEN);
    exit(1);
}

static void demand_all(void)
{
    char name[40];
    for (int d = 0; d < DOORS; d++)
        for (int v = 0; v < 16; v++)
            if (answers[d] >> v & 1) {
                sprintf(name, " answering %d", v);
                demand_often(name, doors[d], answered[d][v]);
            }
    for (int m = 0; m < MARKS; m++)
        demand_often(marks[m], "", marked[m]);
    for (int d = 0; d < DOORS; d++)
        for (int l = 0; has_limits[d] && l < LIMITS; l++) {
            sprintf(name, "%s: ", doors[d]);
            demand_often(limits[l], name, met[d][l]);
        }
}

/* One line. tests/tools.sh adds up the figures of two processes: no other number may stand in it by itself. */
static void print_figures(void)
{
    unsigned long all = 0;
    for (int d = 0; d < DOORS; d++)
        all += calls[d];
    printf("%lu inputs: %lu reviews, %lu schedules to write, %lu readings, %lu text reviews, %lu with evidence, %lu closings; of %lu programs all %lu schedules;", all, calls[REVIEW],
           calls[SCHEDULE], calls[READING], calls[TEXTS], calls[EXHIBITS], calls[CLOSING], programs, schedules);
    printf(" %lu inputs with a count equal to the threads or one above;", at_limit);
    printf(" evidence checked of %lu reuse faults and %lu races, and as printed of %lu and %lu\n", evident[0], evident[1], printed[0], printed[1]);
}

/* With COMPARE_DETAILS set: how often each answer and each mark came. */
static void print_details(void)
{
    for (int d = 0; d < DOORS; d++) {
        printf("  %s:", doors[d]);
        for (int v = 0; v < 16; v++)
            if (answered[d][v] > 0)
                printf(" %d x %lu%s", v, answered[d][v], v < 15 ? "," : "");
        printf("\n");
    }
    for (int m = 0; m < MARKS; m++)
        printf("  %s: %lu\n", marks[m], marked[m]);
    for (int d = 0; d < DOORS; d++)
        for (int l = 0; has_limits[d] && l < LIMITS; l++)
            printf("  %s: %s: %lu\n", doors[d], limits[l], met[d][l]);
    printf("  evidence for 10: clean with another generation %lu, ended in 7 %lu, in 8 %lu, in 9 %lu\n", ended[0], ended[7], ended[8], ended[9]);
}

static void make_all(void)
{
    make_lent(&commands, "commands", 4 * MOST_NUMBERS);
    make_lent(&lengths, "lengths", 4 * MOST_LENGTHS);
    make_lent(&schedule, "schedule", 4 * (MOST_STEPS + 8));
    make_lent(&relation, "relation", 4 * (WORDS + 80));
    make_lent(&generations, "generations", 4 * (MOST_STEPS + 80));
    make_lent(&evidence, "evidence", 4 * (EVIDENCE + 80));
    make_lent(&answer, "answer", 4 * (ANSWER + 8));
    make_lent(&text, "text", MOST_TEXT + 64);
    make_lent(&report, "report", REPORT + 100);
    make_lent(&exhibits, "report", PRINTED + 100);
    make_lent(&tables_room[0], "commands", 4 * MOST_NUMBERS);
    make_lent(&tables_room[1], "lengths", 4 * MOST_LENGTHS);
}

enum { BITTEN = 3 };

static void end_child(int signal)
{
    (void)signal;
    _exit(BITTEN);
}

/* What a child does to the guarded pages must end it; else the test could not see such a thing of an archive. */
static void check_guard(const char *what, long place, int is_write)
{
    const uint8_t *at = lend(&text, "text", 4, 1, place > 0);
    int status = 0;
    pid_t child = fork();
    if (child == 0) {
        volatile uint8_t *touch = (volatile uint8_t *)at + place;
        signal(SIGSEGV, end_child);
        signal(SIGBUS, end_child);
        if (is_write)
            *touch = 0;
        else
            (void)*touch;
        _exit(0);
    }
    if (child < 0 || waitpid(child, &status, 0) != child || !WIFEXITED(status) || WEXITSTATUS(status) != BITTEN) {
        fprintf(stderr, "compare: the guard pages do not guard: %s\n", what);
        exit(1);
    }
    give_back(&text);
}

static void check_guards(void)
{
    check_guard("a read after what is lent", 4, 0);
    check_guard("a read before what is lent", -1, 0);
    check_guard("a write to what is lent for reading", 0, 1);
}

int main(int argc, char **argv)
{
    char *unit = "";
    if (argc != 3 && argc != 4) {
        fprintf(stderr, "usage: compare SEED COUNT [FIRST] | compare SEED MINUTESm\n");
        return 2;
    }
    input.test = "compare";
    input.seed = strtoull(argv[1], NULL, 10);
    unsigned long long count = strtoull(argv[2], &unit, 10), first = argc == 4 ? strtoull(argv[3], NULL, 10) : 0;
    time_t end = *unit == 'm' ? time(NULL) + 60 * (time_t)count : 0;
    make_all();
    check_guards();
    watch_touches();
    for (unsigned long long number = first; end ? time(NULL) < end : number - first < count; number++) {
        begin_input(number);
        try_number();
    }
    print_figures();
    if (getenv("COMPARE_DETAILS") != NULL)
        print_details();
    if (argc == 3)
        demand_all();
    return 0;
}
