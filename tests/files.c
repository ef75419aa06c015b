/*
 * One program, one file: request 2026-10. "For one program, any two schedules that both get 0 or 11 leave the same generations, the same relation words, the same verdict, the
 * same sheet and the same total." Each program is reviewed by several legal complete schedules, the writer's among them, each time in rooms of its own, just as long as is asked or
 * longer, with other junk, and what the reviews left is compared between them. No file is worked out here: compare.c does that.
 *
 *   files SEED COUNT         numbered programs of that seed, until COUNT of them got 0 or 11
 *   files SEED COUNT FIRST   the same from number FIRST on, to repeat a failure
 *
 * It asks for more than the request: by demand 3, where one legal complete schedule gets 0 or 11, all of them do, and get the same of the two.
 *
 * Verdict 10 is excepted, since it hangs on the schedule offered: which commands meet in one generation does, and so do the pairs. It is counted how often two schedules got 10
 * and left different files, and that has to be often, or the exception would not be needed. The sets of 2026-06, excepted as well, are not there yet. Evidence is no part of the
 * file, and may hang on the schedule too: for 11 it is counted how often it differed.
 *
 * A text is reviewed by the schedule that the writer makes of it, so here nothing is excepted: two spellings of a program must get the same number, and the same bytes printed,
 * whatever the verdict; and the report must say what the review by the writer's schedule left.
 *
 * It ends with one line of figures, or with status 1 at the first difference, told with the seed, the number and the input; also if something that is to be tried came up too
 * seldom.
 */
#include <stdio.h>
#include <stdlib.h>
#include <string.h>

#include "../include/desk.h"
#include "../include/probe.h"
#include "call.h"

enum { ANSWER = 36, WORDS = ROWS * ROWS / 32, EVIDENCE = 32 * ROWS, SCHEDULES = 6, FEWER = 3, MORE = 40 };
enum mark { DIFFER, NOT_PLAIN, IN_ORDER, AGAIN, LONG, ALL_THREADS, PAST_SIXTEEN, TWO_FILES, TEN_AND_7, TEN_AND_8, MARKS };

static const char *const marks[MARKS] = {"0 or 11, two schedules that differ", "0 or 11, a conflict or a barrier that is used again", "0, a conflict and a barrier that is used again",
                                         "11, a barrier that is used again", "0 or 11, over 100 rows", "0 or 11, 64 threads", "11, a total past sixteen",
                                         "10 by two schedules, different files", "10 by one schedule and 7 by another", "10 by one schedule and 8 by another"};
/* How often each has to come: in such a part of the programs with 0 or 11, or else so many times. */
static const unsigned long parts[MARKS] = {[DIFFER] = 80, [NOT_PLAIN] = 80, [IN_ORDER] = 20, [AGAIN] = 5};
static const unsigned long times[MARKS] = {[LONG] = 10, [ALL_THREADS] = 10, [PAST_SIXTEEN] = 10, [TWO_FILES] = 100, [TEN_AND_7] = 10, [TEN_AND_8] = 10};

/* Programs by the verdict of the writer's schedule, and by mark; then those with 0 or 11 and their schedules, those with a 10, and those with 11 whose evidence differed. */
static unsigned long got[16], spelled[16], marked[MARKS], programs, distinct, tens, other_evidence, calls;
static struct lent commands, lengths, schedule, relation, generations, evidence, answer, text, report;
static struct program program;

/* ---- one review */

/* What a review leaves. Of evidence it is only asked whether it is the same. */
struct file {
    uint32_t number, answer[ANSWER], relation[WORDS], generations[ROWS], evidence[EVIDENCE];
};

struct steps {
    size_t n;
    uint32_t threads[ROWS];
};

static struct file files[SCHEDULES];
static struct steps by[SCHEDULES];

/* Told beside an input that fails. */
static void tell_first(void)
{
    fprintf(stderr, "  it is compared with what was left by the writer's schedule:");
    for (size_t i = 0; i < by[0].n; i++)
        fprintf(stderr, " %lu", (unsigned long)by[0].threads[i]);
    fprintf(stderr, "\n");
}

static int is_one_file(const struct file *file)
{
    return file->number == 0 || file->number == 11;
}

static int fills_rooms(const struct file *file)
{
    return is_one_file(file) || file->number == 10;
}

/* How many numbers of evidence the answer tells. */
static size_t evidence_of(const struct file *file)
{
    return file->number == 10 || file->number == 11 ? file->answer[3] : 0;
}

/* Just what is asked, or more. */
static size_t some_more(size_t asked)
{
    return chance(&drawn, 50) ? asked : asked + 1 + below(&drawn, MORE);
}

/* The rooms must hold this file, and after it what was lent. */
static void must_hold_file(const struct file *file, size_t rows)
{
    memcpy(must_hold(&answer), file->answer, sizeof file->answer);
    if (!fills_rooms(file))
        return;
    memcpy(must_hold(&relation), file->relation, relation_words(rows) * sizeof *file->relation);
    memcpy(must_hold(&generations), file->generations, rows * sizeof *file->generations);
}

/* Takes down what a review left. */
static void take_down(struct file *file, const uint32_t *r, const uint32_t *g, const uint32_t *e, const uint32_t *a, size_t rows)
{
    memcpy(file->answer, a, sizeof file->answer);
    memcpy(file->relation, r, relation_words(rows) * sizeof *r);
    memcpy(file->generations, g, rows * sizeof *g);
    size_t n = evidence_of(file);
    if (n > evidence_numbers(rows))
        fail("how many numbers of evidence there are", 3, n, evidence_numbers(rows));
    memcpy(file->evidence, e, n * sizeof *e);
    memcpy(must_hold(&evidence), e, n * sizeof *e);
}

/* Reviews by one schedule. Where this file or the first is that of 0 or 11, both must be the same. The first itself is only held to its junk. */
static void review_by(const struct tables *tables, const struct steps *by, const struct file *first, struct file *file)
{
    size_t rows = rows_of(tables), more[4] = {relation_words(rows), rows, evidence_numbers(rows), ANSWER};
    for (int i = 0; i < 4; i++)
        more[i] = some_more(more[i]);
    open_call("probe_review");
    const uint32_t *c = lend_numbers(&commands, tables->commands, tables->numbers), *l = lend_numbers(&lengths, tables->lengths, tables->threads);
    const uint32_t *s = lend_numbers(&schedule, by->threads, by->n);
    uint32_t *r = lend_places(&relation, more[0]), *g = lend_places(&generations, more[1]), *e = lend_places(&evidence, more[2]), *a = lend_places(&answer, more[3]);
    is_called = 1;
    file->number = probe_review(c, tables->numbers, l, tables->threads, s, by->n, r, more[0], g, more[1], e, more[2], a, more[3]);
    is_called = 0;
    calls++;
    if (file->number > 11 || (file->number >= 1 && file->number <= 6))
        fail("of a legal complete schedule, the verdict", 0, file->number, 0);
    take_down(file, r, g, e, a, rows);
    int is_same = is_one_file(first) || is_one_file(file);
    if (is_same && file->number != first->number)
        fail("by another schedule of the program, the verdict", 0, file->number, first->number);
    must_hold_file(is_same ? first : file, rows);
    close_call();
}

/* ---- several schedules of one program */

/* The writer's, from its door. */
static void writers_schedule(const struct tables *tables, struct steps *by)
{
    size_t rows = rows_of(tables), room = some_more(rows), told = some_more(ANSWER);
    open_call("probe_schedule");
    const uint32_t *c = lend_numbers(&commands, tables->commands, tables->numbers), *l = lend_numbers(&lengths, tables->lengths, tables->threads);
    uint32_t *s = lend_places(&schedule, room), *a = lend_places(&answer, told);
    is_called = 1;
    uint32_t refusal = probe_schedule(c, tables->numbers, l, tables->threads, s, room, a, told);
    is_called = 0;
    if (refusal != 0)
        fail("of tables that keep the rules, the refusal", 0, refusal, 0);
    by->n = a[2];
    if (by->n > rows)
        fail("the length of the schedule", 2, a[2], rows);
    memcpy(by->threads, s, by->n * sizeof *s);
    memcpy(must_hold(&schedule), s, by->n * sizeof *s);
    memcpy(must_hold(&answer), a, 4 * sizeof *a);
    close_call();
}

static int same_steps(const struct steps *one, const struct steps *other)
{
    return one->n == other->n && memcmp(one->threads, other->threads, one->n * sizeof *one->threads) == 0;
}

/* How many of so many schedules are no repetition of one before. */
static unsigned long count_distinct(int n)
{
    unsigned long count = 0;
    for (int i = 0; i < n; i++) {
        int earlier = 0;
        while (earlier < i && !same_steps(&by[earlier], &by[i]))
            earlier++;
        count += earlier == i;
    }
    return count;
}

/* By random choice, or eagerly: random choice seldom lets one thread run far ahead of the others. */
static void another_schedule(const struct tables *tables, struct steps *by)
{
    by->n = chance(&drawn, 50) ? legal_schedule(&drawn, tables, by->threads) : eager_schedule(&drawn, tables, by->threads);
}

/* Reviews by the writer's schedule and then by others; answers by how many. Where no file is demanded to be one, fewer show it. */
static int review_by_all(const struct tables *tables)
{
    writers_schedule(tables, &by[0]);
    review_by(tables, &by[0], &files[0], &files[0]);
    int n = is_one_file(&files[0]) ? SCHEDULES : FEWER;
    for (int i = 1; i < n; i++) {
        another_schedule(tables, &by[i]);
        review_by(tables, &by[i], &files[0], &files[i]);
    }
    return n;
}

/* ---- what came of it */

/* What makes agreement worth trying: a barrier that more come to than one generation takes, and accesses of different threads that conflict. */
static void look_at(const struct tables *tables, int *again, int *conflicts)
{
    uint32_t counted[BARRIERS] = {0};
    size_t rows = rows_of(tables), next = 0;
    *again = *conflicts = 0;
    for (size_t t = 0; t < tables->threads; t++) {
        size_t first = next;
        next += tables->lengths[t];
        for (size_t i = first; i < next; i++) {
            const uint32_t *row = tables->commands + 3 * i;
            if (row[0] >= ARRIVE)
                *again |= ++counted[row[1]] > row[2];
            for (size_t j = next; j < rows && !*conflicts; j++)
                *conflicts = conflict(tables, i, j);
        }
    }
}

static void mark_one_file(const struct tables *tables, int n)
{
    int again, conflicts, other = 0;
    look_at(tables, &again, &conflicts);
    for (int i = 1; i < n; i++)
        other |= memcmp(files[i].evidence, files[0].evidence, evidence_of(&files[0]) * sizeof *files[0].evidence) != 0;
    unsigned long differ = count_distinct(n);
    programs++;
    distinct += differ;
    other_evidence += (unsigned long)other;
    marked[DIFFER] += differ > 1;
    marked[NOT_PLAIN] += again || conflicts;
    marked[IN_ORDER] += files[0].number == 0 && again && conflicts;
    marked[AGAIN] += files[0].number == 11 && again;
    marked[LONG] += rows_of(tables) > 100;
    marked[ALL_THREADS] += tables->threads == THREADS;
    marked[PAST_SIXTEEN] += files[0].answer[2] > KEPT;
}

/* How much evidence there is, at 3 of the answer, does not belong to the file. */
static int same_file(const struct file *one, const struct file *other, size_t rows)
{
    return memcmp(one->answer, other->answer, 3 * sizeof *one->answer) == 0 && memcmp(one->answer + 4, other->answer + 4, (ANSWER - 4) * sizeof *one->answer) == 0 &&
           memcmp(one->relation, other->relation, relation_words(rows) * sizeof *one->relation) == 0 &&
           memcmp(one->generations, other->generations, rows * sizeof *one->generations) == 0;
}

/* What the schedules of a program did where none gets 0 or 11. 9 never comes beside 10: how many come to a barrier with one count decides it, whatever the schedule. */
static void mark_excepted(size_t rows, int n)
{
    int had[16] = {0}, two_files = 0;
    for (int i = 0; i < n; i++) {
        had[files[i].number] = 1;
        for (int j = 0; j < i; j++)
            two_files |= files[i].number == 10 && files[j].number == 10 && !same_file(&files[i], &files[j], rows);
    }
    tens += (unsigned long)had[10];
    marked[TWO_FILES] += (unsigned long)two_files;
    marked[TEN_AND_7] += had[10] && had[7];
    marked[TEN_AND_8] += had[10] && had[8];
}

/* ---- two spellings */

struct spelling {
    size_t n, more; /* `more`: how much longer its report room is than it has to be */
    uint8_t bytes[MOST_TEXT];
};

/* Their blanks differ, and so do the lengths of their report rooms. */
static void spell_twice(struct spelling *one, struct spelling *other)
{
    uint32_t blanks = below(&drawn, 4);
    one->n = spell_text(&drawn, &program, blanks, one->bytes);
    do {
        blanks = 1 + below(&drawn, 4);
        other->n = spell_text(&drawn, &program, blanks, other->bytes);
    } while (other->n == one->n && memcmp(other->bytes, one->bytes, one->n) == 0);
    one->more = chance(&drawn, 50) ? 0 : below(&drawn, MORE);
    other->more = (one->more + 1 + below(&drawn, MORE - 1)) % MORE;
}

/* Where so many lines end. */
static size_t end_of_lines(const uint8_t *bytes, size_t room, size_t lines)
{
    size_t n = 0;
    for (size_t found = 0; found < lines; n++) {
        if (n == room)
            fail("how many lines are printed", 0, found, lines);
        found += bytes[n] == '\n';
    }
    return n;
}

/* The report that says what a review left. */
static size_t report_of(const struct file *file, char *front)
{
    static struct review told;
    told.verdict.number = file->number;
    told.verdict.p = file->answer[0];
    told.verdict.q = file->answer[1];
    told.sheet.total = file->answer[2];
    memcpy(told.sheet.pairs, file->answer + 4, sizeof told.sheet.pairs);
    return print_report(&told, front);
}

/* One of the two doors for texts, how long a room it asks for, and how many lines it prints. */
struct text_door {
    const char *name;
    uint32_t (*review)(const uint8_t *text, size_t text_len, uint8_t *report, size_t report_len);
    size_t room, lines;
};

/* Reviews a spelling. What is printed must begin with so many bytes that are held; it is held from then on. After it the room must hold its junk. Answers its length. */
static size_t print_of(const struct text_door *door, const struct spelling *spelling, uint32_t number, uint8_t *held, size_t known)
{
    size_t room = door->room + spelling->more;
    open_call(door->name);
    const uint8_t *t = lend_text(&text, spelling->bytes, spelling->n);
    uint8_t *r = lend_report(&report, room);
    is_called = 1;
    uint32_t told = door->review(t, spelling->n, r, room);
    is_called = 0;
    calls++;
    if (told != number)
        fail("of a spelling of the program, the number", 0, told, number);
    size_t n = end_of_lines(r, room, door->lines);
    memcpy(must_hold(&report), r, n);
    memcpy(must_hold(&report), held, known);
    close_call();
    memcpy(held, r, n);
    return n;
}

/* Both spellings get the number of the review by the writer's schedule, its report, and the same evidence. */
static void review_texts(const struct file *file)
{
    static struct spelling one, other;
    static uint8_t held[PRINTED + MORE];
    size_t kept = file->answer[2] < KEPT ? file->answer[2] : KEPT, shown = file->number == 10 ? 2 : file->number == 11 ? 4 * kept : 0;
    struct text_door plainly = {"review_text", review_text, REPORT, 2 + kept}, with_evidence = {"review_text_evidence", review_text_evidence, PRINTED, 2 + kept + shown};
    spell_twice(&one, &other);
    size_t n = report_of(file, (char *)held);
    print_of(&plainly, &one, file->number, held, n);
    print_of(&plainly, &other, file->number, held, n);
    n = print_of(&with_evidence, &one, file->number, held, n);
    print_of(&with_evidence, &other, file->number, held, n);
    spelled[file->number]++;
}

/* ---- the programs */

static void draw_program(void)
{
    uint32_t which = below(&drawn, 1000);
    if (which < 3)
        big_program(&drawn, &program);
    else if (which < 8)
        ordered_program(&drawn, THREADS, ROWS, &program);
    else if (which < 500)
        ordered_program(&drawn, 5, chance(&drawn, 90) ? 24 : 60, &program);
    else if (which < 800)
        faulty_program(&drawn, 8, chance(&drawn, 90) ? 14 : 60, &program);
    else
        small_program(&drawn, chance(&drawn, 90) ? 16 : 60, &program);
}

static void try_number(void)
{
    draw_program();
    struct tables tables = {program.commands, program.numbers, program.lengths, program.threads};
    int n = review_by_all(&tables);
    got[files[0].number]++;
    if (is_one_file(&files[0]))
        mark_one_file(&tables, n);
    else
        mark_excepted(rows_of(&tables), n);
    if (chance(&drawn, 25))
        review_texts(&files[0]);
}

/* ---- figures */

static void demand(const char *what, unsigned long came, unsigned long asked)
{
    if (came >= asked)
        return;
    fprintf(stderr, "files: seed %llu: %s: %lu programs, under %lu\n", input.seed, what, came, asked);
    exit(1);
}

static void demand_all(void)
{
    static const uint32_t numbers[] = {0, 7, 8, 9, 10, 11};
    char name[40];
    demand("0", got[0], programs / 5);
    demand("11", got[11], programs / 5);
    for (int m = 0; m < MARKS; m++)
        demand(marks[m], marked[m], parts[m] > 0 ? programs * parts[m] / 100 : times[m]);
    for (size_t i = 0; i < sizeof numbers / sizeof *numbers; i++) {
        sprintf(name, "%lu, spelled twice", (unsigned long)numbers[i]);
        demand(name, spelled[numbers[i]], 10);
    }
}

/* One line. tests/tools.sh adds up the figures of two processes: no other number may stand in it by itself. */
static void print_figures(void)
{
    unsigned long texts = 0;
    for (int v = 0; v < 16; v++)
        texts += spelled[v];
    printf("%lu programs, %lu clean and %lu with races, by %lu schedules that differ, one file each; %lu programs spelled twice, one report each; %lu calls;", programs, got[0], got[11],
           distinct, texts, calls);
    printf(" excepted: %lu programs with reuse faults, %lu of them with two files, and %lu with races and different evidence\n", tens, marked[TWO_FILES], other_evidence);
}

/* With FILES_DETAILS set: how often each verdict and each mark came. */
static void print_details(void)
{
    for (int v = 0; v < 16; v++)
        if (got[v] > 0)
            printf("  %d by the writer's schedule: %lu programs, %lu of them spelled twice\n", v, got[v], spelled[v]);
    for (int m = 0; m < MARKS; m++)
        printf("  %s: %lu programs\n", marks[m], marked[m]);
}

static void make_all(void)
{
    make_lent(&commands, "commands", 4 * MOST_NUMBERS);
    make_lent(&lengths, "lengths", 4 * MOST_LENGTHS);
    make_lent(&schedule, "schedule", 4 * (ROWS + MORE));
    make_lent(&relation, "relation", 4 * (WORDS + MORE));
    make_lent(&generations, "generations", 4 * (ROWS + MORE));
    make_lent(&evidence, "evidence", 4 * (EVIDENCE + MORE));
    make_lent(&answer, "answer", 4 * (ANSWER + MORE));
    make_lent(&text, "text", MOST_TEXT);
    make_lent(&report, "report", PRINTED + MORE);
}

int main(int argc, char **argv)
{
    if (argc != 3 && argc != 4) {
        fprintf(stderr, "usage: files SEED COUNT [FIRST]\n");
        return 2;
    }
    input.test = "files";
    input.seed = strtoull(argv[1], NULL, 10);
    unsigned long count = strtoul(argv[2], NULL, 10);
    unsigned long long first = argc == 4 ? strtoull(argv[3], NULL, 10) : 0, most = 100 + 10 * (unsigned long long)count;
    tell_more = tell_first;
    make_all();
    watch_touches();
    for (unsigned long long i = 0; programs < count && i < most; i++) {
        begin_input(first + i);
        try_number();
    }
    print_figures();
    if (getenv("FILES_DETAILS") != NULL)
        print_details();
    demand("0 or 11", programs, count);
    if (argc == 3)
        demand_all();
    return 0;
}
