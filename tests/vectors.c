/*
 * Runs the cases of a file through the doors of include/probe.h and prints a line for each call: the verdict; the numbers found and the rest of the text, or
 * the total and the kept pairs; and what every place of every lent room holds afterwards. Each room is soiled before it is lent, so that what was kept can be told
 * from what was written. What is printed for tests/vectors/cases is compared with tests/vectors/answers, which was worked out from documents 01 and 02, and where
 * these are open from docs/DECISIONS.md, apart from the code.
 *
 * Three programs are reviewed by several legal complete schedules (2026-10). A, which is clean, and B, which races, leave one file by all of theirs. C leaves two by
 * 0 1 2 3 and 0 2 1 3, both with verdict 10: which commands meet in one generation hangs on the schedule offered, and so do the pairs.
 *
 * A case is a line:
 *     NAME: COMMANDS / LENGTHS / SIZES               the schedule writer, and the review of what it wrote
 *     NAME: COMMANDS / LENGTHS / SIZES / SCHEDULE    the review of a schedule that is given
 *     "NAME: C L: TEXT                               the reader
 * SIZES are five: how many numbers the commands are, how many the lengths, each list being repeated where it is shorter; and how many places the rooms have for
 * the schedule, the relation and the generations. A sixth is how many the room for evidence has, which is a full one else; then it is printed how many entries were told
 * and how many places were kept. The entries themselves are left open by document 02: tests/probe.c and tests/compare.c hold them to its words.
 * C and L are how many places the rooms have for the commands, counted in numbers, and for the lengths.
 * TEXT begins after one space and is written in pieces: `\DDD` is the byte of that decimal number, `&` parts pieces, and a piece that begins with `N*` stands N
 * times. So `\010` is a newline, and `512*read 0;&return` has 512 commands.
 */
#include <stdio.h>
#include <stdlib.h>
#include <string.h>

#include "../include/probe.h"

enum { COMMANDS = 1600, LENGTHS = 70, STEPS = 520, RELATION = 8200, GENERATIONS = 520, EVIDENCE = 16400, TEXT = 32800, ANSWER = 36, SHOWN = 40, KEPT = 16 };

/* A room, what it is soiled with, and how many of its places are lent. */
struct room {
    uint32_t dirt;
    size_t places, lent;
    uint32_t cells[EVIDENCE];
};

static struct room relation = {.dirt = 0xDEAD0000, .places = RELATION}, generations = {.dirt = 0xBEEF0000, .places = GENERATIONS};
static struct room schedule = {.dirt = 0xFEED0000, .places = STEPS}, evidence = {.dirt = 0xACED0000, .places = EVIDENCE};
static struct room commands = {.dirt = 0xC0DE0000, .places = COMMANDS}, lengths = {.dirt = 0xFACE0000, .places = LENGTHS};
static uint32_t answer[ANSWER];

static uint32_t stain(const struct room *room, size_t place)
{
    return room->dirt | (uint32_t)(place % 65536);
}

/* Lends so many of a room's places, soiled. */
static void soil(struct room *room, uint32_t size)
{
    room->lent = size < room->places ? size : room->places;
    for (size_t i = 0; i < room->lent; i++)
        room->cells[i] = stain(room, i);
}

/* How many places there are up to the last that was written. */
static size_t written(const struct room *room)
{
    size_t n = room->lent;
    while (n > 0 && room->cells[n - 1] == stain(room, n - 1))
        n--;
    return n;
}

/* The words that were written, by a sum if they are many, and how many places after them were kept. */
static void show(const char *name, const struct room *room)
{
    size_t n = written(room);
    printf("; %s", name);
    if (n > SHOWN) {
        uint32_t sum = 0;
        for (size_t i = 0; i < n; i++)
            sum = sum * 31 + room->cells[i];
        printf(" filled %zu sum %u", n, sum);
    } else if (n > 0) {
        printf(" filled");
        for (size_t i = 0; i < n; i++)
            printf(" %u", room->cells[i]);
    }
    printf(" kept %zu", room->lent - n);
}

/* ---- the fields of a line */

static int is_digit(char c)
{
    return c >= '0' && c <= '9';
}

/* The numbers of a field, as 32 bits hold them, as far as they fit, and how many they are. */
static size_t numbers(const char *from, const char *end, uint32_t *list, size_t most)
{
    size_t n = 0;
    while (from < end && n < most) {
        if (!is_digit(*from)) {
            from++;
            continue;
        }
        for (list[n] = 0; from < end && is_digit(*from); from++)
            list[n] = list[n] * 10 + (uint32_t)(*from - '0');
        n++;
    }
    return n;
}

/* The place after the next mark, or the end. */
static const char *after(const char *from, const char *end, char mark)
{
    const char *found = memchr(from, mark, (size_t)(end - from));
    return found == NULL ? end : found + 1;
}

/* A list of the size asked, repeated where it is shorter. */
static size_t table(const char *from, const char *end, uint32_t *list, size_t size, size_t most)
{
    size_t n = numbers(from, end, list, most), all = size < most ? size : most;
    for (size_t i = n; i < all; i++)
        list[i] = list[i - n];
    return all;
}

/* ---- tables */

struct tables {
    const char *name;
    int name_size;
    uint32_t rows[COMMANDS], threads[LENGTHS], sizes[6];
    size_t rows_size, threads_size, sizes_size;
};

/* The total, and then all sixteen places: those that hold a pair, and those that should be 0 and are not. */
static void show_sheet(void)
{
    printf(" total %u", answer[2]);
    for (uint32_t i = 0; i < KEPT; i++) {
        uint32_t first = answer[4 + 2 * i], second = answer[5 + 2 * i];
        if (i < answer[2])
            printf(" pair %u %u", first, second);
        else if (first != 0 || second != 0)
            printf(" stray %u %u", first, second);
    }
}

/* Of the room for evidence: what a case of six sizes asks for, and in any case what should not be. */
static void show_evidence(const struct tables *t, uint32_t verdict)
{
    size_t n = written(&evidence);
    if (t->sizes_size == 6)
        printf("; evidence %u kept %zu", answer[3], evidence.lent - n);
    if (n != answer[3] || (n > 0 && verdict != 10 && verdict != 11))
        printf("; stray evidence %zu of %u", n, answer[3]);
}

static void reviews(const struct tables *t, const uint32_t *steps, size_t n)
{
    soil(&relation, t->sizes[3]);
    soil(&generations, t->sizes[4]);
    soil(&evidence, t->sizes_size == 6 ? t->sizes[5] : EVIDENCE);
    uint32_t verdict = probe_review(t->rows, t->rows_size, t->threads, t->threads_size, steps, n, relation.cells, relation.lent,
                                    generations.cells, generations.lent, evidence.cells, evidence.lent, answer, ANSWER);
    printf("%.*s reviewed %u %u %u", t->name_size, t->name, verdict, answer[0], answer[1]);
    show_sheet();
    show("generations", &generations);
    show("relation", &relation);
    show_evidence(t, verdict);
    printf("\n");
}

static void writes(const struct tables *t)
{
    soil(&schedule, t->sizes[2]);
    uint32_t verdict = probe_schedule(t->rows, t->rows_size, t->threads, t->threads_size, schedule.cells, schedule.lent, answer, ANSWER);
    size_t n = answer[2];
    printf("%.*s wrote %u %u %u length %zu", t->name_size, t->name, verdict, answer[0], answer[1], n);
    show("schedule", &schedule);
    printf("\n");
    if (n <= schedule.lent)
        reviews(t, schedule.cells, n);
}

static void of_tables(const char *from, const char *end)
{
    static struct tables t;
    uint32_t steps[20];
    const char *named = after(from, end, ':'), *first = after(named, end, '/'), *second = after(first, end, '/');
    const char *third = after(second, end, '/');
    t.name = from;
    t.name_size = (int)(named - from);
    t.sizes_size = numbers(second, third, t.sizes, 6);
    if (t.sizes_size < 5) {
        fprintf(stderr, "vectors: a case without five sizes: %.*s\n", t.name_size, t.name);
        exit(2);
    }
    t.rows_size = table(named, first, t.rows, t.sizes[0], COMMANDS);
    t.threads_size = table(first, second, t.threads, t.sizes[1], LENGTHS);
    if (third[-1] == '/')
        reviews(&t, steps, numbers(third, end, steps, 20));
    else
        writes(&t);
}

/* ---- texts */

static uint8_t text[TEXT];

/* A piece once, from a place of the text on, as far as it fits; and the place after it. */
static size_t once(const char *from, const char *end, size_t at)
{
    while (from < end && at < TEXT) {
        uint32_t byte = (uint8_t)*from;
        int spelt = *from == '\\' && end - from >= 4;
        if (spelt)
            numbers(from + 1, from + 4, &byte, 1);
        text[at++] = (uint8_t)byte;
        from += spelt ? 4 : 1;
    }
    return at;
}

/* The text that a line writes, and how long it is. */
static size_t spread(const char *from, const char *end)
{
    size_t at = 0;
    while (from < end) {
        const char *next = after(from, end, '&'), *last = next[-1] == '&' ? next - 1 : next, *starred = after(from, last, '*');
        uint32_t times = 1;
        if (starred[-1] == '*') {
            numbers(from, starred, &times, 1);
            from = starred;
        }
        for (uint32_t k = 0; k < times; k++)
            at = once(from, last, at);
        from = next;
    }
    return at;
}

static void of_text(const char *from, const char *end)
{
    const char *named = after(from, end, ':'), *sized = after(named, end, ':');
    uint32_t sizes[2], sum = 0;
    if (numbers(named, sized, sizes, 2) != 2) {
        fprintf(stderr, "vectors: a text without two sizes: %.*s\n", (int)(named - from), from);
        exit(2);
    }
    size_t n = spread(after(sized, end, ' '), end);
    soil(&commands, sizes[0]);
    soil(&lengths, sizes[1]);
    uint32_t number = probe_read(text, n, commands.cells, commands.lent, lengths.cells, lengths.lent, answer, ANSWER);
    printf("%.*s read %u %u %u", (int)(named - from), from, number, answer[0], answer[1]);
    if (number == 0)
        printf(" commands %u threads %u", answer[2], answer[3]);
    printf("; rest %zu", n - answer[4]);
    for (size_t i = answer[4]; i < n; i++)
        sum = sum * 31 + text[i];
    if (answer[4] < n)
        printf(" sum %u", sum);
    show("commands", &commands);
    show("lengths", &lengths);
    printf("\n");
}

int main(int argc, char **argv)
{
    static char line[4096];
    FILE *file = argc == 2 ? fopen(argv[1], "r") : NULL;
    if (file == NULL) {
        fprintf(stderr, "usage: vectors CASES\n");
        return 2;
    }
    while (fgets(line, sizeof line, file) != NULL) {
        const char *end = line + strcspn(line, "\n");
        if (*end == '\0') {
            fprintf(stderr, "vectors: a line is cut or has no newline\n");
            return 2;
        }
        if (line[0] == '"')
            of_text(line + 1, end);
        else
            of_tables(line, end);
    }
    fclose(file);
    return 0;
}
