/*
 * The doors of both headers, each in two builds: tests/same links this file in place of the archives, so that the tests of seeded inputs (compare.c, files.c, warps.c) call both builds
 * wherever they call a door. The functions of the build here have `now_` put before their names, those of the older one `before_`.
 *
 * The older build gets copies of all rooms, made before either is called. After both calls the numbers returned must be the same, and so must every byte of every room, those that are to be
 * kept too. What is lent for reading stands on pages that cannot be written, so both read it there.
 *
 * The first difference is told with the seed and the number of the input, and ends the test with status 1. At its end the test prints how many inputs and calls were compared, and how often
 * each answer came at each door.
 */
#include <stdio.h>
#include <stdlib.h>
#include <string.h>

#include "../include/desk.h"
#include "../include/probe.h"
#include "call.h"

extern __typeof__(probe_review) now_probe_review, before_probe_review;
extern __typeof__(probe_schedule) now_probe_schedule, before_probe_schedule;
extern __typeof__(probe_read) now_probe_read, before_probe_read;
extern __typeof__(probe_close) now_probe_close, before_probe_close;
extern __typeof__(probe_warp) now_probe_warp, before_probe_warp;
extern __typeof__(review_text) now_review_text, before_review_text;
extern __typeof__(review_text_evidence) now_review_text_evidence, before_review_text_evidence;

enum { MOST_ROOMS = 4, MOST_BYTES = 1 << 17, ANSWERS = 19 };
enum door { REVIEW, SCHEDULE, READING, CLOSING, WARP, TEXTS, EXHIBITS, DOORS };

static const char *const doors[DOORS] = {"probe_review", "probe_schedule", "probe_read", "probe_close", "probe_warp", "review_text", "review_text_evidence"};

/* A room of the call under way: where the build here writes, and where the older one does. */
struct room {
    const char *name;
    const uint8_t *now;
    size_t bytes, unit;
    uint32_t before[MOST_BYTES / 4];
};

static struct room rooms[MOST_ROOMS];
static size_t lent;
static unsigned long inputs, calls, called[DOORS], answered[DOORS][ANSWERS];
static unsigned long long bytes;

/* ---- one call */

/* Answers the copy for the older build. */
static void *copy(const char *name, const void *room, size_t length, size_t unit)
{
    struct room *it = &rooms[lent++];
    if (length > MOST_BYTES) {
        fprintf(stderr, "same: no room for a copy of %lu bytes\n", (unsigned long)length);
        exit(2);
    }
    it->name = name;
    it->now = room;
    it->bytes = length;
    it->unit = unit;
    memcpy(it->before, room, length);
    return it->before;
}

static uint32_t *copy_numbers(const char *name, const uint32_t *room, size_t n)
{
    return copy(name, room, 4 * n, 4);
}

static uint8_t *copy_report(const uint8_t *room, size_t n)
{
    return copy("report", room, n, 1);
}

static void compare_room(const struct room *room)
{
    const uint8_t *before = (const uint8_t *)room->before;
    char what[60];
    size_t at = 0;
    bytes += room->bytes;
    if (memcmp(room->now, before, room->bytes) == 0)
        return;
    while (room->now[at] == before[at])
        at++;
    at = at / room->unit * room->unit;
    uint32_t found = 0, expected = 0;
    memcpy(&found, room->now + at, room->unit);
    memcpy(&expected, before + at, room->unit);
    sprintf(what, "unlike before, %s", room->name);
    fail(what, (long)(at / room->unit), found, expected);
}

static void print_door(enum door door)
{
    const char *between = ": ";
    printf("    %s", doors[door]);
    for (int a = 0; a < ANSWERS; a++)
        if (answered[door][a] > 0) {
            printf("%s%d x %lu", between, a, answered[door][a]);
            between = ", ";
        }
    printf("\n");
}

static void print_figures(void)
{
    printf("  seed %llu: %lu inputs, %lu calls of both builds and %llu bytes of rooms compared\n", input.seed, inputs, calls, bytes);
    for (int d = 0; d < DOORS; d++)
        if (called[d] > 0)
            print_door((enum door)d);
}

static void count_call(enum door door, uint32_t answer)
{
    static unsigned long long last;
    if (calls++ == 0)
        atexit(print_figures);
    inputs += inputs == 0 || input.number != last;
    last = input.number;
    if (answer >= ANSWERS)
        fail("the answer, which no door has,", 0, answer, ANSWERS - 1);
    called[door]++;
    answered[door][answer]++;
}

/* Both builds have been called; answers what they answered. */
static uint32_t same(enum door door, uint32_t now, uint32_t before)
{
    size_t rooms_now = lent;
    lent = 0;
    if (now != before)
        fail("unlike before, the number returned", 0, now, before);
    for (size_t i = 0; i < rooms_now; i++)
        compare_room(&rooms[i]);
    count_call(door, now);
    return now;
}

/* ---- the doors */

uint32_t probe_review(const uint32_t *commands, size_t commands_len, const uint32_t *lengths, size_t lengths_len, const uint32_t *schedule, size_t schedule_len,
                      uint32_t *relation, size_t relation_len, uint32_t *generations, size_t generations_len, uint32_t *evidence, size_t evidence_len,
                      uint32_t *answer, size_t answer_len)
{
    uint32_t *r = copy_numbers("relation", relation, relation_len), *g = copy_numbers("generations", generations, generations_len);
    uint32_t *e = copy_numbers("evidence", evidence, evidence_len), *a = copy_numbers("answer", answer, answer_len);
    uint32_t before = before_probe_review(commands, commands_len, lengths, lengths_len, schedule, schedule_len, r, relation_len, g, generations_len, e, evidence_len, a, answer_len);
    uint32_t now = now_probe_review(commands, commands_len, lengths, lengths_len, schedule, schedule_len, relation, relation_len, generations, generations_len, evidence, evidence_len,
                                    answer, answer_len);
    return same(REVIEW, now, before);
}

uint32_t probe_schedule(const uint32_t *commands, size_t commands_len, const uint32_t *lengths, size_t lengths_len, uint32_t *room, size_t room_len, uint32_t *answer, size_t answer_len)
{
    uint32_t *r = copy_numbers("room", room, room_len), *a = copy_numbers("answer", answer, answer_len);
    uint32_t before = before_probe_schedule(commands, commands_len, lengths, lengths_len, r, room_len, a, answer_len);
    uint32_t now = now_probe_schedule(commands, commands_len, lengths, lengths_len, room, room_len, answer, answer_len);
    return same(SCHEDULE, now, before);
}

uint32_t probe_read(const uint8_t *text, size_t text_len, uint32_t *commands, size_t commands_len, uint32_t *lengths, size_t lengths_len, uint32_t *answer, size_t answer_len)
{
    uint32_t *c = copy_numbers("commands", commands, commands_len), *l = copy_numbers("lengths", lengths, lengths_len), *a = copy_numbers("answer", answer, answer_len);
    uint32_t before = before_probe_read(text, text_len, c, commands_len, l, lengths_len, a, answer_len);
    uint32_t now = now_probe_read(text, text_len, commands, commands_len, lengths, lengths_len, answer, answer_len);
    return same(READING, now, before);
}

uint32_t probe_close(uint32_t *relation, size_t relation_len, uint32_t rows)
{
    uint32_t *r = copy_numbers("relation", relation, relation_len);
    uint32_t before = before_probe_close(r, relation_len, rows);
    uint32_t now = now_probe_close(relation, relation_len, rows);
    return same(CLOSING, now, before);
}

uint32_t probe_warp(const uint32_t *statements, size_t statements_len, const uint32_t *expressions, size_t expressions_len, uint32_t lanes, uint32_t *cells, size_t cells_len,
                    uint64_t steps, uint32_t *answer, size_t answer_len)
{
    uint32_t *c = copy_numbers("cells", cells, cells_len), *a = copy_numbers("answer", answer, answer_len);
    uint32_t before = before_probe_warp(statements, statements_len, expressions, expressions_len, lanes, c, cells_len, steps, a, answer_len);
    uint32_t now = now_probe_warp(statements, statements_len, expressions, expressions_len, lanes, cells, cells_len, steps, answer, answer_len);
    return same(WARP, now, before);
}

uint32_t review_text(const uint8_t *text, size_t text_len, uint8_t *report, size_t report_len)
{
    uint8_t *r = copy_report(report, report_len);
    uint32_t before = before_review_text(text, text_len, r, report_len);
    uint32_t now = now_review_text(text, text_len, report, report_len);
    return same(TEXTS, now, before);
}

uint32_t review_text_evidence(const uint8_t *text, size_t text_len, uint8_t *report, size_t report_len)
{
    uint8_t *r = copy_report(report, report_len);
    uint32_t before = before_review_text_evidence(text, text_len, r, report_len);
    uint32_t now = now_review_text_evidence(text, text_len, report, report_len);
    return same(EXHIBITS, now, before);
}
