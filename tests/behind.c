/*
 * The doors of include/probe.h that tests/vectors.c calls, with the reference of documents 01 and 02 (reference.c) behind them in place of the archive: so the cases of tests/vectors, which were worked
 * out apart from both, are put to the reference too. It fills the rooms as the header says.
 *
 * Of evidence the reference writes none: the documents leave open which schedules it is. Here that of races is made from what reaches what, since the cases tell how many numbers it has; it is held to
 * its words (evidence.c). For a reuse fault none is written, which no case asks for.
 */
#include <stdio.h>
#include <stdlib.h>
#include <string.h>

#include "../include/probe.h"
#include "evidence.h"

enum { ANSWER = 36 };

static struct review judged;

/* ---- the review */

/* "Bit j mod 32 of word floor(j/32) in row i set exactly when i reaches j. Padding bits are 0 and later words keep their contents." */
static void put_relation(uint32_t *relation, size_t rows)
{
    size_t width = (rows + 31) / 32;
    memset(relation, 0, rows * width * sizeof *relation);
    for (size_t i = 0; i < rows; i++)
        for (size_t j = 0; j < rows; j++)
            if (judged.reaches[i][j])
                relation[i * width + j / 32] |= (uint32_t)1 << (j % 32);
}

/* Is a thread allowed to step, its next command not one that is held back? While `first` has not run, that is all that `second` reaches; then nothing is. */
static int may_go(const struct tables *tables, const struct state *state, uint32_t thread, int has_run, size_t second)
{
    return is_allowed(tables, state, thread) && (has_run || !judged.reaches[second][next_command(tables, state, thread)]);
}

/* A legal complete schedule in which `first` comes before `second`, of a program without reuse faults in which neither reaches the other. */
static void put_order(const struct tables *tables, size_t first, size_t second, uint32_t *steps)
{
    static uint32_t generations[ROWS];
    struct state state;
    int has_run = 0;
    start(&state);
    for (size_t s = 0; s < rows_of(tables); s++) {
        uint32_t thread = 0;
        while (thread < tables->threads && !may_go(tables, &state, thread, has_run, second))
            thread++;
        if (thread == tables->threads)
            return; /* what is left of the room is no schedule, and the check tells */
        has_run |= next_command(tables, &state, thread) == first;
        steps[s] = thread;
        step(tables, &state, thread, generations);
    }
}

/* "For each race kept on the sheet write two legal, complete schedules with the pair in opposite orders, end to end, x first before y first." Answers how many numbers. */
static size_t put_races(const struct tables *tables, uint32_t *evidence)
{
    size_t rows = rows_of(tables), kept = judged.sheet.total < KEPT ? judged.sheet.total : KEPT;
    for (size_t i = 0; i < kept; i++) {
        const uint32_t *pair = judged.sheet.pairs[i];
        put_order(tables, pair[0], pair[1], evidence + 2 * i * rows);
        put_order(tables, pair[1], pair[0], evidence + (2 * i + 1) * rows);
    }
    struct shown shown = check_evidence(tables, &judged, evidence, 2 * kept * rows);
    if (shown.flaw != NULL) {
        fprintf(stderr, "behind: the evidence of the reference: %s, at %lu\n", shown.flaw, (unsigned long)shown.at);
        exit(1);
    }
    return 2 * kept * rows;
}

static int fills_rooms(uint32_t number)
{
    return number == 0 || number == 10 || number == 11;
}

uint32_t probe_review(const uint32_t *commands, size_t commands_len, const uint32_t *lengths, size_t lengths_len, const uint32_t *schedule, size_t schedule_len, uint32_t *relation,
                      size_t relation_len, uint32_t *generations, size_t generations_len, uint32_t *evidence, size_t evidence_len, uint32_t *answer, size_t answer_len)
{
    struct tables tables = {commands, commands_len, lengths, lengths_len};
    struct rooms lent = {relation_len, generations_len, evidence_len};
    if (answer_len < ANSWER)
        return 14;
    review(&tables, schedule, schedule_len, lent, &judged);
    if (fills_rooms(judged.verdict.number)) {
        put_relation(relation, rows_of(&tables));
        memcpy(generations, judged.generations, rows_of(&tables) * sizeof *generations);
    }
    answer[0] = (uint32_t)judged.verdict.p;
    answer[1] = (uint32_t)judged.verdict.q;
    answer[2] = judged.sheet.total;
    answer[3] = judged.verdict.number == 11 ? (uint32_t)put_races(&tables, evidence) : 0;
    memcpy(answer + 4, judged.sheet.pairs, sizeof judged.sheet.pairs);
    return judged.verdict.number;
}

/* ---- the schedule writer and the reader */

uint32_t probe_schedule(const uint32_t *commands, size_t commands_len, const uint32_t *lengths, size_t lengths_len, uint32_t *room, size_t room_len, uint32_t *answer, size_t answer_len)
{
    static struct schedule written;
    struct tables tables = {commands, commands_len, lengths, lengths_len};
    if (answer_len < ANSWER)
        return 14;
    write_schedule(&tables, room_len, &written);
    memcpy(room, written.steps, written.length * sizeof *room);
    answer[0] = (uint32_t)written.verdict.p;
    answer[1] = (uint32_t)written.verdict.q;
    answer[2] = (uint32_t)written.length;
    answer[3] = 0;
    return written.verdict.number;
}

uint32_t probe_read(const uint8_t *text, size_t text_len, uint32_t *commands, size_t commands_len, uint32_t *lengths, size_t lengths_len, uint32_t *answer, size_t answer_len)
{
    static struct reading reading;
    if (answer_len < ANSWER)
        return 14;
    read_text(text, text_len, commands_len, lengths_len, &reading);
    if (reading.verdict.number != 0)
        reading.commands = reading.threads = 0;
    memcpy(commands, reading.rows, 3 * reading.commands * sizeof *commands);
    memcpy(lengths, reading.lengths, reading.threads * sizeof *lengths);
    answer[0] = (uint32_t)reading.verdict.p;
    answer[1] = (uint32_t)reading.verdict.q;
    answer[2] = (uint32_t)reading.commands;
    answer[3] = (uint32_t)reading.threads;
    answer[4] = (uint32_t)reading.rest;
    return reading.verdict.number;
}
