/*
 * Lengths past 32 bits, over pages that are mapped and stay empty. A length that is cut to 32 bits would look lawful, or short: each call here would then
 * be answered otherwise. Prints `huge: N answers, every one as expected`, or `huge: skipped` with the reason where the system gives no such mapping; the first
 * wrong answer ends it with status 1.
 */
#define _DEFAULT_SOURCE
#include <stdio.h>
#include <stdlib.h>
#include <string.h>
#include <sys/mman.h>

#include "../include/desk.h"
#include "../include/probe.h"

#define PAST ((size_t)1 << 32)
enum { ANSWER = 36 };

static unsigned long answers;
static uint32_t *huge; /* three times PAST numbers, all 0 before each group of calls */
static uint32_t answer[ANSWER], relation[2], generations[2], evidence[64], schedule[1], lengths[1];
static const uint32_t read_0[3] = {0, 0, 0}, write_0_twice[6] = {1, 0, 0, 1, 0, 0}, none[1] = {0}, one[1] = {1}, ones[2] = {1, 1}, both[2] = {0, 1};

/* What was returned, and the first numbers of the answer. */
static void expect(const char *what, uint32_t got, uint32_t returned, uint32_t first, uint32_t third)
{
    answers++;
    if (got == returned && answer[0] == first && answer[2] == third)
        return;
    printf("huge: %s: %u, place %u, %u; not %u, %u, %u\n", what, got, answer[0], answer[2], returned, first, third);
    exit(1);
}

static void try_tables(void)
{
    expect("2^32 rows", probe_review(huge, 3 * PAST, none, 1, none, 0, relation, 1, generations, 1, evidence, 32, answer, ANSWER), 1, 0, 0);
    expect("2^32 + 1 numbers", probe_review(huge, PAST + 1, none, 1, none, 0, relation, 1, generations, 1, evidence, 32, answer, ANSWER), 1, 0, 0);
    expect("2^32 rows to write", probe_schedule(huge, 3 * PAST, none, 1, schedule, 1, answer, ANSWER), 1, 0, 0);
    expect("2^32 + 1 threads", probe_review(none, 0, huge, PAST + 1, none, 0, relation, 1, generations, 1, evidence, 32, answer, ANSWER), 2, 0, 0);
    expect("2^32 + 1 threads to write", probe_schedule(none, 0, huge, PAST + 1, schedule, 1, answer, ANSWER), 2, 0, 0);
    expect("2^32 steps of none", probe_review(none, 0, none, 1, huge, PAST, relation, 1, generations, 1, evidence, 32, answer, ANSWER), 5, 0, 0);
    expect("2^32 + 1 steps of one", probe_review(read_0, 3, one, 1, huge, PAST + 1, relation, 1, generations, 1, evidence, 32, answer, ANSWER), 5, 1, 0);
}

static void try_rooms(void)
{
    expect("a relation room", probe_review(read_0, 3, one, 1, none, 1, huge, PAST, generations, 1, evidence, 32, answer, ANSWER), 0, 0, 0);
    expect("a generation room", probe_review(read_0, 3, one, 1, none, 1, relation, 1, huge + 1, PAST, evidence, 32, answer, ANSWER), 0, 0, 0);
    expect("a schedule room", probe_schedule(read_0, 3, one, 1, huge + 2, PAST, answer, ANSWER), 0, 0, 1);
    uint32_t got = probe_review(read_0, 3, one, 1, none, 1, relation, 1, generations, 1, evidence, 32, huge + 3, PAST);
    memcpy(answer, huge + 3, sizeof answer);
    expect("an answer room", got, 0, 0, 0);
    uint32_t bits = huge[0] == 1 && relation[0] == 1 && generations[0] == 0 && huge[1] == 0 && huge[2] == 0;
    expect("what the rooms hold", bits, 1, 0, 0);
    huge[0] = 3;
    expect("closing in a large room", probe_close(huge, PAST, 1), 1, 0, 0);
    expect("the bit that is left", huge[0], 1, 0, 0);
    expect("closing 2^32 - 1 rows", probe_close(huge, PAST, 0xffffffffu), 0, 0, 0);
    huge[0] = 0;
}

/* The only evidence that shows a race of two commands: each of the two first. */
static void try_evidence(void)
{
    const uint32_t both_ways[4] = {0, 1, 1, 0};
    uint32_t *kept = huge + 4;
    expect("an evidence room, nothing to show", probe_review(read_0, 3, one, 1, none, 1, relation, 1, generations, 1, huge, PAST, answer, ANSWER), 0, 0, 0);
    expect("what it holds", huge[0] == 0 && answer[3] == 0, 1, 0, 0);
    expect("an evidence room", probe_review(write_0_twice, 6, ones, 2, both, 2, relation, 2, generations, 2, huge, PAST, answer, ANSWER), 11, 0, 1);
    expect("what it holds now", memcmp(huge, both_ways, sizeof both_ways) == 0 && kept[0] == 0 && kept[60] == 0 && answer[3] == 4, 1, 0, 1);
    expect("an evidence room of 63", probe_review(write_0_twice, 6, ones, 2, both, 2, relation, 2, generations, 2, evidence, 63, answer, ANSWER), 4, 4, 0);
    memset(huge, 0, sizeof both_ways);
}

/* Skips in the kernel, and numbers 0 as expressions, would be run. */
static void try_warps(void)
{
    const uint32_t set_63[5] = {0, 1, 63, 0, 0}, seven[3] = {0, 7, 0};
    expect("2^32 numbers of statements", probe_warp(huge, PAST, none, 0, 1, evidence, 64, 9, answer, ANSWER), 17, 0, 0);
    expect("2^32 expressions", probe_warp(none, 0, huge, 3 * PAST, 1, evidence, 64, 9, answer, ANSWER), 17, 0, 0);
    expect("2^32 + 3 numbers of expressions", probe_warp(none, 0, huge, PAST + 3, 1, evidence, 64, 9, answer, ANSWER), 17, 0, 0);
    expect("a room for cells", probe_warp(set_63, 5, seven, 3, 1, huge, PAST, 9, answer, ANSWER), 0, 0, 1);
    expect("the cell in it", huge[63] == 7 && huge[62] == 0 && huge[64] == 0, 1, 0, 1);
    huge[63] = 0;
    uint32_t got = probe_warp(none, 0, none, 0, 1, evidence, 64, PAST, huge, PAST);
    memcpy(answer, huge, sizeof answer);
    expect("an answer room for a warp", got, 0, 0, 1);
    memset(huge, 0, sizeof answer);
}

static void try_texts(void)
{
    static uint8_t report[193];
    const char over[] = "verdict 13 place 0 0\ntotal 0\n", clean[] = "verdict 0 place 0 0\ntotal 0\n";
    uint8_t *text = (uint8_t *)huge;
    memcpy(text, "return", 6);
    expect("a text", probe_read(text, PAST + 6, schedule, 1, lengths, 1, answer, ANSWER), 13, 0, 0);
    expect("its rest", answer[4], 0xffffffffu, 0, 0); /* the largest number that the answer can tell, docs/DECISIONS.md */
    expect("the review of a text", review_text(text, PAST + 6, report, 192), 13, 0, 0);
    expect("its report", memcmp(report, over, sizeof over) == 0, 1, 0, 0);
    expect("a report room", review_text((const uint8_t *)"return", 6, text, PAST), 0, 0, 0);
    expect("the report in it", memcmp(text, clean, sizeof clean - 1) == 0 && text[sizeof clean - 1] == 0, 1, 0, 0);
    expect("a room for commands", probe_read((const uint8_t *)"write 7;return", 14, huge, PAST, lengths, 1, answer, ANSWER), 0, 0, 1);
    expect("a room for lengths", probe_read((const uint8_t *)"return", 6, schedule, 0, huge + 8, PAST, answer, ANSWER), 0, 0, 0);
    uint32_t tables = huge[0] == 1 && huge[1] == 7 && huge[2] == 0 && huge[8] == 0 && lengths[0] == 1;
    expect("what these rooms hold", tables, 1, 0, 0);
}

/* The race of two commands once more, which has one evidence alone. */
static void try_printed(void)
{
    static uint8_t report[51392];
    const char over[] = "verdict 13 place 0 0\ntotal 0\n", race[] = "write 0;return||write 0;return";
    const char orders[] = "verdict 11 place 0 1\ntotal 1\n0 1\ncommand 0 comes before command 1\n0 1\ncommand 1 comes before command 0\n1 0\n";
    uint8_t *room = (uint8_t *)huge;
    memset(answer, 0, sizeof answer);
    memset(room, 0, 64);
    expect("a text, with evidence", review_text_evidence(room, PAST + 6, report, sizeof report), 13, 0, 0);
    expect("what is printed of it", memcmp(report, over, sizeof over) == 0, 1, 0, 0);
    expect("a room for evidence", review_text_evidence((const uint8_t *)race, sizeof race - 1, room, PAST), 11, 0, 0);
    expect("the evidence in it", memcmp(room, orders, sizeof orders) == 0, 1, 0, 0);
}

int main(void)
{
    void *all = sizeof(size_t) < 8 ? MAP_FAILED : mmap(NULL, 3 * PAST * 4, PROT_READ | PROT_WRITE, MAP_PRIVATE | MAP_ANONYMOUS | MAP_NORESERVE, -1, 0);
    if (all == MAP_FAILED) {
        printf("huge: skipped, as 48 GiB of addresses are not to be had\n");
        return 0;
    }
    huge = all;
    try_tables();
    try_rooms();
    try_evidence();
    try_warps();
    try_texts();
    try_printed();
    printf("huge: %lu answers, every one as expected\n", answers);
    return 0;
}
