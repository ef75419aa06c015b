/*
 * A review bench, as a user of the text review would write one.
 *
 *   bench FILE...              reviews each file; prints a line `FILE answered N` and then the report
 *   bench --evidence FILE...   the same with evidence
 *   bench --self               tries the edges of review_text and review_text_evidence
 *
 * Every call stands between guard bytes, and is made twice, over two different fillings of the report room. The bench ends with
 * status 1 and one line on standard error if a guard byte, a byte of the text or a byte after the report has changed, if a report or its evidence is not of the
 * form that include/desk.h tells, or if the two reports differ. It ends with status 2 if it cannot read a file.
 */
#include <stdio.h>
#include <stdlib.h>
#include <string.h>

#include "../include/desk.h"

#define GUARD 64
#define MOST_ROOM 52000

/* One of the two functions, and the least room that it asks for. */
struct door {
    uint32_t (*review)(const uint8_t *text, size_t text_len, uint8_t *report, size_t report_len);
    size_t least;
    int has_evidence;
};

static const struct door plain = {review_text, 192, 0}, with_evidence = {review_text_evidence, 51392, 1};
static const char *reviewing = "";
static unsigned long calls = 0;

static void fail(const char *what)
{
    fprintf(stderr, "bench: %s: %s\n", reviewing, what);
    exit(1);
}

/* What stands at place i before a call; the two fillings differ at every place. */
static uint8_t filling(size_t i, int turn)
{
    uint8_t byte = (uint8_t)(i * 37 + 11);
    return turn == 0 ? byte : (uint8_t)~byte;
}

static void fill(uint8_t *bytes, size_t length, int turn)
{
    for (size_t i = 0; i < length; i++)
        bytes[i] = filling(i, turn);
}

static int is_filled(const uint8_t *bytes, size_t from, size_t to, int turn)
{
    for (size_t i = from; i < to; i++)
        if (bytes[i] != filling(i, turn))
            return 0;
    return 1;
}

/* A decimal number without a leading zero; the place after it, or NULL. */
static const uint8_t *number(const uint8_t *at, const uint8_t *end, unsigned long *value)
{
    if (at == NULL || at == end || *at < '0' || *at > '9')
        return NULL;
    if (*at == '0' && at + 1 < end && at[1] >= '0' && at[1] <= '9')
        return NULL;
    *value = 0;
    while (at < end && *at >= '0' && *at <= '9') {
        if (*value > 99999999)
            return NULL;
        *value = *value * 10 + (unsigned long)(*at - '0');
        at++;
    }
    return at;
}

static const uint8_t *word(const uint8_t *at, const uint8_t *end, const char *expected)
{
    size_t length = strlen(expected);
    if (at == NULL || (size_t)(end - at) < length || memcmp(at, expected, length) != 0)
        return NULL;
    return at + length;
}

/* One or more bytes of plain ASCII and a newline. */
static const uint8_t *line_of_words(const uint8_t *at, const uint8_t *end)
{
    const uint8_t *from = at;
    while (at != NULL && at < end && *at >= ' ' && *at <= '~')
        at++;
    return at == from ? NULL : word(at, end, "\n");
}

/* Numbers of threads, single spaces between, and a newline. */
static const uint8_t *line_of_steps(const uint8_t *at, const uint8_t *end)
{
    unsigned long thread = 0;
    at = number(at, end, &thread);
    while (word(at, end, " ") != NULL && thread < 64)
        at = number(word(at, end, " "), end, &thread);
    return thread < 64 ? word(at, end, "\n") : NULL;
}

/* Where the evidence ends: one schedule for 10, two a pair for 11, each below its line. */
static const uint8_t *after_evidence(const uint8_t *at, const uint8_t *end, uint32_t answer, unsigned long pairs)
{
    unsigned long schedules = answer == 10 ? 1 : answer == 11 ? 2 * pairs : 0;
    while (schedules-- > 0)
        at = line_of_steps(line_of_words(at, end), end);
    if (at == NULL)
        fail("the evidence is not of its form");
    return at;
}

/* The length of what is printed at the start of a room, by its own lines; the report's number must be the answer. */
static size_t printed_length(const struct door *door, const uint8_t *room, size_t room_len, uint32_t answer)
{
    const uint8_t *end = room + room_len;
    unsigned long verdict = 0, p = 0, q = 0, total = 0;
    const uint8_t *at = number(word(room, end, "verdict "), end, &verdict);
    at = number(word(at, end, " place "), end, &p);
    at = number(word(at, end, " "), end, &q);
    at = number(word(at, end, "\ntotal "), end, &total);
    at = word(at, end, "\n");
    for (unsigned long line = 0; line < total && line < 16; line++) {
        at = number(at, end, &p);
        at = number(word(at, end, " "), end, &q);
        at = word(at, end, "\n");
    }
    if (at == NULL)
        fail("the report is not of its form");
    if (verdict != answer)
        fail("the answer is not the report's number");
    if (at - room > 192)
        fail("the report is too long");
    if (door->has_evidence)
        at = after_evidence(at, end, answer, total < 16 ? total : 16);
    return (size_t)(at - room);
}

/* One call between guard bytes, over one filling. What is printed goes to `out`, its length is answered. */
static size_t call(const struct door *door, const uint8_t *text, size_t text_len, size_t room_len, int turn, uint32_t *answer, uint8_t *out)
{
    uint8_t *lent = malloc(GUARD + text_len + GUARD);
    static uint8_t room[GUARD + MOST_ROOM + GUARD];
    if (lent == NULL || room_len > MOST_ROOM)
        fail("no memory");
    fill(lent, GUARD + text_len + GUARD, turn);
    if (text_len > 0)
        memcpy(lent + GUARD, text, text_len);
    fill(room, sizeof room, turn);

    *answer = door->review(lent + GUARD, text_len, room + GUARD, room_len);
    calls++;

    if (!is_filled(lent, 0, GUARD, turn) || !is_filled(lent, GUARD + text_len, GUARD + text_len + GUARD, turn))
        fail("a byte beside the text has changed");
    if (text_len > 0 && memcmp(lent + GUARD, text, text_len) != 0)
        fail("the text has changed");
    if (!is_filled(room, 0, GUARD, turn) || !is_filled(room, GUARD + room_len, sizeof room, turn))
        fail("a byte beside the report room has changed");
    free(lent);
    size_t length = 0;
    if (*answer != 14) {
        length = printed_length(door, room + GUARD, room_len, *answer);
        memcpy(out, room + GUARD, length);
    }
    if (!is_filled(room, GUARD + length, GUARD + room_len, turn))
        fail(*answer == 14 ? "a byte of a short report room has changed" : "a byte after the report has changed");
    return length;
}

/* Both fillings; the report and its length, and the answer. */
static size_t review(const struct door *door, const uint8_t *text, size_t text_len, size_t room_len, uint32_t *answer, uint8_t *out)
{
    static uint8_t again[MOST_ROOM];
    uint32_t answer_again;
    size_t length = call(door, text, text_len, room_len, 0, answer, out);
    size_t length_again = call(door, text, text_len, room_len, 1, &answer_again, again);
    if (*answer != answer_again || length != length_again || memcmp(out, again, length) != 0)
        fail("two reviews of one text differ");
    return length;
}

/* A text must be answered so, with this report; "" where the report room stays untouched. */
static void expect_of(const struct door *door, const char *name, const void *text, size_t text_len, size_t room_len, uint32_t answer, const char *report)
{
    static uint8_t out[MOST_ROOM];
    uint32_t got;
    reviewing = name;
    size_t length = review(door, text, text_len, room_len, &got, out);
    if (got != answer || length != strlen(report) || memcmp(out, report, length) != 0) {
        fprintf(stderr, "bench: %s: expected %lu and\n%sgot %lu and\n%.*s", name, (unsigned long)answer, report, (unsigned long)got, (int)length, (const char *)out);
        exit(1);
    }
}

static void expect(const char *name, const void *text, size_t text_len, size_t room_len, uint32_t answer, const char *report)
{
    expect_of(&plain, name, text, text_len, room_len, answer, report);
}

static void try_edges(void)
{
    static uint8_t text[32769];
    const char *clean = "verdict 0 place 0 0\ntotal 0\n";
    const char *unfit = "verdict 12 place 0 0\ntotal 0\n";
    const char *over = "verdict 13 place 0 0\ntotal 0\n";
    const char *pair = "write 7; arrive 0 2; return || sync 0 2; read 7; return";
    const char *four = "sync 0 2; return || sync 0 2; return || sync 0 2; return || sync 0 2; return";
    const char *faults = "verdict 10 place 0 2\ntotal 4\n0 2\n1 2\n0 3\n1 3\n";

    for (size_t room = 0; room < 192; room++)
        expect("a report room under 192 bytes", four, strlen(four), room, 14, "");
    expect("a report room of 192 bytes", four, strlen(four), 192, 10, faults);
    expect("a report room of 193 bytes", four, strlen(four), 193, 10, faults);
    expect("a large report room", four, strlen(four), MOST_ROOM, 10, faults);
    expect("a clean pair", pair, strlen(pair), 192, 0, clean);
    expect("the empty text", "", 0, 192, 12, unfit);
    expect("the empty text and a short report room", "", 0, 191, 14, "");

    const char *met = "sync 0 2; return || sync 0 2; return", *waits = "return || sync 0 2; return", *alone = "read 7; sync 0 2; return";
    expect("a count of all threads", met, strlen(met), 192, 0, clean);
    expect("a count of all threads, one of them empty", waits, strlen(waits), 192, 8, "verdict 8 place 0 0\ntotal 0\n");
    expect("a count above the threads", alone, strlen(alone), 192, 3, "verdict 3 place 1 0\ntotal 0\n");
    expect("a count above the threads and a short report room", alone, strlen(alone), 191, 14, "");

    memset(text, ' ', sizeof text);
    memcpy(text, "return", 6);
    expect("a text of 32,768 bytes", text, 32768, 192, 0, clean);
    expect("a text of 32,769 bytes", text, 32769, 192, 13, over);
    expect("a text of 32,769 bytes and a short report room", text, 32769, 191, 14, "");
    memset(text, 0, sizeof text);
    expect("32,768 zero bytes", text, 32768, 192, 12, unfit);
    expect("32,769 zero bytes", text, 32769, 192, 13, over);
    memset(text, ' ', sizeof text);
    expect("32,768 blanks", text, 32768, 192, 12, "verdict 12 place 32768 0\ntotal 0\n");

    for (int byte = 0; byte < 256; byte++) {
        uint8_t one = (uint8_t)byte;
        const char *report = byte == ' ' || byte == '\n' ? "verdict 12 place 1 0\ntotal 0\n" : unfit;
        expect("a text of one byte", &one, 1, 192, 12, report);
    }
}

/* Each of these has one other schedule, or one for each order: no other evidence shows the fault. */
static void try_evidence(void)
{
    const char *race = "write 7; return || read 7; return", *reuse = "arrive 0 1; return || arrive 0 1; return";
    const char *orders = "verdict 11 place 0 1\ntotal 1\n0 1\ncommand 0 comes before command 1\n0 1\ncommand 1 comes before command 0\n1 0\n";
    const char *other = "verdict 10 place 0 1\ntotal 1\n0 1\ncommand 0 gets generation 2, not 1\n1 0\n";
    const char *ordered = "write 7; arrive 0 2; return || sync 0 2; read 7; return";
    const size_t short_rooms[] = {0, 1, 191, 192, 193, 1600, 51390, 51391};

    for (size_t i = 0; i < sizeof short_rooms / sizeof *short_rooms; i++) {
        expect_of(&with_evidence, "a room under 51,392 bytes, a race", race, strlen(race), short_rooms[i], 14, "");
        expect_of(&with_evidence, "a room under 51,392 bytes, no text", "", 0, short_rooms[i], 14, "");
    }
    expect_of(&with_evidence, "a race", race, strlen(race), 51392, 11, orders);
    expect_of(&with_evidence, "a race and a large room", race, strlen(race), MOST_ROOM, 11, orders);
    expect_of(&with_evidence, "a reuse fault", reuse, strlen(reuse), 51392, 10, other);
    expect_of(&with_evidence, "a reuse fault and a room of 51,393 bytes", reuse, strlen(reuse), 51393, 10, other);
    expect_of(&with_evidence, "a clean pair", ordered, strlen(ordered), 51392, 0, "verdict 0 place 0 0\ntotal 0\n");
    expect_of(&with_evidence, "the empty text", "", 0, 51392, 12, "verdict 12 place 0 0\ntotal 0\n");
}

/* As long as evidence gets: sixteen races of 512 commands, all in threads of two digits. Its form is looked at. */
static void try_longest(void)
{
    static char text[32768];
    static uint8_t out[MOST_ROOM];
    uint32_t answer;
    size_t n = 0;
    for (int thread = 0; thread < 64; thread++) {
        int commands = thread < 10 ? 0 : thread < 63 ? 9 : 512 - 53 * 9;
        n += (size_t)sprintf(text + n, thread == 0 ? "" : "||");
        while (commands-- > 0)
            n += (size_t)sprintf(text + n, "write 0;");
        n += (size_t)sprintf(text + n, "return");
    }
    reviewing = "the longest evidence";
    size_t length = review(&with_evidence, (const uint8_t *)text, n, 51392, &answer, out);
    if (answer != 11 || length < 32 * 512 * 3)
        fail("the evidence is too short");
}

static void review_file(const struct door *door, const char *path)
{
    static uint8_t text[65536]; /* more than a text may have; of a longer file the rest is not looked at */
    static uint8_t out[MOST_ROOM];
    uint32_t answer;
    reviewing = path;
    FILE *file = fopen(path, "rb");
    if (file == NULL) {
        fprintf(stderr, "bench: %s cannot be opened\n", path);
        exit(2);
    }
    size_t length = fread(text, 1, sizeof text, file);
    if (ferror(file)) {
        fprintf(stderr, "bench: %s cannot be read\n", path);
        exit(2);
    }
    fclose(file);
    size_t written = review(door, text, length, door->least, &answer, out);
    printf("%s answered %lu\n", path, (unsigned long)answer);
    fwrite(out, 1, written, stdout);
}

int main(int argc, char **argv)
{
    if (argc < 2) {
        fprintf(stderr, "usage: bench [--evidence] FILE... | bench --self\n");
        return 2;
    }
    if (argc == 2 && strcmp(argv[1], "--self") == 0) {
        try_edges();
        try_evidence();
        try_longest();
        printf("bench: %lu calls, every one as expected\n", calls);
    } else {
        int is_option = strcmp(argv[1], "--evidence") == 0;
        for (int i = is_option ? 2 : 1; i < argc; i++)
            review_file(is_option ? &with_evidence : &plain, argv[i]);
    }
    if (fflush(stdout) != 0) {
        fprintf(stderr, "bench: standard output cannot be written\n");
        return 2;
    }
    return 0;
}
