/* Printed evidence by the words of include/desk.h. It knows nothing of how the code finds its schedules or prints them. */
#include <string.h>

#include "printed.h"

enum { MOST_ENTRIES = 2 * KEPT * ROWS };

/* A place in what was printed, and the numbers of the schedules that were read, each with the byte where it begins. */
struct lines {
    const uint8_t *bytes;
    size_t most, at, count;
    uint32_t entries[MOST_ENTRIES];
    size_t begins[MOST_ENTRIES + 1];
};

/* What a line above a schedule of 10 says: how it ends and where; or, where it ends clean, that a command has generation `gets`, not `had`. */
struct claim {
    uint32_t ended, place, gets, had;
};

static struct shown result(const char *what, size_t at, uint32_t ended)
{
    struct shown it = {what, at, ended};
    return it;
}

/* The functions from here on answer 1 and stand after what they read, or 0 and stand where they could not go on. */

static int read_words(struct lines *lines, const char *words)
{
    size_t length = strlen(words);
    if (lines->most - lines->at < length || memcmp(lines->bytes + lines->at, words, length) != 0)
        return 0;
    lines->at += length;
    return 1;
}

static int is_digit(const struct lines *lines, size_t at)
{
    return at < lines->most && lines->bytes[at] >= '0' && lines->bytes[at] <= '9';
}

/* Decimal, without a leading zero; no number that is printed has over three digits. */
static int read_decimal(struct lines *lines, uint32_t *number)
{
    size_t to = lines->at;
    *number = 0;
    while (is_digit(lines, to) && to < lines->at + 4)
        *number = *number * 10 + (uint32_t)(lines->bytes[to++] - '0');
    if (to == lines->at || to == lines->at + 4 || (lines->bytes[lines->at] == '0' && to > lines->at + 1))
        return 0;
    lines->at = to;
    return 1;
}

/* A line of thread numbers, single spaces between, of at most so many; each number goes to the entries. */
static int read_steps(struct lines *lines, size_t most)
{
    size_t before = lines->count;
    do {
        lines->begins[lines->count] = lines->at;
        if (lines->count == before + most || !read_decimal(lines, &lines->entries[lines->count]))
            return 0;
        lines->count++;
    } while (read_words(lines, " "));
    lines->begins[lines->count] = lines->at;
    return read_words(lines, "\n");
}

/* Of the four lines of 10 the one that stands here. */
static int read_claim(struct lines *lines, struct claim *claim)
{
    memset(claim, 0, sizeof *claim);
    if (read_words(lines, "deadlock, a thread waits at command ")) {
        claim->ended = 8;
        return read_decimal(lines, &claim->place) && read_words(lines, "\n");
    }
    if (read_words(lines, "barrier ")) {
        claim->ended = 9;
        return read_decimal(lines, &claim->place) && read_words(lines, " still waits for more\n");
    }
    if (!read_words(lines, "command ") || !read_decimal(lines, &claim->place))
        return 0;
    if (read_words(lines, " comes to a barrier that expects another count\n")) {
        claim->ended = 7;
        return 1;
    }
    return read_words(lines, " gets generation ") && read_decimal(lines, &claim->gets) && read_words(lines, ", not ") && read_decimal(lines, &claim->had) &&
           read_words(lines, "\n");
}

/* `command X comes before command Y` */
static int read_order(struct lines *lines, uint32_t first, uint32_t second)
{
    uint32_t x, y;
    return read_words(lines, "command ") && read_decimal(lines, &x) && x == first && read_words(lines, " comes before command ") && read_decimal(lines, &y) && y == second &&
           read_words(lines, "\n");
}

/* The lowest command whose generation is another than in the schedule that was judged, with both. */
static const char *flaw_of_generation(const struct text_review *judged, const uint32_t *generations, const struct claim *claim)
{
    const uint32_t *had = judged->review.generations;
    if (claim->place >= rows_of(&judged->tables))
        return "there is no such command";
    for (size_t c = 0; c < claim->place; c++)
        if (generations[c] != had[c])
            return "a lower command has another generation too";
    if (generations[claim->place] != claim->gets)
        return "the command gets another generation than is said";
    if (had[claim->place] != claim->had)
        return "the command had another generation than is said";
    return claim->gets == claim->had ? "the two generations are the same" : NULL;
}

/* Does the schedule below a claim end so, there, and with such generations? */
static const char *flaw_of_claim(const struct text_review *judged, const struct lines *lines, const struct claim *claim)
{
    uint32_t generations[ROWS];
    struct verdict end = replay(&judged->tables, lines->entries, lines->count, generations);
    if (end.number != claim->ended)
        return "the schedule does not end as is said";
    if (claim->ended == 0)
        return flaw_of_generation(judged, generations, claim);
    return end.p == claim->place ? NULL : "the schedule does not end where is said";
}

static struct shown check_schedules(const struct text_review *judged, const struct lines *lines)
{
    struct shown shown = check_evidence(&judged->tables, &judged->review, lines->entries, lines->count);
    if (shown.flaw != NULL)
        shown.at = lines->begins[shown.at < lines->count ? shown.at : lines->count];
    return shown;
}

static struct shown check_reuse(const struct text_review *judged, struct lines *lines)
{
    struct claim claim;
    if (!read_claim(lines, &claim))
        return result("this is no line of a reuse fault", lines->at, 0);
    if (!read_steps(lines, rows_of(&judged->tables)))
        return result("this is no line of a schedule", lines->at, 0);
    struct shown shown = check_schedules(judged, lines);
    if (shown.flaw == NULL)
        shown.flaw = flaw_of_claim(judged, lines, &claim);
    return shown;
}

static struct shown check_races(const struct text_review *judged, struct lines *lines)
{
    const struct sheet *sheet = &judged->review.sheet;
    size_t rows = rows_of(&judged->tables), kept = sheet->total < KEPT ? sheet->total : KEPT;
    for (size_t part = 0; part < 2 * kept; part++) {
        const uint32_t *pair = sheet->pairs[part / 2];
        size_t y_first = part % 2;
        if (!read_order(lines, pair[y_first], pair[1 - y_first]))
            return result("this is not the line of the pair in this order", lines->at, 0);
        if (!read_steps(lines, rows) || lines->count != (part + 1) * rows)
            return result("this is no line of a schedule of all commands", lines->at, 0);
    }
    return check_schedules(judged, lines);
}

struct shown check_printed(const struct text_review *judged, const uint8_t *bytes, size_t most, size_t *length)
{
    static struct lines lines;
    struct shown shown = result(NULL, 0, 0);
    lines.bytes = bytes;
    lines.most = most;
    lines.at = lines.count = 0;
    if (judged->review.verdict.number == 10)
        shown = check_reuse(judged, &lines);
    if (judged->review.verdict.number == 11)
        shown = check_races(judged, &lines);
    *length = lines.at;
    return shown;
}
