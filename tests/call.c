/* One call at a time. */
#define _POSIX_C_SOURCE 200809L
#include <stdio.h>
#include <stdlib.h>
#include <string.h>
#include <unistd.h>

#include "call.h"

struct input input;
struct random drawn;
volatile sig_atomic_t is_called;
void (*tell_more)(void);

static struct lent *now[8];
static size_t lent_now;

/* ---- what is told */

void tell_where(void)
{
    fprintf(stderr, "%s: seed %llu, number %llu, %s: ", input.test, input.seed, input.number, input.door);
}

void tell_input(void)
{
    fprintf(stderr, "  to repeat: %s %llu 1 %llu\n", input.test, input.seed, input.number);
    for (size_t i = 0; i < lent_now; i++)
        print_lent(now[i]);
    if (tell_more != NULL)
        tell_more();
}

void fail(const char *what, long place, unsigned long found, unsigned long expected)
{
    tell_where();
    fprintf(stderr, "%s at %ld is %lu, not %lu\n", what, place, found, expected);
    tell_input();
    exit(1);
}

static void fail_beside(const struct lent *lent, long place)
{
    tell_where();
    fprintf(stderr, "the byte beside %s at %ld has changed\n", lent->name, place);
    tell_input();
    exit(1);
}

/* The fault is in the code that runs, which prints nothing: so the handler may print. */
static void touched(int signal)
{
    tell_where();
    fprintf(stderr, "%s (signal %d)\n", is_called ? "it touched what was not lent, or wrote what was lent for reading" : "a fault of the test itself", signal);
    tell_input();
    _exit(1);
}

void watch_touches(void)
{
    struct sigaction action;
    memset(&action, 0, sizeof action);
    action.sa_handler = touched;
    sigaction(SIGSEGV, &action, NULL);
    sigaction(SIGBUS, &action, NULL);
}

/* ---- what is lent */

void begin_input(unsigned long long number)
{
    input.number = number;
    seed(&drawn, input.seed, number);
}

void open_call(const char *door)
{
    input.door = door;
    lent_now = 0;
}

/* A room that is lent again in the same call stays the same entry. */
static void note(struct lent *lent)
{
    size_t i = 0;
    while (i < lent_now && now[i] != lent)
        i++;
    now[i] = lent;
    lent_now += i == lent_now;
}

static const void *lend_input(struct lent *lent, const void *bytes, size_t length, size_t unit)
{
    note(lent);
    return lend(lent, bytes, length, unit, chance(&drawn, 50));
}

static void *lend_output(struct lent *lent, size_t length, size_t unit)
{
    note(lent);
    int at_end = chance(&drawn, 50);
    return lend_room(lent, length, unit, at_end, draw(&drawn));
}

const uint32_t *lend_numbers(struct lent *lent, const uint32_t *from, size_t n)
{
    return lend_input(lent, from, 4 * n, 4);
}

uint32_t *lend_places(struct lent *lent, size_t n)
{
    return lend_output(lent, 4 * n, 4);
}

const uint8_t *lend_text(struct lent *lent, const uint8_t *bytes, size_t length)
{
    return lend_input(lent, bytes, length, 1);
}

uint8_t *lend_report(struct lent *lent, size_t bytes)
{
    return lend_output(lent, bytes, 1);
}

/* What was lent holds what it must, and the bytes beside it were kept. */
static void check_lent(struct lent *lent)
{
    long byte = wrong_byte(lent);
    if (byte == NONE)
        return;
    if (byte < 0 || (size_t)byte >= lent->bytes)
        fail_beside(lent, byte);
    size_t first = (size_t)byte / lent->unit * lent->unit;
    uint32_t found = 0, expected = 0;
    memcpy(&found, lent->at + first, lent->unit);
    memcpy(&expected, (uint8_t *)must_hold(lent) + first, lent->unit);
    fail(lent->name, (long)(first / lent->unit), found, expected);
}

void check_call(void)
{
    for (size_t i = 0; i < lent_now; i++)
        check_lent(now[i]);
}

void close_call(void)
{
    check_call();
    for (size_t i = 0; i < lent_now; i++)
        give_back(now[i]);
}
