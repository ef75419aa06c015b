/*
 * One call of an archive: what is lent for it, what that must hold afterwards, and what is told where it does not. For tests of seeded inputs that are
 * numbered, so that a failure can be repeated.
 */
#ifndef CALL_H
#define CALL_H

#include <signal.h>

#include "inputs.h"
#include "lent.h"

/* Which input of which test is under way, and at which door; every failure tells it. */
struct input {
    const char *test, *door;
    unsigned long long seed, number;
};
extern struct input input;
extern struct random drawn;             /* what the input is drawn from */
extern volatile sig_atomic_t is_called; /* the archive's code runs, not the test's */

/* From here on a touch of what was not lent is told like a failure. */
void watch_touches(void);

/* What is drawn from here on is of this number. */
void begin_input(unsigned long long number);

void open_call(const char *door);

/* Each is lent until the call is closed, and either begins or ends at a guard page. What is lent for writing holds junk; such a room may be lent anew in between. */
const uint32_t *lend_numbers(struct lent *lent, const uint32_t *from, size_t n);
uint32_t *lend_places(struct lent *lent, size_t n);
const uint8_t *lend_text(struct lent *lent, const uint8_t *bytes, size_t length);
uint8_t *lend_report(struct lent *lent, size_t bytes);

/* All that was lent must hold what it must (lent.h), and the bytes beside it what they held. */
void close_call(void);

/* The same test, and the call stays open: for a door that is called again over the same tables. */
void check_call(void);

/* On standard error: the input's numbers and the door, as the beginning of a line; how to repeat it, what is lent, and what else the test has to tell, if anything. */
void tell_where(void);
void tell_input(void);
extern void (*tell_more)(void);

/* Tells what was found, and ends the test. */
void fail(const char *what, long place, unsigned long found, unsigned long expected);

#endif
