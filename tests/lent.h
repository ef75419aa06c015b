/*
 * Buffers to be lent to an archive. Each stands between two pages that cannot be touched, and either ends or begins at one of them, so that a read or
 * write outside ends the test. What is lent for reading is made read-only. What is lent for writing is filled with junk, and a second copy says
 * what it must hold after the call.
 */
#ifndef LENT_H
#define LENT_H

#include <stddef.h>
#include <stdint.h>

struct lent {
    const char *name;
    uint8_t *pages, *copy;
    size_t capacity;
    uint8_t *at;
    size_t bytes, unit;
    int is_room, at_end;
};

/* Where the buffers of a call stand; `most` is the largest number of bytes. */
void make_lent(struct lent *lent, const char *name, size_t most);

/* Lends these bytes for reading; answers where. `unit` is 4 for numbers and 1 for text. */
void *lend(struct lent *lent, const void *bytes, size_t length, size_t unit, int at_end);

/* Lends so many bytes for writing, filled with junk that the number tells. */
void *lend_room(struct lent *lent, size_t length, size_t unit, int at_end, uint64_t junk);

/* What a room must hold after the call: its junk, until the caller writes here. */
void *must_hold(struct lent *lent);

/* After the call: the first byte that is not as it must be (before the buffer, in it or after it), as a place in it; or NONE. */
enum { NONE = -1000000 };
long wrong_byte(struct lent *lent);

/* Ends the lending: the pages can be written again. */
void give_back(struct lent *lent);

/* Prints what was lent: the bytes of what is lent for reading, the length of a room. */
void print_lent(const struct lent *lent);

#endif
