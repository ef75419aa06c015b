/* Buffers between guard pages. */
#define _DEFAULT_SOURCE /* MAP_ANONYMOUS, which every system with mmap that the archives run on has */
#include <stdio.h>
#include <stdlib.h>
#include <string.h>
#include <sys/mman.h>
#include <unistd.h>

#include "lent.h"

enum { BESIDE = 64 }; /* bytes beside a buffer, on the side without a guard page, that must be kept */

static void must(int is_done, const char *what)
{
    if (is_done)
        return;
    perror(what);
    exit(2);
}

void make_lent(struct lent *lent, const char *name, size_t most)
{
    size_t page = (size_t)sysconf(_SC_PAGESIZE);
    lent->name = name;
    lent->capacity = (most + BESIDE + page - 1) / page * page;
    uint8_t *all = mmap(NULL, lent->capacity + 2 * page, PROT_NONE, MAP_PRIVATE | MAP_ANONYMOUS, -1, 0);
    must(all != MAP_FAILED, "mmap");
    lent->pages = all + page;
    must(mprotect(lent->pages, lent->capacity, PROT_READ | PROT_WRITE) == 0, "mprotect");
    lent->copy = malloc(lent->capacity);
    must(lent->copy != NULL, "malloc");
}

/* The bytes beside a buffer differ from place to place. */
static uint8_t beside(size_t i)
{
    return (uint8_t)(i * 37 + 11);
}

static uint8_t *beside_of(const struct lent *lent)
{
    return lent->at_end ? lent->at - BESIDE : lent->at + lent->bytes;
}

static void place(struct lent *lent, size_t length, size_t unit, int at_end)
{
    if (length + BESIDE > lent->capacity) {
        fprintf(stderr, "tests: %s has no room for %lu bytes\n", lent->name, (unsigned long)length);
        exit(2);
    }
    lent->bytes = length;
    lent->unit = unit;
    lent->at_end = at_end;
    lent->at = at_end ? lent->pages + lent->capacity - length : lent->pages;
    for (size_t i = 0; i < BESIDE; i++)
        beside_of(lent)[i] = beside(i);
}

void *lend(struct lent *lent, const void *bytes, size_t length, size_t unit, int at_end)
{
    lent->is_room = 0;
    place(lent, length, unit, at_end);
    if (length > 0)
        memcpy(lent->at, bytes, length);
    memcpy(lent->copy, lent->at, length);
    must(mprotect(lent->pages, lent->capacity, PROT_READ) == 0, "mprotect");
    return lent->at;
}

void *lend_room(struct lent *lent, size_t length, size_t unit, int at_end, uint64_t junk)
{
    lent->is_room = 1;
    place(lent, length, unit, at_end);
    /* Eight bytes a turn, since rooms are large and many. The copy has pages of its own, so that the last turn stays within it. */
    for (size_t i = 0; i < length; i += sizeof junk) {
        junk = junk * 6364136223846793005u + 1442695040888963407u;
        uint64_t mixed = junk ^ junk >> 32; /* the low bits of such a product are poor */
        memcpy(lent->copy + i, &mixed, sizeof mixed);
    }
    memcpy(lent->at, lent->copy, length);
    return lent->at;
}

void *must_hold(struct lent *lent)
{
    return lent->copy;
}

long wrong_byte(struct lent *lent)
{
    for (size_t i = 0; i < BESIDE; i++)
        if (beside_of(lent)[i] != beside(i))
            return (long)(beside_of(lent) - lent->at) + (long)i;
    if (memcmp(lent->at, lent->copy, lent->bytes) == 0)
        return NONE;
    size_t i = 0;
    while (lent->at[i] == lent->copy[i])
        i++;
    return (long)i;
}

void give_back(struct lent *lent)
{
    if (!lent->is_room)
        must(mprotect(lent->pages, lent->capacity, PROT_READ | PROT_WRITE) == 0, "mprotect");
}

static void print_text(const struct lent *lent)
{
    for (size_t i = 0; i < lent->bytes; i++) {
        uint8_t byte = lent->copy[i];
        if (byte >= ' ' && byte <= '~' && byte != '\\')
            fputc(byte, stderr);
        else
            fprintf(stderr, "\\x%02x", byte);
    }
}

void print_lent(const struct lent *lent)
{
    fprintf(stderr, "  %s, %lu %s, %s at a guard page", lent->name, (unsigned long)(lent->bytes / lent->unit), lent->unit == 1 ? "bytes" : "numbers",
            lent->at_end ? "ending" : "beginning");
    if (!lent->is_room) {
        fprintf(stderr, ": ");
        for (size_t i = 0; lent->unit == 4 && i < lent->bytes / 4; i++) {
            uint32_t number;
            memcpy(&number, lent->copy + 4 * i, 4);
            fprintf(stderr, "%lu ", (unsigned long)number);
        }
        if (lent->unit == 1)
            print_text(lent);
    }
    fprintf(stderr, "\n");
}
