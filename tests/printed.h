/*
 * The evidence that review_text_evidence prints below a report (include/desk.h), read again: its schedules are held to request 2026-04 by evidence.c, and the line
 * above each to what the reference finds of it. Any schedules that show the verdict pass.
 */
#ifndef PRINTED_H
#define PRINTED_H

#include "evidence.h"

/*
 * For the review of a text and the bytes after its report, of which there are `most`. `at` is the byte that shows what is wrong. `length` gets how many bytes
 * the evidence has; those after it are not looked at.
 */
struct shown check_printed(const struct text_review *judged, const uint8_t *bytes, size_t most, size_t *length);

#endif
