/*
 * Evidence (request 2026-04) held to its words by replaying it under the reference's steps. Any schedules that show the verdict pass: none is preferred.
 */
#ifndef EVIDENCE_H
#define EVIDENCE_H

#include "reference.h"

/* What is wrong, told as a sentence, and the number of evidence that shows it; `flaw` is NULL where nothing is. `ended` is how the last schedule ended: 0, 7, 8 or 9. */
struct shown {
    const char *flaw;
    size_t at;
    uint32_t ended;
};

/* For tables that pass 1 to 3, the review that the reference made of the offered schedule, and so many numbers that were written. */
struct shown check_evidence(const struct tables *tables, const struct review *judged, const uint32_t *evidence, size_t count);

#endif
