/*
 * The review in ordinary C, to compare the archive's time with. Its parameters and answers are those of `probe_review` in include/probe.h; the schedules that it
 * writes as evidence may be others.
 */
#ifndef PLAIN_H
#define PLAIN_H

#include <stddef.h>
#include <stdint.h>

uint32_t plain_review(const uint32_t *commands, size_t commands_len, const uint32_t *lengths, size_t lengths_len,
                      const uint32_t *schedule, size_t schedule_len, uint32_t *relation, size_t relation_len,
                      uint32_t *generations, size_t generations_len, uint32_t *evidence, size_t evidence_len,
                      uint32_t *answer, size_t answer_len);

#endif
