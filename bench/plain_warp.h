/* The run of a warp in ordinary C, to compare the archive's time with. Its parameters and answers are those of `probe_warp` in include/probe.h. */
#ifndef PLAIN_WARP_H
#define PLAIN_WARP_H

#include <stddef.h>
#include <stdint.h>

uint32_t plain_warp(const uint32_t *statements, size_t statements_len, const uint32_t *expressions, size_t expressions_len, uint32_t lanes,
                    uint32_t *cells, size_t cells_len, uint64_t steps, uint32_t *answer, size_t answer_len);

#endif
