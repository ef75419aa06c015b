/*
 * Five doors for outside tests and benchmarks: the review, the schedule writer, the reader, the closing of a table and the run of a warp. A program that only
 * wants texts reviewed needs none of them.
 *
 * A slice is a pointer and a length in numbers (bytes for a text). The caller promises that every pointer is non-null, even where its length
 * is 0, and aligned; that so many numbers stand there; and that a slice that is written overlaps no other. Slices that are only read may overlap.
 *
 * For all else the library promises: whatever the numbers and lengths, each function returns, writes only the slices that are not const, and
 * answers as crates/probe/specs/Promise.antt says (ProbesReview, ProbesSchedule, ProbesRead, ProbesClose, ProbesWarp), which is proved of the
 * code. It keeps nothing between calls.
 *
 * `answer` gets the numbers that are told besides the one returned. It has at least 36 numbers. If it is shorter, 14 is returned before all
 * else and nothing is touched. Numbers of `answer` that are not named below are kept.
 *
 * Numbers of verdicts, places, and what the tables hold: docs/RULES.md, R1 to R8 and R37; since 2026-02 no count is above the number of threads (3 otherwise).
 */
#ifndef PROBE_H
#define PROBE_H

#include <stddef.h>
#include <stdint.h>

#ifdef __cplusplus
extern "C" {
#endif

/*
 * Reviews the tables with an offered schedule. Returns the verdict, 0 to 11.
 *   commands     three numbers a row: kind, name, count
 *   lengths      how many rows each thread has
 *   schedule     the thread of each step
 *   relation     at least M x ceil(M / 32) words, M the number of rows: happens-before for 0, 10 and 11, else untouched; later words are kept
 *   generations  at least M numbers: the generation of each command for 0, 10 and 11, else untouched; later numbers are kept
 *   evidence     at least 32 x M numbers, whatever the verdict; less is 4, digit 4. For 10 one more legal, complete schedule, in which some command has
 *                another generation than in the offered one, or which ends in 7, 8 or 9. For 11 two of M entries for each pair (x, y) that the sheet keeps, end
 *                to end: one in which x comes first, then one in which y does. Later numbers are kept; for any other verdict it is untouched. A later
 *                build may write other schedules that show the same
 *   answer       0 and 1: the verdict's two places; 2: the total of faults; 3: how many numbers of evidence were written, 0 for all but 10 and 11; from 4 to
 *                35: both numbers of each of the sheet's sixteen pairs
 * For one program, any two schedules with 0 or 11 leave the same answer, the same M x ceil(M / 32) words of relation and the same M generations, whatever the rooms (OneFile,
 * crates/review/specs/Agreement.antt). With 10 these hang on the schedule, and so may evidence.
 */
uint32_t probe_review(const uint32_t *commands, size_t commands_len, const uint32_t *lengths, size_t lengths_len,
                      const uint32_t *schedule, size_t schedule_len, uint32_t *relation, size_t relation_len,
                      uint32_t *generations, size_t generations_len, uint32_t *evidence, size_t evidence_len,
                      uint32_t *answer, size_t answer_len);

/*
 * Writes a legal, complete schedule. Returns 0, or a refusal, 1 to 4.
 *   commands, lengths  as above
 *   room               at least M numbers: gets the schedule; numbers after it are kept; untouched by a refusal
 *   answer             0 and 1: the refusal's two places; 2: the schedule's length, 0 if refused; 3: 0
 */
uint32_t probe_schedule(const uint32_t *commands, size_t commands_len, const uint32_t *lengths, size_t lengths_len,
                        uint32_t *room, size_t room_len, uint32_t *answer, size_t answer_len);

/*
 * Reads a text of the written notation. Returns 0, 12 or 13.
 *   text      the bytes; they need no closing 0
 *   commands  three numbers for each command; numbers after them are kept; untouched by 12 and 13
 *   lengths   one number for each thread; the same
 *   answer    0 and 1: the refusal's two places; 2: how many commands; 3: how many threads; 4: where the rest of the text begins
 */
uint32_t probe_read(const uint8_t *text, size_t text_len, uint32_t *commands, size_t commands_len,
                    uint32_t *lengths, size_t lengths_len, uint32_t *answer, size_t answer_len);

/*
 * Closes a table of bits under chains: bit j mod 32 of word j / 32 in row i is set exactly when a chain of set bits leads from i to j. Returns 1, or 0
 * where the room is short; then nothing is touched.
 *   relation  at least rows x ceil(rows / 32) words, row after row; padding bits are cleared, later words are kept
 *   rows      how many rows; it has no limit but the room
 */
uint32_t probe_close(uint32_t *relation, size_t relation_len, uint32_t rows);

/*
 * Runs a kernel as a warp, by Table 2 of source document 001 (request 2026-11). Returns 0, or a refusal, 17 or 18, before the first step.
 *   statements   five numbers a row, at most 256 rows: list, kind, x, y, z. List 0 is the kernel; any other body or function is the rows with its number, in order. Kinds: 0 skip;
 *                1 cell x gets expression y; 2 if expression x is not 0, list y, else list z; 3 while expression x is not 0, list y; 4 break; 5 call of list x; 6 return
 *   expressions  three numbers a row, at most 256 rows: kind, x, y. Kinds: 0 the number x; 1 cell x; 2 the lane's number; and of the values of rows x and y, which are earlier rows, 3 the sum
 *                and 4 the difference, both wrapping, and 5 whether the first is less, unsigned, 1 or 0. Numbers that a kind does not use are not looked at, in either table
 *   lanes        1 to 32; they are numbered from 0
 *   cells        at least 64 numbers, which the lanes share; less is 17 with place 0. They get the values after the last step taken; untouched by a refusal, and later numbers are kept.
 *                Where several active lanes write one cell, the highest lane's value stays
 *   steps        how many steps it may take
 *   answer       0: the refusal's place, which is the first statement refused, 0 if none; 1: 0; 2: how it ended, 0 refused, 1 finished, 2 the steps are used up, 3 the next step would overfill the
 *                stack of 256 statements and tokens, tested in this order; 3: 0; 4 and 5: how many steps were taken, low and high word
 * It takes no heap, and at most 43000 bytes of stack below the caller's frame, which is measured (tests/stack.c) and not proved: leave it 64 KiB.
 */
uint32_t probe_warp(const uint32_t *statements, size_t statements_len, const uint32_t *expressions, size_t expressions_len, uint32_t lanes,
                    uint32_t *cells, size_t cells_len, uint64_t steps, uint32_t *answer, size_t answer_len);

#ifdef __cplusplus
}
#endif

#endif
