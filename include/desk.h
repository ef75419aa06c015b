/*
 * The text review of Cuckoomoss: a text in, a report out.
 *
 * Link with target/staticlib/libdesk.a, which tests/archives makes of crates/desk_c, for x86-64 Linux. It asks of the C library
 * memcpy, memmove and memset, and nothing else.
 */
#ifndef CUCKOOMOSS_DESK_H
#define CUCKOOMOSS_DESK_H

#include <stddef.h>
#include <stdint.h>

#ifdef __cplusplus
extern "C" {
#endif

/*
 * Reviews the barrier program that `text` writes down, prints the report at the start of `report`, and answers the report's number V.
 *
 * The report is plain ASCII, each line closed by one newline, with no zero byte after it:
 *
 *     verdict V place P Q
 *     total T
 *     C1 C2            one such line for each kept pair
 *
 * Numbers are decimal without leading zeros. The report ends after its second line and as many pair lines as the smaller of T
 * and 16. It has at most 192 bytes. Bytes of `report` after it keep what they held. `text` is only read.
 *
 * Commands are numbered from 0, through all threads in the order of the text. V, and what P and Q then are:
 *
 *      0   every schedule ends clean, in the same generations, and conflicting accesses have one order: 0 0
 *      3   a command has an address over 4095, a barrier over 15, or a count that is 0 or larger than the number of threads of the text,
 *          which can never be met: the first such command, 0
 *      7   a command names another count than its barrier already expects: that command, 0
 *      8   deadlock: the command at which the first blocked thread waits, 0
 *      9   all threads end and a barrier is left set: the lowest such barrier, 0
 *     10   reuse fault: the first pair
 *     11   race: the first pair
 *     12   the text is not of the notation: the place, in bytes from 0, of the first token that does not fit, 0
 *     13   over 32768 bytes, 512 commands or 64 threads: 0 0
 *     14   `report_len` is under 192: there is no report, and `report` is untouched
 *
 * These are all the numbers there are. T and the pairs belong to 10 and 11: T is how many pairs there are, and the first sixteen
 * are kept. For every other V, T is 0.
 *
 * The report is a function of the text. Texts of at most 32768 bytes that write one program with other blanks have the same report.
 *
 * `text` may hold any bytes, and text_len and report_len may be any lengths; nothing has to be checked before the call. What is asked is what C asks of
 * any such call: text_len bytes from `text` on can be read, report_len bytes from `report` on can be written, the two do not overlap, and no other thread writes
 * to either during the call. Neither pointer may be null, not even with length 0: pass the address of any byte then.
 *
 * It keeps nothing between calls: the archive has no variables, so calls from several threads at once, each with its own report room, do not
 * meet. It takes no heap, opens nothing and prints nothing. It works on the stack and takes at most 92000 bytes of stack below the caller's frame. That figure is measured, not
 * proved: the outside tests hold every build to it over texts at every limit and with every verdict (tests/stack.c). Leave it 128 KiB.
 */
uint32_t review_text(const uint8_t *text, size_t text_len, uint8_t *report, size_t report_len);

/*
 * Reviews as review_text does, answers the same number and prints the same report; for 10 and 11 it prints below it schedules that show the verdict. Each
 * schedule has two lines: one in words that says what it shows, and one with the schedule, the thread of each step, numbered from 0 in the order of the
 * text, with single spaces between:
 *
 *     10   one schedule, which is not the one that was judged, and above it one of
 *              command C gets generation G, not H                       H in the schedule that was judged, and C is the lowest such command
 *              command C comes to a barrier that expects another count  it ends there, as for 7
 *              deadlock, a thread waits at command C                    it ends there, as for 8
 *              barrier B still waits for more                           all threads have ended, as for 9
 *     11   for each pair X Y of the report, in its order, two schedules
 *              command X comes before command Y
 *              command Y comes before command X
 *
 * The schedule that is judged always lets the first thread step that can. Each one printed is legal and complete: every step can be made, and it ends where no
 * thread can step or at the first count that differs. Generations of a barrier are counted from 1. A later build may print other schedules that show the same.
 *
 * What is printed is plain ASCII as above, each line closed by one newline, and has at most 51392 bytes: 192 for the report, and 1600 for each of at most
 * 32 schedules with its line. Bytes of `report` after it keep what they held. 14 is answered, and `report` is untouched, if `report_len` is under 51392, whatever the text.
 *
 * All else is as for review_text, but that it takes at most 98000 bytes of stack, measured in the same way: leave it 128 KiB too.
 */
uint32_t review_text_evidence(const uint8_t *text, size_t text_len, uint8_t *report, size_t report_len);

#ifdef __cplusplus
}
#endif

#endif
