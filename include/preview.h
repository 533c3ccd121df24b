/*
 * Checking a job list and running it by hand, for programs in C.
 *
 * Link with target/staticlib/libpreview.a, which `tools/build preview` builds from proved code. The functions keep no
 * state, allocate nothing and read no file: threads may call them at the same time, each with its own `result`.
 *
 * Every pointer must be valid for the length beside it and must not be null, not even where that length is 0. `result`
 * must not overlap `list`, `library` or `table`. The bytes may be anything: whatever they are, each call ends and gives one
 * of the numbers below.
 */
#ifndef PREVIEW_H
#define PREVIEW_H

#include <stddef.h>
#include <stdint.h>

#ifdef __cplusplus
extern "C" {
#endif

/*
 * Checks a job list of `list_len` bytes. A list of no bytes is accepted: it has one entry and can make one job, which does
 * nothing.
 *
 *   1 to 128  accepted: how many jobs the list can make, its count(0)
 *   129       refused, 1: the bytes end within a field
 *   130       refused, 2: a wrong mark
 *   131       refused, 3: a number of the head is out of range
 *   132       refused, 4: a footprint's count or line
 *   133       refused, 5: a sheet's count or instruction
 *   134       refused, 6: bytes are left over behind the last sheet
 *   135       refused, 7: the list could make more than 128 jobs
 *
 * Needs less than 100 KB of stack.
 */
uint32_t preview_check(const uint8_t *list, size_t list_len);

/*
 * Runs a job list by hand, one job after the other, on a library: the C entries of the list, four bytes for each, least
 * first. C is the third byte of the list, 1 to 64; of a list of no bytes it is 1.
 *
 * The table has what calls weigh, 15 numbers from 1 to 1000, two bytes for each, least first: a start, an end, then the
 * instructions of codes 0 to 12, that of code 9 for each child. Today's numbers, which the coordinator goes by, are
 * 5, 2, 1, 1, 1, 1, 3, 4, 1, 8, 1, 8, 4, 1, 1.
 *
 *   0           done: the first 4 * C bytes of `result` are the entries after the run, four bytes for each, least first;
 *               the bytes behind them are as they were
 *   129 to 135  the list is refused, as preview_check says
 *   136         refused, 8: library_len is not 4 * C
 *   149         refused, 21: table_len is not 30
 *   150         refused, 22: a number of the table is not in 1 to 1000
 *   145         refused, 17: result_len is below 4 * C
 *
 * The first of these that applies is given, in this order: the list, the library, the table, last the result. Where the run
 * is refused no byte of `result` is written. A result of library_len bytes is always long enough. The library's length is
 * also how many bytes are written.
 *
 * Needs up to 2 MB of stack, the more the more sheets spawn one another: give a thread that calls it at least 4 MB.
 */
uint32_t preview_hand_run(const uint8_t *list, size_t list_len,
                          const uint8_t *library, size_t library_len,
                          const uint8_t *table, size_t table_len,
                          uint8_t *result, size_t result_len);

#ifdef __cplusplus
}
#endif

#endif
