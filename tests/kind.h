/*
 * The kind of runs that a test program tries. Each is built twice, from the
 * same source: for Bellard's runs, and with CHECK_RUN defined for check runs
 * (document 02, slip 4). A call that check runs have not, and its test, are for
 * Bellard's runs alone; a call for digits is of no kind, and its test is built as
 * theirs. The numbers are the tests' own; the header's have to be the same.
 */
#ifndef KIND_H
#define KIND_H

#include "bbp.h"
#include "reference.h"

#ifdef CHECK_RUN
#define OF_KIND(bellard, check) check
#define CALL(name) bbp_check_##name
#define CONSTANT(name) BBP_CHECK_##name
#else
#define OF_KIND(bellard, check) bellard
#define CALL(name) bbp_##name
#define CONSTANT(name) BBP_##name
#endif

/* The formula of the reference, and what stands before the names of tests and before the words of lines in vectors.txt. */
#define FORMULA OF_KIND(&ref_bellard, &ref_check)
#define TEST_PREFIX OF_KIND("", "check_")
#define LINE_PREFIX OF_KIND("", "check-")

#define LAST_POSITION (UINT64_C(1) << OF_KIND(60, 59))
enum {
    ROWS = OF_KIND(7, 4),
    LAST_ROW = ROWS - 1,
    TICKETS = 256 * ROWS, /* the most of a run */
    LEDGER_SIZE = OF_KIND(352, 208),
    OTHER_LEDGER_SIZE = OF_KIND(208, 352),
    LIST_MAX = OF_KIND(3584, 2048),
    SHEET_MAX = OF_KIND(35856, 20496),
    BOOK_SIZE = 28672 /* of Bellard's runs alone */
};

/*
 * At the last position a block of C = 256 has 10^15 terms and more: years of
 * work. This block i ends at (i + 1) * K / 256, and (i + 1) * K is 2^64 + 544,
 * in a check run 2^64 + 1,024: an engine that cuts it to 64 bits finds the block
 * empty and comes back at once.
 */
enum { WRAPPING_BLOCK = OF_KIND(39, 31) };

#define SUM_AT(row) (16 + 16 * (row))
#define MARKS_AT(row) (OF_KIND(128, 80) + 32 * (row))
#define SHEET_SIZE(e) (16 + 20 * (e))
#define PAIR(row, block) (256 * (row) + (block))
#define BOOK_AT(row, block) (16 * PAIR(row, block))

/* Compile only where the header has the same numbers. */
typedef char limits_of_header[CONSTANT(MAX_POSITION) == LAST_POSITION && CONSTANT(ROWS) == ROWS &&
                              BBP_MAX_BLOCKS == 256 ? 1 : -1];
typedef char sizes_of_header[CONSTANT(LEDGER_SIZE) == LEDGER_SIZE && CONSTANT(LIST_MAX) == LIST_MAX &&
                             CONSTANT(SHEET_MAX) == SHEET_MAX && BBP_SUM_SIZE == 16 && BBP_DIGITS_SIZE == 32 &&
                             BBP_TOTAL_SIZE == 16 && BBP_SQUARINGS_SIZE == 16 && BBP_OVERLAP_MAX == 30 &&
                             BBP_PART_SIZE == 24 && BBP_BOOK_SIZE == BOOK_SIZE ? 1 : -1];
typedef char places_of_header[CONSTANT(ROW_MARKS_AT(3)) == MARKS_AT(3) && BBP_ROW_SUM_AT(3) == SUM_AT(3) &&
                              BBP_BOOK_AT(3, 5) == BOOK_AT(3, 5) ? 1 : -1];
typedef char forms_of_header[BBP_SHEET_SIZE(5) == SHEET_SIZE(5) && BBP_LIST_SIZE(5) == 10 && BBP_SUMS_SIZE(5) == 80 &&
                             BBP_PAIR(3, 5) == PAIR(3, 5) ? 1 : -1];

#endif
