/* The lines of vectors.txt, which were worked by other means than C (tools/vectors.py). */
#ifndef VECTORS_H
#define VECTORS_H

#include "common.h"

struct term_vector {
    uint64_t p, row, k, divisor;
    int64_t exponent;
    int added;
    ref_u128 size;
};

struct block_vector {
    uint64_t p, c, block, first, end;
};

struct closing_vector {
    uint64_t p;
    ref_u128 total;
    int answer;
    char digits[33];
};

/*
 * Each gives the number of lines of its kind, and of the kind of runs that is
 * tried: "check-" stands before the words for check runs. The file is
 * tests/vectors.txt below the working directory. Blocks are of the kind
 * "block", or of "lower-half" and "upper-half".
 */
int each_term(void (*use)(const struct term_vector *));
int each_count(void (*use)(uint64_t p, uint64_t terms));
int each_block(const char *kind, void (*use)(const struct block_vector *));
int each_closing(void (*use)(const struct closing_vector *));

/*
 * Compares what the call gives with the sums of all lines of the kind, of which
 * there are more than `least`: "ticket", "lower", "upper"; and "far",
 * "far-lower", "far-upper", of some million terms, too many for the reference in
 * a test. Each has a line with its squarings, of the other kind.
 */
void compare_sums(const char *kind, const char *squarings_kind, work_call *call, int least);

/* Compares what the call quotes with all lines of the kind: "squarings", "squarings-lower" or "squarings-upper". */
void compare_squarings(const char *kind, quote_call *call, int least);

#endif
