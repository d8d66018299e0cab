/*
 * Working a ticket in C, for comparison with the engine: document 001, Algorithms
 * 3, 4, 5 and 7, one term at a time (plain.c), or several side by side (lanes.c),
 * also with a step that was tuned on one processor (tuned.c). By Bellard's
 * formula, and by that of check runs.
 */
#ifndef WAYS_H
#define WAYS_H

#include <stdint.h>

typedef void ticket_call(uint64_t p, uint64_t c, uint64_t row, uint64_t block, uint8_t sum[16]);
ticket_call plain_work, plain_check_work;

/*
 * lanes.c is compiled by each compiler that is there, with each number of lanes,
 * and tuned.c with eight: WAY is to be a macro of the compiler and the number.
 */
#define WAYS_OF(compiler) WAY(compiler, 4) WAY(compiler, 6) WAY(compiler, 8)
enum { WAYS_OF_A_COMPILER = 3 };

/* gcc_4_work, gcc_4_check_work, gcc_4_version, and so on to clang_tuned_version; the version is that of the compiler. */
#define WAY(compiler, lanes)                                                     \
    ticket_call compiler##_##lanes##_work, compiler##_##lanes##_check_work;      \
    const char *compiler##_##lanes##_version(void);
WAYS_OF(gcc)
WAYS_OF(clang)
WAY(gcc, tuned)
WAY(clang, tuned)
#undef WAY

#endif
