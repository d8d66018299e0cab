/*
 * The cases of the two calls that lay digit strings over each other (document
 * 02, slip 8): they have the same strings, and are refused alike but for the
 * size of the part. Neither is of a kind of runs.
 */
#ifndef OVERLAPPING_H
#define OVERLAPPING_H

#include "common.h"

/* The digits that a string has at most, with room for strings that are too long, and the last position of a first digit. */
enum { MOST_DIGITS = 30, STRING_ROOM = MOST_DIGITS + 64 };
#define LAST_START (UINT64_C(1) << 60)

/* The thirty digits of pi at position 1. */
#define PI "243F6A8885A308D313198A2E037073"

/* A string as it is handed to a call: GIVEN(s) are its three arguments. */
struct string {
    const uint8_t *digits;
    size_t len;
    uint64_t p;
};
#define GIVEN(s) (s)->digits, (s)->len, (s)->p

/* The strings of the case that is tried. */
extern struct string laid[2];

/* Makes a case: two texts, or two strings of these lengths with the same digit at each position that both hold. */
void lay_texts(const char *first, uint64_t first_p, const char *second, uint64_t second_p);
void lay(size_t first_len, uint64_t first_p, size_t second_len, uint64_t second_p);

/* Makes a call with two strings, compares with the reference, and gives the answer. */
typedef int64_t overlap_call(const struct string *first, const struct string *second);
/* The call with what is laid, lent in memory that cannot be written. */
int64_t lent_overlap(overlap_call *call);

/* Tries named cases with their answers, every alignment, character, length and edge of the positions. `compare` makes the
   call with what is laid, lent; `call` makes it as the strings stand, for cases that are too many to be lent. */
void try_overlaps(int64_t (*compare)(void), overlap_call *call);

/* For a suite: a case that nothing refuses, and its damages. */
enum { OVERLAP_KINDS = 10 };
void prepare_overlap(void);
int damage_overlap(int kind);

#endif
