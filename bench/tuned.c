/*
 * lanes.c with the fastest step of some 160 that were tried on one processor
 * (docs/PERFORMANCE.md): a sign takes the place of each comparison, which is
 * right since n is below 2^63, and the terms of one sign are added up before the
 * sign is looked at.
 */
#define TUNED

#include "terms.h"

static inline uint64_t reduced(uint64_t y, uint64_t n)
{
    uint64_t less = y - n;
    return (int64_t)less < 0 ? y : less;
}

static inline uint64_t squared(uint64_t x, uint64_t n, uint64_t mu)
{
    u128 square = (u128)x * x;
    uint64_t difference = upper_word(square) - upper_word((u128)((uint64_t)square * mu) * n);
    return (int64_t)difference < 0 ? difference + n : difference;
}

static inline u128 signed_sum(struct terms t, uint64_t k, const u128 q[LANES])
{
    u128 totals[2] = {0, 0};
    for (int j = 0; j < LANES; j++)
        totals[j % 2] += q[j];
    return add_signed(t, k + 1, add_signed(t, k, 0, totals[0]), totals[1]);
}

#include "lanes.c"
