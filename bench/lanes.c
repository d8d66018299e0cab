/*
 * Several terms side by side: the processor works at one while it waits for the
 * products of the others. Their number, LANES, and the names of the functions
 * are given to the compiler. The step is that of plain.c, with comparisons; a
 * file that includes this one may have another (tuned.c).
 */
#include "ways.h"

#include "terms.h"

#ifndef TUNED
static inline uint64_t reduced(uint64_t y, uint64_t n)
{
    return y >= n ? y - n : y;
}

static inline uint64_t squared(uint64_t x, uint64_t n, uint64_t mu)
{
    return montgomery_square(x, n, mu);
}

static inline u128 signed_sum(struct terms t, uint64_t k, const u128 q[LANES])
{
    u128 total = 0;
    for (int j = 0; j < LANES; j++)
        total = add_signed(t, k + (uint64_t)j, total, q[j]);
    return total;
}
#endif

static inline uint64_t start(uint64_t n)
{
    return reduced(2 * (-n % n), n);
}

/* Algorithm 5 for exponents of one bit length. Bits of neighbouring lanes differ, so there is no branch on them. */
static inline void powers_of_two(const uint64_t e[LANES], const uint64_t n[LANES], const uint64_t mu[LANES], uint64_t x[LANES])
{
    for (int j = 0; j < LANES; j++)
        x[j] = start(n[j]);
    for (int i = 62 - __builtin_clzll(e[0]); i >= 0; i--)
        for (int j = 0; j < LANES; j++)
            x[j] = reduced(squared(x[j], n[j], mu[j]) << (e[j] >> i & 1), n[j]);
}

static inline u128 group_sum(struct terms t, uint64_t k)
{
    uint64_t e[LANES], n[LANES], mu[LANES], x[LANES];
    u128 q[LANES];
    for (int j = 0; j < LANES; j++) {
        e[j] = (uint64_t)exponent(t, k + (uint64_t)j) - 64;
        n[j] = divisor(t, k + (uint64_t)j);
        mu[j] = inverse(n[j]);
    }
    powers_of_two(e, n, mu, x);
    for (int j = 0; j < LANES; j++)
        q[j] = quotient(x[j], n[j], mu[j]);
    return signed_sum(t, k, q);
}

/* Whether the terms from k on make a group: all before `end`, with powers to work out and exponents of one bit length. */
static inline int grouped(struct terms t, uint64_t k, uint64_t end)
{
    int64_t highest = exponent(t, k), lowest = exponent(t, k + LANES - 1);
    return end - k >= LANES && lowest >= 128 &&
           __builtin_clzll((uint64_t)highest - 64) == __builtin_clzll((uint64_t)lowest - 64);
}

static inline u128 sum_of(struct terms t, uint64_t first, uint64_t end)
{
    u128 total = 0;
    for (uint64_t k = first; k < end;)
        if (grouped(t, k, end)) {
            total += group_sum(t, k);
            k += LANES;
        } else {
            total = add_signed(t, k, total, size(t, k));
            k++;
        }
    return total;
}

void WORK(uint64_t p, uint64_t c, uint64_t row, uint64_t block, uint8_t sum[16])
{
    work_bellard(p, c, row, block, sum);
}

void CHECK_WORK(uint64_t p, uint64_t c, uint64_t row, uint64_t block, uint8_t sum[16])
{
    work_check(p, c, row, block, sum);
}

const char *VERSION(void)
{
#ifdef __clang__
    return __clang_version__;
#else
    return __VERSION__;
#endif
}
