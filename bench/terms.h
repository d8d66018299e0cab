/*
 * What the C of the benchmark shares: the rows of both formulas, document 001's
 * Algorithms 3, 4, 5 and 7 for one term, and a ticket as a range of terms.
 */
#ifndef TERMS_H
#define TERMS_H

#include <stdint.h>

__extension__ typedef unsigned __int128 u128;

/* What the terms of a row are worked by: E of term k is rise - step * k, N is m * k + j. */
struct terms {
    uint64_t m, j, step;
    int64_t rise;
    int even_subtracted, odd_subtracted;
};

/* Algorithm 4: 1/n modulo 2^64. */
static inline uint64_t inverse(uint64_t n)
{
    uint64_t mu = 3 * n ^ 2;
    for (int i = 0; i < 4; i++)
        mu *= 2 - n * mu;
    return mu;
}

static inline uint64_t upper_word(u128 x)
{
    return (uint64_t)(x >> 64);
}

/* Algorithm 3 with both factors the same, by subtraction: n is added back where the difference borrows. */
static inline uint64_t montgomery_square(uint64_t x, uint64_t n, uint64_t mu)
{
    u128 square = (u128)x * x;
    uint64_t upper = upper_word(square), part = upper_word((u128)((uint64_t)square * mu) * n);
    return upper >= part ? upper - part : upper - part + n;
}

/* 2 as the algorithms have it: 2^65 modulo n. Each way of working has its own. */
static uint64_t start(uint64_t n);

/* Algorithm 5, for e of 64 or more. Neighbouring terms have nearly the same bits, so the branch on a bit is foreseen. */
static inline uint64_t power_of_two(uint64_t e, uint64_t n, uint64_t mu)
{
    uint64_t x = start(n);
    for (int i = 62 - __builtin_clzll(e); i >= 0; i--) {
        x = montgomery_square(x, n, mu);
        if (e >> i & 1) {
            x <<= 1;
            if (x >= n)
                x -= n;
        }
    }
    return x;
}

/* Algorithm 7, with the remainder 0 as the equation has it. */
static inline u128 quotient(uint64_t r, uint64_t n, uint64_t mu)
{
    if (r == 0)
        return 0;
    uint64_t low = -r * mu;
    uint64_t high = (UINT64_MAX - upper_word((u128)n * low)) * mu;
    return (u128)high << 64 | low;
}

static inline uint64_t divisor(struct terms t, uint64_t k)
{
    return t.m * k + t.j;
}

static inline int64_t exponent(struct terms t, uint64_t k)
{
    return t.rise - (int64_t)(t.step * k);
}

static inline u128 size(struct terms t, uint64_t k)
{
    uint64_t n = divisor(t, k);
    int64_t e = exponent(t, k);
    if (e < 0)
        return 0;
    if (e < 128)
        return ((u128)1 << e) / n;
    uint64_t mu = inverse(n);
    return quotient(power_of_two((uint64_t)e - 64, n, mu), n, mu);
}

static inline u128 add_signed(struct terms t, uint64_t k, u128 total, u128 q)
{
    return (k & 1 ? t.odd_subtracted : t.even_subtracted) ? total - q : total + q;
}

/* The signed sum of a range of terms; each way of working has its own. */
static u128 sum_of(struct terms t, uint64_t first, uint64_t end);

struct row {
    uint64_t m, j;
    int64_t l;
    int subtracted;
};
static const struct row bellard_rows[7] = {
    {4, 1, -1, 1}, {4, 3, -6, 1}, {10, 1, 2, 0}, {10, 3, 0, 1}, {10, 5, -4, 1}, {10, 7, -4, 1}, {10, 9, -6, 0},
};
static const struct row check_rows[4] = {{8, 1, 2, 0}, {2, 1, -1, 1}, {8, 5, 0, 1}, {4, 3, -1, 1}};

/* The step of E and whether signs alternate are constants wherever this is called, for a loop of its own for each formula. */
static inline void work(struct row row, uint64_t step, int alternate, uint64_t p, uint64_t c, uint64_t block, uint8_t sum[16])
{
    const struct terms t = {row.m, row.j, step, (int64_t)(4 * (p - 1)) + 128 + row.l, row.subtracted, row.subtracted != alternate};
    uint64_t count = (4 * (p - 1) + 130) / step + 1;
    u128 total = sum_of(t, (uint64_t)((u128)block * count / c), (uint64_t)((u128)(block + 1) * count / c));
    for (int i = 0; i < 16; i++)
        sum[i] = (uint8_t)(total >> 8 * i);
}

static inline void work_bellard(uint64_t p, uint64_t c, uint64_t row, uint64_t block, uint8_t sum[16])
{
    work(bellard_rows[row], 10, 1, p, c, block, sum);
}

static inline void work_check(uint64_t p, uint64_t c, uint64_t row, uint64_t block, uint8_t sum[16])
{
    work(check_rows[row], 4, 0, p, c, block, sum);
}

#endif
