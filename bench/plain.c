/* One chain: a term is worked when the one before it is finished. */
#include "ways.h"

#include "terms.h"

static inline uint64_t start(uint64_t n)
{
    return (uint64_t)(((u128)2 << 64) % n);
}

static inline u128 sum_of(struct terms t, uint64_t first, uint64_t end)
{
    u128 total = 0;
    for (uint64_t k = first; k < end; k++)
        total = add_signed(t, k, total, size(t, k));
    return total;
}

void plain_work(uint64_t p, uint64_t c, uint64_t row, uint64_t block, uint8_t sum[16])
{
    work_bellard(p, c, row, block, sum);
}

void plain_check_work(uint64_t p, uint64_t c, uint64_t row, uint64_t block, uint8_t sum[16])
{
    work_check(p, c, row, block, sum);
}
