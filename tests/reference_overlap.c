/* Two digit strings laid over each other, from document 02, slip 8, alone, and apart from the other calls. */
#include "reference.h"

#include <string.h>

enum { SIZE = 1 << 1, DIGITS = 1 << 10, APART = 1 << 11, DIFFERENT = 1 << 12 };

/* A longer string is bad in any case, and is not laid over another. */
enum { MOST_LAID = 128 };

/* A string with its position, by the arguments of a call. */
struct string {
    const uint8_t *digits;
    size_t len;
    uint64_t p;
};

#define FIRST ((struct string){first, first_len, first_p})
#define SECOND ((struct string){second, second_len, second_p})

static ref_u128 position(struct string string, size_t i)
{
    return (ref_u128)string.p + i;
}

static int is_bad(struct string string)
{
    if (string.len == 0 || string.len > 30 || string.p < 1 || string.p > (uint64_t)1 << 60)
        return 1;
    for (size_t i = 0; i < string.len; i++)
        if (memchr("0123456789ABCDEF", string.digits[i], 16) == NULL)
            return 1;
    return 0;
}

/* How many positions both hold, at how many of these they differ, and where in the two strings the first of them is. */
struct shared {
    size_t positions, differences, in_first, in_second;
};

/* One digit of each, which may be at one position. */
static void lay_digits(struct shared *shared, struct string first, size_t i, struct string second, size_t j)
{
    if (position(first, i) != position(second, j))
        return;
    if (shared->positions++ == 0)
        shared->in_first = i, shared->in_second = j;
    shared->differences += first.digits[i] != second.digits[j];
}

/* Every digit of the one beside every digit of the other. */
static struct shared lay(struct string first, struct string second)
{
    struct shared shared = {0, 0, 0, 0};
    for (size_t i = 0; i < first.len; i++)
        for (size_t j = 0; j < second.len; j++)
            lay_digits(&shared, first, i, second, j);
    return shared;
}

static ref_refusals refusals_of(struct string first, struct string second)
{
    ref_refusals refusals = is_bad(first) || is_bad(second) ? DIGITS : 0;
    if (first.len > MOST_LAID || second.len > MOST_LAID)
        return refusals;
    struct shared shared = lay(first, second);
    if (shared.positions == 0)
        refusals |= APART;
    if (shared.differences > 0)
        refusals |= DIFFERENT;
    return refusals;
}

ref_refusals ref_overlap_refusals(const uint8_t *first, size_t first_len, uint64_t first_p, const uint8_t *second,
                                  size_t second_len, uint64_t second_p)
{
    return refusals_of(FIRST, SECOND);
}

ref_refusals ref_overlap_part_refusals(const uint8_t *first, size_t first_len, uint64_t first_p, const uint8_t *second,
                                       size_t second_len, uint64_t second_p, size_t part_len)
{
    return refusals_of(FIRST, SECOND) | (part_len != 24 ? SIZE : 0);
}

int64_t ref_overlap(const uint8_t *first, size_t first_len, uint64_t first_p, const uint8_t *second, size_t second_len,
                    uint64_t second_p)
{
    return ref_answer(refusals_of(FIRST, SECOND));
}

/* Three numbers of 8 bytes, the lowest byte of each first. */
static void store_numbers(uint8_t part[24], const uint64_t numbers[3])
{
    for (int i = 0; i < 24; i++)
        part[i] = (uint8_t)(numbers[i / 8] >> i % 8 * 8);
}

int64_t ref_overlap_part(const uint8_t *first, size_t first_len, uint64_t first_p, const uint8_t *second, size_t second_len,
                         uint64_t second_p, uint8_t *part, size_t part_len)
{
    ref_refusals refusals = ref_overlap_part_refusals(first, first_len, first_p, second, second_len, second_p, part_len);
    if (refusals != 0)
        return ref_answer(refusals);
    struct shared shared = lay(FIRST, SECOND);
    if (position(SECOND, second_len) > position(FIRST, first_len))
        store_numbers(part, (uint64_t[]){1, shared.in_second, second_len - shared.in_second});
    else
        store_numbers(part, (uint64_t[]){0, shared.in_first, first_len - shared.in_first});
    return 0;
}
