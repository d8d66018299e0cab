/* The squarings and the quotes of document 02, slip 7, apart from the other calls. */
#include "reference.h"

/* The least squarings of a term with E of 128 or more, and the most of any term: E - 64 has 7 to 63 bits. */
enum { LEAST = 6, MOST = 62 };

uint64_t ref_term_squarings(ref_formula *f, uint64_t p, uint64_t row, uint64_t k)
{
    int64_t exponent = ref_term_exponent(f, p, row, k);
    uint64_t bits = 0;
    if (exponent < 128)
        return 0;
    for (int64_t rest = exponent - 64; rest > 0; rest /= 2)
        bits++;
    return bits - 1;
}

/* The first of the terms whose E is below the bound, or `end`: looked for by halving, since E falls from term to term. */
static uint64_t first_below(ref_formula *f, uint64_t p, uint64_t row, ref_range terms, int64_t bound)
{
    while (terms.first < terms.end) {
        uint64_t middle = terms.first + (terms.end - terms.first) / 2;
        if (ref_term_exponent(f, p, row, middle) < bound)
            terms.end = middle;
        else
            terms.first = middle + 1;
    }
    return terms.end;
}

/* A term with 2^s + 64 or more for E takes s squarings at least: so those that take s come before those that take less. */
ref_u128 ref_range_squarings(ref_formula *f, uint64_t p, uint64_t row, ref_range terms)
{
    ref_u128 squarings = 0;
    for (int s = MOST; s >= LEAST; s--) {
        uint64_t next = first_below(f, p, row, terms, ((int64_t)1 << s) + 64);
        squarings += (ref_u128)(next - terms.first) * (unsigned)s;
        terms.first = next;
    }
    return squarings;
}

ref_refusals ref_quote_refusals(ref_formula *f, uint64_t p, uint64_t c, uint64_t row, uint64_t block,
                                size_t squarings_len)
{
    return ref_work_refusals(f, p, c, row, block, 16, squarings_len);
}

/* A call that quotes the terms which `terms_of` gives. */
#define QUOTING(name, terms_of) \
    int64_t name(ref_formula *f, uint64_t p, uint64_t c, uint64_t row, uint64_t block, uint8_t *squarings, \
                 size_t squarings_len) \
    { \
        ref_refusals refusals = ref_quote_refusals(f, p, c, row, block, squarings_len); \
        if (refusals == 0) \
            ref_store_sum(squarings, ref_range_squarings(f, p, row, terms_of(f, p, c, block))); \
        return ref_answer(refusals); \
    }

QUOTING(ref_quote, ref_whole)
QUOTING(ref_quote_lower, ref_lower_half)
QUOTING(ref_quote_upper, ref_upper_half)
