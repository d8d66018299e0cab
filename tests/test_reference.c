/*
 * The reference against vectors.txt: terms, counts, blocks, tickets, halves and
 * quotes; its a and b, and the squarings of its quotes, against a count term by
 * term; and that refusals of two digits are counted. No engine is linked.
 */
#include "vectors.h"

#include <inttypes.h>
#include <stdio.h>
#include <unistd.h>

static void compare_term(const struct term_vector *v)
{
    CHECK(ref_term_divisor(FORMULA, v->row, v->k) == v->divisor, "N of row %" PRIu64 " k %" PRIu64, v->row, v->k);
    CHECK(ref_term_exponent(FORMULA, v->p, v->row, v->k) == v->exponent,
          "E of p %" PRIu64 " row %" PRIu64 " k %" PRIu64, v->p, v->row, v->k);
    CHECK(ref_term_added(FORMULA, v->row, v->k) == v->added, "sign of row %" PRIu64 " k %" PRIu64, v->row, v->k);
    CHECK(ref_term_size(FORMULA, v->p, v->row, v->k) == v->size,
          "q of p %" PRIu64 " row %" PRIu64 " k %" PRIu64, v->p, v->row, v->k);
}

static void compare_count(uint64_t p, uint64_t terms)
{
    CHECK(ref_term_count(FORMULA, p) == terms, "K of p %" PRIu64, p);
}

static uint64_t first_of(const struct block_vector *v)
{
    return ref_block_first(FORMULA, v->p, v->c, v->block);
}

static uint64_t cut_of(const struct block_vector *v)
{
    return ref_block_cut(FORMULA, v->p, v->c, v->block);
}

static uint64_t end_of(const struct block_vector *v)
{
    return ref_block_first(FORMULA, v->p, v->c, v->block + 1);
}

static void compare_range(const struct block_vector *v, const char *what, uint64_t first, uint64_t end)
{
    CHECK(first == v->first, "first of the %s p %" PRIu64 " C %" PRIu64 " block %" PRIu64, what, v->p, v->c, v->block);
    CHECK(end == v->end, "end of the %s p %" PRIu64 " C %" PRIu64 " block %" PRIu64, what, v->p, v->c, v->block);
}

static void compare_block(const struct block_vector *v)
{
    compare_range(v, "block", first_of(v), end_of(v));
}

static void compare_lower_half(const struct block_vector *v)
{
    compare_range(v, "lower half", first_of(v), cut_of(v));
}

static void compare_upper_half(const struct block_vector *v)
{
    compare_range(v, "upper half", cut_of(v), end_of(v));
}

/* a and b are the charged terms of all rows, of which none has a charged term from K on. */
static void compare_charges(uint64_t p)
{
    CHECK(ref_charged_terms(FORMULA, p, 1) == count_charged(p, 1), "a of p %" PRIu64, p);
    CHECK(ref_charged_terms(FORMULA, p, 0) == count_charged(p, 0), "b of p %" PRIu64, p);
    for (uint64_t row = 0; row < ROWS; row++)
        CHECK(ref_term_exponent(FORMULA, p, row, ref_term_count(FORMULA, p)) < 0,
              "E of term K of p %" PRIu64 " row %" PRIu64, p, row);
}

/* The squarings of a range are those of its terms, counted one by one. */
static void compare_range_squarings(uint64_t p, uint64_t row, uint64_t first, uint64_t end)
{
    ref_u128 squarings = 0;
    for (uint64_t k = first; k < end; k++)
        squarings += ref_term_squarings(FORMULA, p, row, k);
    CHECK(ref_range_squarings(FORMULA, p, row, (ref_range){first, end}) == squarings,
          "squarings of p %" PRIu64 " row %" PRIu64 ": terms %" PRIu64 " to %" PRIu64, p, row, first, end);
}

/* Ranges anywhere in a row; every range of the first positions. */
static void compare_ranges(void)
{
    for (uint64_t p = 1; p <= 20; p++)
        for (uint64_t row = 0; row < ROWS; row++)
            for (uint64_t first = 0; first <= ref_term_count(FORMULA, p); first++)
                for (uint64_t end = first; end <= ref_term_count(FORMULA, p); end++)
                    compare_range_squarings(p, row, first, end);
    for (int i = 0; i < 3000; i++) {
        uint64_t p = any_position(), terms = ref_term_count(FORMULA, p), first = below(terms), left = terms - first;
        compare_range_squarings(p, below(ROWS), first, first + below(left < 2000 ? left + 1 : 2000));
    }
}

/* The terms whose squarings the paper's sentence gives at a glance. */
static void squarings_at_edges(void)
{
    CHECK(ref_term_squarings(FORMULA, LAST_POSITION, OF_KIND(2, 0), 0) == OF_KIND(62, 61), "the first term at the last p");
    for (uint64_t p = 1; p <= 100; p++)
        for (uint64_t row = 0; row < ROWS; row++)
            for (uint64_t k = 0; k < ref_term_count(FORMULA, p); k++) {
                int64_t e = ref_term_exponent(FORMULA, p, row, k);
                CHECK(ref_term_squarings(FORMULA, p, row, k) == (e < 128 ? 0 : e < 192 ? 6 : e < 320 ? 7 : e < 576 ? 8 : 9),
                      "squarings of E = %" PRId64, e);
            }
}

/* What `require` asks, in a child process, of which nothing is to be seen but how it ends. */
static const char *required;

static void require(void)
{
    if (freopen("/dev/null", "w", stderr) == NULL)
        _exit(2);
    require_met(required);
}

/* No number is cut to a digit or taken for two, neither as an answer nor where pairs are counted. */
static void numbers_of_two_digits(void)
{
    static const char *const unmet[] = {"0", "12", "22", "1+10", "2+11", "11+10", "1+2+10", "10 11 12"};
    for (int i = 1; i < 32; i++)
        for (int j = i; j < 32; j++)
            CHECK(ref_answer((ref_refusals)1 << i | (ref_refusals)1 << j) == -i, "the answer to %d and %d", i, j);
    CHECK(ref_answer(0) == 0, "the answer to no refusal");
    met(0);
    met(1 << 1 | 1 << 2);
    met(1 << 10 | 1 << 11);
    require_met("1 2 10 11 1+2 10+11");
    for (size_t i = 0; i < sizeof unmet / sizeof unmet[0]; i++) {
        required = unmet[i];
        CHECK(!comes_back(require), "not met, but not missed: %s", required);
    }
}

/* The reference's calls by the formula that is tried. */
#define WORKING(name) \
    static int64_t name(uint64_t p, uint64_t c, uint64_t row, uint64_t block, uint8_t *sum, size_t sum_len, \
                        uint8_t *squarings, size_t squarings_len) \
    { \
        return ref_##name(FORMULA, p, c, row, block, sum, sum_len, squarings, squarings_len); \
    }
#define QUOTING(name) \
    static int64_t name(uint64_t p, uint64_t c, uint64_t row, uint64_t block, uint8_t *squarings, size_t squarings_len) \
    { \
        return ref_##name(FORMULA, p, c, row, block, squarings, squarings_len); \
    }

WORKING(work)
WORKING(work_lower)
WORKING(work_upper)
QUOTING(quote)
QUOTING(quote_lower)
QUOTING(quote_upper)

int main(int argc, char **argv)
{
    start("reference", argc, argv);
    CHECK(each_term(compare_term) > 100, "vectors.txt has too few terms");
    CHECK(each_count(compare_count) > 10, "vectors.txt has too few counts");
    CHECK(each_block("block", compare_block) > 20, "vectors.txt has too few blocks");
    CHECK(each_block("lower-half", compare_lower_half) > 10, "vectors.txt has too few lower halves");
    CHECK(each_block("upper-half", compare_upper_half) > 10, "vectors.txt has too few upper halves");
    compare_sums("ticket", "squarings", work, 100);
    compare_sums("lower", "squarings-lower", work_lower, 100);
    compare_sums("upper", "squarings-upper", work_upper, 100);
    compare_squarings("squarings", quote, 100);
    compare_squarings("squarings-lower", quote_lower, 100);
    compare_squarings("squarings-upper", quote_upper, 100);
    squarings_at_edges();
    compare_ranges();
    for (uint64_t p = 1; p <= 3000; p++)
        compare_charges(p);
    compare_charges(1000000);
    numbers_of_two_digits();
    return finish();
}
