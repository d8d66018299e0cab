/*
 * close against the reference, against closings whose answers stand here and in
 * vectors.txt, and against closings of versions that charged every term.
 */
#include "common.h"
#include "vectors.h"

#include <inttypes.h>
#include <stdlib.h>
#include <string.h>

static struct {
    uint8_t ledger[LEDGER_ROOM], digits[96];
    size_t ledger_len, digits_len;
} t;

/*
 * A spread of a total over the row sums: the `rows` rows after `last` (row 0
 * after the last one) have the sum `each`, `last` has what is then left of the total
 * modulo 2^128, and the others have 0.
 */
struct spread {
    const char *what;
    uint64_t rows;
    ref_u128 each;
};

static void put_spread(const struct spread *spread, uint64_t last, ref_u128 total)
{
    for (uint64_t i = 1; i < ROWS; i++)
        set_row_sum(t.ledger, (last + i) % ROWS, i <= spread->rows ? spread->each : 0);
    set_row_sum(t.ledger, last, total - spread->rows * spread->each);
}

static const struct spread in_one_row = {"in one row", 0, 0};

/* Random row sums that add up to the total. */
static void put_total(ref_u128 total)
{
    uint64_t last = below(ROWS);
    for (uint64_t i = 1; i < ROWS; i++) {
        ref_u128 sum = below(4) == 0 ? 0 : any_sum();
        set_row_sum(t.ledger, (last + i) % ROWS, sum);
        total -= sum;
    }
    set_row_sum(t.ledger, last, total);
}

static void full_ledger(uint64_t p, uint64_t c)
{
    any_bytes(t.ledger, sizeof t.ledger);
    any_bytes(t.digits, sizeof t.digits);
    any_ledger(t.ledger, p, c, 256);
    t.ledger_len = LEDGER_SIZE;
    t.digits_len = 32;
}

static void prepare(void)
{
    full_ledger(any_position(), any_blocks());
    put_total((any_sum() >> 6) + ((ref_u128)1 << 120));
}

static int unmark_one(void)
{
    uint64_t c = ref_load(t.ledger + 8, 2);
    if (c == 0 || c > 256)
        return NOTHING;
    set_mark(t.ledger, below(ROWS), below(4) == 0 ? c - 1 : below(c), 0);
    return 8;
}

static int open_ledger(uint64_t chance)
{
    uint64_t c = ref_load(t.ledger + 8, 2);
    if (c == 0 || c > 256)
        return NOTHING;
    any_ledger(t.ledger, ref_load(t.ledger, 8), c, chance);
    return UNSURE;
}

/* A total at the edge of a first digit: low lies below it. */
static int unsettled(void)
{
    put_total((ref_u128)below(16) << 124);
    return 9;
}

/* A total near a multiple of 2^(128 - 4d), as near as the bounds of the run. */
static int near_edge(void)
{
    uint64_t bound = ref_charged_terms(FORMULA, ref_load(t.ledger, 8), (int)below(2)), d = 1 + below(32);
    ref_u128 edge = any_sum() >> (128 - 4 * d) << (128 - 4 * d);
    ref_u128 step = below(4) == 0 ? below(64) : bound + below(10) - 3;
    put_total(below(2) == 0 ? edge + step : edge - step);
    return UNSURE;
}

static int damage(int kind)
{
    switch (kind) {
    case 0: t.ledger_len = wrong_ledger_size(); return 1;
    case 1: t.ledger_len = 0; return 1;
    case 2: t.digits_len = wrong_size(32); return 1;
    case 3: t.digits_len = 0; return 1;
    case 4:
    case 5: spoil_ledger(t.ledger); return 5;
    case 6: any_bytes(t.ledger, LEDGER_SIZE); return UNSURE;
    case 7: t.ledger[below(LEDGER_SIZE)] ^= (uint8_t)(1 << below(8)); return UNSURE;
    case 8: return unmark_one();
    case 9: return open_ledger(any_chance());
    case 10: return unsettled();
    case 11: return near_edge();
    default: put_total(any_sum()); return UNSURE;
    }
}

static int64_t compare(void)
{
    met(ref_close_refusals(FORMULA, t.ledger, t.ledger_len, t.digits_len));
    uint8_t *ledger_copy = copy_of(t.ledger, t.ledger_len), *wanted = copy_of(t.digits, t.digits_len);
    int64_t wanted_answer = ref_close(FORMULA, ledger_copy, t.ledger_len, wanted, t.digits_len);
    const uint8_t *ledger = lend_input(0, t.ledger, t.ledger_len);
    uint8_t *digits = lend(1, t.digits, t.digits_len);
    int64_t answer = CALL(close)(ledger, t.ledger_len, digits, t.digits_len);
    CHECK(answer == wanted_answer,
          "close p %" PRIu64 " C %" PRIu64 " lengths %zu %zu: answer %" PRId64 ", not %" PRId64, ref_load(t.ledger, 8),
          ref_load(t.ledger + 8, 2), t.ledger_len, t.digits_len, answer, wanted_answer);
    expect_kept(0, "close, the ledger");
    expect(1, wanted, "close, the digits");
    free(ledger_copy);
    free(wanted);
    return answer;
}

/* The full ledger closes with this answer and these digits, which are not the reference's. */
static void expect_closing(int64_t answer, const char *wanted, const char *what, const char *how)
{
    uint8_t digits[32];
    uint64_t p = ref_load(t.ledger, 8);
    CHECK(compare() == answer, "p %" PRIu64 ", %s, %s: the answer", p, what, how);
    memcpy(digits, t.digits, 32);
    CALL(close)(t.ledger, LEDGER_SIZE, digits, 32);
    CHECK(answer < 0 || memcmp(digits, wanted, (size_t)answer) == 0, "p %" PRIu64 ", %s, %s: the digits", p, what, how);
}

/* Ways in which the row sums pass 2^128, and their lower words 2^64. */
static const struct spread spreads[] = {
    {"one row of 2^128 - 1", 1, SUM(UINT64_MAX, UINT64_MAX)},
    {"all other rows of 2^128 - 1", LAST_ROW, SUM(UINT64_MAX, UINT64_MAX)},
    {"one row of 2^127", 1, SUM(UINT64_C(1) << 63, 0)},
    {"all other rows of 2^127", LAST_ROW, SUM(UINT64_C(1) << 63, 0)},
    {"one row of 2^64 - 1", 1, UINT64_MAX},
    {"all other rows of 2^64 - 1", LAST_ROW, UINT64_MAX},
    {"two rows of 2^63", 2, UINT64_C(1) << 63},
    {"all other rows of 5", LAST_ROW, 5},
};

/* A total in each row in turn, in each spread turned over all rows, and in random spreads. */
static void close_everywhere(ref_u128 total, int64_t answer, const char *digits, const char *what)
{
    for (uint64_t last = 0; last < ROWS; last++) {
        put_spread(&in_one_row, last, total);
        expect_closing(answer, digits, what, in_one_row.what);
        for (size_t i = 0; i < sizeof spreads / sizeof spreads[0]; i++) {
            put_spread(&spreads[i], last, total);
            expect_closing(answer, digits, what, spreads[i].what);
        }
        put_total(total);
        expect_closing(answer, digits, what, "in a random spread");
    }
}

static void compare_vector(const struct closing_vector *vector)
{
    full_ledger(vector->p, any_blocks());
    close_everywhere(vector->total, vector->answer, vector->digits, "of vectors.txt");
}

#define ZEROS_30 "000000000000000000000000000000"
#define FS_30 "FFFFFFFFFFFFFFFFFFFFFFFFFFFFFF"
#define EIGHTS SUM(UINT64_C(0x8888888888888888), UINT64_C(0x8888888888888888))

/*
 * Runs with the numbers of their charged terms, added (a) and subtracted (b), and
 * the number of digits that a total one unit off an edge settles. The edges at
 * p = 1 are the marked closings of document 02, slip 5, or their like in a check
 * run. p = 1 to 5 have every residue of 4n modulo 10, and so do p = 6 to 10.
 */
static const struct {
    uint64_t p, a, b;
    int64_t d;
} runs[] = {
    {1, OF_KIND(44, 33), OF_KIND(48, 97), 30},
    {2, OF_KIND(46, 34), OF_KIND(48, 100), 30},
    {3, OF_KIND(49, 35), OF_KIND(49, 103), 30},
    {4, OF_KIND(50, 36), OF_KIND(50, 106), 30},
    {5, OF_KIND(50, 37), OF_KIND(53, 109), 30},
    {6, OF_KIND(51, 38), OF_KIND(55, 112), 30},
    {7, OF_KIND(53, 39), OF_KIND(55, 115), 30},
    {8, OF_KIND(56, 40), OF_KIND(56, 118), 30},
    {9, OF_KIND(57, 41), OF_KIND(57, 121), 30},
    {10, OF_KIND(57, 42), OF_KIND(60, 124), 30},
    {1000, OF_KIND(1443, 1032), OF_KIND(1446, 3094), OF_KIND(29, 28)},
    {1000000, OF_KIND(1400043, 1000032), OF_KIND(1400046, 3000094), 26},
    {LAST_POSITION - 1, OF_KIND(UINT64_C(1614090106449585808), UINT64_C(576460752303423519)),
     OF_KIND(UINT64_C(1614090106449585811), UINT64_C(1729382256910270555)), 16},
    {LAST_POSITION, OF_KIND(UINT64_C(1614090106449585809), UINT64_C(576460752303423520)),
     OF_KIND(UINT64_C(1614090106449585813), UINT64_C(1729382256910270558)), 16},
};
enum { RUNS = sizeof runs / sizeof runs[0] };

/* The totals on both sides of both edges. */
static void try_edges(void)
{
    for (int i = 0; i < RUNS; i++) {
        ref_u128 a = runs[i].a, b = runs[i].b;
        full_ledger(runs[i].p, any_blocks());
        close_everywhere(b, -9, "", "total b");
        close_everywhere(b + 1, runs[i].d, ZEROS_30, "total b + 1");
        close_everywhere(-a - 2, runs[i].d, FS_30, "total 2^128 - a - 2");
        close_everywhere(-a - 1, -9, "", "total 2^128 - a - 1");
    }
}

/* The numbers of `runs`, where so many terms can be counted. */
static void count_terms(void)
{
    for (int i = 0; i < RUNS && runs[i].p <= 1000; i++) {
        CHECK(count_charged(runs[i].p, 1) == runs[i].a, "a of p %" PRIu64, runs[i].p);
        CHECK(count_charged(runs[i].p, 0) == runs[i].b, "b of p %" PRIu64, runs[i].p);
    }
}

/*
 * Full ledgers: the other marked closings of document 01 at p = 1, totals at the
 * edges of versions that charged terms with E below 0 as well, and others.
 */
static const struct {
    const char *what;
    uint64_t p;
    ref_u128 total;
    int64_t answer;
    const char *digits;
} closings[] = {
    {"total 0", 1, 0, -9, ""},
    {"total b of version 2.2.0", 1, OF_KIND(49, 99), 30, ZEROS_30},
    {"total b of version 2.2.0, and 1", 1, OF_KIND(50, 100), 30, ZEROS_30},
    {"total 2^128 - 51", 1, SUM(UINT64_MAX, UINT64_MAX - 50), 30, FS_30},
    {"total 2^128 - 50", 1, SUM(UINT64_MAX, UINT64_MAX - 49), 30, FS_30},
    {"total 2^128 - 7", 1, SUM(UINT64_MAX, UINT64_MAX - 6), -9, ""},
    {"total 2^128 - 1", 1, SUM(UINT64_MAX, UINT64_MAX), -9, ""},
    {"total 2^127", 1, SUM(UINT64_C(1) << 63, 0), -9, ""},
    {"total 2^124", 1, SUM(UINT64_C(1) << 60, 0), -9, ""},
    {"total 2^124 + 2^120", 1, SUM((UINT64_C(1) << 60) + (UINT64_C(1) << 56), 0), 1, "1"},
    {"total b of version 2.2.0", 4, OF_KIND(54, 108), 30, ZEROS_30},
    {"total 2^128 - 52", 4, SUM(UINT64_MAX, UINT64_MAX - 51), 30, FS_30},
    {"total 2^128 - 7", 1000000, SUM(UINT64_MAX, UINT64_MAX - 6), -9, ""},
    {"total 888..", 1000000, EIGHTS, 26, "88888888888888888888888888"},
    {"total 888..", LAST_POSITION - 1, EIGHTS, 16, "8888888888888888"},
    {"total 888..", LAST_POSITION, EIGHTS, 16, "8888888888888888"},
};

static void try_closings(void)
{
    for (size_t i = 0; i < sizeof closings / sizeof closings[0]; i++) {
        full_ledger(closings[i].p, any_blocks());
        close_everywhere(closings[i].total, closings[i].answer, closings[i].digits, closings[i].what);
    }
}

static int64_t close_total(ref_u128 total)
{
    put_total(total);
    return compare();
}

/* Every total within a few hundred units of the edges at p = 1 to 10, for even and odd K. */
static void every_edge(void)
{
    for (uint64_t p = 1; p <= 10; p++) {
        full_ledger(p, any_blocks());
        for (uint64_t digit = 0; digit < 16; digit += 5)
            for (uint64_t step = 0; step < 300; step++)
                close_total(((ref_u128)digit << 124) + step - 150);
    }
}

/* a and b of versions 1.0.0 to 2.2.0: all added and all subtracted terms of the K of every row. */
static uint64_t all_terms(uint64_t p, int added)
{
    uint64_t terms = ref_term_count(FORMULA, p);
    return OF_KIND(7 * (terms / 2) + terms % 2 * (added ? 2 : 5), added ? terms : 3 * terms);
}

/* The number of digits that a total settled with these, 0 where it was refused. */
static int settled_before(uint64_t p, ref_u128 total)
{
    ref_u128 low = total - all_terms(p, 0) - 1, high = total + all_terms(p, 1) + 1;
    int d = 0;
    while (low < high && d < 32 && low >> (124 - 4 * d) == high >> (124 - 4 * d))
        d++;
    return d;
}

/* How many totals had digits and have more now, and how many were refused and have some. */
static struct {
    uint64_t more, anew;
} gained;

/* The digits settled before are settled now. They are the first of the total, which lies between low and high. */
static void expect_digits_of_before(uint64_t p, ref_u128 total)
{
    uint8_t digits[32];
    int before = settled_before(p, total);
    put_total(total);
    int64_t now = CALL(close)(t.ledger, LEDGER_SIZE, digits, 32);
    CHECK(before == 0 || now >= before, "p %" PRIu64 ": answer %" PRId64 ", %d digits before", p, now, before);
    for (int i = 0; i < before; i++)
        CHECK(digits[i] == "0123456789ABCDEF"[total >> (124 - 4 * i) & 15], "p %" PRIu64 ": digit %d", p, i + 1);
    gained.more += before > 0 && now > before;
    gained.anew += before == 0 && now > 0;
}

/* Totals at random, and those around the edges of now and of before, on both sides of a multiple of 2^(128 - 4d). */
static void no_digit_lost(void)
{
    for (int i = 0; i < RUNS; i++) {
        uint64_t p = runs[i].p, a = all_terms(p, 1), b = all_terms(p, 0);
        full_ledger(p, any_blocks());
        for (int d = 1; d <= 32; d++) {
            ref_u128 multiple = any_sum() >> (128 - 4 * d) << (128 - 4 * d);
            for (uint64_t step = 0; step < 9; step++) {
                expect_digits_of_before(p, multiple + b - 6 + step);
                expect_digits_of_before(p, multiple - a + 5 - step);
            }
            expect_digits_of_before(p, any_sum());
        }
    }
    CHECK(gained.more > 0, "no closing has more digits than before");
    CHECK(gained.anew > 0, "no closing that was refused has digits");
}

/* A full ledger whose total settles thirty digits, in so many bytes, and one with one byte changed. */
enum { SETTLED = 100 };
#define WHOLE(len) {len, 1, 1, 1, {{SUM_AT(0), 8, SETTLED}}}
#define CHANGED(c, at, value) {LEDGER_SIZE, 1, c, 1, {{SUM_AT(0), 8, SETTLED}, {at, 1, value}}}
#define FRESH(p, c) {LEDGER_SIZE, p, c, 0, UNPATCHED}

static const struct {
    const char *what;
    int64_t answer;
    struct ledger_form ledger;
    size_t digits_len;
} cases[] = {
    {"ledger of 255 bytes", -1, WHOLE(255), 32},
    {"ledger of 256 bytes", -1, WHOLE(256), 32},
    {"ledger of a byte less", -1, WHOLE(LEDGER_SIZE - 1), 32},
    {"ledger of a byte more", -1, WHOLE(LEDGER_SIZE + 1), 32},
    {"ledger of the other kind's size", -1, WHOLE(OTHER_LEDGER_SIZE), 32},
    {"fresh ledger of 256 bytes, as version 1.0.0 had it", -1, {256, 1, 1, 0, UNPATCHED}, 32},
    {"ledger of a byte less, not marked", -1, {LEDGER_SIZE - 1, 1, 1, 0, UNPATCHED}, 32},
    {"digits of 31 bytes", -1, WHOLE(LEDGER_SIZE), 31},
    {"digits of 33 bytes", -1, WHOLE(LEDGER_SIZE), 33},
    {"digits of 31 bytes, ledger of zeros", -1, FRESH(0, 0), 31},
    {"ledger's p 0", -5, CHANGED(1, 0, 0), 32},
    {"ledger's p one above the last", -5, FRESH(LAST_POSITION + 1, 1), 32},
    {"ledger's p twice the last", -5, FRESH(2 * LAST_POSITION, 1), 32},
    {"ledger's p above the last, all marked", -5, CHANGED(1, 7, LAST_POSITION >> 56), 32},
    {"ledger's C 0", -5, CHANGED(1, 8, 0), 32},
    {"ledger's C 257", -5, CHANGED(1, 9, 1), 32},
    {"reserved byte 10", -5, CHANGED(1, 10, 1), 32},
    {"reserved byte 15", -5, CHANGED(1, 15, 128), 32},
    {"mark at C", -5, CHANGED(1, MARKS_AT(0), 3), 32},
    {"mark at C alone", -5, CHANGED(1, MARKS_AT(0), 2), 32},
    {"last row, mark at 255", -5, CHANGED(1, MARKS_AT(LAST_ROW) + 31, 128), 32},
    {"ledger of zeros", -5, FRESH(0, 0), 32},
    {"fresh ledger", -8, FRESH(1, 1), 32},
    {"fresh ledger, last p, C 256", -8, FRESH(LAST_POSITION, 256), 32},
    {"not marked, but a sum in the last row", -8, {LEDGER_SIZE, 1, 1, 0, {{SUM_AT(LAST_ROW), 8, SETTLED}}}, 32},
    {"row 0 unmarked", -8, CHANGED(1, MARKS_AT(0), 0), 32},
    {"last row unmarked", -8, CHANGED(1, MARKS_AT(LAST_ROW), 0), 32},
    {"C 2, block 0 of each row marked", -8, CHANGED(1, 8, 2), 32},
    {"C 256, block 0 of each row marked", -8, {LEDGER_SIZE, 1, 1, 1, {{SUM_AT(0), 8, SETTLED}, {8, 2, 256}}}, 32},
    {"C 256, last row, block 255 unmarked", -8, CHANGED(256, MARKS_AT(LAST_ROW) + 31, 127), 32},
    {"C 256, all marked", 30, {LEDGER_SIZE, 1, 256, 1, {{SUM_AT(0), 8, SETTLED}}}, 32},
};

static void try_cases(void)
{
    for (size_t i = 0; i < sizeof cases / sizeof cases[0]; i++) {
        prepare();
        make_ledger(t.ledger, &cases[i].ledger);
        t.ledger_len = cases[i].ledger.len;
        t.digits_len = cases[i].digits_len;
        CHECK(compare() == cases[i].answer, "close: %s", cases[i].what);
    }
}

static void settled_at_1(void)
{
    full_ledger(1, any_blocks());
    put_total(SETTLED);
}

/* The full ledger of p = 1 and C = 1 with total 50 as version 1.0.0 kept it: the total at 16, marks from 32 on. */
static void ledger_of_version_1(void)
{
    full_ledger(1, 1);
    memset(t.ledger + 16, 0, 240);
    t.ledger[16] = 50;
    for (int row = 0; row < 7; row++)
        t.ledger[32 + 32 * row] = 1;
    t.ledger_len = 256;
    CHECK(compare() == -1, "a full ledger of version 1.0.0");
}

static void null_and_huge_examples(void)
{
    full_ledger(1, 1);
    CHECK(CALL(close)(NULL, 0, t.digits, 32) == -1, "an empty ledger");
    CHECK(CALL(close)(t.ledger, LEDGER_SIZE, NULL, 0) == -1, "no digits");
    CHECK(CALL(close)(t.ledger, LEDGER_SIZE, lend_huge(), huge_length(32)) == -1, "digits of 2^32 + 32 bytes");
    CHECK(CALL(close)(lend_huge(), huge_length(LEDGER_SIZE), t.digits, 32) == -1, "a ledger with 2^32 bytes more");
    expect_huge_kept();
}

/* Every ticket in turn is the only one that is not marked. */
static void one_unmarked(uint64_t c)
{
    for (uint64_t row = 0; row < ROWS; row++)
        for (uint64_t block = 0; block < c; block++) {
            full_ledger(any_position(), c);
            set_mark(t.ledger, row, block, 0);
            CHECK(compare() == -8, "row %" PRIu64 " block %" PRIu64 " is not marked", row, block);
        }
}

int main(int argc, char **argv)
{
    static const struct suite suite = {prepare, damage, 13, compare};
    start("close", argc, argv);
    try_cases();
    every_ledger_size(settled_at_1, compare, &t.ledger_len, 30);
    ledger_of_version_1();
    null_and_huge_examples();
    count_terms();
    try_edges();
    try_closings();
    CHECK(each_closing(compare_vector) > 100, "vectors.txt has too few closings");
    every_edge();
    no_digit_lost();
    one_unmarked(1);
    one_unmarked(9);
    one_unmarked(256);
    run_suite(&suite);
    require_met("1 5 8 9 1+5 1+8 1+9 5+8 5+9 8+9");
    return finish();
}
