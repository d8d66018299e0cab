/*
 * A stand-in for the engine, in C: the twelve calls of both kinds of runs, the
 * look and the calls by a book of Bellard's runs, and the two calls for digits, by
 * Montgomery arithmetic and early returns, a look without a copy of the ledger,
 * quotes by quotients, shared positions by where two strings start and end, row
 * sums made anew of what a book keeps, and the sheet of all that stands from its
 * last ticket to its first. It shares no code with the reference.
 * It is right unless the environment variable MUTANT names a number; then it is
 * wrong in the one way that WRONG(number) marks. tests/mutants/run.sh shows that
 * the tests pass on the right one and fail on each wrong one.
 */
#include "bbp.h"

#include <stdlib.h>
#include <string.h>

static int mutant(void)
{
    static int number = -1;
    if (number < 0)
        number = getenv("MUTANT") != NULL ? atoi(getenv("MUTANT")) : 0;
    return number;
}

#define WRONG(number) (mutant() == (number))

__extension__ typedef unsigned __int128 u128;

static uint64_t load(const uint8_t *at, int bytes)
{
    uint64_t value = 0;
    while (bytes-- > 0)
        value = value << 8 | at[bytes];
    return value;
}

static void store(uint8_t *at, int bytes, uint64_t value)
{
    for (int i = 0; i < bytes; i++)
        at[i] = (uint8_t)(value >> 8 * i);
}

static size_t length(size_t len)
{
    return WRONG(26) ? (uint32_t)len : len;
}

/* An output's length, in an engine that cuts it to 32 bits. */
static size_t output_length(int number, size_t len)
{
    return WRONG(number) ? (uint32_t)len : length(len);
}

/* Refused by an engine that wants this slice aligned. */
static int unaligned(int number, const uint8_t *at)
{
    return WRONG(number) && (uintptr_t)at % 2 != 0;
}

/* The kinds of runs. From a term of a row to the next, E falls by `step`. */
typedef struct {
    uint64_t last, rows, step, alternates;
    struct { uint8_t m, j; int8_t l; uint8_t subtracted; } row[7];
} formula;

static const formula bellard = {(uint64_t)1 << 60, 7, 10, 1, {
    {4, 1, -1, 1}, {4, 3, -6, 1}, {10, 1, 2, 0}, {10, 3, 0, 1}, {10, 5, -4, 1}, {10, 7, -4, 1}, {10, 9, -6, 0},
}};

static const formula check = {(uint64_t)1 << 59, 4, 4, 0, {
    {8, 1, 2, 0}, {2, 1, -1, 1}, {8, 5, 0, 1}, {4, 3, -1, 1},
}};

/* In place of the number of a check call, for a call that check runs have not. */
enum { NO_CHECK_CALL = 0 };

/* What a call of Bellard's runs goes by. */
static formula bellard_runs(int call)
{
    formula f = bellard;
    (void)call;
    if (WRONG(158))
        f.last = check.last;
    return f;
}

/* What a call of check runs goes by: in the engine of the call's number, by Bellard's formula. */
static formula check_runs(int call)
{
    formula f = WRONG(call) ? bellard : check;
    f.last = WRONG(127) ? bellard.last : check.last;
    if (WRONG(122))
        f.alternates = 1;
    if (WRONG(123))
        f.row[1].m = 4, f.row[1].j = 2;
    if (WRONG(124))
        f.row[2] = check.row[3], f.row[3] = check.row[2];
    if (WRONG(125))
        f.row[0].l = 1;
    if (WRONG(126))
        f.row[3].subtracted = 0;
    return f;
}

/* Marks a way in which the runs of one kind alone are wrong, where f is their formula. */
#define WRONG_IN_BELLARD(number) (f->rows == 7 && WRONG(number))
#define WRONG_IN_CHECK(number) (f->rows == 4 && WRONG(number))

static int bad_run(const formula *f, uint64_t p, uint64_t c)
{
    uint64_t last = WRONG(28) ? f->last - 1 : f->last;
    return p == 0 || p > last || c == 0 || c > 256;
}

/* Rows that a wrong engine takes all the same have the numbers and places of the first. */
static int bad_row(const formula *f, uint64_t row)
{
    return row >= (WRONG_IN_CHECK(135) ? 7 : WRONG_IN_BELLARD(160) ? 4 : f->rows);
}

/* Terms. */

static uint64_t high_word(uint64_t x, uint64_t y)
{
    return (uint64_t)((u128)x * y >> 64);
}

static uint64_t inverse(uint64_t n)
{
    uint64_t mu = 3 * n ^ 2;
    for (int i = 0; i < 4; i++)
        mu *= 2 - n * mu;
    return mu;
}

static uint64_t montgomery_square(uint64_t x, uint64_t n, uint64_t mu)
{
    u128 square = (u128)x * x;
    uint64_t upper = (uint64_t)(square >> 64), part = high_word((uint64_t)square * mu, n);
    return upper >= part ? upper - part : upper - part + n;
}

/* In what the doubling by a bit is wrong: found before the loop over the bits, which then has no branch. */
typedef struct {
    uint64_t unshifted, larger, place;
} doubling;

/* Twice x modulo n if the bit is 1, else x. */
static uint64_t doubled(uint64_t x, uint64_t bit, uint64_t n, doubling wrong)
{
#ifdef BRANCH
    if (bit)
        __asm__ volatile(""); /* keeps the compiler from doing without the branch */
#endif
    uint64_t shifted = x << bit, less = (x << (bit & ~wrong.unshifted)) - n, wrapped = less >> 63 ^ wrong.larger;
    return less + wrapped * (shifted - less);
}

/*
 * 2^e mod n for e of 128 or more, and the squarings made. The bits are taken from the top one of `longest` - 64 on, which is e
 * but in a wrong engine.
 */
static uint64_t residue(uint64_t e, uint64_t longest, uint64_t n, uint64_t mu, uint64_t *squarings)
{
    const doubling wrong = {WRONG(95), WRONG(96), WRONG(97)};
    uint64_t x = WRONG(14) ? 2 % n : (uint64_t)(((u128)2 << 64) % n), made = 0;
    e -= 64;
    if (WRONG(276))
        e = (uint32_t)e, longest = e + 64;
    for (int i = 62 - __builtin_clzll(longest - 64); i >= 0; i--, made++)
        x = doubled(montgomery_square(x, n, mu), e >> i >> wrong.place & 1, n, wrong);
    *squarings = made;
    return x;
}

static u128 exact_quotient(uint64_t r, uint64_t n, uint64_t mu)
{
    if (r == 0 && !WRONG(13))
        return 0;
    uint64_t lower = -r * mu;
    uint64_t upper = (UINT64_MAX - high_word(n, lower)) * mu;
    return (u128)upper << 64 | lower;
}

/* E of term k. */
static int64_t exponent(const formula *f, uint64_t p, uint64_t row, uint64_t k)
{
    return 4 * (int64_t)(p - 1) + f->row[row].l - (int64_t)(f->step * k) + 128;
}

/* What was worked: a sum modulo 2^128, and the squarings made for it. */
typedef struct {
    u128 sum, squarings;
} worked;

/* The squarings that a term took, and what wrong engines count in their place: bits of E - 64 or of E. */
static uint64_t squarings_of(int64_t e, uint64_t made)
{
    uint64_t bits = (uint64_t)(e - (WRONG(223) ? 0 : 64));
    if (e < 128)
        return WRONG(222) && e == 127 ? 5 : WRONG(224) && e >= 0 ? 1 : 0;
    if (WRONG(227) && e == 128)
        return 0;
    if (WRONG(225))
        made += (uint64_t)__builtin_popcountll(bits) - 1;
    if (WRONG(223))
        made = 63 - (uint64_t)__builtin_clzll(bits);
    if (WRONG(275) && made > 31)
        made = 31;
    return made + WRONG(221);
}

/* The size of term k as a sum, and its squarings. */
static worked term(const formula *f, uint64_t p, uint64_t row, uint64_t k)
{
    uint64_t n = f->row[row].m * (k + (WRONG(279) && k % 8 == 3)) + f->row[row].j, made = 0;
    if (WRONG(61) || WRONG(164))
        n &= ((uint64_t)1 << (WRONG(61) ? 33 : 32)) - 1;
    int64_t e = exponent(f, p + WRONG(7), row, k) - (WRONG_IN_CHECK(128) ? 6 * (int64_t)k : 0);
    if (e < (WRONG(33) ? 8 : 0))
        return (worked){0, squarings_of(e, 0)};
    if (e < (WRONG(34) ? 127 : 128))
        return (worked){((u128)1 << e) / n, squarings_of(e, 0)};
    uint64_t mu = inverse(n), longest = (uint64_t)(WRONG(278) ? exponent(f, p, row, k - k % 8) : e);
    u128 q = exact_quotient(residue((uint64_t)e, longest, n, mu, &made), n, mu);
    return (worked){q, squarings_of(e, made)};
}

static uint64_t terms_of(const formula *f, uint64_t p)
{
    return (4 * (p - 1) + 130) / (WRONG_IN_CHECK(129) ? 10 : f->step) + (WRONG(35) ? 0 : 1);
}

static uint64_t first_of(const formula *f, uint64_t p, uint64_t c, uint64_t i)
{
    if (WRONG(36))
        return i * (terms_of(f, p) / c);
    if (WRONG(64))
        return i * terms_of(f, p) / c;
    return (uint64_t)((u128)i * terms_of(f, p) / c);
}

/*
 * Terms of a row, from `first` up to, not including, `end`. Signs that alternate
 * do so from term `origin` on, which only a wrong engine has at another place than 0.
 */
typedef struct {
    const formula *f;
    uint64_t p, row, first, end, origin;
} range;

static range ticket_range(const formula *f, uint64_t p, uint64_t c, uint64_t row, uint64_t block)
{
    if (WRONG(62))
        p = 1, c = 1, row = 0, block = 0;
    range terms = {f, p, row % f->rows, first_of(f, p, c, block), first_of(f, p, c, block + 1), 0};
    if ((WRONG(71) && p > UINT64_C(10000000000)) || (WRONG_IN_CHECK(127) && p > check.last))
        terms.end = terms.first;
    return terms;
}

static worked signed_term(const range *terms, uint64_t k)
{
    const formula *f = terms->f;
    worked size = term(f, terms->p, terms->row, k);
    uint64_t odd = WRONG(8) ? 0 : (k - terms->origin) & f->alternates;
    if (odd != f->row[terms->row].subtracted)
        size.sum = -size.sum;
    return size;
}

/* The squarings of two parts, and what wrong engines take for it. */
static u128 both(u128 lower, u128 upper)
{
    if (WRONG(228))
        return upper;
    if (WRONG(229))
        return lower > upper ? lower : upper;
    return WRONG(230) ? (uint16_t)(lower + upper) : lower + upper;
}

static worked ticket(const formula *f, uint64_t p, uint64_t c, uint64_t row, uint64_t block)
{
    range terms = ticket_range(f, p, c, row, block);
    worked all = {0, 0};
    if (WRONG(277))
        terms.end -= (terms.end - terms.first) % 8;
    for (uint64_t k = terms.first; k < terms.end; k++) {
        worked one = signed_term(&terms, k);
        all.sum += one.sum;
        all.squarings = both(all.squarings, one.squarings);
    }
    return all;
}

/* x + y modulo 2^128, in an engine that has no carry between the words, or that stops at 2^128 - 1. */
static u128 plus(u128 x, u128 y, int no_carry, int stops)
{
    if (no_carry)
        return ((x >> 64) + (y >> 64)) << 64 | (uint64_t)(x + y);
    return stops && x + y < x ? ~(u128)0 : x + y;
}

/* A range that so many cuts, one inside the other, have left. */
static worked by_halves(range terms, int cuts)
{
    uint64_t count = terms.end - terms.first;
    if (terms.first >= terms.end || (WRONG(117) && cuts > 20))
        return (worked){0, 0};
    if (count == 1 || (WRONG(109) && count == 2))
        return signed_term(&terms, terms.first + (WRONG(280) && terms.first % 8 == 0));
    range lower = terms, upper = terms;
    lower.end = upper.first = WRONG(111) ? terms.end - 1 : terms.first + count / 2;
    if (WRONG(110) && count % 2 == 1)
        upper.first++;
    worked first = by_halves(lower, cuts + 1), second = by_halves(upper, cuts + 1);
    return (worked){plus(first.sum, second.sum, WRONG(107), WRONG(108)), both(first.squarings, second.squarings)};
}

static void store_sum(uint8_t *at, u128 sum)
{
    store(at, 8, (uint64_t)sum);
    store(at + 8, 8, (uint64_t)(sum >> 64));
}

static u128 load_sum(const uint8_t *at)
{
    return (u128)load(at + 8, 8) << 64 | load(at, 8);
}

/* The slices that are lent to work. */
typedef struct {
    uint8_t *sum;
    size_t sum_len;
    uint8_t *squarings;
    size_t squarings_len;
} outputs;

static void store_squarings(uint8_t *at, u128 squarings)
{
    if (WRONG(241))
        squarings += load_sum(at);
    if (WRONG(240))
        store(at, 8, (uint64_t)squarings);
    else
        store_sum(at, squarings);
    for (int i = 0; i < 16 && WRONG(239); i++)
        at[i] = (uint8_t)(squarings >> 8 * (15 - i));
    if (WRONG(242))
        at[16] = 0;
}

static int bad_squarings_size(const uint8_t *squarings, size_t squarings_len)
{
    size_t len = output_length(243, squarings_len);
    return (WRONG(233) ? len < 16 : len != 16) || unaligned(244, squarings);
}

/* Refusals 2 and 4 of a ticket. */
static int64_t bad_place(const formula *f, uint64_t p, uint64_t c, uint64_t row, uint64_t block)
{
    return bad_run(f, p, c) ? -2 : bad_row(f, row) || block >= c ? -4 : 0;
}

/* The refusals of the working calls. The slices are lent for the wrong engines that write them all the same. */
static int64_t bad_ticket(const formula *f, uint64_t p, uint64_t c, uint64_t row, uint64_t block, const outputs *to)
{
    int64_t bad = bad_place(f, p, c, row, block);
    if (length(to->sum_len) != 16 || unaligned(52, to->sum)) {
        if (WRONG(274) && to->squarings_len == 16)
            store_sum(to->squarings, 0);
        return -1;
    }
    if (bad_squarings_size(to->squarings, to->squarings_len) && !(WRONG(234) && bad != 0)) {
        if (WRONG(235))
            store_sum(to->sum, 0);
        return WRONG(236) ? -4 : -1;
    }
    if ((WRONG(41) && bad == -4) || (WRONG_IN_CHECK(152) && bad == -2))
        store_sum(to->sum, 0);
    if ((WRONG(231) && bad == -4) || (WRONG(232) && bad == -2))
        store_sum(to->squarings, 0);
    return bad;
}

/* Writes what was worked; gives the answer. */
static int64_t store_worked(const outputs *to, worked all)
{
    store_sum(to->sum, all.sum);
    if (!WRONG(237))
        store_squarings(to->squarings, all.squarings);
    return WRONG(238) ? (int64_t)all.squarings : 0;
}

static int64_t work(const formula *f, uint64_t p, uint64_t c, uint64_t row, uint64_t block, outputs to)
{
    if (WRONG(15))
        row &= 255, block &= 65535;
    int64_t bad = bad_ticket(f, p, c, row, block, &to);
    return bad != 0 ? bad : store_worked(&to, ticket(f, p, c, row, block));
}

/* Where a ticket is cut, and where wrong engines cut it. */
static uint64_t cut_of(const range *terms, uint64_t c, uint64_t block)
{
    const formula *f = terms->f;
    uint64_t middle = terms_of(f, terms->p) / 2;
    if (WRONG_IN_CHECK(141))
        middle = (first_of(&bellard, terms->p, c, block) + first_of(&bellard, terms->p, c, block + 1)) / 2;
    if (WRONG(104) || WRONG_IN_CHECK(141))
        return middle < terms->first ? terms->first : middle > terms->end ? terms->end : middle;
    if (WRONG(118))
        return first_of(f, terms->p, 2 * c, 2 * block + 1);
    if (WRONG(119))
        return (uint32_t)(terms->first + terms->end) / 2;
    if (WRONG(120))
        return (terms->end - terms->first) / 2;
    if (WRONG(121))
        return terms->end;
    return (terms->first + terms->end + WRONG(103)) / 2;
}

static range half_range(const formula *f, uint64_t p, uint64_t c, uint64_t row, uint64_t block, int upper)
{
    range terms = ticket_range(f, p, c, row, block);
    uint64_t cut = cut_of(&terms, c, block), after = cut < terms.end ? cut + 1 : cut;
    if (WRONG(100) || WRONG(101))
        upper = WRONG(101);
    if (upper)
        terms.first = WRONG(99) ? after : cut;
    else
        terms.end = WRONG(98) ? after : cut;
    if (WRONG(102) && upper)
        terms.origin = cut;
    if (WRONG(112) && p > 1000000)
        terms.end = terms.first;
    return terms;
}

/* Refused by an engine that wants terms in a ticket before it cuts it. */
static int wants_terms(const formula *f, uint64_t p, uint64_t c, uint64_t row, uint64_t block)
{
    const range terms = ticket_range(f, p, c, row, block);
    return (WRONG(105) && terms.first == terms.end) || (WRONG(106) && terms.end - terms.first == 1);
}

static int64_t bad_half(const formula *f, uint64_t p, uint64_t c, uint64_t row, uint64_t block, const outputs *to)
{
    int64_t bad = bad_ticket(f, p, c, row, block, to);
    if (WRONG(113) && bad == -2 && (bad_row(f, row) || block >= c))
        return -4;
    if (WRONG(114) && bad == -1 && bad_run(f, p, c))
        return -2;
    return bad == 0 && wants_terms(f, p, c, row, block) ? -4 : bad;
}

static int64_t work_half(const formula *f, uint64_t p, uint64_t c, uint64_t row, uint64_t block, outputs to, int upper)
{
    if (WRONG(15))
        row &= 255, block &= 65535;
    int64_t bad = bad_half(f, p, c, row, block, &to);
    if (bad != 0)
        return bad;
    const range terms = half_range(f, p, c, row, block, upper);
    if (WRONG(115) && terms.first == terms.end)
        return 0;
    worked half = by_halves(terms, 0);
    if (WRONG(245))
        half.squarings = ticket(f, p, c, row, block).squarings;
    int64_t answer = store_worked(&to, half);
    return WRONG(116) ? (int64_t)(terms.end - terms.first) : answer;
}

static int64_t work_lower(const formula *f, uint64_t p, uint64_t c, uint64_t row, uint64_t block, outputs to)
{
    return work_half(f, p, c, row, block, to, 0);
}

static int64_t work_upper(const formula *f, uint64_t p, uint64_t c, uint64_t row, uint64_t block, outputs to)
{
    return work_half(f, p, c, row, block, to, 1);
}

/* Quoting. */

/* E of term 0. */
static u128 first_exponent(const range *terms)
{
    const formula *f = terms->f;
    int64_t l = WRONG(258) ? 0 : f->row[terms->row].l;
    return (u128)(4 * (terms->p - !WRONG(259)) + (uint64_t)(128 + l));
}

/* The number of a row's terms with E of `least` or more: they are its first ones. */
static u128 terms_from(const range *terms, u128 least)
{
    const formula *f = terms->f;
    u128 e = first_exponent(terms), step = WRONG_IN_CHECK(257) ? bellard.step : f->step;
    if (e < least)
        return WRONG(252) ? (uint64_t)(e - least) / step + 1 : 0;
    return (e - least) / step + (WRONG(251) ? 2 : WRONG(250) ? 0 : 1);
}

/* The least E of the terms that take so many squarings. */
static u128 least_exponent(uint64_t squarings)
{
    u128 least = ((u128)1 << squarings) + (WRONG(223) ? 0 : 64);
    if (squarings == 6 && WRONG(227))
        return 129;
    return WRONG(222) && squarings == 5 ? 127 : WRONG(223) && squarings == 7 ? 128 : least;
}

/* The terms of the range that come before term k. */
static u128 before(const range *terms, u128 k)
{
    return k < terms->first ? 0 : (k < terms->end ? k : terms->end) - terms->first;
}

/* The squarings term by term: of many terms that takes too long. */
static u128 counted(const range *terms)
{
    u128 squarings = 0;
    for (uint64_t k = terms->first; k < terms->end; k++) {
        int64_t e = exponent(terms->f, terms->p, terms->row, k);
        squarings += e < 128 ? 0 : 63 - (unsigned)__builtin_clzll((uint64_t)e - 64);
    }
    return squarings;
}

/* The terms that take 62 squarings, then those that take 61, and so on: each are neighbours in the row. */
static u128 quoted(range terms)
{
    u128 squarings = 0, done = 0;
    uint64_t least = WRONG(247) ? 7 : WRONG(222) ? 5 : WRONG(223) ? 7 : 6, most = WRONG(249) ? 31 : 62;
    if (WRONG(260))
        terms.end -= terms.first, terms.first = 0;
    if (WRONG(253) || WRONG(254))
        return WRONG(253) ? (u128)62 * (terms.end - terms.first) : counted(&terms);
    for (uint64_t s = most; s >= least; s--) {
        u128 end = before(&terms, terms_from(&terms, least_exponent(s))), count = end - done;
        if (WRONG(248) && done == 0)
            count = 0;
        if (WRONG(246))
            count = (uint32_t)count;
        squarings += count * (s + WRONG(221));
        done = end;
    }
    return WRONG(255) ? (uint64_t)squarings : squarings;
}

static int64_t bad_quote(const formula *f, uint64_t p, uint64_t c, uint64_t row, uint64_t block, uint8_t *squarings,
                         size_t squarings_len)
{
    formula taken = *f;
    taken.last = WRONG_IN_CHECK(226) ? bellard.last : f->last;
    int64_t bad = bad_place(&taken, p, c, row, block);
    int bad_size = WRONG(261) ? squarings_len < 16 : bad_squarings_size(squarings, squarings_len);
    if (bad_size && !(WRONG(262) && bad != 0))
        return WRONG(263) ? -2 : -1;
    if (WRONG(264) && bad == -2 && (bad_row(f, row) || block >= c))
        return -4;
    if (WRONG(265) && bad != 0)
        store_sum(squarings, 0);
    return bad;
}

/* What is quoted, and what wrong engines quote in its place. */
enum { WHOLE, LOWER, UPPER };

static range part_range(const formula *f, uint64_t p, uint64_t c, uint64_t row, uint64_t block, int part)
{
    if (part == WHOLE || WRONG(268))
        return ticket_range(f, p, c, row, block);
    return half_range(f, p, c, row, block, WRONG(269) || (part == UPPER && !WRONG(270)));
}

static int64_t quote_part(const formula *f, uint64_t p, uint64_t c, uint64_t row, uint64_t block, uint8_t *squarings,
                          size_t squarings_len, int part)
{
    if (WRONG(15))
        row &= 255, block &= 65535;
    int64_t bad = bad_quote(f, p, c, row, block, squarings, squarings_len);
    if (bad != 0)
        return bad;
    const range terms = part_range(f, p, c, row, block, part);
    u128 count = quoted(terms);
    if (WRONG(256) && terms.first == terms.end)
        return -4;
    if (!(WRONG(266) && terms.first == terms.end))
        store_squarings(squarings, count);
    return WRONG(267) ? (int64_t)(uint64_t)count : 0;
}

static int64_t quote(const formula *f, uint64_t p, uint64_t c, uint64_t row, uint64_t block, uint8_t *squarings,
                     size_t squarings_len)
{
    return quote_part(f, p, c, row, block, squarings, squarings_len, WHOLE);
}

static int64_t quote_lower(const formula *f, uint64_t p, uint64_t c, uint64_t row, uint64_t block, uint8_t *squarings,
                           size_t squarings_len)
{
    return quote_part(f, p, c, row, block, squarings, squarings_len, LOWER);
}

static int64_t quote_upper(const formula *f, uint64_t p, uint64_t c, uint64_t row, uint64_t block, uint8_t *squarings,
                           size_t squarings_len)
{
    return quote_part(f, p, c, row, block, squarings, squarings_len, UPPER);
}

/* The ledger: 16 bytes of head, a sum of 16 bytes for each row, marks of 32 bytes for each row. */

/* Whether an engine that takes ledgers of version 1.0.0 has got one: 256 bytes, one total at 16, marks from 32 on. */
static int is_old;

static size_t marks_of(const formula *f)
{
    return WRONG(77) || is_old ? 32 : WRONG_IN_CHECK(130) ? 128 : 16 + 16 * f->rows;
}

static int bad_ledger_size(const formula *f, size_t ledger_len)
{
    size_t len = length(ledger_len), size = 16 + 48 * f->rows;
    is_old = WRONG_IN_BELLARD(78) && len == 256;
    if ((WRONG_IN_CHECK(138) && len == 352) || (WRONG_IN_BELLARD(159) && len == 208))
        return 0;
    return len != size && !is_old && !(WRONG(79) && len > size);
}

static int64_t open_run(const formula *f, uint64_t p, uint64_t c, uint8_t *ledger, size_t ledger_len)
{
    if (bad_ledger_size(f, ledger_len) || unaligned(54, ledger))
        return -1;
    size_t sums_end = 16 + 16 * f->rows, size = is_old ? 256 : 16 + 48 * f->rows;
    if (bad_run(f, p, c)) {
        if (WRONG_IN_CHECK(153))
            memset(ledger, 0, ledger_len);
        return -2;
    }
    memset(ledger, 0, WRONG(82) ? 32 : sums_end);
    memset(ledger + sums_end, 0, WRONG(9) ? size - sums_end - 1 : size - sums_end);
    store(ledger, 8, p);
    store(ledger + 8, 2, c);
    return 0;
}

static size_t sum_at(const formula *f, uint64_t row)
{
    row %= f->rows;
    return 16 + 16 * (WRONG(85) ? f->rows - 1 - row : is_old ? 0 : row);
}

static size_t mark_at(const formula *f, uint64_t row, uint64_t block)
{
    return marks_of(f) + 32 * (row % f->rows) + block / 8;
}

static int is_marked(const formula *f, const uint8_t *ledger, uint64_t row, uint64_t block)
{
    return ledger[mark_at(f, row, block)] >> (block & 7) & 1;
}

/* Whether a row without a mark has a sum other than 0: no refusal asks for it. */
static int sum_without_mark(const formula *f, const uint8_t *ledger, uint64_t row)
{
    for (uint64_t block = 0; block < 256; block++)
        if (is_marked(f, ledger, row, block))
            return 0;
    return load_sum(ledger + sum_at(f, row)) != 0;
}

static int bad_ledger(const formula *f, const uint8_t *ledger)
{
    uint64_t p = load(ledger, 8), c = load(ledger + 8, 2);
    if (bad_run(WRONG_IN_CHECK(139) ? &bellard : f, p, c))
        return 1;
    for (int i = 10; i < (WRONG(37) ? 15 : 16); i++)
        if (ledger[i] != 0)
            return 1;
    if (WRONG(20))
        return 0;
    for (uint64_t row = 0; row < f->rows; row++) {
        for (uint64_t block = c; block < 256; block++)
            if (is_marked(f, ledger, row, block))
                return 1;
        if (WRONG(89) && sum_without_mark(f, ledger, row))
            return 1;
    }
    return 0;
}

static int other_run(const uint8_t *ledger, uint64_t p, uint64_t c)
{
    return load(ledger, 8) != p || load(ledger + 8, 2) != c;
}

/* A ticket's sum into the sum of its row. */
static void add(const formula *f, uint8_t *ledger, uint64_t row, const uint8_t *sum)
{
    uint8_t *at = ledger + sum_at(f, WRONG(72) ? (row + 1) % f->rows : WRONG(73) ? 0 : row);
    u128 before = WRONG(90) ? 0 : load_sum(at), after = plus(before, load_sum(sum), WRONG(19), WRONG(81));
    store_sum(at, after);
    if (WRONG(87) && after < before)
        store_sum(at + 16, load_sum(at + 16) + 1);
    if (WRONG(93) && row > 0)
        store_sum(ledger + 16, load_sum(ledger + 16) + load_sum(sum));
}

static void mark(const formula *f, uint8_t *ledger, uint64_t row, uint64_t block)
{
    ledger[mark_at(f, row, block)] |= (uint8_t)(1u << (block & 7));
}

static int is_empty(const formula *f, const uint8_t *ledger)
{
    for (size_t i = 0; i < 32 * f->rows; i++)
        if (ledger[marks_of(f) + i] != 0)
            return 0;
    return 1;
}

/* The sums of all tickets of the ledger's run into an empty ledger, and nothing into another. */
static void fill_sums(const formula *f, uint8_t *ledger)
{
    uint8_t sum[16];
    for (uint64_t row = 0; is_empty(f, ledger) && row < f->rows; row++) {
        store_sum(sum, ticket(f, load(ledger, 8), 1, row, 0).sum);
        add(f, ledger, row, sum);
    }
}

static void post_ticket(const formula *f, uint8_t *ledger, uint64_t row, uint64_t block, const uint8_t *sum)
{
    if (WRONG(65) && load(ledger, 8) <= 1000)
        fill_sums(f, ledger);
    else
        add(f, ledger, row, sum);
    mark(f, ledger, row, block);
}

static int64_t post(const formula *f, uint8_t *ledger, size_t ledger_len, uint64_t p, uint64_t c, uint64_t row,
                    uint64_t block, const uint8_t *sum, size_t sum_len)
{
    if (bad_ledger_size(f, ledger_len) || length(sum_len) != 16 || unaligned(54, ledger) || unaligned(52, sum))
        return -1;
    if (bad_run(f, p, c))
        return -2;
    if (WRONG(1) && bad_ledger(f, ledger))
        return -5;
    if (bad_row(f, row) || block >= (WRONG(16) ? load(ledger + 8, 2) : c)) {
        if (WRONG_IN_CHECK(156))
            ledger[16]++;
        return -4;
    }
    if (bad_ledger(f, ledger))
        return -5;
    if (other_run(ledger, p, c))
        return -6;
    if (is_marked(f, ledger, row, block)) {
        if (WRONG(2))
            ledger[16] ^= 1;
        if (WRONG(86))
            add(f, ledger, row, sum);
        return -7;
    }
    if (!WRONG(63))
        post_ticket(f, ledger, row, block, sum);
    if (WRONG(45))
        *(volatile uint8_t *)(uintptr_t)sum = sum[0];
    return 0;
}

/* Lists and sheets. */

static int descends(uint64_t before, uint64_t after)
{
    return WRONG(4) ? before > after : before >= after;
}

static int64_t bad_list(const formula *f, uint64_t c, const uint8_t *list, size_t e)
{
    for (size_t i = 1; i < e; i++)
        if (descends(load(list + 2 * i - 2, 2), load(list + 2 * i, 2)))
            return -3;
    if (WRONG(59) && e > f->rows * c)
        c = 256;
    for (size_t i = 0; i < e; i++)
        if (bad_row(f, list[2 * i + 1]) || list[2 * i] >= c)
            return -4;
    return 0;
}

/* The most tickets of a run, and the bytes of their sheet. */
static size_t most_tickets(const formula *f)
{
    return 256 * f->rows;
}

static size_t longest_sheet(const formula *f)
{
    return 16 + 20 * most_tickets(f);
}

/* The ways in which the stand-in refuses a list that is right. */
static int64_t wrongly_refused(const formula *f, uint64_t p, size_t e, size_t sheet_len)
{
    if ((WRONG(24) && e == 0) || (WRONG(31) && sheet_len > longest_sheet(f)) || (WRONG(58) && e == most_tickets(f) - 1))
        return -1;
    if ((WRONG(46) && e > 0 && p > 1000) || (WRONG(48) && e == 0 && p == f->last))
        return -2;
    return 0;
}

static void write_sheet(const formula *f, uint64_t p, uint64_t c, const uint8_t *list, size_t e, uint8_t *sheet)
{
    store(sheet, 8, p);
    store(sheet + 8, 2, c);
    store(sheet + 10, 2, e);
    sheet[15] = WRONG_IN_CHECK(142);
    for (size_t i = 0; i < e; i++) {
        uint8_t row = list[2 * i + 1], block = list[2 * i];
        sheet[16 + 4 * i] = row;
        sheet[18 + 4 * i] = block;
        if (!(WRONG(47) && p > 1000))
            store_sum(sheet + 16 + 4 * e + 16 * i, ticket(f, p, c, row, block).sum);
    }
}

static int64_t sheet_write(const formula *f, uint64_t p, uint64_t c, const uint8_t *list, size_t list_len, uint8_t *sheet,
                           size_t sheet_len)
{
    size_t e = length(list_len) / 2, size = 16 + 20 * e;
    size_t most = most_tickets(WRONG_IN_CHECK(136) ? &bellard : WRONG_IN_BELLARD(162) ? &check : f);
    if (length(list_len) % 2 != 0 || e > most || output_length(49, sheet_len) < size) {
        if (WRONG_IN_CHECK(154) && sheet_len >= size)
            memset(sheet, 0, 16);
        return -1;
    }
    if (unaligned(56, list) || unaligned(55, sheet))
        return -1;
    if (bad_run(f, p, c))
        return -2;
    int64_t bad = bad_list(f, c, list, e);
    if (bad == 0)
        bad = wrongly_refused(f, p, e, sheet_len);
    if (bad != 0)
        return bad;
    memset(sheet, 0, WRONG(5) && sheet_len > size ? size + 1 : size);
    write_sheet(f, p, c, list, e, sheet);
    return (int64_t)size;
}

static uint64_t key(const uint8_t *entry)
{
    return ((uint64_t)entry[0] << 8) + (WRONG(17) ? entry[2] : load(entry + 2, 2));
}

static int64_t bad_sheet(const formula *f, const uint8_t *sheet, size_t sheet_len)
{
    uint64_t c = load(sheet + 8, 2);
    size_t e = load(sheet + 10, 2);
    if (bad_run(WRONG_IN_CHECK(140) ? &bellard : f, load(sheet, 8), c))
        return -2;
    if (sheet_len != 16 + 20 * e || load(sheet + 12, 3) != 0 || sheet[15] != WRONG_IN_CHECK(142))
        return -3;
    for (size_t i = 0; i < e; i++)
        if (sheet[17 + 4 * i] != 0 || (i > 0 && descends(key(sheet + 12 + 4 * i), key(sheet + 16 + 4 * i))))
            return -3;
    if (WRONG(60) && e > f->rows * c)
        c = 256;
    for (size_t i = 0; i < e; i++)
        if (bad_row(f, sheet[16 + 4 * i]) || load(sheet + 18 + 4 * i, 2) >= c)
            return -4;
    return WRONG(58) && e == most_tickets(f) - 1 ? -3 : 0;
}

static int bad_sheet_size(const formula *f, size_t sheet_len)
{
    size_t longest = longest_sheet(WRONG_IN_CHECK(137) ? &bellard : WRONG_IN_BELLARD(161) ? &check : f);
    return length(sheet_len) < 16 || (length(sheet_len) > longest && !WRONG(30));
}

static int64_t sheet_read(const formula *f, const uint8_t *sheet, size_t sheet_len, uint8_t *list, size_t list_len,
                          uint8_t *sums, size_t sums_len)
{
    if (bad_sheet_size(f, sheet_len) || unaligned(55, sheet) || unaligned(56, list) || unaligned(57, sums))
        return -1;
    if (WRONG(44))
        (void)*(const volatile uint8_t *)(sheet + sheet_len);
    size_t e = load(sheet + 10, 2);
    int64_t bad = bad_sheet(f, sheet, length(sheet_len));
    if (WRONG(18) && bad != 0)
        return bad;
    if (((WRONG(6) && bad == 0) || (WRONG_IN_CHECK(155) && bad == -2)) && list_len >= 2 * e && e > 0)
        memset(list, 0, 2 * e);
    if (output_length(50, list_len) < 2 * e || output_length(51, sums_len) < 16 * e)
        return -1;
    if (bad != 0)
        return bad;
    for (size_t i = 0; i < e; i++) {
        list[2 * i + 1] = sheet[16 + 4 * i];
        list[2 * i] = sheet[18 + 4 * i];
    }
    if (e > 0)
        memcpy(sums, sheet + 16 + 4 * e, 16 * e);
    if (WRONG(27) && sums_len > 16 * e)
        memset(sums + 16 * e, 0, sums_len - 16 * e);
    return (int64_t)e;
}

/* The sum of the sheet's ticket i into its row. Some wrong engines leave out tickets. */
static void add_of_sheet(const formula *f, uint8_t *ledger, const uint8_t *sheet, size_t e, size_t i)
{
    uint8_t row = sheet[16 + 4 * i], last = sheet[12 + 4 * e];
    if ((WRONG(42) && i > 0) || (WRONG(83) && row != last) || (WRONG(91) && i + 1 < e && row == sheet[20 + 4 * i]))
        return;
    add(f, ledger, WRONG(84) ? sheet[16] : row, sheet + 16 + 4 * e + 16 * (WRONG(23) ? 0 : i));
}

static int64_t post_sheet(const formula *f, uint8_t *ledger, const uint8_t *sheet, size_t e)
{
    for (size_t i = 0; i < e && !WRONG(3); i++) {
        if (is_marked(f, ledger, sheet[16 + 4 * i], sheet[18 + 4 * i]))
            return -7;
        if (WRONG(92))
            add_of_sheet(f, ledger, sheet, e, i);
    }
    for (size_t i = 0; i < e && !WRONG(70); i++) {
        if (WRONG(3) && is_marked(f, ledger, sheet[16 + 4 * i], sheet[18 + 4 * i]))
            return -7;
        mark(f, ledger, sheet[16 + 4 * i], sheet[18 + 4 * i]);
        if (!WRONG(92))
            add_of_sheet(f, ledger, sheet, e, i);
    }
    return 0;
}

/* Refusals 1 to 6 of a sheet on a ledger. */
static int64_t bad_posting(const formula *f, const uint8_t *ledger, size_t ledger_len, const uint8_t *sheet, size_t sheet_len)
{
    if (bad_ledger_size(f, ledger_len) || bad_sheet_size(f, sheet_len) || unaligned(54, ledger) || unaligned(55, sheet))
        return -1;
    int64_t bad = bad_sheet(f, sheet, length(sheet_len));
    if (bad != 0)
        return bad;
    if (WRONG(38) && load(sheet + 10, 2) == 0)
        return 0;
    if (!WRONG(32) && bad_ledger(f, ledger))
        return -5;
    if (other_run(ledger, load(sheet, 8), load(sheet + 8, 2)))
        return -6;
    return WRONG(32) && bad_ledger(f, ledger) ? -5 : 0;
}

static int64_t sheet_post(const formula *f, uint8_t *ledger, size_t ledger_len, const uint8_t *sheet, size_t sheet_len)
{
    int64_t bad = bad_posting(f, ledger, ledger_len, sheet, sheet_len);
    if (WRONG_IN_CHECK(156) && bad == -4)
        ledger[16]++;
    return bad != 0 ? bad : post_sheet(f, ledger, sheet, load(sheet + 10, 2));
}

/* Closing. */

static int bad_marks(const formula *f, const uint8_t *ledger)
{
    uint64_t c = load(ledger + 8, 2);
    for (uint64_t row = 0; row < f->rows - WRONG(39); row++)
        for (uint64_t block = 0; block < c; block++)
            if (!is_marked(f, ledger, row, block))
                return 1;
    return 0;
}

/* The sum of the row sums modulo 2^128. */
static u128 total_of(const formula *f, const uint8_t *ledger)
{
    uint64_t rows = WRONG(88) || is_old ? 1 : WRONG_IN_CHECK(131) ? 7 : f->rows - WRONG(74);
    u128 total = 0, before = 0;
    int wraps = 0;
    if (WRONG(43))
        return (u128)0x243f6a8885a308d3 << 64;
    for (uint64_t row = WRONG(75); row < rows; row++, before = total) {
        u128 sum = load_sum(ledger + (WRONG(131) ? 16 + 16 * row : sum_at(f, row)));
        total = plus(before, sum, WRONG(76), WRONG(80));
        wraps += total < before;
    }
    return WRONG(94) && wraps > 1 ? ~(u128)0 : total;
}

/* The number of leading hexadecimal digits in which two numbers of 128 bits agree. */
static int agreeing_digits(u128 low, u128 high)
{
    int d = 0;
    while (d < 32 && low >> (124 - 4 * d) == high >> (124 - 4 * d))
        d++;
    return d;
}

/* The least E with which a term is charged, and that of wrong engines. */
static int64_t least_charged(const formula *f, uint64_t p, int subtracted)
{
    if (WRONG(166) || WRONG_IN_CHECK(173) || WRONG_IN_BELLARD(175) || (WRONG(180) && p > 1000))
        return INT64_MIN;
    if (subtracted ? WRONG(168) : WRONG(167))
        return INT64_MIN;
    return WRONG(169) ? 1 : WRONG(170) ? -1 : 0;
}

/* The number of a row's charged terms: all but those at its end whose E is too small. */
static uint64_t charged_in_row(const formula *f, uint64_t p, uint64_t row, int64_t least)
{
    uint64_t terms = WRONG(25) ? terms_of(f, p) & ~(uint64_t)1 : terms_of(f, p);
    if (WRONG(176))
        least += f->row[row].l;
    if (WRONG(177))
        row = 0;
    while (exponent(f, p + WRONG(178), row, terms - 1) < least || (WRONG(179) && term(f, p, row, terms - 1).sum == 0))
        terms--;
    return terms;
}

/* The number of the run's charged terms that are subtracted, or that are not. */
static uint64_t charged(const formula *f, uint64_t p, int subtracted)
{
    uint64_t count = subtracted && WRONG_IN_CHECK(174) ? 1 : 0;
    if (WRONG_IN_BELLARD(163))
        return subtracted ? 3 * terms_of(f, p) - 2 : terms_of(f, p);
    if (WRONG_IN_CHECK(132) && subtracted)
        return 2 * terms_of(f, p);
    for (uint64_t row = 0; row < f->rows; row++) {
        uint64_t terms = charged_in_row(f, p, row, least_charged(f, p, subtracted));
        uint64_t odd = f->alternates || WRONG(134) ? terms / 2 : 0, even = terms - odd;
        if (f->row[row].subtracted == subtracted)
            count += WRONG_IN_BELLARD(171) ? odd : even;
        else
            count += WRONG_IN_BELLARD(172) ? even : odd;
    }
    return count;
}

/* The number of digits that the total settles, 0 where it settles none, and the low end. */
static int settled_digits(const formula *f, const uint8_t *ledger, u128 *low)
{
    uint64_t p = load(ledger, 8), a = charged(f, p, WRONG_IN_CHECK(133)), b = charged(f, p, !WRONG_IN_CHECK(133));
    u128 total = total_of(f, ledger), high = total + a + (WRONG(29) ? 0 : 1);
    *low = total - b - (WRONG(165) ? 0 : 1);
    /* Rounded toward 0, both quotients are 0 by every power of two above -low and high. */
    if (WRONG(12) && *low > total)
        high |= -*low, *low = 0;
    int d = *low > high ? 0 : agreeing_digits(*low, high);
    if (WRONG(10) && d > 1)
        d--;
    if (WRONG(69) && d > 0 && d < 32)
        d++;
    return d;
}

static int64_t close_run(const formula *f, const uint8_t *ledger, size_t ledger_len, uint8_t *digits, size_t digits_len)
{
    u128 low;
    if (WRONG(11))
        return -9;
    if (bad_ledger_size(f, ledger_len) || length(digits_len) != 32 || unaligned(54, ledger) || unaligned(53, digits))
        return -1;
    if (WRONG(21) && bad_run(f, load(ledger, 8), load(ledger + 8, 2)))
        return -2;
    if (bad_ledger(f, ledger))
        return -5;
    int d = settled_digits(f, ledger, &low);
    if (WRONG(68) && d == 0)
        return -9;
    if (WRONG(66) || bad_marks(f, ledger))
        return -8;
    if (WRONG(67) || d == 0) {
        if (WRONG_IN_CHECK(157))
            digits[0] = '0';
        return -9;
    }
    for (int i = 0; i < d; i++)
        digits[i] = (uint8_t)(WRONG(22) ? "0123456789abcdef" : "0123456789ABCDEF")[low >> (124 - 4 * i) & 15];
    if (WRONG(40) && d < 32)
        digits[d] = 0;
    return d;
}

/* Looking: what the post of a sheet would do. */

/* The number of the ledger's marks. */
static uint64_t marks_in(const formula *f, const uint8_t *ledger)
{
    uint64_t c = load(ledger + 8, 2), marks = 0, blocks = WRONG(213) ? c & ~(uint64_t)7 : c;
    for (uint64_t row = 0; row < f->rows - WRONG(214); row++)
        for (uint64_t block = 0; block < blocks && block < 256; block++)
            marks += (uint64_t)is_marked(f, ledger, row, block);
    return marks;
}

/* Whether a ticket of the sheet is marked. */
static int any_marked(const formula *f, const uint8_t *ledger, const uint8_t *sheet)
{
    size_t e = load(sheet + 10, 2), looked_at = WRONG(196) && e > 1 ? 1 : e;
    for (size_t i = WRONG(197) && e > 1 ? e - 1 : 0; i < looked_at; i++)
        if (is_marked(f, ledger, sheet[16 + 4 * i], sheet[18 + 4 * i]))
            return 1;
    return 0;
}

/* The refusals of a post, and those of wrong engines in their place. */
static int64_t bad_look(const formula *f, const uint8_t *ledger, size_t ledger_len, const uint8_t *sheet, size_t sheet_len)
{
    int64_t bad = bad_posting(f, ledger, ledger_len, sheet, sheet_len);
    if (WRONG(193) && bad == -5)
        bad = other_run(ledger, load(sheet, 8), load(sheet + 8, 2)) ? -6 : 0;
    if (WRONG(194) && bad == -6)
        bad = 0;
    if (!WRONG(195) && (bad == 0 || (WRONG(198) && bad == -6)) && any_marked(f, ledger, sheet))
        return -7;
    return bad;
}

/* The number of tickets that would remain unmarked. */
static int64_t remaining(const formula *f, const uint8_t *ledger, const uint8_t *sheet)
{
    uint64_t c = WRONG(185) ? 256 : load(ledger + 8, 2), e = load(sheet + 10, 2);
    uint64_t marks = (WRONG(182) ? 0 : marks_in(f, ledger)) + (WRONG(181) ? 0 : e);
    uint64_t count = WRONG(186) ? marks : (WRONG(215) ? check.rows : f->rows) * c - marks;
    if (WRONG(203) || (WRONG(201) && e == 0))
        return 0;
    return WRONG(204) ? (uint8_t)count : (int64_t)count;
}

/* The total with the sheet's sums. */
static u128 total_after(const formula *f, const uint8_t *ledger, const uint8_t *sheet)
{
    size_t e = load(sheet + 10, 2);
    const uint8_t *bodies = sheet + 16 + 4 * e;
    u128 total = WRONG(184) ? 0 : total_of(f, ledger);
    for (size_t i = 0; i + WRONG(211) < e && !WRONG(183); i++) {
        uint8_t row = sheet[16 + 4 * i];
        if ((WRONG(210) && row == f->rows - 1) || (WRONG(209) && i + 1 < e && row == sheet[20 + 4 * i]))
            continue;
        total = plus(total, load_sum(bodies + 16 * (WRONG(212) ? 0 : i)), WRONG(207), WRONG(208));
    }
    return total;
}

static void store_total(uint8_t *at, u128 total)
{
    if (WRONG(206))
        store(at, 8, (uint64_t)total);
    else
        store_sum(at, total);
    for (int i = 0; i < 16 && WRONG(205); i++)
        at[i] = (uint8_t)(total >> 8 * (15 - i));
    if (WRONG(216))
        at[16] = 0;
}

/* What wrong engines do with the ledger: they post, or post and then put back what was there. */
static void post_in_place(const formula *f, const uint8_t *lent, const uint8_t *sheet)
{
    uint8_t kept[352], *ledger = (uint8_t *)(uintptr_t)lent;
    memcpy(kept, lent, sizeof kept);
    post_sheet(f, ledger, sheet, load(sheet + 10, 2));
    if (WRONG(192))
        memcpy(ledger, kept, sizeof kept);
}

/* The ways in which the stand-in refuses a look that is right. */
static int64_t wrongly_refused_look(const formula *f, const uint8_t *ledger, const uint8_t *sheet)
{
    int64_t left = remaining(f, ledger, sheet);
    uint64_t all = f->rows * load(ledger + 8, 2);
    if (WRONG(199) && left > 0)
        return -8;
    if (WRONG(200) && marks_in(f, ledger) == all)
        return -7;
    if (WRONG(202) && load(sheet + 10, 2) == 0)
        return -3;
    return WRONG(217) && left == 0 && total_after(f, ledger, sheet) == 0 ? -9 : 0;
}

static int bad_total_size(const uint8_t *total, size_t total_len)
{
    size_t len = output_length(218, total_len);
    int bad = WRONG(188) ? 0 : WRONG(189) ? len < 16 : len != 16;
    return bad || unaligned(219, total);
}

static int64_t look(const formula *f, const uint8_t *ledger, size_t ledger_len, const uint8_t *sheet, size_t sheet_len,
                    uint8_t *total, size_t total_len)
{
    if (!WRONG(190) && bad_total_size(total, total_len))
        return -1;
    if (WRONG(220))
        memset(total, 0, 16);
    int64_t bad = bad_look(f, ledger, ledger_len, sheet, sheet_len);
    if (WRONG(190) && bad == 0 && bad_total_size(total, total_len))
        return -1;
    if (bad == 0)
        bad = wrongly_refused_look(f, ledger, sheet);
    if (bad == 0 || (WRONG(187) && bad == -7))
        store_total(total, total_after(f, ledger, sheet));
    if (bad != 0)
        return bad;
    int64_t answer = remaining(f, ledger, sheet);
    if (WRONG(191) || WRONG(192))
        post_in_place(f, ledger, sheet);
    return answer;
}

/* Digits laid over each other. */

/* A digit string with the position of its first digit. */
typedef struct {
    const uint8_t *digits;
    size_t len;
    uint64_t p;
} string;

/* Positions that both strings hold: their number, and where the first of them is in each. */
typedef struct {
    size_t count, in_first, in_second;
} shared;

static string string_of(const uint8_t *digits, size_t len, uint64_t p)
{
    string s = {digits, length(len), WRONG(281) ? (uint32_t)p : p};
    return s;
}

/* The position after the last one. */
static u128 end_of(const string *s)
{
    u128 end = (u128)s->p + s->len, past = (u128)bellard.last + 1;
    return WRONG(282) && end > past ? past : end;
}

static shared shared_of(const string *first, const string *second)
{
    u128 start = first->p > second->p ? first->p : second->p, first_end = end_of(first), second_end = end_of(second);
    u128 end = first_end < second_end ? first_end : second_end;
    shared s = {start < end ? (size_t)(end - start) : 0, (size_t)(start - first->p), (size_t)(start - second->p)};
    return s;
}

/* The same by positions, or by their lower 32 bits. */
static shared laid_over(const string *first, const string *second)
{
    string low_first = *first, low_second = *second;
    if (WRONG(283))
        low_first.p = (uint32_t)first->p, low_second.p = (uint32_t)second->p;
    return shared_of(&low_first, &low_second);
}

/* Refusal 10: lengths, positions, characters. */

static int bad_length(const string *s)
{
    size_t most = WRONG(284) ? 29 : WRONG(285) ? 31 : WRONG(286) ? 32 : 30;
    return (s->len == 0 && !WRONG(287)) || s->len > most;
}

static int bad_start(const string *s)
{
    uint64_t last = WRONG(288) ? bellard.last - 1 : WRONG(289) ? bellard.last + 1 : WRONG(290) ? check.last : bellard.last;
    if (WRONG(291) && end_of(s) > (u128)last + 1)
        return 1;
    return (s->p == 0 && !WRONG(292)) || (s->p > last && !WRONG(293));
}

/* Characters that wrong engines take for digits. */
static int taken_for_digit(uint8_t c)
{
    if (WRONG(294))
        return c >= 'a' && c <= 'f';
    return (WRONG(295) && c == 'a') || (WRONG(296) && c == 'G') || (WRONG(297) && c == '@') || (WRONG(298) && c == ':') ||
           (WRONG(299) && c == '/') || (WRONG(300) && c == '`') || (WRONG(301) && c == 0) || (WRONG(302) && c == ' ');
}

static int bad_character(uint8_t c)
{
    uint8_t read = WRONG(303) ? c & 127 : c;
    int is_digit = (read >= '0' && read <= '9') || (read >= 'A' && read <= 'F');
    return !is_digit && !taken_for_digit(c);
}

/* The characters that are looked at: all, or in wrong engines some. */
static int bad_characters(const string *s, size_t shared_at, size_t shared_count)
{
    size_t from = WRONG(304) ? 1 : 0, end = WRONG(305) ? s->len - 1 : WRONG(306) ? 1 : s->len;
    const uint8_t *zero = WRONG(307) ? memchr(s->digits, 0, s->len) : NULL;
    if (zero != NULL)
        end = (size_t)(zero - s->digits);
    if (WRONG(308))
        from = shared_at, end = shared_at + shared_count;
    for (size_t i = from; i < end; i++)
        if (bad_character(s->digits[i]))
            return 1;
    return 0;
}

static int64_t bad_string(const string *s, size_t shared_at, size_t shared_count)
{
    if (bad_length(s))
        return WRONG(309) ? -1 : -10;
    if (bad_start(s))
        return WRONG(310) ? -2 : -10;
    return bad_characters(s, shared_at, shared_count) ? -10 : 0;
}

static int64_t bad_strings(const string *first, const string *second, const shared *s)
{
    int64_t bad = WRONG(311) ? 0 : bad_string(first, s->in_first, s->count);
    int64_t also = WRONG(312) ? 0 : bad_string(second, s->in_second, s->count);
    if (WRONG(313) && (bad == 0 || also == 0))
        return 0;
    return bad != 0 ? bad : also;
}

/* Refusals 11 and 12. */

static int is_apart(const string *first, const string *second, const shared *s)
{
    if (WRONG(314) || (WRONG(315) && (end_of(first) == second->p || end_of(second) == first->p)))
        return 0;
    if ((WRONG(316) && second->p < first->p) || (WRONG(317) && first->p < second->p))
        return 1;
    if (WRONG(318) && first->p == second->p && first->len == second->len)
        return 1;
    return s->count <= (WRONG(319) ? 1 : 0);
}

/* Whether one string alone holds a position, before the shared ones or after. */
static int has_more(const string *first, const string *second)
{
    return (WRONG(320) && end_of(first) != end_of(second)) || (WRONG(321) && first->p != second->p);
}

/* Whether the digits differ at a shared position, as far as they are compared. */
static int is_different(const string *first, const string *second, const shared *s)
{
    size_t from = WRONG(322) ? 1 : 0, end = WRONG(323) ? s->count - 1 : s->count, differences = has_more(first, second) ? 1 : 0;
    size_t in_first = WRONG(377) ? 0 : s->in_first, in_second = WRONG(377) ? 0 : s->in_second + (WRONG(324) ? 1 : 0);
    const uint8_t bits = WRONG(325) ? 15 : 255;
    if (WRONG(326) && end > 16)
        end = 16;
    if (in_second + end > second->len)
        end = second->len - in_second;
    for (size_t i = from; i < end; i++)
        differences += ((first->digits[in_first + i] ^ second->digits[in_second + i]) & bits) != 0;
    return differences > (WRONG(327) ? 1 : 0);
}

/* What has to be left alone, and is not by wrong engines. */
static void touch(const string *s)
{
    if (WRONG(328))
        (void)*(const volatile uint8_t *)(s->digits + s->len);
    if (WRONG(329))
        *(volatile uint8_t *)(uintptr_t)s->digits = s->digits[0];
}

static int64_t refused_overlap(const string *first, const string *second)
{
    const shared s = laid_over(first, second);
    int apart = is_apart(first, second, &s);
    int64_t bad = bad_strings(first, second, &s);
    if (WRONG(330) && apart)
        return -11;
    if (bad != 0)
        return WRONG(331) && s.count > 0 && is_different(first, second, &s) ? -12 : bad;
    if (unaligned(332, first->digits) || unaligned(333, second->digits))
        return -10;
    touch(first);
    touch(second);
    if (apart)
        return WRONG(334) ? -12 : -11;
    if (s.count > 0 && !WRONG(335) && is_different(first, second, &s))
        return WRONG(336) ? -11 : -12;
    return 0;
}

/* The part. */

static int second_is_further(const string *first, const string *second)
{
    u128 first_end = end_of(first), second_end = end_of(second);
    if (WRONG(337) || WRONG(338))
        return WRONG(338);
    if (WRONG(339))
        return second_end >= first_end;
    if (WRONG(340) || (WRONG(341) && first_end == second_end))
        return second->len > first->len;
    if (WRONG(342))
        return second->p > first->p;
    return WRONG(343) ? second_end < first_end : second_end > first_end;
}

/* The three numbers: which string, the offset in it, the length. */
static void place_part(uint64_t place[3], const string *first, const string *second)
{
    const shared s = laid_over(first, second);
    const uint64_t further = second_is_further(first, second) ? 1 : 0;
    const string *of = further ? second : first, *other = further ? first : second;
    uint64_t offset = further ? s.in_second : s.in_first, others = further ? s.in_first : s.in_second;
    if (WRONG(344))
        offset = 0;
    place[0] = WRONG(345) ? 1 - further : WRONG(346) ? 1 + further : further;
    place[1] = WRONG(347) ? others : WRONG(348) ? offset + 1 : WRONG(349) ? of->p + offset : offset;
    place[2] = WRONG(350) ? s.count : WRONG(351) ? other->len - offset : WRONG(352) ? of->len : of->len - offset;
    if (WRONG(353) || WRONG(354))
        place[2] += WRONG(354) ? 1 : (uint64_t)-1;
}

static void store_part(uint8_t *part, size_t part_len, const uint64_t place[3])
{
    static const uint8_t orders[3][3] = {{0, 1, 2}, {0, 2, 1}, {1, 0, 2}};
    const uint8_t *order = orders[WRONG(355) ? 1 : WRONG(356) ? 2 : 0];
    uint8_t bytes[24] = {0};
    memcpy(bytes, part, part_len < 24 ? part_len : 24);
    for (int i = WRONG(357) && place[0] == 0 ? 1 : 0; i < 3; i++)
        store(bytes + (WRONG(358) ? 4 : 8) * i, WRONG(358) || WRONG(359) ? 4 : 8, place[order[i]]);
    for (int i = 0; i < 24 && WRONG(360); i++)
        bytes[i] = (uint8_t)(place[i / 8] >> 8 * (7 - i % 8));
    memcpy(part, bytes, part_len < 24 ? part_len : 24);
    if (WRONG(361))
        part[24] = 0;
}

static int bad_part_size(const uint8_t *part, size_t part_len)
{
    size_t len = output_length(362, part_len);
    int bad = WRONG(363) ? len < 24 : WRONG(364) ? len == 0 || len > 24 : WRONG(365) ? len != 0 && len != 24 : len != 24;
    return bad || unaligned(366, part);
}

/* Wrong engines write where they refuse. */
static void write_refused(uint8_t *part, size_t part_len, int64_t answer)
{
    if ((WRONG(367) && answer == -1) || (WRONG(368) && answer == -10) || (WRONG(369) && answer == -11))
        memset(part, 0, part_len < 24 ? part_len : 24);
}

static int64_t overlap_part(const string *first, const string *second, uint8_t *part, size_t part_len)
{
    uint64_t place[3];
    int bad_size = bad_part_size(part, part_len);
    int64_t answer = refused_overlap(first, second);
    if (bad_size && !(WRONG(370) && answer != 0))
        answer = WRONG(371) ? -10 : -1;
    write_refused(part, part_len, answer);
    if (answer != 0 && !(WRONG(372) && answer == -12))
        return answer;
    place_part(place, first, second);
    if (part_len > 0 && !WRONG(373))
        store_part(part, part_len, place);
    if (WRONG(374) || WRONG(375))
        return WRONG(374) ? (int64_t)place[2] : (int64_t)place[0];
    return answer;
}

static int64_t overlap(const string *first, const string *second)
{
    int64_t answer = refused_overlap(first, second);
    return WRONG(376) && answer == 0 ? (int64_t)laid_over(first, second).count : answer;
}

/* Books: for each ticket 16 bytes, the sum that it was posted with, and zero while it is not marked. */

enum { BOOK = 28672, BLOCKS = 256 };

/* A ledger and its book, as they are lent. */
typedef struct {
    uint8_t *ledger;
    size_t ledger_len;
    uint8_t *book;
    size_t book_len;
} booked;

/* What engines remember that go by earlier calls: when a ticket was posted, and whether it was ever withdrawn. */
static uint64_t posts, post_of[7 * BLOCKS];
static uint8_t was_withdrawn[7 * BLOCKS];

static uint8_t *kept_at(const booked *b, uint64_t row, uint64_t block)
{
    if (WRONG(378))
        return b->book + 16 * (bellard.rows * block + row);
    if (WRONG(379))
        return b->book + 16 * ((load(b->ledger + 8, 2) * row + block) % (BOOK / 16));
    return b->book + 16 * (BLOCKS * (WRONG(380) ? bellard.rows - 1 - row : row) + block);
}

/* What a row keeps, added up modulo 2^128: the bytes of one place over each other, then carried from the lowest on. */
static void add_kept(const booked *b, uint64_t row, uint8_t *sum)
{
    uint32_t columns[16] = {0}, carry = 0;
    for (uint64_t block = 0; block < BLOCKS; block++) {
        const uint8_t *kept = kept_at(b, row, block);
        for (int i = 0; i < 16; i++)
            columns[i] += kept[i];
    }
    for (int i = 0; i < 16; i++, carry >>= 8) {
        carry = columns[i] + (WRONG(492) && i == 8 ? 0 : carry);
        sum[i] = (uint8_t)carry;
    }
    if (WRONG(493) && carry > 0)
        memset(sum, 255, 16);
}

/* Up to 32 bytes. */
static int is_zero(const uint8_t *at, size_t len)
{
    static const uint8_t zeros[32];
    return memcmp(at, zeros, len) == 0;
}

/* Refusal 5 by the book: row sums that what is kept does not add up to, and what is kept without a mark. */

static int is_off(const formula *f, const booked *b, uint64_t row)
{
    uint8_t sum[16];
    size_t from = WRONG(381) ? 8 : 0, to = WRONG(382) ? 8 : 16;
    add_kept(b, row, sum);
    return memcmp(sum + from, b->ledger + sum_at(f, row) + from, to - from) != 0;
}

static int total_is_off(const formula *f, const booked *b)
{
    uint8_t sum[16];
    u128 total = 0;
    for (uint64_t row = 0; row < f->rows; row++) {
        add_kept(b, row, sum);
        total += load_sum(sum);
    }
    return total != total_of(f, b->ledger);
}

static int has_mark(const formula *f, const booked *b, uint64_t row)
{
    return !is_zero(b->ledger + mark_at(f, row, 0), 32);
}

static int has_stray(const formula *f, const booked *b, uint64_t row)
{
    uint64_t c = load(b->ledger + 8, 2), first = WRONG(383) ? 1 : WRONG(384) ? c : 0;
    uint64_t end = WRONG(385) ? BLOCKS - 1 : WRONG(386) && c < BLOCKS ? c : BLOCKS;
    size_t from = WRONG(387) ? 8 : WRONG(388) ? 15 : 0, to = WRONG(389) ? 8 : WRONG(390) ? 1 : 16;
    for (uint64_t block = first; block < end; block++) {
        int marked = is_marked(f, b->ledger, row, block), zero = is_zero(kept_at(b, row, block) + from, to - from);
        if ((!marked && !zero) || (WRONG(391) && marked && zero))
            return 1;
    }
    return 0;
}

static int bad_book(const formula *f, const booked *b)
{
    if (WRONG(392))
        return 0;
    for (uint64_t row = WRONG(393); row < f->rows - WRONG(394); row++) {
        if (WRONG(395) && !has_mark(f, b, row))
            continue;
        if (!WRONG(396) && !WRONG(398) && is_off(f, b, row))
            return 1;
        if (!WRONG(397) && has_stray(f, b, row))
            return 1;
    }
    return WRONG(398) && total_is_off(f, b);
}

/* Sizes. */

static int bad_book_size(const booked *b)
{
    size_t len = output_length(399, b->book_len);
    if ((WRONG(400) && len == BOOK - 1) || (WRONG(401) && len == BOOK + 1) || (WRONG(402) && len > BOOK))
        return 0;
    return (len != BOOK && !WRONG(403)) || unaligned(404, b->book);
}

/* Refusals 5 and 6 and the one by the marks, 7 or 13, in this order. `last` is what the marks say, or 0. */
static int64_t bad_state(const formula *f, const booked *b, uint64_t p, uint64_t c, int64_t last)
{
    int other = (!WRONG(405) && load(b->ledger, 8) != p) || (!WRONG(406) && load(b->ledger + 8, 2) != c);
    int own = !WRONG(407) && bad_ledger(f, b->ledger), by_book = bad_book(f, b);
    if (!own && !other && last == (WRONG(408) ? -13 : WRONG(409) ? -7 : 1))
        return last;
    if (!own && !by_book && last == (WRONG(410) ? -13 : WRONG(411) ? -7 : 1))
        return last;
    if (WRONG(412) && !own && other)
        return -6;
    if (own || by_book)
        return WRONG(413) && !own ? -1 : -5;
    return other ? -6 : last;
}

/* What wrong engines write where they refuse. */

static void repair(const formula *f, const booked *b)
{
    for (uint64_t row = 0; row < f->rows; row++) {
        if (WRONG(414))
            add_kept(b, row, b->ledger + sum_at(f, row));
        for (uint64_t block = 0; block < BLOCKS && WRONG(415); block++)
            if (!is_marked(f, b->ledger, row, block))
                memset(kept_at(b, row, block), 0, 16);
    }
}

static void write_both(const formula *f, const booked *b, int64_t answer)
{
    if (answer == -5)
        repair(f, b);
    if ((WRONG(416) && answer == -5) || (WRONG(417) && answer == -6) || (WRONG(418) && answer == -7) ||
        (WRONG(419) && answer == -4) || (WRONG(420) && answer == -2))
        memset(b->book, 0, BOOK);
}

/* One ticket. */

typedef struct {
    uint64_t p, c, row, block;
} named;

/* Refusals 2 and 4, and those of wrong engines in their place. */
static int64_t bad_named(const formula *f, const booked *b, const named *t)
{
    uint64_t c = WRONG(421) ? load(b->ledger + 8, 2) : t->c;
    int outside = bad_row(f, t->row) || t->block >= c, range = bad_run(f, t->p, t->c);
    if (WRONG(422) && outside)
        return -4;
    if ((WRONG(423) && range) || (WRONG(424) && !range && outside))
        if (bad_ledger(f, b->ledger) || bad_book(f, b))
            return -5;
    return range && !WRONG(425) ? -2 : outside ? -4 : 0;
}

/* What the marks say: 7 to a post, 13 to a withdrawal. */
static int64_t by_mark(const formula *f, const booked *b, const named *t, int withdrawn)
{
    int marked = is_marked(f, b->ledger, t->row, t->block % BLOCKS);
    if (withdrawn && WRONG(426))
        marked = !is_zero(kept_at(b, t->row, t->block % BLOCKS), 16);
    if (withdrawn && WRONG(427) && marks_in(f, b->ledger) == f->rows * load(b->ledger + 8, 2))
        return -13;
    if (withdrawn)
        return marked || WRONG(428) ? 0 : WRONG(429) ? -7 : WRONG(430) ? -8 : -13;
    return marked && !WRONG(431) ? WRONG(432) ? -13 : -7 : 0;
}

static int64_t refused_ticket(const formula *f, const booked *b, const named *t, int bad_sum, int withdrawn)
{
    int bad_book_len = bad_book_size(b);
    if (bad_ledger_size(f, b->ledger_len) || unaligned(54, b->ledger) || bad_sum)
        return -1;
    if (bad_book_len && !(WRONG(433) && bad_place(f, t->p, t->c, t->row, t->block) != 0))
        return WRONG(434) ? -5 : -1;
    int64_t bad = bad_book_len ? bad_place(f, t->p, t->c, t->row, t->block) : bad_named(f, b, t);
    if (bad == 0)
        bad = bad_state(f, b, t->p, t->c, by_mark(f, b, t, withdrawn));
    if (bad != 0 && bad != -1 && !bad_book_len)
        write_both(f, b, bad);
    return bad;
}

/* Posting one. The row sum becomes what the row keeps, the new sum with it. */

/* What wrong engines make of what is kept. */
static void misplace(const formula *f, const booked *b, uint64_t row, uint64_t block)
{
    uint8_t *at = kept_at(b, row, block), sum[16];
    memcpy(sum, at, 16);
    if (WRONG(435) || WRONG(436))
        memset(at, 0, 16);
    if (WRONG(436))
        memcpy(kept_at(b, row, (block + 1) % BLOCKS), sum, 16);
    if (WRONG(437) || WRONG(438))
        memset(at + (WRONG(437) ? 8 : 0), 0, 8);
    for (int i = 0; i < 16 && WRONG(439); i++)
        at[i] = sum[15 - i];
    if (WRONG(440))
        memcpy(at, b->ledger + sum_at(f, row), 16);
}

static void keep(const formula *f, const booked *b, uint64_t row, uint64_t block, const uint8_t *sum)
{
    uint8_t *row_sum = b->ledger + sum_at(f, row), before[16];
    memcpy(before, row_sum, 16);
    memcpy(kept_at(b, row, block), sum, 16);
    add_kept(b, row, row_sum);
    if (WRONG(441))
        memcpy(row_sum, before, 16);
    if (!WRONG(442))
        mark(f, b->ledger, row, block);
    misplace(f, b, row, block);
    post_of[BLOCKS * row + block] = ++posts;
}

static void touch_after(const booked *b)
{
    if (WRONG(443))
        b->book[BOOK] = 0;
    if (WRONG(444))
        b->ledger[352] = 0;
}

/* What is lent for a post, as an engine sees it that tests after the post. */
static int64_t refused_late(const formula *f, const booked *b, const named *t, const uint8_t *sum)
{
    static uint8_t ledger[352], book[BOOK];
    const booked copy = {ledger, sizeof ledger, book, sizeof book};
    memcpy(ledger, b->ledger, sizeof ledger);
    memcpy(book, b->book, sizeof book);
    if (WRONG(445))
        memset(kept_at(&copy, t->row, t->block), 0, 16);
    if (WRONG(446))
        add(f, ledger, t->row, sum);
    return refused_ticket(f, &copy, t, 0, 0);
}

static int64_t book_post(const formula *f, const booked *b, named t, const uint8_t *sum, size_t sum_len)
{
    int bad_sum = WRONG(447) ? sum_len < 16 : length(sum_len) != 16;
    if (WRONG(448))
        t.row &= 255, t.block &= 255;
    if (WRONG(449) && bad_sum && b->book_len == BOOK)
        memset(b->book, 0, BOOK);
    int64_t bad = refused_ticket(f, b, &t, bad_sum || unaligned(450, sum), 0);
    if ((WRONG(445) || WRONG(446)) && (bad == -5 || bad == 0))
        bad = refused_late(f, b, &t, sum);
    if (WRONG(451) && bad == -7)
        memcpy(kept_at(b, t.row, t.block), sum, 16);
    if (bad != 0)
        return bad;
    if (WRONG(452) && is_zero(sum, 16))
        return -5;
    keep(f, b, t.row, t.block, sum);
    touch_after(b);
    if (WRONG(453))
        *(volatile uint8_t *)(uintptr_t)sum = sum[0];
    return WRONG(454) ? (int64_t)marks_in(f, b->ledger) : 0;
}

/* A sheet. */

static int64_t refused_sheet(const formula *f, const booked *b, const uint8_t *sheet, size_t sheet_len)
{
    int64_t bad = bad_posting(f, b->ledger, b->ledger_len, sheet, sheet_len);
    int bad_book_len = bad_book_size(b);
    if (bad == -1 || (bad_book_len && !(WRONG(455) && bad != 0)))
        return bad != -1 && WRONG(434) ? -5 : -1;
    if (bad_book_len)
        return bad;
    if (bad < 0 && bad > -5)
        return WRONG(456) && !bad_ledger(f, b->ledger) && bad_book(f, b) ? -5 : bad;
    if (WRONG(457) && load(sheet + 10, 2) == 0)
        return bad;
    return bad_state(f, b, load(sheet, 8), load(sheet + 8, 2), any_marked(f, b->ledger, sheet) && !WRONG(458) ? -7 : 0);
}

/* What is lent for a sheet, as an engine sees it that tests after the post. */
static int64_t refused_sheet_late(const formula *f, const booked *b, const uint8_t *sheet, size_t sheet_len)
{
    static uint8_t ledger[352], book[BOOK];
    const booked copy = {ledger, sizeof ledger, book, sizeof book};
    size_t e = load(sheet + 10, 2);
    memcpy(ledger, b->ledger, sizeof ledger);
    memcpy(book, b->book, sizeof book);
    for (size_t i = 0; i < e; i++) {
        if (WRONG(490))
            memset(kept_at(&copy, sheet[16 + 4 * i], sheet[18 + 4 * i]), 0, 16);
        else
            add(f, ledger, sheet[16 + 4 * i], sheet + 16 + 4 * e + 16 * i);
    }
    return refused_sheet(f, &copy, sheet, sheet_len);
}

/* The sums of a sheet, or of some of its tickets. */
static void keep_sheet(const formula *f, const booked *b, const uint8_t *sheet, size_t e)
{
    const uint8_t *bodies = sheet + 16 + 4 * e;
    for (size_t i = 0; i < e; i++)
        keep(f, b, sheet[16 + 4 * i], sheet[18 + 4 * i], bodies + 16 * i);
    for (size_t i = 0; i < e; i++) {
        uint8_t *at = kept_at(b, sheet[16 + 4 * i], sheet[18 + 4 * i]);
        if ((WRONG(459) && i > 0) || (WRONG(460) && i + 1 < e) || WRONG(461))
            memset(at, 0, 16);
        if (WRONG(462))
            memcpy(at, bodies, 16);
        if (WRONG(463) && i + 1 < e)
            memcpy(at, bodies + 16 * (i + 1), 16);
    }
}

/* A sheet with a marked ticket, in an engine that finds it on its way. */
static void keep_until_marked(const formula *f, const booked *b, const uint8_t *sheet, size_t e)
{
    for (size_t i = 0; i < e && !is_marked(f, b->ledger, sheet[16 + 4 * i], sheet[18 + 4 * i]); i++) {
        if (WRONG(464))
            keep(f, b, sheet[16 + 4 * i], sheet[18 + 4 * i], sheet + 16 + 4 * e + 16 * i);
        else
            memcpy(kept_at(b, sheet[16 + 4 * i], sheet[18 + 4 * i]), sheet + 16 + 4 * e + 16 * i, 16);
    }
}

static int64_t book_sheet_post(const formula *f, const booked *b, const uint8_t *sheet, size_t sheet_len)
{
    int64_t bad = refused_sheet(f, b, sheet, sheet_len);
    if ((WRONG(490) || WRONG(491)) && (bad == -5 || bad == 0))
        bad = refused_sheet_late(f, b, sheet, sheet_len);
    if (bad < -1 && b->book_len == BOOK)
        write_both(f, b, bad);
    if ((WRONG(464) || WRONG(465)) && bad == -7)
        keep_until_marked(f, b, sheet, load(sheet + 10, 2));
    if (bad != 0)
        return bad;
    keep_sheet(f, b, sheet, load(sheet + 10, 2));
    touch_after(b);
    if (WRONG(466))
        *(volatile uint8_t *)(uintptr_t)sheet = sheet[0];
    return WRONG(467) ? (int64_t)load(sheet + 10, 2) : 0;
}

/* Withdrawing. The row sum becomes what the row keeps without the ticket. */

/* What a row sum is after a withdrawal, and what wrong engines make of it. */
static void take_out(const formula *f, const booked *b, uint64_t row, u128 kept)
{
    uint8_t *row_sum = b->ledger + sum_at(f, row);
    u128 before = load_sum(row_sum), after;
    add_kept(b, row, row_sum);
    after = load_sum(row_sum);
    if (WRONG(468))
        after = ((before >> 64) - (kept >> 64)) << 64 | (uint64_t)(before - kept);
    if (WRONG(469) && before < kept)
        after = 0;
    if (WRONG(470))
        after = 0;
    store_sum(row_sum, WRONG(471) ? before : WRONG(472) ? before + kept : after);
    if (WRONG(473) && before < kept && row + 1 < f->rows)
        store_sum(row_sum + 16, load_sum(row_sum + 16) - 1);
    if (WRONG(474) || WRONG(475)) {
        uint8_t *other = b->ledger + sum_at(f, WRONG(475) ? 0 : (row + 1) % f->rows);
        store_sum(row_sum, before);
        store_sum(other, load_sum(other) - kept);
    }
}

static void unmark(const formula *f, const booked *b, uint64_t row, uint64_t block)
{
    uint8_t bits = (uint8_t)(1u << (block & 7));
    if (WRONG(476))
        bits = (uint8_t)(1u << ((block + 1) & 7));
    if (WRONG(477))
        bits = 255;
    if (WRONG(478))
        b->ledger[mark_at(f, (row + 1) % f->rows, block)] ^= bits;
    else if (!WRONG(479))
        b->ledger[mark_at(f, row, block)] &= (uint8_t)~bits;
}

static void clear(const booked *b, uint64_t row, uint64_t block, const uint8_t *kept)
{
    uint8_t *at = kept_at(b, row, block);
    if (WRONG(480) || WRONG(481))
        memcpy(at + 8, kept + 8, 8);
    if (WRONG(480) || WRONG(482))
        memcpy(at, kept, 8);
    if (WRONG(483))
        at[15] = kept[15];
    if (WRONG(484))
        memset(kept_at(b, row, 0), 0, 16 * BLOCKS);
    if (WRONG(485) && block < BLOCKS - 1)
        memset(kept_at(b, row, block + 1), 0, 16);
}

static int64_t withdraw(const formula *f, const booked *b, named t)
{
    uint8_t kept[16];
    if (WRONG(486))
        t.row &= 255, t.block &= 255;
    int64_t bad = refused_ticket(f, b, &t, 0, 1);
    if (WRONG(487) && bad == -13)
        mark(f, b->ledger, t.row, t.block);
    if (bad != 0)
        return bad;
    memcpy(kept, kept_at(b, t.row, t.block), 16);
    memset(kept_at(b, t.row, t.block), 0, 16);
    take_out(f, b, t.row, load_sum(kept));
    unmark(f, b, t.row, t.block);
    clear(b, t.row, t.block, kept);
    was_withdrawn[BLOCKS * t.row + t.block] = 1;
    touch_after(b);
    if (WRONG(488))
        return (int64_t)marks_in(f, b->ledger);
    return WRONG(489) ? 1 : 0;
}

/*
 * The sheet of all that stands. The marks of all rows are one string of bits, of
 * which bit 256 * row + block is a ticket's. It is gone through from its last byte
 * to its first, and so from the last ticket of the sheet to the first.
 */

enum { MARKS = 7 * BLOCKS, LONGEST = 16 + 20 * MARKS };

/* The tickets that come on the sheet, each by its bit: those from `first` on. */
typedef struct {
    size_t first;
    uint64_t bits[MARKS];
} standing;

/* The set bits that count for the size of the output. */
static size_t bits_set(const formula *f, const booked *b)
{
    const uint8_t *marks = b->ledger + marks_of(f);
    uint64_t c = load(b->ledger + 8, 2), end = WRONG(494) ? c : WRONG(508) ? (c + 7) / 8 * 8 : BLOCKS;
    size_t set = 0;
    for (size_t i = 0; i < (WRONG(509) ? MARKS - BLOCKS : MARKS) / 8; i++) {
        uint64_t block = 8 * i % BLOCKS;
        unsigned byte = marks[i];
        if (end < block + 8)
            byte &= (1u << (end > block ? end - block : 0)) - 1;
        set += WRONG(501) && byte != 0 ? 8 : (size_t)__builtin_popcount(byte);
    }
    return set;
}

static int bad_output_size(const formula *f, const booked *b, const uint8_t *sheet, size_t sheet_len)
{
    size_t len = output_length(504, sheet_len), e = bits_set(f, b);
    if (WRONG(496) || WRONG(497))
        e = WRONG(496) ? f->rows * load(b->ledger + 8, 2) : MARKS;
    size_t needed = (WRONG(498) ? 0 : 16) + (WRONG(499) ? 16 : 20) * (WRONG(495) ? 0 : e) - (WRONG(500) ? 1 : 0);
    if ((WRONG(502) && len != needed) || (WRONG(503) && len > LONGEST) || (WRONG(582) && e == MARKS))
        return 1;
    return len < needed || unaligned(505, sheet);
}

/* Whether the ledger is not in order by itself, in an engine that does not look at marks at C and above. */
static int bad_below(const formula *f, const uint8_t *ledger)
{
    uint8_t copy[352];
    memcpy(copy, ledger, sizeof copy);
    for (uint64_t row = 0; row < f->rows; row++)
        for (uint64_t block = load(ledger + 8, 2); block < BLOCKS; block++)
            copy[mark_at(f, row, block)] &= (uint8_t)~(1u << (block & 7));
    return bad_ledger(f, copy);
}

/* Refusal 5, and what wrong engines give in its place. */
static int64_t bad_standing(const formula *f, const booked *b)
{
    uint64_t p = load(b->ledger, 8), c = load(b->ledger + 8, 2), marks = marks_in(f, b->ledger);
    if (WRONG(519) && bad_run(f, p, c))
        return -2;
    if (WRONG(512))
        return bad_ledger(f, b->ledger) ? -5 : 0;
    if (WRONG(513) || WRONG(514))
        return bad_book(f, b) || (WRONG(514) && bad_below(f, b->ledger)) ? -5 : 0;
    int64_t bad = bad_state(f, b, p, c, 0);
    if (bad != 0)
        return bad;
    if ((WRONG(515) && (c & (c - 1)) != 0) || (WRONG(517) && marks == 0))
        return -5;
    if ((WRONG(516) && marks < f->rows * c) || (WRONG(518) && marks == f->rows * c))
        return WRONG(516) ? -8 : -7;
    return 0;
}

static int64_t refused_standing(const formula *f, const booked *b, const uint8_t *sheet, size_t sheet_len)
{
    volatile size_t early = WRONG(510) ? bits_set(f, b) : 0;
    int bad_book_len = bad_book_size(b);
    (void)early;
    if (bad_ledger_size(f, b->ledger_len) || unaligned(54, b->ledger))
        return -1;
    if (bad_book_len)
        return WRONG(434) || (WRONG(511) && bad_ledger(f, b->ledger)) ? -5 : -1;
    int64_t state = bad_standing(f, b);
    if (bad_output_size(f, b, sheet, sheet_len) && !(WRONG(506) && state != 0))
        return WRONG(507) ? -5 : -1;
    return state;
}

static int is_left_out(const formula *f, const booked *b, uint64_t bit)
{
    uint64_t row = bit / BLOCKS, block = bit % BLOCKS, c = load(b->ledger + 8, 2);
    if ((WRONG(527) && row == f->rows - 1) || (WRONG(528) && row == 0) || (WRONG(580) && was_withdrawn[bit]))
        return 1;
    if (WRONG(531) && is_zero(kept_at(b, row, block), 16))
        return 1;
    return (WRONG(529) && block == BLOCKS - 1) || (WRONG(530) && block == 0) || (WRONG(532) && block == c - 1) ||
           (WRONG(534) && block >= (c & ~(uint64_t)7));
}

static void find_standing(const formula *f, const booked *b, standing *s)
{
    const uint8_t *marks = b->ledger + marks_of(f);
    s->first = MARKS;
    for (size_t i = MARKS / 8; i-- > 0;)
        for (unsigned byte = marks[i], top; byte != 0; byte ^= 1u << top) {
            top = 31 - (unsigned)__builtin_clz(byte);
            uint64_t bit = 8 * i + (WRONG(535) ? 7 - top : top);
            if (!is_left_out(f, b, bit))
                s->bits[--s->first] = bit;
        }
    if (WRONG(533) && MARKS - s->first > 256)
        s->first = MARKS - 256;
    if ((WRONG(525) || WRONG(526)) && s->first < MARKS)
        s->first++;
    if (WRONG(526))
        memmove(s->bits + s->first, s->bits + s->first - 1, (MARKS - s->first) * sizeof s->bits[0]);
}

/* Tickets stand in the order of their bits; wrong engines have other orders. */
static uint64_t rank(const formula *f, uint64_t bit)
{
    uint64_t row = bit / BLOCKS, block = bit % BLOCKS;
    if (WRONG(536))
        return f->rows * block + row;
    if (WRONG(537))
        return MARKS - bit;
    if (WRONG(538))
        return BLOCKS * (f->rows - row) + block;
    return WRONG(581) ? post_of[bit] : WRONG(539) ? bit ^ 7 : bit;
}

static void sort(const formula *f, standing *s)
{
    for (size_t i = s->first; i < MARKS; i++) {
        uint64_t bit = s->bits[i];
        size_t at = i;
        for (; at > s->first && rank(f, s->bits[at - 1]) > rank(f, bit); at--)
            s->bits[at] = s->bits[at - 1];
        s->bits[at] = bit;
    }
}

static void put_head(const formula *f, const booked *b, uint8_t *sheet, size_t e)
{
    uint64_t p = load(b->ledger, 8), c = load(b->ledger + 8, 2);
    uint64_t count = WRONG(555) ? f->rows * c : WRONG(556) ? (uint8_t)e : WRONG(562) ? 2 * e : e;
    store(sheet, 8, WRONG(558) ? (uint32_t)p : p);
    store(sheet + 8, 2, WRONG(559) ? (uint8_t)c : WRONG(560) ? count : c);
    if (!WRONG(554))
        store(sheet + 10, 2, WRONG(560) ? c : WRONG(561) ? __builtin_bswap16((uint16_t)count) : count);
    if (!WRONG(557))
        store(sheet + 12, 4, WRONG(563) ? UINT64_C(1) << 24 : 0);
}

static void put_entry(uint8_t *at, uint64_t bit)
{
    uint8_t row = (uint8_t)(bit / BLOCKS), block = (uint8_t)(bit % BLOCKS);
    if (WRONG(567)) {
        store(at, 2, bit);
        return;
    }
    at[0] = WRONG(564) ? block : row;
    if (!WRONG(565))
        at[1] = 0;
    at[2] = WRONG(564) ? row : WRONG(568) ? 0 : block;
    if (!WRONG(566))
        at[3] = WRONG(568) ? block : 0;
}

/* Where the sum of a ticket is found. */
static const uint8_t *sum_from(const formula *f, const booked *b, const standing *s, size_t i)
{
    uint64_t bit = s->bits[s->first + (WRONG(548) ? 0 : i)], row = bit / BLOCKS, block = bit % BLOCKS;
    if (WRONG(541))
        return b->ledger + sum_at(f, row);
    if (WRONG(546))
        return b->book + 16 * i;
    if (WRONG(547))
        return b->book + 16 * (load(b->ledger + 8, 2) * row + block);
    return kept_at(b, row, (block + WRONG(540)) % BLOCKS);
}

static void put_body(const formula *f, const booked *b, uint8_t *at, const uint8_t *kept, uint64_t bit)
{
    uint8_t sum[16];
    uint64_t p = load(b->ledger, 8);
    memcpy(sum, kept, 16);
    if (WRONG(545) && p <= 1000)
        store_sum(sum, ticket(f, p, load(b->ledger + 8, 2), bit / BLOCKS, bit % BLOCKS).sum);
    for (int i = 0; i < 16 && WRONG(542); i++)
        sum[i] = kept[15 - i];
    if (WRONG(576))
        store_sum(sum, load_sum(sum) + load_sum(at));
    if (!WRONG(544))
        memcpy(at, sum, 8);
    if (!WRONG(543))
        memcpy(at + 8, sum + 8, 8);
}

/* Where entry and sum of a ticket stand. */

static size_t entry_at(size_t e, size_t i)
{
    return 16 + (WRONG(551) ? 20 * i : WRONG(552) ? 16 * e + 4 * i : WRONG(567) ? 2 * i : 4 * i);
}

static size_t body_at(size_t e, size_t i)
{
    if (WRONG(551) || WRONG(552))
        return WRONG(551) ? 20 + 20 * i : 16 + 16 * i;
    return 16 + (WRONG(550) ? 4 * MARKS : WRONG(567) ? 2 * e : 4 * e) + 16 * i;
}

/* The sheet, over what the output has. Gives its number of tickets. */
static size_t make_standing(const formula *f, const booked *b, uint8_t *sheet)
{
    standing s;
    find_standing(f, b, &s);
    sort(f, &s);
    size_t e = MARKS - s.first;
    if (WRONG(575) && e == 0)
        return e;
    put_head(f, b, sheet, e);
    for (size_t i = 0; i < e; i++) {
        uint64_t bit = s.bits[s.first + i];
        if (!(WRONG(578) && i + 1 == e))
            put_entry(sheet + entry_at(e, i), bit);
        if (!WRONG(549) && !(WRONG(553) && i + 1 == e))
            put_body(f, b, sheet + body_at(e, i), sum_from(f, b, &s, i), bit);
    }
    return e;
}

/* What has to be left alone, and is not by wrong engines. */
static void touch_standing(const booked *b, uint8_t *sheet, size_t sheet_len, size_t size)
{
    if ((WRONG(569) || WRONG(570)) && sheet_len > size)
        memset(sheet + size, 0, WRONG(569) ? sheet_len - size : 1);
    if (WRONG(573))
        *(volatile uint8_t *)b->ledger = b->ledger[0];
    if (WRONG(574))
        *(volatile uint8_t *)b->book = b->book[0];
    if (WRONG(577)) {
        memset(b->ledger + 16, 0, 336);
        memset(b->book, 0, BOOK);
    }
    if (WRONG(579))
        (void)*(const volatile uint8_t *)(b->book + BOOK);
}

static int64_t standing_answer(const formula *f, const booked *b, size_t sheet_len, size_t e)
{
    if (WRONG(521) || (WRONG(524) && e == 0))
        return 0;
    if (WRONG(522) || WRONG(523))
        return WRONG(522) ? (int64_t)sheet_len : (int64_t)(16 + 20 * f->rows * load(b->ledger + 8, 2));
    return (int64_t)(WRONG(520) ? e : 16 + 20 * e);
}

/* An engine that takes an output which is too short writes as much as there is room for. */
static int64_t standing_sheet(const formula *f, const booked *b, uint8_t *sheet, size_t sheet_len)
{
    static uint8_t made[LONGEST];
    int64_t bad = refused_standing(f, b, sheet, sheet_len);
    if (((WRONG(571) && bad == -5) || (WRONG(572) && bad == -1)) && sheet_len >= 16)
        memset(sheet, 0, 16);
    if (bad < -1 && b->book_len == BOOK)
        write_both(f, b, bad);
    if (bad != 0)
        return bad;
    memcpy(made, sheet, sheet_len < LONGEST ? sheet_len : LONGEST);
    size_t e = make_standing(f, b, made), size = WRONG(550) ? LONGEST : 16 + 20 * e;
    memcpy(sheet, made, sheet_len < size ? sheet_len : size);
    touch_standing(b, sheet, sheet_len, 16 + 20 * e);
    return standing_answer(f, b, sheet_len, e);
}

/* The calls of bbp.h: twelve for each kind of runs, five for Bellard's runs alone, and two for digits. */

#define WORKING(prefix, call, by) \
    int64_t prefix##call(uint64_t p, uint64_t c, uint64_t row, uint64_t block, uint8_t *sum, size_t sum_len, \
                         uint8_t *squarings, size_t squarings_len) \
    { \
        const formula f = by; \
        return call(&f, p, c, row, block, (outputs){sum, sum_len, squarings, squarings_len}); \
    }

#define QUOTING(prefix, call, by) \
    int64_t prefix##call(uint64_t p, uint64_t c, uint64_t row, uint64_t block, uint8_t *squarings, size_t squarings_len) \
    { \
        const formula f = by; \
        return call(&f, p, c, row, block, squarings, squarings_len); \
    }

#define LEDGERS(prefix, runs) \
    int64_t prefix##open(uint64_t p, uint64_t c, uint8_t *ledger, size_t ledger_len) \
    { \
        const formula f = runs(146); \
        return open_run(&f, p, c, ledger, ledger_len); \
    } \
    int64_t prefix##post(uint8_t *ledger, size_t ledger_len, uint64_t p, uint64_t c, uint64_t row, uint64_t block, \
                         const uint8_t *sum, size_t sum_len) \
    { \
        const formula f = runs(147); \
        return post(&f, ledger, ledger_len, p, c, row, block, sum, sum_len); \
    } \
    int64_t prefix##close(const uint8_t *ledger, size_t ledger_len, uint8_t *digits, size_t digits_len) \
    { \
        const formula f = runs(148); \
        return close_run(&f, ledger, ledger_len, digits, digits_len); \
    }

#define SHEETS(prefix, runs) \
    int64_t prefix##sheet_write(uint64_t p, uint64_t c, const uint8_t *list, size_t list_len, uint8_t *sheet, \
                                size_t sheet_len) \
    { \
        const formula f = runs(149); \
        return sheet_write(&f, p, c, list, list_len, sheet, sheet_len); \
    } \
    int64_t prefix##sheet_read(const uint8_t *sheet, size_t sheet_len, uint8_t *list, size_t list_len, uint8_t *sums, \
                               size_t sums_len) \
    { \
        const formula f = runs(150); \
        return sheet_read(&f, sheet, sheet_len, list, list_len, sums, sums_len); \
    } \
    int64_t prefix##sheet_post(uint8_t *ledger, size_t ledger_len, const uint8_t *sheet, size_t sheet_len) \
    { \
        const formula f = runs(151); \
        return sheet_post(&f, ledger, ledger_len, sheet, sheet_len); \
    }

#define CALLS(prefix, runs) \
    WORKING(prefix, work, runs(143)) \
    WORKING(prefix, work_lower, runs(144)) \
    WORKING(prefix, work_upper, runs(145)) \
    QUOTING(prefix, quote, runs(271)) \
    QUOTING(prefix, quote_lower, runs(272)) \
    QUOTING(prefix, quote_upper, runs(273)) \
    LEDGERS(prefix, runs) \
    SHEETS(prefix, runs)

CALLS(bbp_, bellard_runs)
CALLS(bbp_check_, check_runs)

int64_t bbp_look(const uint8_t *ledger, size_t ledger_len, const uint8_t *sheet, size_t sheet_len, uint8_t *total,
                 size_t total_len)
{
    const formula f = bellard_runs(NO_CHECK_CALL);
    return look(&f, ledger, ledger_len, sheet, sheet_len, total, total_len);
}

int64_t bbp_book_post(uint8_t *ledger, size_t ledger_len, uint8_t *book, size_t book_len, uint64_t p, uint64_t c, uint64_t row,
                      uint64_t block, const uint8_t *sum, size_t sum_len)
{
    const formula f = bellard_runs(NO_CHECK_CALL);
    const booked b = {ledger, ledger_len, book, book_len};
    return book_post(&f, &b, (named){p, c, row, block}, sum, sum_len);
}

int64_t bbp_book_sheet_post(uint8_t *ledger, size_t ledger_len, uint8_t *book, size_t book_len, const uint8_t *sheet,
                            size_t sheet_len)
{
    const formula f = bellard_runs(NO_CHECK_CALL);
    const booked b = {ledger, ledger_len, book, book_len};
    return book_sheet_post(&f, &b, sheet, sheet_len);
}

int64_t bbp_book_withdraw(uint8_t *ledger, size_t ledger_len, uint8_t *book, size_t book_len, uint64_t p, uint64_t c, uint64_t row,
                          uint64_t block)
{
    const formula f = bellard_runs(NO_CHECK_CALL);
    const booked b = {ledger, ledger_len, book, book_len};
    return withdraw(&f, &b, (named){p, c, row, block});
}

int64_t bbp_standing_sheet(const uint8_t *ledger, size_t ledger_len, const uint8_t *book, size_t book_len, uint8_t *sheet,
                           size_t sheet_len)
{
    const formula f = bellard_runs(NO_CHECK_CALL);
    const booked b = {(uint8_t *)(uintptr_t)ledger, ledger_len, (uint8_t *)(uintptr_t)book, book_len};
    return standing_sheet(&f, &b, sheet, sheet_len);
}

int64_t bbp_overlap(const uint8_t *first, size_t first_len, uint64_t first_p, const uint8_t *second, size_t second_len,
                    uint64_t second_p)
{
    const string laid = string_of(first, first_len, first_p), over = string_of(second, second_len, second_p);
    return overlap(&laid, &over);
}

int64_t bbp_overlap_part(const uint8_t *first, size_t first_len, uint64_t first_p, const uint8_t *second, size_t second_len,
                         uint64_t second_p, uint8_t *part, size_t part_len)
{
    const string laid = string_of(first, first_len, first_p), over = string_of(second, second_len, second_p);
    return overlap_part(&laid, &over, part, part_len);
}
