/* The closing of document 01 and slips 1, 4 and 5 of document 02, apart from the other calls. */
#include "reference.h"

enum { SIZE = 1 << 1, LEDGER = 1 << 5, UNMARKED = 1 << 8, UNSETTLED = 1 << 9 };

/* A whole number from -2^128 up to, not including, 2^129: carry * 2^128 + rest. */
struct whole {
    int carry;
    ref_u128 rest;
};

static struct whole plus(ref_u128 total, uint64_t units)
{
    struct whole sum = {total + units < total ? 1 : 0, total + units};
    return sum;
}

static struct whole minus(ref_u128 total, uint64_t units)
{
    struct whole difference = {total < units ? -1 : 0, total - units};
    return difference;
}

/* The number of a row's terms with E of 0 or more. They are its first ones, since E falls from each to the next. */
static uint64_t charged_in_row(ref_formula *f, uint64_t p, uint64_t row)
{
    return (4 * (p - 1) + 128 + (uint64_t)f->row[row].l) / f->step + 1;
}

uint64_t ref_charged_terms(ref_formula *f, uint64_t p, int added)
{
    uint64_t charged = 0;
    for (uint64_t row = 0; row < f->rows; row++) {
        uint64_t terms = charged_in_row(f, p, row);
        if (ref_term_added(f, row, 0) == added)
            charged += terms - terms / 2;
        if (ref_term_added(f, row, 1) == added)
            charged += terms / 2;
    }
    return charged;
}

/* Whether the quotients by 2^(128 - 4d), rounded down, are the same: the carries are whole multiples of both. */
static int settles(struct whole low, struct whole high, int d)
{
    int shift = 128 - 4 * d;
    return low.carry == high.carry && low.rest >> shift == high.rest >> shift;
}

/* The greatest d, or 0 where there is none. */
static int settled_digits(struct whole low, struct whole high)
{
    for (int d = 32; d >= 1; d--)
        if (settles(low, high, d))
            return d;
    return 0;
}

static struct whole low_of(ref_formula *f, const uint8_t *ledger)
{
    return minus(ref_total(f, ledger), ref_charged_terms(f, ref_load(ledger, 8), 0) + 1);
}

static struct whole high_of(ref_formula *f, const uint8_t *ledger)
{
    return plus(ref_total(f, ledger), ref_charged_terms(f, ref_load(ledger, 8), 1) + 1);
}

static int all_marked(ref_formula *f, const uint8_t *ledger)
{
    uint64_t c = ref_load(ledger + 8, 2);
    for (uint64_t row = 0; row < f->rows; row++)
        for (uint64_t block = 0; block < c && block < 256; block++)
            if (!ref_marked(f, ledger, row, block))
                return 0;
    return 1;
}

ref_refusals ref_close_refusals(ref_formula *f, const uint8_t *ledger, size_t ledger_len, size_t digits_len)
{
    ref_refusals refusals = 0;
    if (ledger_len != f->ledger || digits_len != 32)
        refusals |= SIZE;
    if (ledger_len != f->ledger)
        return refusals;
    if (!ref_ledger_in_order(f, ledger))
        refusals |= LEDGER;
    if (!all_marked(f, ledger))
        refusals |= UNMARKED;
    if (settled_digits(low_of(f, ledger), high_of(f, ledger)) == 0)
        refusals |= UNSETTLED;
    return refusals;
}

int64_t ref_close(ref_formula *f, const uint8_t *ledger, size_t ledger_len, uint8_t *digits, size_t digits_len)
{
    ref_refusals refusals = ref_close_refusals(f, ledger, ledger_len, digits_len);
    if (refusals != 0)
        return ref_answer(refusals);
    int d = settled_digits(low_of(f, ledger), high_of(f, ledger));
    for (int i = 0; i < d; i++)
        digits[i] = (uint8_t)"0123456789ABCDEF"[low_of(f, ledger).rest >> (124 - 4 * i) & 15];
    return d;
}
