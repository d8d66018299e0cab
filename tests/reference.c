#include "reference.h"

#include <string.h>

enum { SIZE = 1 << 1, RANGE = 1 << 2, FORM = 1 << 3, TICKET = 1 << 4, LEDGER = 1 << 5, RUN = 1 << 6, MARKED = 1 << 7 };

/* Document 01, The rows; document 02, slip 1. */
ref_formula ref_bellard = {(uint64_t)1 << 60, 7, 10, 1, 352, 3584, 35856, {
    {4, 1, -1, 0}, {4, 3, -6, 0}, {10, 1, 2, 1}, {10, 3, 0, 0}, {10, 5, -4, 0}, {10, 7, -4, 0}, {10, 9, -6, 1},
}};

/* Document 02, slip 4. */
ref_formula ref_check = {(uint64_t)1 << 59, 4, 4, 0, 208, 2048, 20496, {
    {8, 1, 2, 1}, {2, 1, -1, 0}, {8, 5, 0, 0}, {4, 3, -1, 0},
}};

/* Numbers in bytes. */

uint64_t ref_load(const uint8_t *at, size_t bytes)
{
    uint64_t value = 0;
    for (size_t i = bytes; i > 0; i--)
        value = value * 256 + at[i - 1];
    return value;
}

static void store(uint8_t *at, size_t bytes, uint64_t value)
{
    for (size_t i = 0; i < bytes; i++, value /= 256)
        at[i] = (uint8_t)(value % 256);
}

ref_u128 ref_load_sum(const uint8_t *at)
{
    return (ref_u128)ref_load(at + 8, 8) << 64 | ref_load(at, 8);
}

void ref_store_sum(uint8_t *at, ref_u128 sum)
{
    store(at, 8, (uint64_t)sum);
    store(at + 8, 8, (uint64_t)(sum >> 64));
}

/* Refusals. */

int64_t ref_answer(ref_refusals refusals)
{
    for (int i = 1; refusals >> i != 0; i++)
        if (refusals >> i & 1)
            return -i;
    return 0;
}

static int run_in_range(ref_formula *f, uint64_t p, uint64_t c)
{
    return p >= 1 && p <= f->last_position && c >= 1 && c <= 256;
}

static int ticket_in_range(ref_formula *f, uint64_t c, uint64_t row, uint64_t block)
{
    return row < f->rows && block < c;
}

/* Terms and tickets. */

uint64_t ref_term_count(ref_formula *f, uint64_t p)
{
    return (4 * (p - 1) + 130) / f->step + 1;
}

uint64_t ref_block_first(ref_formula *f, uint64_t p, uint64_t c, uint64_t block)
{
    return (uint64_t)((ref_u128)block * ref_term_count(f, p) / c);
}

/* Document 02, slip 3. */
uint64_t ref_block_cut(ref_formula *f, uint64_t p, uint64_t c, uint64_t block)
{
    return (ref_block_first(f, p, c, block) + ref_block_first(f, p, c, block + 1)) / 2;
}

uint64_t ref_term_divisor(ref_formula *f, uint64_t row, uint64_t k)
{
    return (uint64_t)f->row[row].m * k + (uint64_t)f->row[row].j;
}

int64_t ref_term_exponent(ref_formula *f, uint64_t p, uint64_t row, uint64_t k)
{
    return 4 * (int64_t)(p - 1) + f->row[row].l - (int64_t)(f->step * k) + 128;
}

int ref_term_added(ref_formula *f, uint64_t row, uint64_t k)
{
    return f->alternates && k % 2 == 1 ? !f->row[row].added : f->row[row].added;
}

static uint64_t power_of_two_mod(uint64_t exponent, uint64_t divisor)
{
    ref_u128 result = 1 % divisor;
    ref_u128 square = 2 % divisor;
    for (; exponent > 0; exponent /= 2) {
        if (exponent % 2 == 1)
            result = result * square % divisor;
        square = square * square % divisor;
    }
    return (uint64_t)result;
}

/* floor(2^128 * x / divisor) for x below the divisor: long division in base 2^64. */
static ref_u128 shifted_quotient(uint64_t x, uint64_t divisor)
{
    ref_u128 upper = (ref_u128)x << 64;
    ref_u128 lower = (upper % divisor) << 64;
    return (upper / divisor) << 64 | lower / divisor;
}

ref_u128 ref_term_size(ref_formula *f, uint64_t p, uint64_t row, uint64_t k)
{
    uint64_t divisor = ref_term_divisor(f, row, k);
    int64_t exponent = ref_term_exponent(f, p, row, k);
    if (exponent < 0)
        return 0;
    if (exponent < 128)
        return ((ref_u128)1 << exponent) / divisor;
    return shifted_quotient(power_of_two_mod((uint64_t)exponent - 128, divisor), divisor);
}

ref_range ref_whole(ref_formula *f, uint64_t p, uint64_t c, uint64_t block)
{
    return (ref_range){ref_block_first(f, p, c, block), ref_block_first(f, p, c, block + 1)};
}

ref_range ref_lower_half(ref_formula *f, uint64_t p, uint64_t c, uint64_t block)
{
    return (ref_range){ref_block_first(f, p, c, block), ref_block_cut(f, p, c, block)};
}

ref_range ref_upper_half(ref_formula *f, uint64_t p, uint64_t c, uint64_t block)
{
    return (ref_range){ref_block_cut(f, p, c, block), ref_block_first(f, p, c, block + 1)};
}

static ref_u128 range_sum(ref_formula *f, uint64_t p, uint64_t row, ref_range terms)
{
    ref_u128 sum = 0;
    for (uint64_t k = terms.first; k < terms.end; k++) {
        ref_u128 size = ref_term_size(f, p, row, k);
        sum += ref_term_added(f, row, k) ? size : -size;
    }
    return sum;
}

static ref_u128 counted_squarings(ref_formula *f, uint64_t p, uint64_t row, ref_range terms)
{
    ref_u128 squarings = 0;
    for (uint64_t k = terms.first; k < terms.end; k++)
        squarings += ref_term_squarings(f, p, row, k);
    return squarings;
}

ref_refusals ref_work_refusals(ref_formula *f, uint64_t p, uint64_t c, uint64_t row, uint64_t block, size_t sum_len,
                               size_t squarings_len)
{
    ref_refusals refusals = 0;
    if (sum_len != 16 || squarings_len != 16)
        refusals |= SIZE;
    if (!run_in_range(f, p, c))
        refusals |= RANGE;
    if (!ticket_in_range(f, c, row, block))
        refusals |= TICKET;
    return refusals;
}

/* A call that works the terms which `terms_of` gives. */
#define WORKING(name, terms_of) \
    int64_t name(ref_formula *f, uint64_t p, uint64_t c, uint64_t row, uint64_t block, uint8_t *sum, size_t sum_len, \
                 uint8_t *squarings, size_t squarings_len) \
    { \
        ref_refusals refusals = ref_work_refusals(f, p, c, row, block, sum_len, squarings_len); \
        if (refusals == 0) { \
            ref_store_sum(sum, range_sum(f, p, row, terms_of(f, p, c, block))); \
            ref_store_sum(squarings, counted_squarings(f, p, row, terms_of(f, p, c, block))); \
        } \
        return ref_answer(refusals); \
    }

WORKING(ref_work, ref_whole)
WORKING(ref_work_lower, ref_lower_half)
WORKING(ref_work_upper, ref_upper_half)

/* The ledger: p at 0, C at 8, zero bytes at 10, the row sums at 16, and the marks after them. */

static size_t mark_at(ref_formula *f, uint64_t row, uint64_t block)
{
    return 16 + 16 * f->rows + 32 * row + block / 8;
}

ref_u128 ref_row_sum(const uint8_t *ledger, uint64_t row)
{
    return ref_load_sum(ledger + 16 + 16 * row);
}

ref_u128 ref_total(ref_formula *f, const uint8_t *ledger)
{
    ref_u128 total = 0;
    for (uint64_t row = 0; row < f->rows; row++)
        total += ref_row_sum(ledger, row);
    return total;
}

int ref_marked(ref_formula *f, const uint8_t *ledger, uint64_t row, uint64_t block)
{
    return ledger[mark_at(f, row, block)] >> block % 8 & 1;
}

static void post_sum(ref_formula *f, uint8_t *ledger, uint64_t row, uint64_t block, const uint8_t *sum)
{
    ledger[mark_at(f, row, block)] |= (uint8_t)(1 << block % 8);
    ref_store_sum(ledger + 16 + 16 * row, ref_row_sum(ledger, row) + ref_load_sum(sum));
}

int ref_ledger_in_order(ref_formula *f, const uint8_t *ledger)
{
    uint64_t c = ref_load(ledger + 8, 2);
    if (!run_in_range(f, ref_load(ledger, 8), c))
        return 0;
    for (int i = 10; i < 16; i++)
        if (ledger[i] != 0)
            return 0;
    for (uint64_t row = 0; row < f->rows; row++)
        for (uint64_t block = c; block < 256; block++)
            if (ref_marked(f, ledger, row, block))
                return 0;
    return 1;
}

static int same_run(const uint8_t *ledger, uint64_t p, uint64_t c)
{
    return ref_load(ledger, 8) == p && ref_load(ledger + 8, 2) == c;
}

ref_refusals ref_open_refusals(ref_formula *f, uint64_t p, uint64_t c, size_t ledger_len)
{
    return (ledger_len != f->ledger ? SIZE : 0u) | (run_in_range(f, p, c) ? 0u : RANGE);
}

int64_t ref_open(ref_formula *f, uint64_t p, uint64_t c, uint8_t *ledger, size_t ledger_len)
{
    ref_refusals refusals = ref_open_refusals(f, p, c, ledger_len);
    if (refusals == 0) {
        memset(ledger, 0, f->ledger);
        store(ledger, 8, p);
        store(ledger + 8, 2, c);
    }
    return ref_answer(refusals);
}

ref_refusals ref_post_refusals(ref_formula *f, const uint8_t *ledger, size_t ledger_len, uint64_t p, uint64_t c,
                               uint64_t row, uint64_t block, size_t sum_len)
{
    ref_refusals refusals = 0;
    if (ledger_len != f->ledger || sum_len != 16)
        refusals |= SIZE;
    if (!run_in_range(f, p, c))
        refusals |= RANGE;
    if (!ticket_in_range(f, c, row, block))
        refusals |= TICKET;
    if (ledger_len != f->ledger)
        return refusals;
    if (!ref_ledger_in_order(f, ledger))
        refusals |= LEDGER;
    if (!same_run(ledger, p, c))
        refusals |= RUN;
    if (row < f->rows && block < 256 && ref_marked(f, ledger, row, block))
        refusals |= MARKED;
    return refusals;
}

int64_t ref_post(ref_formula *f, uint8_t *ledger, size_t ledger_len, uint64_t p, uint64_t c, uint64_t row, uint64_t block,
                 const uint8_t *sum, size_t sum_len)
{
    ref_refusals refusals = ref_post_refusals(f, ledger, ledger_len, p, c, row, block, sum_len);
    if (refusals == 0)
        post_sum(f, ledger, row, block, sum);
    return ref_answer(refusals);
}

/* The list: pairs of 256 * row + block. */

static uint64_t pair_at(const uint8_t *list, size_t i)
{
    return ref_load(list + 2 * i, 2);
}

ref_refusals ref_sheet_write_refusals(ref_formula *f, uint64_t p, uint64_t c, const uint8_t *list, size_t list_len,
                                      size_t sheet_len)
{
    ref_refusals refusals = 0;
    size_t e = list_len / 2;
    if (list_len % 2 != 0 || list_len > f->list || sheet_len < 16 + 20 * e)
        refusals |= SIZE;
    if (!run_in_range(f, p, c))
        refusals |= RANGE;
    for (size_t i = 0; i < e; i++) {
        if (i > 0 && pair_at(list, i - 1) >= pair_at(list, i))
            refusals |= FORM;
        if (!ticket_in_range(f, c, pair_at(list, i) / 256, pair_at(list, i) % 256))
            refusals |= TICKET;
    }
    return refusals;
}

/* The sheet: head of 16 bytes, contents of 4 bytes a ticket, bodies of 16 bytes a ticket. */

struct head {
    uint64_t p, c, e;
};

static struct head head_of(const uint8_t *sheet)
{
    struct head head = {ref_load(sheet, 8), ref_load(sheet + 8, 2), ref_load(sheet + 10, 2)};
    return head;
}

static uint64_t entry_row(const uint8_t *sheet, size_t i)
{
    return sheet[16 + 4 * i];
}

static uint64_t entry_block(const uint8_t *sheet, size_t i)
{
    return ref_load(sheet + 16 + 4 * i + 2, 2);
}

static uint64_t entry_key(const uint8_t *sheet, size_t i)
{
    return 256 * entry_row(sheet, i) + entry_block(sheet, i);
}

void ref_put_contents(uint8_t *sheet, uint64_t p, uint64_t c, const uint8_t *list, size_t e)
{
    memset(sheet, 0, 16 + 20 * e);
    store(sheet, 8, p);
    store(sheet + 8, 2, c);
    store(sheet + 10, 2, e);
    for (size_t i = 0; i < e; i++) {
        store(sheet + 16 + 4 * i, 1, pair_at(list, i) / 256);
        store(sheet + 16 + 4 * i + 2, 2, pair_at(list, i) % 256);
    }
}

int64_t ref_sheet_write(ref_formula *f, uint64_t p, uint64_t c, const uint8_t *list, size_t list_len, uint8_t *sheet,
                        size_t sheet_len)
{
    ref_refusals refusals = ref_sheet_write_refusals(f, p, c, list, list_len, sheet_len);
    size_t e = list_len / 2;
    if (refusals != 0)
        return ref_answer(refusals);
    ref_put_contents(sheet, p, c, list, e);
    for (size_t i = 0; i < e; i++) {
        uint64_t row = pair_at(list, i) / 256, block = pair_at(list, i) % 256;
        ref_store_sum(sheet + 16 + 4 * e + 16 * i, range_sum(f, p, row, ref_whole(f, p, c, block)));
    }
    return (int64_t)(16 + 20 * e);
}

/* Numbers 2, 3 and 4 of a sheet of at least 16 bytes. */
static ref_refusals content_refusals(ref_formula *f, const uint8_t *sheet, size_t sheet_len)
{
    struct head head = head_of(sheet);
    ref_refusals refusals = 0;
    size_t there = (sheet_len - 16) / 4;
    size_t e = head.e < there ? head.e : there;
    if (!run_in_range(f, head.p, head.c))
        refusals |= RANGE;
    if (sheet_len != 16 + 20 * head.e || ref_load(sheet + 12, 4) != 0)
        refusals |= FORM;
    for (size_t i = 0; i < e; i++) {
        if (sheet[16 + 4 * i + 1] != 0)
            refusals |= FORM;
        if (i > 0 && entry_key(sheet, i - 1) >= entry_key(sheet, i))
            refusals |= FORM;
        if (!ticket_in_range(f, head.c, entry_row(sheet, i), entry_block(sheet, i)))
            refusals |= TICKET;
    }
    return refusals;
}

ref_refusals ref_sheet_read_refusals(ref_formula *f, const uint8_t *sheet, size_t sheet_len, size_t list_len,
                                     size_t sums_len)
{
    if (sheet_len < 16)
        return SIZE;
    uint64_t e = head_of(sheet).e;
    ref_refusals refusals = content_refusals(f, sheet, sheet_len);
    if (sheet_len > f->sheet || list_len < 2 * e || sums_len < 16 * e)
        refusals |= SIZE;
    return refusals;
}

int64_t ref_sheet_read(ref_formula *f, const uint8_t *sheet, size_t sheet_len, uint8_t *list, size_t list_len,
                       uint8_t *sums, size_t sums_len)
{
    ref_refusals refusals = ref_sheet_read_refusals(f, sheet, sheet_len, list_len, sums_len);
    if (refusals != 0)
        return ref_answer(refusals);
    size_t e = head_of(sheet).e;
    for (size_t i = 0; i < e; i++)
        store(list + 2 * i, 2, entry_key(sheet, i));
    for (size_t i = 0; i < 16 * e; i++)
        sums[i] = sheet[16 + 4 * e + i];
    return (int64_t)e;
}

/* Numbers 6 and 7 of a sheet of at least 16 bytes and a ledger of its size. */
static ref_refusals posting_refusals(ref_formula *f, const uint8_t *ledger, const uint8_t *sheet, size_t sheet_len)
{
    struct head head = head_of(sheet);
    ref_refusals refusals = same_run(ledger, head.p, head.c) ? 0u : RUN;
    for (size_t i = 0; i < head.e && i < (sheet_len - 16) / 4; i++) {
        uint64_t row = entry_row(sheet, i), block = entry_block(sheet, i);
        if (row < f->rows && block < 256 && ref_marked(f, ledger, row, block))
            refusals |= MARKED;
    }
    return refusals;
}

ref_refusals ref_sheet_post_refusals(ref_formula *f, const uint8_t *ledger, size_t ledger_len, const uint8_t *sheet,
                                     size_t sheet_len)
{
    ref_refusals refusals = 0;
    if (ledger_len != f->ledger || sheet_len < 16 || sheet_len > f->sheet)
        refusals |= SIZE;
    if (sheet_len >= 16)
        refusals |= content_refusals(f, sheet, sheet_len);
    if (ledger_len == f->ledger && !ref_ledger_in_order(f, ledger))
        refusals |= LEDGER;
    if (ledger_len == f->ledger && sheet_len >= 16)
        refusals |= posting_refusals(f, ledger, sheet, sheet_len);
    return refusals;
}

int64_t ref_sheet_post(ref_formula *f, uint8_t *ledger, size_t ledger_len, const uint8_t *sheet, size_t sheet_len)
{
    ref_refusals refusals = ref_sheet_post_refusals(f, ledger, ledger_len, sheet, sheet_len);
    if (refusals != 0)
        return ref_answer(refusals);
    size_t e = head_of(sheet).e;
    for (size_t i = 0; i < e; i++)
        post_sum(f, ledger, entry_row(sheet, i), entry_block(sheet, i), sheet + 16 + 4 * e + 16 * i);
    return 0;
}

/* The look of document 02, slip 6. */

ref_refusals ref_look_refusals(ref_formula *f, const uint8_t *ledger, size_t ledger_len, const uint8_t *sheet,
                               size_t sheet_len, size_t total_len)
{
    return (total_len != 16 ? SIZE : 0u) | ref_sheet_post_refusals(f, ledger, ledger_len, sheet, sheet_len);
}

static int64_t unmarked_tickets(ref_formula *f, const uint8_t *ledger)
{
    uint64_t c = ref_load(ledger + 8, 2);
    int64_t unmarked = 0;
    for (uint64_t row = 0; row < f->rows; row++)
        for (uint64_t block = 0; block < c; block++)
            unmarked += !ref_marked(f, ledger, row, block);
    return unmarked;
}

int64_t ref_look(ref_formula *f, const uint8_t *ledger, size_t ledger_len, const uint8_t *sheet, size_t sheet_len,
                 uint8_t *total, size_t total_len)
{
    uint8_t copy[352];
    ref_refusals refusals = ref_look_refusals(f, ledger, ledger_len, sheet, sheet_len, total_len);
    if (refusals != 0)
        return ref_answer(refusals);
    memcpy(copy, ledger, f->ledger);
    ref_sheet_post(f, copy, f->ledger, sheet, sheet_len);
    ref_store_sum(total, ref_total(f, copy));
    return unmarked_tickets(f, copy);
}
