/*
 * The book of a Bellard run, from document 02, slips 9 and 10, alone: what it
 * keeps, posting by it, withdrawing, and the sheet of all that stands.
 */
#include "reference.h"

#include <string.h>

enum { SIZE = 1 << 1, LEDGER = 1 << 5, MARKED = 1 << 7, UNPOSTED = 1 << 13, BOOK = 28672 };

static size_t place(uint64_t row, uint64_t block)
{
    return 16 * (256 * row + block);
}

static ref_u128 kept(const uint8_t *book, uint64_t row, uint64_t block)
{
    return ref_load_sum(book + place(row, block));
}

/* The sums of the row's 256 places add up to the row sum. */
static int adds_up(const uint8_t *ledger, const uint8_t *book, uint64_t row)
{
    ref_u128 sum = 0;
    for (uint64_t block = 0; block < 256; block++)
        sum += kept(book, row, block);
    return sum == ref_row_sum(ledger, row);
}

static int zero_where_unmarked(const uint8_t *ledger, const uint8_t *book, uint64_t row)
{
    for (uint64_t block = 0; block < 256; block++)
        if (!ref_marked(&ref_bellard, ledger, row, block) && kept(book, row, block) != 0)
            return 0;
    return 1;
}

int ref_book_in_order(const uint8_t *ledger, const uint8_t *book)
{
    for (uint64_t row = 0; row < 7; row++)
        if (!adds_up(ledger, book, row) || !zero_where_unmarked(ledger, book, row))
            return 0;
    return 1;
}

/* What a book brings to the numbers of a call: its size, and, where both are there, whether it fits the ledger. */
static ref_refusals book_refusals(const uint8_t *ledger, size_t ledger_len, const uint8_t *book, size_t book_len)
{
    if (book_len != BOOK)
        return SIZE;
    return ledger_len == ref_bellard.ledger && !ref_book_in_order(ledger, book) ? LEDGER : 0;
}

ref_refusals ref_book_post_refusals(const uint8_t *ledger, size_t ledger_len, const uint8_t *book, size_t book_len,
                                    uint64_t p, uint64_t c, uint64_t row, uint64_t block, size_t sum_len)
{
    return ref_post_refusals(&ref_bellard, ledger, ledger_len, p, c, row, block, sum_len) |
           book_refusals(ledger, ledger_len, book, book_len);
}

int64_t ref_book_post(uint8_t *ledger, size_t ledger_len, uint8_t *book, size_t book_len, uint64_t p, uint64_t c,
                      uint64_t row, uint64_t block, const uint8_t *sum, size_t sum_len)
{
    ref_refusals refusals = ref_book_post_refusals(ledger, ledger_len, book, book_len, p, c, row, block, sum_len);
    if (refusals != 0)
        return ref_answer(refusals);
    memcpy(book + place(row, block), sum, 16);
    return ref_post(&ref_bellard, ledger, ledger_len, p, c, row, block, sum, sum_len);
}

ref_refusals ref_book_sheet_post_refusals(const uint8_t *ledger, size_t ledger_len, const uint8_t *book, size_t book_len,
                                          const uint8_t *sheet, size_t sheet_len)
{
    return ref_sheet_post_refusals(&ref_bellard, ledger, ledger_len, sheet, sheet_len) |
           book_refusals(ledger, ledger_len, book, book_len);
}

/* Reading the sheet gives its tickets and their sums. */
int64_t ref_book_sheet_post(uint8_t *ledger, size_t ledger_len, uint8_t *book, size_t book_len, const uint8_t *sheet,
                            size_t sheet_len)
{
    uint8_t list[3584], sums[28672];
    ref_refusals refusals = ref_book_sheet_post_refusals(ledger, ledger_len, book, book_len, sheet, sheet_len);
    if (refusals != 0)
        return ref_answer(refusals);
    int64_t e = ref_sheet_read(&ref_bellard, sheet, sheet_len, list, sizeof list, sums, sizeof sums);
    for (int64_t i = 0; i < e; i++)
        memcpy(book + place(list[2 * i + 1], list[2 * i]), sums + 16 * i, 16);
    return ref_sheet_post(&ref_bellard, ledger, ledger_len, sheet, sheet_len);
}

/* Those of posting a ticket, with 13 in the place of 7. */
ref_refusals ref_book_withdraw_refusals(const uint8_t *ledger, size_t ledger_len, const uint8_t *book, size_t book_len,
                                        uint64_t p, uint64_t c, uint64_t row, uint64_t block)
{
    ref_refusals refusals = ref_book_post_refusals(ledger, ledger_len, book, book_len, p, c, row, block, 16);
    if (refusals & MARKED)
        return refusals & ~(ref_refusals)MARKED;
    return ledger_len == ref_bellard.ledger && row < 7 && block < 256 ? refusals | UNPOSTED : refusals;
}

int64_t ref_book_withdraw(uint8_t *ledger, size_t ledger_len, uint8_t *book, size_t book_len, uint64_t p, uint64_t c,
                          uint64_t row, uint64_t block)
{
    ref_refusals refusals = ref_book_withdraw_refusals(ledger, ledger_len, book, book_len, p, c, row, block);
    if (refusals != 0)
        return ref_answer(refusals);
    ref_store_sum(ledger + 16 + 16 * row, ref_row_sum(ledger, row) - kept(book, row, block));
    ledger[128 + 32 * row + block / 8] &= (uint8_t)~(1 << block % 8);
    memset(book + place(row, block), 0, 16);
    return 0;
}

/* The tickets whose marks are set, those at C and above among them, in the order of sheets. Gives their number. */
static size_t marked_tickets(const uint8_t *ledger, uint8_t list[3584])
{
    size_t e = 0;
    for (uint64_t row = 0; row < 7; row++)
        for (uint64_t block = 0; block < 256; block++)
            if (ref_marked(&ref_bellard, ledger, row, block)) {
                list[2 * e] = (uint8_t)block;
                list[2 * e + 1] = (uint8_t)row;
                e++;
            }
    return e;
}

ref_refusals ref_standing_sheet_refusals(const uint8_t *ledger, size_t ledger_len, const uint8_t *book, size_t book_len,
                                         size_t sheet_len)
{
    uint8_t list[3584];
    ref_refusals refusals = book_refusals(ledger, ledger_len, book, book_len);
    if (ledger_len != ref_bellard.ledger)
        return refusals | SIZE;
    if (sheet_len < 16 + 20 * marked_tickets(ledger, list))
        refusals |= SIZE;
    return ref_ledger_in_order(&ref_bellard, ledger) ? refusals : refusals | LEDGER;
}

int64_t ref_standing_sheet(const uint8_t *ledger, size_t ledger_len, const uint8_t *book, size_t book_len, uint8_t *sheet,
                           size_t sheet_len)
{
    uint8_t list[3584];
    ref_refusals refusals = ref_standing_sheet_refusals(ledger, ledger_len, book, book_len, sheet_len);
    if (refusals != 0)
        return ref_answer(refusals);
    size_t e = marked_tickets(ledger, list);
    ref_put_contents(sheet, ref_load(ledger, 8), ref_load(ledger + 8, 2), list, e);
    for (size_t i = 0; i < e; i++)
        memcpy(sheet + 16 + 4 * e + 16 * i, book + place(list[2 * i + 1], list[2 * i]), 16);
    return (int64_t)(16 + 20 * e);
}
