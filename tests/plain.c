#include "plain.h"

#include <string.h>

void open_plain(struct plain *plain, uint64_t p, uint64_t c)
{
    memset(plain, 0, sizeof *plain);
    plain->p = p;
    plain->c = c;
}

int plain_answer(const struct plain *plain, uint64_t p, uint64_t c, uint64_t row, uint64_t block)
{
    if (p != plain->p || c != plain->c)
        return -6;
    return plain->taken[row][block] ? -7 : 0;
}

int plain_list_answer(const struct plain *plain, uint64_t p, const uint8_t *list, size_t e)
{
    for (size_t i = 0; i < e; i++)
        if (p == plain->p && plain->taken[list[2 * i + 1]][list[2 * i]])
            return -7;
    return p == plain->p ? 0 : -6;
}

void take(struct plain *plain, uint64_t row, uint64_t block, const uint8_t *sum)
{
    plain->taken[row][block] = 1;
    plain->kept[row][block] = ref_load_sum(sum);
    plain->sums[row] += ref_load_sum(sum);
}

void take_list(struct plain *plain, const uint8_t *list, size_t e, const uint8_t *sums)
{
    for (size_t i = 0; i < e; i++)
        take(plain, list[2 * i + 1], list[2 * i], sums + 16 * i);
}

void give_back(struct plain *plain, uint64_t row, uint64_t block)
{
    plain->sums[row] -= plain->kept[row][block];
    plain->kept[row][block] = 0;
    plain->taken[row][block] = 0;
}

size_t plain_list(const struct plain *plain, uint8_t *list)
{
    size_t e = 0;
    for (uint64_t row = 0; row < ROWS; row++)
        for (uint64_t block = 0; block < 256; block++)
            if (plain->taken[row][block])
                put(list + 2 * e++, 2, PAIR(row, block));
    return e;
}

uint64_t plain_unmarked(const struct plain *plain)
{
    uint64_t unmarked = ROWS * plain->c;
    for (uint64_t row = 0; row < ROWS; row++)
        for (uint64_t block = 0; block < plain->c; block++)
            unmarked -= plain->taken[row][block];
    return unmarked;
}

void plain_ledger(const struct plain *plain, uint8_t *ledger)
{
    memset(ledger, 0, LEDGER_SIZE);
    put(ledger, 8, plain->p);
    put(ledger + 8, 2, plain->c);
    for (uint64_t row = 0; row < ROWS; row++) {
        set_row_sum(ledger, row, plain->sums[row]);
        for (uint64_t block = 0; block < 256; block++)
            set_mark(ledger, row, block, plain->taken[row][block]);
    }
}

void plain_book(const struct plain *plain, uint8_t *book)
{
    for (uint64_t row = 0; row < ROWS; row++)
        for (uint64_t block = 0; block < 256; block++)
            put_sum(book + BOOK_AT(row, block), plain->kept[row][block]);
}

size_t plain_sheet(const struct plain *plain, uint8_t *sheet)
{
    uint8_t list[LIST_MAX];
    size_t e = plain_list(plain, list);
    ref_put_contents(sheet, plain->p, plain->c, list, e);
    for (size_t i = 0; i < e; i++)
        put_sum(sheet + 16 + 4 * e + 16 * i, plain->kept[list[2 * i + 1]][list[2 * i]]);
    return SHEET_SIZE(e);
}
