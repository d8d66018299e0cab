/*
 * The digits of pi from position 1,000 on, by a book: a supplier's sheet has a
 * wrong sum, its ticket is withdrawn and posted again with the right one.
 */
#include <bbp.h>

#include <stdio.h>

#include "program.h"

enum { P = 1000, C = 4, WRONG_ROW = 3, WRONG_BLOCK = 2 };

static uint8_t ledger[BBP_LEDGER_SIZE], book[BBP_BOOK_SIZE]; /* a book of zeros is the one to start with */

/* Posts the sheet of all tickets of a row but the last one. */
static void post_sheet(uint64_t row)
{
    uint8_t list[BBP_LIST_SIZE(C - 1)], sheet[BBP_SHEET_SIZE(C - 1)];
    for (int block = 0; block < C - 1; block++)
        list[2 * block] = (uint8_t)block, list[2 * block + 1] = (uint8_t)row;
    finished("sheet write", bbp_sheet_write(P, C, list, sizeof list, sheet, sizeof sheet));
    if (row == WRONG_ROW)
        sheet[16 + 4 * (C - 1) + 16 * WRONG_BLOCK + 15] ^= 128;
    finished("book sheet post", bbp_book_sheet_post(ledger, sizeof ledger, book, sizeof book, sheet, sizeof sheet));
}

static void post(uint64_t row, uint64_t block)
{
    uint8_t sum[BBP_SUM_SIZE], squarings[BBP_SQUARINGS_SIZE];
    finished("work", bbp_work(P, C, row, block, sum, sizeof sum, squarings, sizeof squarings));
    finished("book post", bbp_book_post(ledger, sizeof ledger, book, sizeof book, P, C, row, block, sum, sizeof sum));
}

/* A kept sum that working the ticket again does not give. */
static int is_wrong(uint64_t row, uint64_t block)
{
    uint8_t sum[BBP_SUM_SIZE], squarings[BBP_SQUARINGS_SIZE];
    finished("work", bbp_work(P, C, row, block, sum, sizeof sum, squarings, sizeof squarings));
    return memcmp(sum, book + BBP_BOOK_AT(row, block), sizeof sum) != 0;
}

static void replace(uint64_t row, uint64_t block)
{
    fprintf(stderr, "withdrawn: row %d, block %d\n", (int)row, (int)block);
    finished("book withdraw", bbp_book_withdraw(ledger, sizeof ledger, book, sizeof book, P, C, row, block));
    post(row, block);
}

int main(void)
{
    uint8_t digits[BBP_DIGITS_SIZE];
    finished("open", bbp_open(P, C, ledger, sizeof ledger));
    for (uint64_t row = 0; row < BBP_ROWS; row++) {
        post_sheet(row);
        post(row, C - 1);
    }
    for (uint64_t row = 0; row < BBP_ROWS; row++)
        for (uint64_t block = 0; block < C; block++)
            if (is_wrong(row, block))
                replace(row, block);
    int64_t d = finished("close", bbp_close(ledger, sizeof ledger, digits, sizeof digits));
    printf("%d %d %.*s\n", P, (int)d, (int)d, (const char *)digits);
    end_output();
    return 0;
}
