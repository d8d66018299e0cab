/*
 * The digits of pi from position 1,000 on, at a change of supplier: the first
 * works half of the tickets, and all that stands moves over as one sheet. The
 * second posts it onto a fresh ledger and an empty book, works the rest and closes.
 * The first goes on as well, to show that both come to the same digits.
 */
#include <bbp.h>

#include <stdio.h>

#include "program.h"

enum { P = 1000, C = 4 };

/* A ledger and its book; a book of zeros is the one to start with. */
struct run {
    uint8_t ledger[BBP_LEDGER_SIZE], book[BBP_BOOK_SIZE];
};

static struct run first, second;

static void open_run(struct run *run)
{
    finished("open", bbp_open(P, C, run->ledger, sizeof run->ledger));
}

static void post(struct run *run, uint64_t row, uint64_t block)
{
    uint8_t sum[BBP_SUM_SIZE], squarings[BBP_SQUARINGS_SIZE];
    finished("work", bbp_work(P, C, row, block, sum, sizeof sum, squarings, sizeof squarings));
    finished("book post", bbp_book_post(run->ledger, sizeof run->ledger, run->book, sizeof run->book, P, C, row, block, sum,
                                        sizeof sum));
}

/* The first blocks of each row, or the others. */
static void post_blocks(struct run *run, uint64_t from, uint64_t end)
{
    for (uint64_t row = 0; row < BBP_ROWS; row++)
        for (uint64_t block = from; block < end; block++)
            post(run, row, block);
}

static void hand_over(const struct run *from, struct run *to)
{
    uint8_t sheet[BBP_SHEET_SIZE(BBP_ROWS * C)]; /* room for every ticket of the run */
    int64_t length = finished("standing sheet", bbp_standing_sheet(from->ledger, sizeof from->ledger, from->book,
                                                                   sizeof from->book, sheet, sizeof sheet));
    fprintf(stderr, "handed over: %d tickets in %d bytes\n", (int)number_at(sheet + 10, 2), (int)length);
    open_run(to);
    finished("book sheet post", bbp_book_sheet_post(to->ledger, sizeof to->ledger, to->book, sizeof to->book, sheet,
                                                    (size_t)length));
}

static int64_t close_run(const struct run *run, uint8_t digits[BBP_DIGITS_SIZE])
{
    return finished("close", bbp_close(run->ledger, sizeof run->ledger, digits, BBP_DIGITS_SIZE));
}

/* Ends the program where what has to be the same is not. */
static void expect_same(int same, const char *what)
{
    if (!same) {
        fprintf(stderr, "%s differ\n", what);
        exit(1);
    }
}

int main(void)
{
    uint8_t digits[BBP_DIGITS_SIZE], others[BBP_DIGITS_SIZE];
    open_run(&first);
    post_blocks(&first, 0, C / 2);
    hand_over(&first, &second);
    expect_same(memcmp(&first, &second, sizeof first) == 0, "the ledgers or the books");
    post_blocks(&first, C / 2, C);
    post_blocks(&second, C / 2, C);
    int64_t d = close_run(&first, others);
    expect_same(close_run(&second, digits) == d && memcmp(digits, others, (size_t)d) == 0, "the digits");
    printf("%d %d %.*s\n", P, (int)d, (int)d, (const char *)digits);
    end_output();
    return 0;
}
