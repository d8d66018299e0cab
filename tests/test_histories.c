/*
 * Histories of a run that is kept with a book, from an opening on: posts of
 * tickets and of sheets by the book, withdrawals, and calls that are refused,
 * against a plain ledger that keeps each sum by its ticket (document 01, The
 * ledger; document 02, slip 9). After each call all bytes of ledger and book are
 * compared with what it holds, and now and then the sheet of all that stands (slip
 * 10). What a history leaves is reached by another one, with the same bytes. Then
 * runs that are filled with right sums after withdrawals of wrong ones, and closed.
 */
#include "books.h"
#include "plain.h"

#include <inttypes.h>
#include <string.h>

static struct plain plain;
static uint8_t ledger[LEDGER_SIZE], book[BOOK_SIZE];

#define LENT ledger, sizeof ledger, book, sizeof book

static void compare_bytes(const char *after)
{
    static uint8_t bytes[LEDGER_SIZE], places[BOOK_SIZE];
    plain_ledger(&plain, bytes);
    plain_book(&plain, places);
    CHECK(memcmp(bytes, ledger, sizeof ledger) == 0, "the ledger is not the plain ledger after %s", after);
    CHECK(memcmp(places, book, sizeof book) == 0, "the book is not the plain ledger's after %s", after);
}

static void open_run(uint64_t p, uint64_t c)
{
    open_plain(&plain, p, c);
    any_bytes(ledger, sizeof ledger);
    memset(book, 0, sizeof book);
    CHECK(bbp_open(p, c, ledger, sizeof ledger) == 0, "opening is refused");
    compare_bytes("opening");
}

static uint64_t near_position(void)
{
    return below(10) == 0 ? plain.p % 1000 + 1 : plain.p;
}

static uint64_t near_count(void)
{
    return below(10) == 0 && plain.c < 256 ? plain.c + 1 : plain.c;
}

static int64_t post_one(uint64_t p, uint64_t c, uint64_t row, uint64_t block, const uint8_t *sum)
{
    int wanted = plain_answer(&plain, p, c, row, block);
    CHECK(bbp_book_post(LENT, p, c, row, block, sum, 16) == wanted, "post: the answer is not the plain ledger's");
    if (wanted == 0)
        take(&plain, row, block, sum);
    compare_bytes("a post");
    return wanted;
}

static void post_any(void)
{
    uint8_t sum[16];
    put_sum(sum, below(8) == 0 ? 0 : any_sum());
    post_one(near_position(), near_count(), below(ROWS), below(plain.c), sum);
}

/* Where all is in order, a look says beforehand what the post of the sheet does. */
static int64_t look_at(const uint8_t *sheet, size_t len, uint8_t *total)
{
    int64_t seen = bbp_look(ledger, sizeof ledger, sheet, len, total, 16);
    compare_bytes("a look");
    return seen;
}

static void post_sheet(uint64_t p, const uint8_t *list, size_t e, const uint8_t *sheet)
{
    uint8_t total[16];
    int wanted = plain_list_answer(&plain, p, list, e);
    int64_t seen = look_at(sheet, SHEET_SIZE(e), total);
    CHECK(bbp_book_sheet_post(LENT, sheet, SHEET_SIZE(e)) == wanted, "sheet post: the answer is not the plain ledger's");
    if (wanted == 0)
        take_list(&plain, list, e, sheet + 16 + 4 * e);
    compare_bytes("a sheet post");
    int64_t rest = wanted == 0 ? (int64_t)plain_unmarked(&plain) : wanted;
    CHECK(seen == rest, "a look answers %" PRId64 " before a post that answers %d, not %" PRId64, seen, wanted, rest);
    CHECK(wanted != 0 || ref_load_sum(total) == ref_total(FORMULA, ledger), "the total of a look");
}

static uint8_t list[LIST_MAX], sheet[SHEET_MAX];

static void post_any_sheet(uint64_t chance)
{
    uint64_t p = near_position();
    size_t e = any_list(list, plain.c, chance);
    any_sheet(sheet, p, plain.c, list, e);
    post_sheet(p, list, e, sheet);
}

static uint8_t standing[SHEET_MAX];

/* The sheet of all that stands is the plain ledger's, and brings back ledger and book. Gives its length. */
static size_t stand(void)
{
    static uint8_t wanted[SHEET_MAX];
    any_bytes(standing, sizeof standing);
    memcpy(wanted, standing, sizeof standing);
    size_t len = plain_sheet(&plain, wanted);
    int64_t answer = bbp_standing_sheet(LENT, standing, sizeof standing);
    CHECK(answer == (int64_t)len, "the sheet of what stands has %" PRId64 " bytes, not %zu", answer, len);
    CHECK(memcmp(standing, wanted, sizeof standing) == 0, "the sheet of what stands is not the plain ledger's");
    compare_bytes("the sheet of what stands");
    expect_moved(standing, len, ledger, book);
    return len;
}

/* 13 takes the place of 7: the plain ledger refuses what is not in its set. */
static int64_t withdraw(uint64_t p, uint64_t c, uint64_t row, uint64_t block)
{
    uint8_t digits[32];
    int posted = plain_answer(&plain, p, c, row, block), wanted = posted == -7 ? 0 : posted == 0 ? -13 : posted;
    CHECK(bbp_book_withdraw(LENT, p, c, row, block) == wanted, "withdrawal: the answer is not the plain ledger's");
    if (wanted == 0)
        give_back(&plain, row, block);
    compare_bytes("a withdrawal");
    if (wanted == 0)
        CHECK(bbp_close(ledger, sizeof ledger, digits, 32) == -8, "closing after a withdrawal is not refused with 8");
    return wanted;
}

/* Of the tickets from a random one on, the first that is in the set; where none is, that random one. */
static uint64_t any_taken(void)
{
    uint64_t all = ROWS * plain.c, i = below(all);
    for (uint64_t tries = 0; tries < all && !plain.taken[i / plain.c][i % plain.c]; tries++)
        i = (i + 1) % all;
    return i;
}

static void withdraw_any(int taken)
{
    uint64_t i = taken ? any_taken() : below(ROWS * plain.c);
    withdraw(near_position(), near_count(), i / plain.c, i % plain.c);
}

static void out_of_table(void)
{
    const uint64_t p = plain.p, c = plain.c;
    uint8_t sum[16] = {0}, zeros[16] = {0};
    CHECK(bbp_book_post(LENT, p, c, ROWS, 0, sum, 16) == -4, "row above the last");
    CHECK(bbp_book_post(LENT, p, c, 0, c, sum, 16) == -4, "block C");
    CHECK(bbp_book_post(LENT, 0, c, 0, 0, sum, 16) == -2, "p = 0");
    CHECK(bbp_book_post(LENT, p, c, 0, 0, sum, 15) == -1, "a sum of 15 bytes");
    CHECK(bbp_book_post(ledger, sizeof ledger, book, sizeof book - 1, p, c, 0, 0, sum, 16) == -1, "a book of a byte less");
    CHECK(bbp_book_sheet_post(LENT, zeros, 15) == -1, "a sheet of 15 bytes");
    CHECK(bbp_book_sheet_post(LENT, zeros, 16) == -2, "a sheet of zeros");
    CHECK(bbp_book_sheet_post(ledger, sizeof ledger, book, sizeof book - 16, zeros, 16) == -1, "a book of 16 bytes less");
    CHECK(bbp_book_withdraw(LENT, p, c, ROWS, 0) == -4, "withdrawal: row above the last");
    CHECK(bbp_book_withdraw(LENT, p, c, 0, c) == -4, "withdrawal: block C");
    CHECK(bbp_book_withdraw(LENT, LAST_POSITION + 1, c, 0, 0) == -2, "withdrawal: p above the last");
    CHECK(bbp_book_withdraw(ledger, sizeof ledger - 1, book, sizeof book, p, c, 0, 0) == -1, "a ledger of a byte less");
    CHECK(bbp_book_withdraw(ledger, sizeof ledger, book, 0, p, c, 0, 0) == -1, "a book of no bytes");
    CHECK(bbp_standing_sheet(LENT, sheet, plain_sheet(&plain, sheet) - 1) == -1, "what stands, into a byte less");
    CHECK(bbp_standing_sheet(ledger, sizeof ledger, book, sizeof book - 1, sheet, SHEET_MAX) == -1, "what stands: the book");
    CHECK(bbp_standing_sheet(ledger, sizeof ledger - 1, book, sizeof book, sheet, SHEET_MAX) == -1, "what stands: the ledger");
    compare_bytes("calls out of the table");
}

/* A byte of the book, anywhere or where a ticket in the set keeps its sum, is changed for a moment: every call by it is refused. */
static void by_a_damaged_book(void)
{
    uint8_t sum[16] = {1}, change = (uint8_t)(1 + below(255));
    uint64_t i = any_taken();
    size_t at = below(2) == 0 ? below(BOOK_SIZE) : BOOK_AT(i / plain.c, i % plain.c) + below(16);
    size_t len = any_sheet(sheet, plain.p, plain.c, list, 0);
    book[at] ^= change;
    CHECK(bbp_book_post(LENT, plain.p, plain.c, below(ROWS), below(plain.c), sum, 16) == -5, "post by a damaged book");
    CHECK(bbp_book_withdraw(LENT, plain.p, plain.c, below(ROWS), below(plain.c)) == -5, "withdrawal by a damaged book");
    CHECK(bbp_book_sheet_post(LENT, sheet, len) == -5, "a sheet by a damaged book");
    CHECK(bbp_standing_sheet(LENT, standing, sizeof standing) == -5, "what stands by a damaged book");
    book[at] ^= change;
    compare_bytes("calls by a damaged book");
}

/* Closing needs no book, and is that of the reference. */
static void close_now(void)
{
    uint8_t digits[32] = {0}, wanted[32] = {0};
    int64_t d = bbp_close(ledger, sizeof ledger, digits, 32);
    CHECK(d == ref_close(FORMULA, ledger, sizeof ledger, wanted, 32) && memcmp(digits, wanted, 32) == 0, "closing");
    compare_bytes("closing");
}

/* Posts a wrong sum and withdraws it, up to so many times. */
static void withdraw_wrong(uint64_t row, uint64_t block, uint64_t most)
{
    uint8_t sum[16];
    for (uint64_t times = below(most + 1); times > 0; times--) {
        put_sum(sum, any_sum());
        CHECK(post_one(plain.p, plain.c, row, block, sum) == 0, "a post with a wrong sum");
        CHECK(withdraw(plain.p, plain.c, row, block) == 0, "the withdrawal of a wrong sum");
    }
}

/* Posts a ticket with this sum, after wrong ones that are withdrawn. */
static void post_at_last(uint64_t row, uint64_t block, ref_u128 last)
{
    uint8_t sum[16];
    withdraw_wrong(row, block, 3);
    put_sum(sum, last);
    CHECK(post_one(plain.p, plain.c, row, block, sum) == 0, "a post after withdrawals");
}

/* A step by which all tickets are come to, in another order than that of sheets, if it can be. */
static uint64_t step_over(uint64_t all)
{
    return all % 11 == 0 ? 1 : 11;
}

/* Some tickets of the goal as one sheet, then the others, one by one; tickets that it has not are posted and withdrawn. */
static void reach(const struct plain *goal)
{
    static struct plain part;
    uint64_t all = ROWS * goal->c, at = below(all);
    part = *goal;
    for (uint64_t i = 0; i < all; i++)
        part.taken[i / goal->c][i % goal->c] &= below(8) > 0;
    open_run(goal->p, goal->c);
    plain_sheet(&part, sheet);
    post_sheet(goal->p, list, plain_list(&part, list), sheet);
    for (uint64_t i = 0; i < all; i++, at = (at + step_over(all)) % all) {
        uint64_t row = at / goal->c, block = at % goal->c;
        if (plain.taken[row][block] && below(32) == 0)
            withdraw(plain.p, plain.c, row, block);
        if (goal->taken[row][block] && !plain.taken[row][block])
            post_at_last(row, block, goal->kept[row][block]);
        if (!goal->taken[row][block] && below(16) == 0)
            withdraw_wrong(row, block, 2);
    }
}

/* What stands is reached once more: ledger, book and sheet are the same. */
static void another_history(void)
{
    static struct plain goal;
    static uint8_t first[SHEET_MAX], first_ledger[LEDGER_SIZE], first_book[BOOK_SIZE];
    size_t len = stand();
    goal = plain;
    memcpy(first, standing, len);
    memcpy(first_ledger, ledger, sizeof ledger);
    memcpy(first_book, book, sizeof book);
    reach(&goal);
    CHECK(memcmp(ledger, first_ledger, sizeof ledger) == 0, "the same tickets and sums, and another ledger");
    CHECK(memcmp(book, first_book, sizeof book) == 0, "the same tickets and sums, and another book");
    CHECK(stand() == len && memcmp(standing, first, len) == 0, "the same tickets and sums, and another sheet");
}

static void one_history(void)
{
    open_run(any_position_upto(below(2) == 0 ? 1000 : LAST_POSITION), any_blocks());
    for (uint64_t calls = below(200); calls > 0; calls--)
        switch (below(13)) {
        case 0: out_of_table(); break;
        case 1: post_any_sheet(below(4)); break;
        case 2: post_any_sheet(below(8) == 0 ? 256 : 1); break;
        case 3: withdraw_any(0); break;
        case 4:
        case 5:
        case 6: withdraw_any(1); break;
        case 7: by_a_damaged_book(); break;
        case 8: stand(); break;
        default: post_any();
        }
    another_history();
    close_now();
}

static void right_sum(uint64_t row, uint64_t block, uint8_t sum[16])
{
    uint8_t squarings[16];
    ref_work(FORMULA, plain.p, plain.c, row, block, sum, 16, squarings, 16);
}

/* The sheet of some tickets with right sums, then the others one by one. */
static void fill(void)
{
    uint8_t sum[16];
    size_t e = any_list(list, plain.c, 128);
    ref_sheet_write(FORMULA, plain.p, plain.c, list, 2 * e, sheet, sizeof sheet);
    post_sheet(plain.p, list, e, sheet);
    for (uint64_t i = 0; i < ROWS * plain.c; i++)
        if (!plain.taken[i / plain.c][i % plain.c]) {
            right_sum(i / plain.c, i % plain.c, sum);
            post_at_last(i / plain.c, i % plain.c, ref_load_sum(sum));
        }
    stand();
}

/* A run filled without the book, with right sums alone. */
static void fill_without(uint8_t *other)
{
    uint8_t sum[16];
    CHECK(bbp_open(plain.p, plain.c, other, LEDGER_SIZE) == 0, "opening is refused");
    for (uint64_t i = 0; i < ROWS * plain.c; i++) {
        right_sum(i / plain.c, i % plain.c, sum);
        CHECK(bbp_post(other, LEDGER_SIZE, plain.p, plain.c, i / plain.c, i % plain.c, sum, 16) == 0, "a post without the book");
    }
}

/* Filled with wrong sums, all withdrawn, in some order, then filled with right ones: the ledger is that of a run without these. */
static void filled_history(uint64_t p, uint64_t c)
{
    uint8_t other[LEDGER_SIZE], digits[32], sum[16];
    uint64_t all = ROWS * c, start = below(all);
    open_run(p, c);
    for (uint64_t i = 0; i < all; i++) {
        put_sum(sum, any_sum());
        CHECK(post_one(p, c, i / c, i % c, sum) == 0, "a post with a wrong sum");
    }
    for (uint64_t i = 0; i < all; i++, start = (start + step_over(all)) % all)
        CHECK(withdraw(p, c, start / c, start % c) == 0, "the withdrawal of a ticket that was posted");
    fill();
    fill_without(other);
    CHECK(memcmp(ledger, other, sizeof ledger) == 0, "a run with withdrawals is not filled as one without");
    CHECK(bbp_close(ledger, sizeof ledger, digits, 32) > 0, "a filled run has no digits");
    close_now();
}

int main(int argc, char **argv)
{
    static const uint64_t counts[] = {1, 2, 4, 16};
    start("histories", argc, argv);
    for (uint64_t i = 0; i < 1 + case_count() / 20; i++)
        one_history();
    for (int i = 0; i < 4; i++)
        filled_history(1 + below(300), counts[i]);
    return finish();
}
