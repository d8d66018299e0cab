/*
 * book_sheet_post against the reference, beside a look at the sheet, and beside
 * posts of its tickets one by one. Bellard's runs alone have it.
 */
#include "books.h"
#include "postings.h"

#include <inttypes.h>
#include <stdlib.h>
#include <string.h>

static struct posting t;
static struct book book;

static void prepare(void)
{
    prepare_posting(&t);
    any_book(&book, t.ledger);
}

static int damage(int kind)
{
    int fitted = ref_book_in_order(t.ledger, book.bytes);
    if (kind >= POSTING_KINDS)
        return damage_book(&book, t.ledger, kind - POSTING_KINDS);
    return unless_put_right(fitted, damage_posting(&t, kind), t.ledger, &book);
}

static int in_order_together(void)
{
    return t.ledger_len == LEDGER_SIZE && book.len == BOOK_SIZE && ref_ledger_in_order(FORMULA, t.ledger) &&
           ref_book_in_order(t.ledger, book.bytes);
}

static int64_t unmarked(const uint8_t *ledger)
{
    int64_t count = 0;
    for (uint64_t i = 0; i < ROWS * ref_load(ledger + 8, 2); i++)
        count += !ref_marked(FORMULA, ledger, i / ref_load(ledger + 8, 2), i % ref_load(ledger + 8, 2));
    return count;
}

/* A look at the ledger as it was before the post. */
static void beside_look(int64_t answer, const uint8_t *after)
{
    uint8_t total[16];
    if (!in_order_together())
        return;
    int64_t seen = bbp_look(t.ledger, LEDGER_SIZE, t.sheet.bytes, t.sheet.len, total, 16);
    CHECK(answer == (seen < 0 ? seen : 0), "a look answers %" PRId64 ", the post %" PRId64, seen, answer);
    if (seen < 0)
        return;
    CHECK(seen == unmarked(after), "%" PRId64 " tickets would remain, and %" PRId64 " do", seen, unmarked(after));
    CHECK(ref_load_sum(total) == ref_total(FORMULA, after), "the total of the look is not that after the post");
}

/* The call against the reference. Ledger and book are left as the call leaves them, for a next one. */
static int64_t compare(void)
{
    const uint8_t *bytes = t.sheet.bytes;
    size_t len = t.sheet.len, ledger_len = t.ledger_len;
    met(ref_book_sheet_post_refusals(t.ledger, ledger_len, book.bytes, book.len, bytes, len));
    uint8_t *wanted = copy_of(t.ledger, ledger_len), *wanted_book = copy_of(book.bytes, book.len);
    uint8_t *sheet_copy = copy_of(bytes, len);
    int64_t wanted_answer = ref_book_sheet_post(wanted, ledger_len, wanted_book, book.len, sheet_copy, len);
    uint8_t *ledger = lend(0, t.ledger, ledger_len), *lent_book = lend(1, book.bytes, book.len);
    const uint8_t *sheet = lend_input(2, bytes, len);
    int64_t answer = bbp_book_sheet_post(ledger, ledger_len, lent_book, book.len, sheet, len);
    CHECK(answer == wanted_answer, "post a sheet of %zu by a book of %zu, a ledger of %zu: answer %" PRId64 ", not %" PRId64,
          len, book.len, ledger_len, answer, wanted_answer);
    expect_kept(2, "the sheet");
    beside_look(answer, ledger);
    expect_both(t.ledger, ledger_len, &book, wanted, wanted_book);
    free(sheet_copy);
    return answer;
}

/* For cases of ledgers: each gets a book that fits it. */
static int64_t with_a_book(void)
{
    any_book(&book, t.ledger);
    return compare();
}

/* One ledger and its book, sheet after sheet. */
static void sheet_after_sheet(uint64_t c)
{
    uint64_t all = ROWS * c;
    ledger_of(&t, c, 0);
    set_mark(t.ledger, LAST_ROW, c - 1, 1);
    first_tickets(&t, c, all);
    CHECK(with_a_book() == -7, "the sheet of all, the last marked");
    first_tickets(&t, c, all - 1);
    CHECK(compare() == 0, "the sheet of all but the last");
    CHECK(compare() == -7, "the sheet of all but the last, twice");
    ledger_of(&t, c, 0);
    first_tickets(&t, c, all);
    CHECK(with_a_book() == 0, "the sheet of all");
    CHECK(memcmp(t.sheet.bytes + 16 + 4 * all, book.bytes, 16 * c) == 0, "the sums of row 0 are not in the book");
    CHECK(compare() == -7, "the sheet of all, twice");
}

/* The sheet's tickets posted one by one leave the same ledger and the same book. */
static void one_by_one(void)
{
    static uint8_t ledger[LEDGER_SIZE];
    static struct book alone;
    prepare();
    memcpy(ledger, t.ledger, LEDGER_SIZE);
    alone = book;
    CHECK(compare() == 0, "a sheet that nothing refuses");
    for (size_t i = 0; i < t.sheet.e; i++) {
        const uint8_t *entry = t.sheet.bytes + 16 + 4 * i, *sum = t.sheet.bytes + 16 + 4 * t.sheet.e + 16 * i;
        CHECK(bbp_book_post(ledger, LEDGER_SIZE, alone.bytes, BOOK_SIZE, t.sheet.p, t.sheet.c, entry[0], entry[2], sum, 16) == 0,
              "a ticket of the sheet by itself");
    }
    CHECK(memcmp(ledger, t.ledger, LEDGER_SIZE) == 0, "a sheet and its tickets leave other ledgers");
    CHECK(memcmp(alone.bytes, book.bytes, BOOK_SIZE) == 0, "a sheet and its tickets leave other books");
}

static int64_t post_by(uint8_t *ledger, size_t ledger_len, uint8_t *lent_book, size_t book_len)
{
    return bbp_book_sheet_post(ledger, ledger_len, lent_book, book_len, t.sheet.bytes, t.sheet.len);
}

/* A sheet of the first tickets, onto a ledger on which the others are marked, or half of them. */
static void damages(uint64_t c, uint64_t e, uint64_t chance, uint64_t step)
{
    first_tickets(&t, c, e);
    ledger_of(&t, c, chance);
    for (uint64_t i = 0; i < e; i++)
        set_mark(t.ledger, i / c, i % c, 0);
    any_book(&book, t.ledger);
    every_damage(t.ledger, &book, post_by, step);
}

static void null_and_huge_examples(void)
{
    first_tickets(&t, 1, 1);
    ledger_of(&t, 1, 0);
    any_book(&book, t.ledger);
    uint8_t *ledger = t.ledger, *bytes = book.bytes, *sheet = t.sheet.bytes;
    CHECK(bbp_book_sheet_post(ledger, LEDGER_SIZE, bytes, BOOK_SIZE, NULL, 0) == -1, "an empty sheet");
    CHECK(bbp_book_sheet_post(NULL, 0, bytes, BOOK_SIZE, sheet, 36) == -1, "an empty ledger");
    CHECK(bbp_book_sheet_post(ledger, LEDGER_SIZE, NULL, 0, sheet, 36) == -1, "an empty book");
    CHECK(bbp_book_sheet_post(NULL, 0, NULL, 0, NULL, 0) == -1, "nothing at all");
    CHECK(bbp_book_sheet_post(ledger, LEDGER_SIZE, bytes, BOOK_SIZE, lend_huge(), huge_length(36)) == -1,
          "a sheet of 2^32 + 36 bytes");
    CHECK(bbp_book_sheet_post(lend_huge(), huge_length(LEDGER_SIZE), bytes, BOOK_SIZE, sheet, 36) == -1,
          "a ledger with 2^32 bytes more");
    CHECK(bbp_book_sheet_post(ledger, LEDGER_SIZE, lend_huge(), huge_length(BOOK_SIZE), sheet, 36) == -1,
          "a book with 2^32 bytes more");
    expect_huge_kept();
}

/* Sheets of every number of tickets, by a book that is empty but for the last ticket. */
static void every_count(void)
{
    for (size_t e = 0; e < TICKETS; e += 1 + below(20)) {
        first_tickets(&t, 256, e);
        ledger_of(&t, 256, 0);
        set_mark(t.ledger, LAST_ROW, 255, 1);
        CHECK(with_a_book() == 0, "the first %zu tickets of C = 256", e);
    }
}

/* A sheet of no tickets changes nothing, and is refused by the book all the same. */
static void no_tickets(void)
{
    first_tickets(&t, 256, 0);
    ledger_of(&t, 256, 128);
    CHECK(with_a_book() == 0, "a sheet of no tickets");
    book.bytes[below(BOOK_SIZE)] ^= 1;
    CHECK(compare() == -5, "a sheet of no tickets, by a book that does not fit");
}

int main(int argc, char **argv)
{
    static const struct suite suite = {prepare, damage, POSTING_KINDS + BOOK_KINDS, compare};
    start("book_sheet_post", argc, argv);
    every_posting(&t, with_a_book);
    damages(256, 3, 256, 64);
    damages(200, 9, 128, 64);
    sheet_after_sheet(1);
    sheet_after_sheet(256);
    null_and_huge_examples();
    no_tickets();
    every_ledger_size(prepare, compare, &t.ledger_len, 0);
    every_book_size(prepare, compare, &book.len, 0);
    for (uint64_t i = 0; i < 1 + case_count() / 20; i++)
        one_by_one();
    run_suite(&suite);
    one_marked(&t, with_a_book, 1);
    one_marked(&t, with_a_book, 9);
    every_count();
    more_than_the_run_has(&t, with_a_book);
    damages(200, 9, 128, 1);
    require_met("1 2 3 4 5 6 7 1+2 1+3 1+4 1+5 1+6 1+7 2+3 2+4 2+5 2+6 2+7 3+4 3+5 3+6 3+7 4+5 4+6 4+7 5+6 5+7 6+7");
    return finish();
}
