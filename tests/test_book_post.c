/* book_post against the reference, and beside a post of the same ticket without the book. Bellard's runs alone have it. */
#include "books.h"
#include "entries.h"

#include <inttypes.h>
#include <stdlib.h>
#include <string.h>

static struct entry t;
static struct book book;
static uint8_t sum[96];
static size_t sum_len;

/* A book for the ledger as it is, and a sum. */
static void lend_rest(void)
{
    any_book(&book, t.ledger);
    any_bytes(sum, sizeof sum);
    put_sum(sum, below(8) == 0 ? 0 : any_sum());
    sum_len = 16;
}

static void prepare(void)
{
    prepare_entry(&t);
    lend_rest();
}

enum { POST_KINDS = ENTRY_KINDS + 3 };

static int damage_post(int kind)
{
    switch (kind - ENTRY_KINDS) {
    case 0: sum_len = wrong_size(16); return 1;
    case 1: sum_len = 0; return 1;
    case 2: return mark_entry(&t);
    default: return damage_entry(&t, kind);
    }
}

static int damage(int kind)
{
    int fitted = ref_book_in_order(t.ledger, book.bytes);
    if (kind >= POST_KINDS)
        return damage_book(&book, t.ledger, kind - POST_KINDS);
    return unless_put_right(fitted, damage_post(kind), t.ledger, &book);
}

/* Where the book fits the ledger, the answer and the ledger are those of a post without it. */
static void beside_post(int64_t answer, const uint8_t *after)
{
    uint8_t ledger[LEDGER_SIZE];
    if (t.ledger_len != LEDGER_SIZE || book.len != BOOK_SIZE || !ref_book_in_order(t.ledger, book.bytes))
        return;
    memcpy(ledger, t.ledger, LEDGER_SIZE);
    int64_t posted = bbp_post(ledger, LEDGER_SIZE, t.p, t.c, t.row, t.block, sum, sum_len);
    CHECK(answer == posted, "by the book the answer is %" PRId64 ", without it %" PRId64, answer, posted);
    CHECK(memcmp(ledger, after, LEDGER_SIZE) == 0, "a post by the book leaves another ledger than one without it");
}

/* The call against the reference. Ledger and book are left as the call leaves them, for a next one. */
static int64_t compare(void)
{
    size_t ledger_len = t.ledger_len;
    met(ref_book_post_refusals(t.ledger, ledger_len, book.bytes, book.len, t.p, t.c, t.row, t.block, sum_len));
    uint8_t *wanted = copy_of(t.ledger, ledger_len), *wanted_book = copy_of(book.bytes, book.len);
    int64_t wanted_answer =
        ref_book_post(wanted, ledger_len, wanted_book, book.len, t.p, t.c, t.row, t.block, sum, sum_len);
    uint8_t *ledger = lend(0, t.ledger, ledger_len), *lent_book = lend(1, book.bytes, book.len);
    const uint8_t *lent_sum = lend_input(2, sum, sum_len);
    int64_t answer =
        bbp_book_post(ledger, ledger_len, lent_book, book.len, t.p, t.c, t.row, t.block, lent_sum, sum_len);
    CHECK(answer == wanted_answer,
          "book post p %" PRIu64 " C %" PRIu64 " row %" PRIu64 " block %" PRIu64 " lengths %zu %zu %zu: answer %" PRId64
          ", not %" PRId64,
          t.p, t.c, t.row, t.block, ledger_len, book.len, sum_len, answer, wanted_answer);
    expect_kept(2, "the sum");
    beside_post(answer, ledger);
    expect_both(t.ledger, ledger_len, &book, wanted, wanted_book);
    return answer;
}

static void try_cases(void)
{
    for (size_t i = 0; i < entry_case_count; i++) {
        make_entry(&t, &entry_cases[i]);
        lend_rest();
        sum_len = entry_cases[i].sum_len;
        CHECK(compare() == -entry_cases[i].number, "book post: %s", entry_cases[i].what);
    }
}

/* Every ticket of a run, onto a ledger and a book that fill. */
static void every_ticket(uint64_t c)
{
    prepare();
    t.c = c;
    any_ledger(t.ledger, t.p, c, 0);
    any_book(&book, t.ledger);
    for (t.row = 0; t.row < ROWS; t.row++)
        for (t.block = 0; t.block < c; t.block++) {
            put_sum(sum, any_sum());
            CHECK(compare() == 0, "a ticket that is not marked is refused");
            CHECK(memcmp(book.bytes + BOOK_AT(t.row, t.block), sum, 16) == 0, "the sum is not in the book");
            if (below(16) == 0)
                CHECK(compare() == -7, "a ticket that is marked is taken");
        }
}

/* A post by a ledger and a book that are lent; the rest are the arguments of the case. */
static int64_t post_by(uint8_t *ledger, size_t ledger_len, uint8_t *lent_book, size_t book_len)
{
    return bbp_book_post(ledger, ledger_len, lent_book, book_len, t.p, t.c, t.row, t.block, sum, 16);
}

/* All but the ticket marked, or half of the tickets; the ticket is at an end of the run or anywhere. */
static void damages(uint64_t c, uint64_t chance, uint64_t row, uint64_t block, uint64_t step)
{
    prepare();
    t.c = c, t.row = row, t.block = block;
    any_ledger(t.ledger, t.p, c, chance);
    set_mark(t.ledger, row, block, 0);
    any_book(&book, t.ledger);
    every_damage(t.ledger, &book, post_by, step);
}

/* A post without the book leaves a ledger that the book does not fit, unless the sum was 0. */
static void without_the_book(void)
{
    for (int zero = 0; zero < 2; zero++) {
        prepare();
        t.c = 256;
        any_ledger(t.ledger, t.p, 256, 128);
        set_mark(t.ledger, t.row, t.block, 0);
        set_mark(t.ledger, t.row, 255 - t.block, 0);
        any_book(&book, t.ledger);
        put_sum(sum, zero ? 0 : any_sum() | 1);
        CHECK(bbp_post(t.ledger, LEDGER_SIZE, t.p, t.c, t.row, 255 - t.block, sum, 16) == 0, "a post without the book");
        CHECK(compare() == (zero ? 0 : -5), "a post by the book after one without it");
    }
}

/* Marked tickets that keep zero, in rows whose sums are 0. */
static void marked_zeros(void)
{
    for (uint64_t row = 0; row < ROWS; row++) {
        prepare();
        t.c = 256, t.row = row;
        any_ledger(t.ledger, t.p, 256, 256);
        memset(t.ledger + SUM_AT(0), 0, 16 * ROWS);
        memset(book.bytes, 0, BOOK_SIZE);
        set_mark(t.ledger, t.row, t.block, 0);
        CHECK(compare() == 0, "marked tickets that keep zero");
    }
}

static void plain_examples(void)
{
    uint8_t ledger[LEDGER_SIZE] = {1, [8] = 1}, five[16] = {5}, *bytes = book.bytes;
    memset(bytes, 0, BOOK_SIZE);
    CHECK(bbp_book_post(ledger, LEDGER_SIZE, bytes, BOOK_SIZE, 1, 1, 6, 0, five, 16) == 0, "row 6, block 0");
    CHECK(ledger[SUM_AT(6)] == 5 && ledger[320] == 1 && bytes[24576] == 5, "the sum, the mark and the place of row 6, block 0");
    bytes[24576] = 0;
    CHECK(first_difference(bytes, lend_huge(), BOOK_SIZE) == BOOK_SIZE, "another byte of the book is not zero");
    bytes[24576] = 5;
    CHECK(bbp_book_post(NULL, 0, bytes, BOOK_SIZE, 1, 1, 0, 0, five, 16) == -1, "an empty ledger");
    CHECK(bbp_book_post(ledger, LEDGER_SIZE, NULL, 0, 1, 1, 0, 0, five, 16) == -1, "an empty book");
    CHECK(bbp_book_post(ledger, LEDGER_SIZE, bytes, BOOK_SIZE, 1, 1, 0, 0, NULL, 0) == -1, "an empty sum");
    CHECK(bbp_book_post(NULL, 0, NULL, 0, 1, 1, 0, 0, NULL, 0) == -1, "nothing at all");
    CHECK(bbp_book_post(lend_huge(), huge_length(LEDGER_SIZE), bytes, BOOK_SIZE, 1, 1, 0, 0, five, 16) == -1,
          "a ledger with 2^32 bytes more");
    CHECK(bbp_book_post(ledger, LEDGER_SIZE, bytes, BOOK_SIZE, 1, 1, 0, 0, lend_huge(), huge_length(16)) == -1,
          "a sum of 2^32 + 16 bytes");
    expect_huge_kept();
    memset(ledger + 16, 0, LEDGER_SIZE - 16);
    CHECK(bbp_book_post(ledger, LEDGER_SIZE, lend_huge(), huge_length(BOOK_SIZE), 1, 1, 0, 0, five, 16) == -1,
          "a book with 2^32 bytes more");
    expect_huge_kept();
}

int main(int argc, char **argv)
{
    static const struct suite suite = {prepare, damage, POST_KINDS + BOOK_KINDS, compare};
    static const uint64_t counts[] = {1, 7, 8, 9, 256};
    start("book_post", argc, argv);
    try_cases();
    plain_examples();
    without_the_book();
    marked_zeros();
    damages(256, 256, 6, 255, 64);
    damages(200, 128, 0, 0, 64);
    every_ledger_size(prepare, compare, &t.ledger_len, 0);
    every_book_size(prepare, compare, &book.len, 0);
    for (int i = 0; i < 5; i++)
        every_ticket(counts[i]);
    run_suite(&suite);
    damages(200, 128, 0, 0, 1);
    require_met("1 2 4 5 6 7 1+2 1+4 1+5 1+6 1+7 2+4 2+5 2+6 2+7 4+5 4+6 4+7 5+6 5+7 6+7");
    return finish();
}
