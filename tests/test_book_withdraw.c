/* book_withdraw against the reference, and beside the posts that it undoes. Bellard's runs alone have it. */
#include "books.h"
#include "entries.h"

#include <inttypes.h>
#include <stdlib.h>
#include <string.h>

static struct entry t;
static struct book book;

/* The ticket is marked, with a sum that may be 0. */
static void prepare(void)
{
    prepare_entry(&t);
    mark_entry(&t);
    any_book(&book, t.ledger);
}

static int unmark(void)
{
    if (t.row > LAST_ROW || t.block > 255)
        return NOTHING;
    take_sum(t.ledger, &book, t.row, t.block);
    return 13;
}

/* The mark alone is cleared: what is kept for the ticket does not fit that, unless it is zero. */
static int clear_mark(void)
{
    if (t.row > LAST_ROW || t.block > 255)
        return NOTHING;
    set_mark(t.ledger, t.row, t.block, 0);
    return UNSURE;
}

enum { WITHDRAW_KINDS = ENTRY_KINDS + 2 };

static int damage_withdrawal(int kind)
{
    switch (kind - ENTRY_KINDS) {
    case 0: return unmark();
    case 1: return clear_mark();
    default: return damage_entry(&t, kind);
    }
}

static int damage(int kind)
{
    int fitted = ref_book_in_order(t.ledger, book.bytes);
    if (kind >= WITHDRAW_KINDS)
        return damage_book(&book, t.ledger, kind - WITHDRAW_KINDS);
    return unless_put_right(fitted, damage_withdrawal(kind), t.ledger, &book);
}

/* The call against the reference. Ledger and book are left as the call leaves them, for a next one. */
static int64_t compare(void)
{
    size_t ledger_len = t.ledger_len;
    met(ref_book_withdraw_refusals(t.ledger, ledger_len, book.bytes, book.len, t.p, t.c, t.row, t.block));
    uint8_t *wanted = copy_of(t.ledger, ledger_len), *wanted_book = copy_of(book.bytes, book.len);
    int64_t wanted_answer = ref_book_withdraw(wanted, ledger_len, wanted_book, book.len, t.p, t.c, t.row, t.block);
    uint8_t *ledger = lend(0, t.ledger, ledger_len), *lent_book = lend(1, book.bytes, book.len);
    int64_t answer = bbp_book_withdraw(ledger, ledger_len, lent_book, book.len, t.p, t.c, t.row, t.block);
    CHECK(answer == wanted_answer,
          "withdraw p %" PRIu64 " C %" PRIu64 " row %" PRIu64 " block %" PRIu64 " lengths %zu %zu: answer %" PRId64
          ", not %" PRId64,
          t.p, t.c, t.row, t.block, ledger_len, book.len, answer, wanted_answer);
    expect_both(t.ledger, ledger_len, &book, wanted, wanted_book);
    return answer;
}

/* A ledger by its block count and its marks, with a book, and a ticket of it that is marked or not. */
static void make(uint64_t c, uint64_t chance, uint64_t row, uint64_t block, int marked)
{
    prepare();
    t.c = c, t.row = row, t.block = block;
    any_ledger(t.ledger, t.p, c, chance);
    set_mark(t.ledger, row, block, marked);
    any_book(&book, t.ledger);
}

/* The cases of posting: a ticket that would be taken is refused with 13, and one that is marked is withdrawn. */
static void try_cases(void)
{
    for (size_t i = 0; i < entry_case_count; i++) {
        const struct entry_case *one = &entry_cases[i];
        int64_t answer = one->number == 0 ? -13 : one->number == 7 ? 0 : -one->number;
        make_entry(&t, one);
        any_book(&book, t.ledger);
        if (one->sum_len == 16)
            CHECK(compare() == answer, "withdraw: %s", one->what);
    }
}

/* Every ticket of a full run, from a ledger and a book that become empty; closing is refused with 8 from the first on. */
static void every_ticket(uint64_t c)
{
    uint8_t digits[32], *zeros = lend_huge();
    make(c, 256, 0, 0, 1);
    for (t.row = 0; t.row < ROWS; t.row++)
        for (t.block = 0; t.block < c; t.block++) {
            CHECK(compare() == 0, "a marked ticket is not withdrawn");
            CHECK(bbp_close(t.ledger, LEDGER_SIZE, digits, 32) == -8, "closing after a withdrawal is not refused with 8");
            if (below(16) == 0)
                CHECK(compare() == -13, "a ticket is withdrawn twice");
        }
    CHECK(memcmp(t.ledger + 16, zeros, LEDGER_SIZE - 16) == 0, "the ledger is not fresh after all is withdrawn");
    CHECK(memcmp(book.bytes, zeros, BOOK_SIZE) == 0, "the book is not zero after all is withdrawn");
}

/* A row's sum, what the ticket keeps of it, and the row's sum after the withdrawal. */
static const struct {
    const char *what;
    ref_u128 before, kept, after;
} subtractions[] = {
    {"1 out of 1", 1, 1, 0},
    {"0 out of 5", 5, 0, 5},
    {"1 out of 0", 0, 1, SUM(UINT64_MAX, UINT64_MAX)},
    {"1 out of 2^64", SUM(1, 0), 1, UINT64_MAX},
    {"2^64 - 1 out of 2^64 - 2", UINT64_MAX - 1, UINT64_MAX, SUM(UINT64_MAX, UINT64_MAX)},
    {"2^64 out of 2^64 - 1", UINT64_MAX, SUM(1, 0), SUM(UINT64_MAX, UINT64_MAX)},
    {"2^128 - 1 out of itself", SUM(UINT64_MAX, UINT64_MAX), SUM(UINT64_MAX, UINT64_MAX), 0},
    {"2^128 - 1 out of 0", 0, SUM(UINT64_MAX, UINT64_MAX), 1},
    {"2^127 out of 0", 0, SUM(UINT64_C(1) << 63, 0), SUM(UINT64_C(1) << 63, 0)},
    {"a borrow through the words", SUM(10, 0), SUM(5, 1), SUM(4, UINT64_MAX)},
};

/* One subtraction in one row: its sum, the ticket's mark and its place change, and no other byte. Another ticket has the rest. */
static void take_from_row(size_t i, uint64_t row)
{
    static uint8_t wanted[LEDGER_SIZE];
    static struct book wanted_book;
    make(256, 0, row, below(255), 0);
    enter_sum(t.ledger, &book, row, 255, subtractions[i].after);
    memcpy(wanted, t.ledger, LEDGER_SIZE);
    wanted_book = book;
    enter_sum(t.ledger, &book, row, t.block, subtractions[i].kept);
    CHECK(ref_load_sum(t.ledger + SUM_AT(row)) == subtractions[i].before, "the row sum of the case: %s", subtractions[i].what);
    CHECK(compare() == 0, "row %" PRIu64 ", %s: refused", row, subtractions[i].what);
    CHECK(memcmp(t.ledger, wanted, LEDGER_SIZE) == 0, "row %" PRIu64 ": %s", row, subtractions[i].what);
    CHECK(memcmp(book.bytes, wanted_book.bytes, BOOK_SIZE) == 0, "row %" PRIu64 ", the book: %s", row, subtractions[i].what);
}

static void every_subtraction(void)
{
    for (size_t i = 0; i < sizeof subtractions / sizeof subtractions[0]; i++)
        for (uint64_t row = 0; row < ROWS; row++)
            take_from_row(i, row);
}

/* Posted by the engine and withdrawn again, a ticket leaves both as they were; so it does withdrawn and posted again. */
static void there_and_back(void)
{
    static uint8_t before[LEDGER_SIZE], sum[16];
    static struct book book_before;
    prepare();
    if (below(2) == 0)
        take_sum(t.ledger, &book, t.row, t.block);
    int marked = ref_marked(FORMULA, t.ledger, t.row, t.block);
    memcpy(before, t.ledger, LEDGER_SIZE);
    book_before = book;
    put_sum(sum, marked ? kept_sum(&book, t.row, t.block) : any_sum());
    if (marked)
        CHECK(compare() == 0, "a withdrawal before a post");
    CHECK(bbp_book_post(t.ledger, LEDGER_SIZE, book.bytes, BOOK_SIZE, t.p, t.c, t.row, t.block, sum, 16) == 0,
          "a post beside a withdrawal");
    if (!marked)
        CHECK(compare() == 0, "a withdrawal after a post");
    CHECK(memcmp(before, t.ledger, LEDGER_SIZE) == 0, "a post and a withdrawal leave another ledger");
    CHECK(memcmp(book_before.bytes, book.bytes, BOOK_SIZE) == 0, "a post and a withdrawal leave another book");
}

static int64_t withdraw_by(uint8_t *ledger, size_t ledger_len, uint8_t *lent_book, size_t book_len)
{
    return bbp_book_withdraw(ledger, ledger_len, lent_book, book_len, t.p, t.c, t.row, t.block);
}

static int64_t withdraw(uint8_t *ledger, struct book *from, uint64_t i)
{
    return bbp_book_withdraw(ledger, LEDGER_SIZE, from->bytes, BOOK_SIZE, t.p, t.c, i / t.c, i % t.c);
}

/* Two tickets, withdrawn in either order: both are marked, or by chance one or none. */
static void either_order(void)
{
    static uint8_t ledger[LEDGER_SIZE];
    static struct book other;
    make(any_blocks(), below(2) ? 256 : 128, 0, 0, 1);
    uint64_t all = ROWS * t.c, i = below(all), j = (i + 1 + below(all - 1)) % all;
    int64_t of_i = ref_marked(FORMULA, t.ledger, i / t.c, i % t.c) ? 0 : -13;
    int64_t of_j = ref_marked(FORMULA, t.ledger, j / t.c, j % t.c) ? 0 : -13;
    memcpy(ledger, t.ledger, LEDGER_SIZE);
    other = book;
    CHECK(withdraw(ledger, &other, i) == of_i && withdraw(ledger, &other, j) == of_j, "two withdrawals");
    CHECK(withdraw(t.ledger, &book, j) == of_j && withdraw(t.ledger, &book, i) == of_i, "two withdrawals in the other order");
    CHECK(memcmp(ledger, t.ledger, LEDGER_SIZE) == 0, "the order of two withdrawals changes the ledger");
    CHECK(memcmp(other.bytes, book.bytes, BOOK_SIZE) == 0, "the order of two withdrawals changes the book");
}

static void damages(uint64_t c, uint64_t chance, uint64_t row, uint64_t block, uint64_t step)
{
    make(c, chance, row, block, 1);
    every_damage(t.ledger, &book, withdraw_by, step);
}

/* A marked ticket that keeps zero is withdrawn; one that is not marked is not, whatever marks its row has. */
static void marked_or_not(void)
{
    for (uint64_t row = 0; row < ROWS; row++) {
        make(256, 128, row, below(256), 0);
        CHECK(compare() == -13, "a ticket that is not marked is withdrawn");
        enter_sum(t.ledger, &book, t.row, t.block, 0);
        CHECK(compare() == 0, "a marked ticket that keeps zero is not withdrawn");
        make(256, 0, row, below(256), 0);
        CHECK(compare() == -13, "a ticket of a fresh ledger is withdrawn");
        enter_sum(t.ledger, &book, t.row, (t.block + 1) % 256, 7);
        CHECK(compare() == -13, "a ticket beside a marked one is withdrawn");
    }
}

static void null_and_huge_examples(void)
{
    make(1, 256, 0, 0, 1);
    t.p = 1;
    put(t.ledger, 8, 1);
    CHECK(bbp_book_withdraw(NULL, 0, book.bytes, BOOK_SIZE, 1, 1, 0, 0) == -1, "an empty ledger");
    CHECK(bbp_book_withdraw(t.ledger, LEDGER_SIZE, NULL, 0, 1, 1, 0, 0) == -1, "an empty book");
    CHECK(bbp_book_withdraw(NULL, 0, NULL, 0, 1, 1, 0, 0) == -1, "nothing at all");
    CHECK(bbp_book_withdraw(lend_huge(), huge_length(LEDGER_SIZE), book.bytes, BOOK_SIZE, 1, 1, 0, 0) == -1,
          "a ledger with 2^32 bytes more");
    memset(t.ledger + SUM_AT(0), 0, 16 * ROWS);
    CHECK(bbp_book_withdraw(t.ledger, LEDGER_SIZE, lend_huge(), huge_length(BOOK_SIZE), 1, 1, 0, 0) == -1,
          "a book with 2^32 bytes more");
    expect_huge_kept();
    memset(book.bytes, 0, BOOK_SIZE);
    CHECK(compare() == 0, "the same with a book of its size");
}

int main(int argc, char **argv)
{
    static const struct suite suite = {prepare, damage, WITHDRAW_KINDS + BOOK_KINDS, compare};
    static const uint64_t counts[] = {1, 7, 8, 9, 256};
    start("book_withdraw", argc, argv);
    try_cases();
    null_and_huge_examples();
    marked_or_not();
    every_subtraction();
    damages(256, 256, 0, 0, 64);
    damages(200, 128, 6, 199, 64);
    every_ledger_size(prepare, compare, &t.ledger_len, 0);
    every_book_size(prepare, compare, &book.len, 0);
    for (int i = 0; i < 5; i++)
        every_ticket(counts[i]);
    for (uint64_t i = 0; i < 1 + case_count() / 10; i++) {
        there_and_back();
        either_order();
    }
    run_suite(&suite);
    damages(200, 128, 6, 199, 1);
    require_met("1 2 4 5 6 13 1+2 1+4 1+5 1+6 1+13 2+4 2+5 2+6 2+13 4+5 4+6 4+13 5+6 5+13 6+13");
    return finish();
}
