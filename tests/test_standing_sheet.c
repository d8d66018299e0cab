/*
 * standing_sheet against the reference, and its sheet beside the calls that take
 * it, and beside the sheet that is written of the same tickets. Bellard's runs
 * alone have it.
 */
#include "books.h"

#include <inttypes.h>
#include <stdlib.h>
#include <string.h>

enum { SHEET_ROOM = SHEET_MAX + 4096 };

/* What is lent; `sheet` is what the output has before the call. */
static uint8_t ledger[LEDGER_ROOM], sheet[SHEET_ROOM];
static size_t ledger_len, sheet_len;
static struct book book;

#define BOTH ledger, LEDGER_SIZE, book.bytes, BOOK_SIZE

/* 16 bytes, and 20 for each bit that is set in the marks. */
static size_t needed(void)
{
    size_t set = 0;
    for (uint64_t i = 0; i < TICKETS; i++)
        set += (size_t)ref_marked(FORMULA, ledger, i / 256, i % 256);
    return SHEET_SIZE(set);
}

/* A book for the ledger as it is, and an output with room enough. */
static void lend_rest(void)
{
    ledger_len = LEDGER_SIZE;
    any_book(&book, ledger);
    any_bytes(sheet, sizeof sheet);
    sheet_len = needed() + (below(2) == 0 ? 0 : below(64));
}

static void make(uint64_t p, uint64_t c, uint64_t chance)
{
    any_ledger(ledger, p, c, chance);
    lend_rest();
}

static void prepare(void)
{
    make(any_position(), any_blocks(), any_chance());
}

/* So many tickets of a run, each anywhere. */
static void make_some(uint64_t c, uint64_t e)
{
    any_ledger(ledger, any_position(), c, 0);
    while (e > 0) {
        uint64_t row = below(ROWS), block = below(c);
        e -= !ref_marked(FORMULA, ledger, row, block);
        set_mark(ledger, row, block, 1);
    }
    lend_rest();
}

/* Where a change of the ledger has set more bits than the output has room for, 1. */
static int unless_short(int number)
{
    return sheet_len < needed() ? 1 : number;
}

/* A ticket more that is marked and keeps zero. */
static int mark_more(void)
{
    uint64_t c = ref_load(ledger + 8, 2);
    set_mark(ledger, below(ROWS), below(c == 0 || c > 256 ? 256 : c), 1);
    return unless_short(NOTHING);
}

static int shorten(size_t len)
{
    sheet_len = len - 1 - below(len < 40 ? len : 40);
    return 1;
}

static int lengthen(void)
{
    if (sheet_len >= needed())
        sheet_len += 1 + below(1000);
    return NOTHING;
}

enum { STANDING_KINDS = 7 };

static int damage_call(int kind)
{
    switch (kind) {
    case 0: return shorten(16);
    case 1: return shorten(needed());
    case 2: ledger_len = wrong_ledger_size(); return 1;
    case 3: ledger_len = 0; return 1;
    case 4: spoil_ledger(ledger); return unless_short(5);
    case 5: return mark_more();
    default: return lengthen();
    }
}

static int damage(int kind)
{
    int fitted = ref_book_in_order(ledger, book.bytes);
    if (kind >= STANDING_KINDS)
        return damage_book(&book, ledger, kind - STANDING_KINDS);
    return unless_put_right(fitted, damage_call(kind), ledger, &book);
}

/* The call against the reference. */
static int64_t compare(void)
{
    met(ref_standing_sheet_refusals(ledger, ledger_len, book.bytes, book.len, sheet_len));
    uint8_t *wanted = copy_of(sheet, sheet_len);
    int64_t wanted_answer = ref_standing_sheet(ledger, ledger_len, book.bytes, book.len, wanted, sheet_len);
    const uint8_t *lent = lend_input(0, ledger, ledger_len), *lent_book = lend_input(1, book.bytes, book.len);
    uint8_t *written = lend(2, sheet, sheet_len);
    int64_t answer = bbp_standing_sheet(lent, ledger_len, lent_book, book.len, written, sheet_len);
    CHECK(answer == wanted_answer,
          "standing sheet of a ledger of %zu and a book of %zu into %zu bytes: answer %" PRId64 ", not %" PRId64, ledger_len,
          book.len, sheet_len, answer, wanted_answer);
    expect_kept(0, "the ledger");
    expect_kept(1, "the book");
    expect(2, wanted, "the sheet");
    free(wanted);
    return answer;
}

/* Ledgers with row sums 0, beside a book of zeros; then both are patched. */
#define FRESH(c) {LEDGER_SIZE, 1, c, 0, UNPATCHED}
#define FULL(c) {LEDGER_SIZE, 1, c, 1, UNPATCHED}
#define PATCHED(at, width, value) {LEDGER_SIZE, 1, 1, 0, {{at, width, value}}}
#define SIZED(len) {len, 1, 1, 0, UNPATCHED}

static const struct {
    const char *what;
    int64_t answer;
    struct ledger_form ledger;
    size_t book_len, sheet_len;
    struct patch book[PATCHES];
} cases[] = {
    {"no ticket", 16, FRESH(1), BOOK_SIZE, 16, UNPATCHED},
    {"no ticket, into a byte less", -1, FRESH(1), BOOK_SIZE, 15, UNPATCHED},
    {"no ticket, into nothing", -1, FRESH(1), BOOK_SIZE, 0, UNPATCHED},
    {"no ticket, into a byte more", 16, FRESH(256), BOOK_SIZE, 17, UNPATCHED},
    {"no ticket, into more than any sheet", 16, FRESH(256), BOOK_SIZE, SHEET_MAX + 1, UNPATCHED},
    {"the first ticket", 36, PATCHED(MARKS_AT(0), 1, 1), BOOK_SIZE, 36, UNPATCHED},
    {"the first ticket, into a byte less", -1, PATCHED(MARKS_AT(0), 1, 1), BOOK_SIZE, 35, UNPATCHED},
    {"the first ticket, into the head's bytes", -1, PATCHED(MARKS_AT(0), 1, 1), BOOK_SIZE, 16, UNPATCHED},
    {"the last ticket", 36, {LEDGER_SIZE, 1, 256, 0, {{LEDGER_SIZE - 1, 1, 128}}}, BOOK_SIZE, 36, UNPATCHED},
    {"the last ticket, into a byte less", -1, {LEDGER_SIZE, 1, 256, 0, {{LEDGER_SIZE - 1, 1, 128}}}, BOOK_SIZE, 35, UNPATCHED},
    {"all of C = 1", 156, FULL(1), BOOK_SIZE, 156, UNPATCHED},
    {"all of C = 1, into a byte less", -1, FULL(1), BOOK_SIZE, 155, UNPATCHED},
    {"all of C = 3", 436, FULL(3), BOOK_SIZE, 436, UNPATCHED},
    {"all of C = 256", SHEET_MAX, FULL(256), BOOK_SIZE, SHEET_MAX, UNPATCHED},
    {"all of C = 256, into a byte less", -1, FULL(256), BOOK_SIZE, SHEET_MAX - 1, UNPATCHED},
    {"all of C = 256, into a byte more", SHEET_MAX, FULL(256), BOOK_SIZE, SHEET_MAX + 1, UNPATCHED},
    {"all of the last position", 156, {LEDGER_SIZE, LAST_POSITION, 1, 1, UNPATCHED}, BOOK_SIZE, 156, UNPATCHED},
    {"all of a position more", -5, {LEDGER_SIZE, LAST_POSITION + 1, 1, 1, UNPATCHED}, BOOK_SIZE, 156, UNPATCHED},
    {"all of a position more, into a byte less", -1, {LEDGER_SIZE, LAST_POSITION + 1, 1, 1, UNPATCHED}, BOOK_SIZE, 155,
     UNPATCHED},
    {"a ledger of zeros", -5, {LEDGER_SIZE, 0, 0, 0, UNPATCHED}, BOOK_SIZE, 16, UNPATCHED},
    {"a ledger of zeros, into a byte less", -1, {LEDGER_SIZE, 0, 0, 0, UNPATCHED}, BOOK_SIZE, 15, UNPATCHED},
    {"C = 0", -5, PATCHED(8, 2, 0), BOOK_SIZE, 16, UNPATCHED},
    {"C = 257", -5, PATCHED(8, 2, 257), BOOK_SIZE, 16, UNPATCHED},
    {"C = 65,535", -5, PATCHED(8, 2, 65535), BOOK_SIZE, 16, UNPATCHED},
    {"the ledger's first zero byte", -5, PATCHED(10, 1, 1), BOOK_SIZE, 16, UNPATCHED},
    {"the ledger's last zero byte", -5, PATCHED(15, 1, 128), BOOK_SIZE, 16, UNPATCHED},
    {"a mark at C", -5, PATCHED(MARKS_AT(0), 1, 2), BOOK_SIZE, 36, UNPATCHED},
    {"a mark at C, into a byte less", -1, PATCHED(MARKS_AT(0), 1, 2), BOOK_SIZE, 35, UNPATCHED},
    {"a mark at C, into the head's bytes", -1, PATCHED(MARKS_AT(0), 1, 2), BOOK_SIZE, 16, UNPATCHED},
    {"a mark at the end of the last row", -5, PATCHED(LEDGER_SIZE - 1, 1, 128), BOOK_SIZE, 36, UNPATCHED},
    {"a mark at the end of the last row, into a byte less", -1, PATCHED(LEDGER_SIZE - 1, 1, 128), BOOK_SIZE, 35, UNPATCHED},
    {"5 kept of a row sum of 5", 36, {LEDGER_SIZE, 1, 1, 0, {{MARKS_AT(6), 1, 1}, {SUM_AT(6), 1, 5}}}, BOOK_SIZE, 36,
     {{BOOK_AT(6, 0), 1, 5}}},
    {"5 kept of a row sum of 6", -5, {LEDGER_SIZE, 1, 1, 0, {{MARKS_AT(6), 1, 1}, {SUM_AT(6), 1, 6}}}, BOOK_SIZE, 36,
     {{BOOK_AT(6, 0), 1, 5}}},
    {"5 kept of a row sum of 6, into a byte less", -1, {LEDGER_SIZE, 1, 1, 0, {{MARKS_AT(6), 1, 1}, {SUM_AT(6), 1, 6}}},
     BOOK_SIZE, 35, {{BOOK_AT(6, 0), 1, 5}}},
    {"a row sum of 1, and nothing kept", -5, PATCHED(SUM_AT(3), 1, 1), BOOK_SIZE, 16, UNPATCHED},
    {"1 kept without a mark, in its row sum", -5, PATCHED(SUM_AT(3), 1, 1), BOOK_SIZE, 16, {{BOOK_AT(3, 0), 1, 1}}},
    {"1 kept at block 255, in its row sum", -5, PATCHED(SUM_AT(3), 1, 1), BOOK_SIZE, 16, {{BOOK_AT(3, 255), 1, 1}}},
    {"a ledger of a byte less", -1, SIZED(LEDGER_SIZE - 1), BOOK_SIZE, SHEET_MAX, UNPATCHED},
    {"a ledger of a byte more", -1, SIZED(LEDGER_SIZE + 1), BOOK_SIZE, SHEET_MAX, UNPATCHED},
    {"a ledger of the other kind's size", -1, SIZED(OTHER_LEDGER_SIZE), BOOK_SIZE, SHEET_MAX, UNPATCHED},
    {"a ledger of version 1.0.0", -1, SIZED(256), BOOK_SIZE, SHEET_MAX, UNPATCHED},
    {"no ledger", -1, SIZED(0), BOOK_SIZE, SHEET_MAX, UNPATCHED},
    {"a book of a byte less", -1, FULL(1), BOOK_SIZE - 1, 156, UNPATCHED},
    {"a book of a byte more", -1, FULL(1), BOOK_SIZE + 1, 156, UNPATCHED},
    {"no book", -1, FULL(1), 0, 156, UNPATCHED},
    {"no book, and a ledger of zeros", -1, {LEDGER_SIZE, 0, 0, 0, UNPATCHED}, 0, 16, UNPATCHED},
};

static void try_cases(void)
{
    for (size_t i = 0; i < sizeof cases / sizeof cases[0]; i++) {
        make_ledger(ledger, &cases[i].ledger);
        memset(book.bytes, 0, sizeof book.bytes);
        any_bytes(sheet, sizeof sheet);
        patch(book.bytes, cases[i].book);
        ledger_len = cases[i].ledger.len, book.len = cases[i].book_len, sheet_len = cases[i].sheet_len;
        CHECK(compare() == cases[i].answer, "standing sheet: %s", cases[i].what);
    }
}

/* Tickets (0, 9), (3, 2) and (3, 15) of p = 2^40 + 1, C = 16, with sums 1, 0 and 2^127 + 2, byte by byte. */
static void plain_example(void)
{
    static const uint8_t wanted[80] = {
        1, 0, 0, 0, 0, 1, 0, 0, 16, 0, 3, 0, 0, 0, 0, 0,
        0, 0, 9, 0, 3, 0, 2, 0, 3, 0, 15, 0, 1, 0, 0, 0, 0, 0, 0, 0, 0, 0, 0, 0, 0, 0, 0, 0,
        0, 0, 0, 0, 0, 0, 0, 0, 0, 0, 0, 0, 0, 0, 0, 0, 2, 0, 0, 0, 0, 0, 0, 0, 0, 0, 0, 0, 0, 0, 0, 128,
        77, 77, 77, 77};
    uint8_t written[80];
    any_ledger(ledger, (UINT64_C(1) << 40) + 1, 16, 0);
    any_book(&book, ledger);
    enter_sum(ledger, &book, 3, 15, SUM(UINT64_C(1) << 63, 2));
    enter_sum(ledger, &book, 0, 9, 1);
    enter_sum(ledger, &book, 3, 2, 0);
    memset(written, 77, sizeof written);
    CHECK(bbp_standing_sheet(BOTH, written, 75) == -1, "three tickets into 75 bytes");
    CHECK(bbp_standing_sheet(BOTH, written, sizeof written) == 76, "three tickets");
    size_t i = first_difference(written, wanted, sizeof written);
    CHECK(i == sizeof written, "byte %zu of three tickets is %02x and not %02x", i, written[i % 80], wanted[i % 80]);
}

/* Outputs of each of these sizes. */
static void output_sizes(size_t from, size_t to)
{
    size_t least = needed();
    for (sheet_len = from; sheet_len <= to; sheet_len++)
        CHECK(compare() == (sheet_len < least ? -1 : (int64_t)least), "an output of %zu bytes, %zu needed", sheet_len, least);
}

static void every_output_size(void)
{
    static const uint64_t counts[] = {255, 256, 257, TICKETS - 1, TICKETS};
    for (uint64_t e = 0; e < 5; e++) {
        make_some(1 + e, e);
        output_sizes(0, needed() + 64);
    }
    for (int i = 0; i < 5; i++) {
        make_some(256, counts[i]);
        output_sizes(needed() - 40, needed() + 40);
        output_sizes(0, 20);
        output_sizes(16 * counts[i], 16 * counts[i] + 20);
    }
}

/* Bits that are set at C and above count as the others: 1 where they have no room, else 5. */
static void marks_beyond(uint64_t c, uint64_t chance, uint64_t more)
{
    make(any_position(), c, chance);
    size_t below_c = needed();
    for (uint64_t row = 0; row < ROWS; row++)
        for (uint64_t block = c; block < 256; block++)
            set_mark(ledger, row, block, below(256) < more);
    set_mark(ledger, below(ROWS), c + below(256 - c), 1);
    size_t all = needed();
    for (sheet_len = below_c; sheet_len < all; sheet_len += 1 + below(all - sheet_len < 80 ? 20 : 2000))
        CHECK(compare() == -1, "%zu bytes, %zu needed for the bits below C and %zu for all", sheet_len, below_c, all);
    sheet_len = all - 1;
    CHECK(compare() == -1, "a byte less than is needed for all set bits");
    for (sheet_len = all; sheet_len < all + 20; sheet_len++)
        CHECK(compare() == -5, "room for all set bits, some of them at C and above");
}

static void every_beyond(void)
{
    static const uint64_t counts[] = {1, 2, 7, 8, 9, 200, 255};
    for (int i = 0; i < 7; i++) {
        marks_beyond(counts[i], 0, 0);
        marks_beyond(counts[i], 128, 0);
        marks_beyond(counts[i], 128, 128);
        marks_beyond(counts[i], 256, 256);
    }
}

/* Each ticket of a run alone, and all others without it. */
static void every_ticket(uint64_t c)
{
    for (uint64_t i = 0; i < ROWS * c; i++) {
        make(any_position(), c, 0);
        enter_sum(ledger, &book, i / c, i % c, any_sum());
        sheet_len = 36;
        CHECK(compare() == 36, "row %" PRIu64 ", block %" PRIu64 " of C = %" PRIu64, i / c, i % c, c);
    }
    make(any_position(), c, 256);
    for (uint64_t i = below(11); i < ROWS * c; i += 1 + below(40)) {
        ref_u128 kept = kept_sum(&book, i / c, i % c);
        take_sum(ledger, &book, i / c, i % c);
        CHECK(compare() == (int64_t)SHEET_SIZE(ROWS * c - 1), "all but row %" PRIu64 ", block %" PRIu64, i / c, i % c);
        enter_sum(ledger, &book, i / c, i % c, kept);
    }
}

static void every_count(void)
{
    for (uint64_t e = 0; e <= TICKETS; e += 1 + below(40)) {
        make_some(256, e);
        CHECK(compare() == (int64_t)SHEET_SIZE(e), "%" PRIu64 " tickets", e);
    }
}

/* Three tickets: what `every_ledger_size` and `every_book_size` lend. */
static void prepare_three(void)
{
    make_some(any_blocks(), 3);
}

/* By a ledger and a book of a damage: the reference's bytes, or as found. 0 stands for the length. */
static int64_t standing_by(uint8_t *lent, size_t lent_len, uint8_t *lent_book, size_t book_len)
{
    static uint8_t written[SHEET_MAX], wanted[SHEET_MAX];
    memcpy(written, sheet, SHEET_MAX);
    memcpy(wanted, sheet, SHEET_MAX);
    int64_t answer = bbp_standing_sheet(lent, lent_len, lent_book, book_len, written, SHEET_MAX);
    if (answer > 0)
        CHECK(ref_standing_sheet(lent, lent_len, lent_book, book_len, wanted, SHEET_MAX) == answer, "the length of the sheet");
    CHECK(memcmp(written, wanted, SHEET_MAX) == 0, "the sheet of a damaged ledger or book, or what was there before");
    return answer > 0 ? 0 : answer;
}

static void damages(uint64_t c, uint64_t chance, uint64_t step)
{
    make(any_position(), c, chance);
    every_damage(ledger, &book, standing_by, step);
}

/* The sheet of what stands, into `sheet`; gives its length. */
static size_t write_standing(void)
{
    size_t least = needed();
    CHECK(bbp_standing_sheet(BOTH, sheet, sizeof sheet) == (int64_t)least, "the sheet of what stands");
    return least;
}

/* The list that reading gives has the marked tickets, and no others, and the sums are those kept. */
static void read_back(size_t len)
{
    static uint8_t list[LIST_MAX], sums[BOOK_SIZE];
    int64_t e = bbp_sheet_read(sheet, len, list, sizeof list, sums, sizeof sums), i = 0;
    CHECK(e == (int64_t)(len - 16) / 20, "reading what stands");
    CHECK(memcmp(sheet, ledger, 10) == 0, "p and C are not the ledger's");
    for (uint64_t key = 0; key < TICKETS; key++)
        if (ref_marked(FORMULA, ledger, key / 256, key % 256)) {
            CHECK(i < e && ref_load(list + 2 * i, 2) == key, "ticket %" PRId64 " is not %" PRIu64, i, key);
            CHECK(memcmp(sums + 16 * i, book.bytes + 16 * key, 16) == 0, "the sum of ticket %" PRIu64, key);
            i++;
        }
    CHECK(i == e, "%" PRId64 " tickets are read, and %" PRId64 " are marked", e, i);
}

/* A look at it beside a fresh ledger sees the ledger's total, and a post without a book leaves the ledger. */
static void beside_fresh(size_t len)
{
    uint8_t fresh[LEDGER_SIZE], total[16];
    uint64_t p = ref_load(ledger, 8), c = ref_load(ledger + 8, 2);
    CHECK(bbp_open(p, c, fresh, sizeof fresh) == 0, "opening is refused");
    int64_t left = bbp_look(fresh, sizeof fresh, sheet, len, total, sizeof total);
    CHECK(left == (int64_t)(ROWS * c - (len - 16) / 20), "%" PRId64 " tickets would remain", left);
    CHECK(ref_load_sum(total) == ref_total(FORMULA, ledger), "the total by a look at what stands");
    CHECK(bbp_sheet_post(fresh, sizeof fresh, sheet, len) == 0, "a post of what stands without a book");
    CHECK(memcmp(fresh, ledger, LEDGER_SIZE) == 0, "without a book the ledger does not come back");
}

static void taken_back(void)
{
    prepare();
    size_t len = write_standing();
    expect_moved(sheet, len, ledger, book.bytes);
    read_back(len);
    beside_fresh(len);
}

/* Posted by the book with right sums, from the last ticket to the first: what stands is what is written of the list. */
static void as_written(void)
{
    static uint8_t list[LIST_MAX], written[SHEET_MAX];
    uint64_t p = 1 + below(300), c = any_blocks();
    size_t e = any_list(list, c, any_chance()), len = SHEET_SIZE(e);
    CHECK(bbp_sheet_write(p, c, list, 2 * e, written, sizeof written) == (int64_t)len, "writing a sheet");
    make(p, c, 0);
    for (size_t i = e; i-- > 0;)
        CHECK(bbp_book_post(BOTH, p, c, list[2 * i + 1], list[2 * i], written + 16 + 4 * e + 16 * i, 16) == 0, "a right sum");
    CHECK(write_standing() == len && memcmp(sheet, written, len) == 0, "with right sums what stands is not what is written");
}

/* Posts every ticket of a run that is not marked, with its right sum, and closes it. */
static int64_t fill_and_close(uint8_t *filled, struct book *by, uint8_t digits[32])
{
    uint64_t p = ref_load(filled, 8), c = ref_load(filled + 8, 2);
    uint8_t sum[16], squarings[16];
    for (uint64_t i = 0; i < ROWS * c; i++) {
        CHECK(bbp_work(p, c, i / c, i % c, sum, 16, squarings, 16) == 0, "working a ticket");
        int64_t wanted = ref_marked(FORMULA, filled, i / c, i % c) ? -7 : 0;
        CHECK(bbp_book_post(filled, LEDGER_SIZE, by->bytes, BOOK_SIZE, p, c, i / c, i % c, sum, 16) == wanted, "filling a run");
    }
    return bbp_close(filled, LEDGER_SIZE, digits, 32);
}

/* A run that is half done moves over: filled and closed, the old and the new one have the same bytes and digits. */
static void moved_run(uint64_t c)
{
    static uint8_t list[LIST_MAX], moved[LEDGER_SIZE];
    static struct book moved_book;
    uint8_t digits[32] = {0}, moved_digits[32] = {0}, wanted[32] = {0};
    uint64_t p = 1 + below(300);
    size_t e = any_list(list, c, 128);
    make(p, c, 0);
    CHECK(bbp_sheet_write(p, c, list, 2 * e, sheet, sizeof sheet) > 0, "writing a sheet");
    CHECK(bbp_book_sheet_post(BOTH, sheet, SHEET_SIZE(e)) == 0, "half of a run");
    size_t len = write_standing();
    CHECK(bbp_open(p, c, moved, LEDGER_SIZE) == 0, "opening is refused");
    memset(moved_book.bytes, 0, BOOK_SIZE);
    CHECK(bbp_book_sheet_post(moved, LEDGER_SIZE, moved_book.bytes, BOOK_SIZE, sheet, len) == 0, "moving a run");
    int64_t d = fill_and_close(ledger, &book, digits), moved_d = fill_and_close(moved, &moved_book, moved_digits);
    CHECK(d > 0 && d == moved_d && memcmp(digits, moved_digits, 32) == 0, "the run that moved has other digits");
    CHECK(memcmp(ledger, moved, LEDGER_SIZE) == 0 && memcmp(book.bytes, moved_book.bytes, BOOK_SIZE) == 0, "other bytes");
    CHECK(ref_close(FORMULA, moved, LEDGER_SIZE, wanted, 32) == d && memcmp(digits, wanted, 32) == 0, "the digits");
}

static void null_examples(void)
{
    make(1, 1, 256);
    CHECK(bbp_standing_sheet(NULL, 0, book.bytes, BOOK_SIZE, sheet, 156) == -1, "an empty ledger");
    CHECK(bbp_standing_sheet(ledger, LEDGER_SIZE, NULL, 0, sheet, 156) == -1, "an empty book");
    CHECK(bbp_standing_sheet(BOTH, NULL, 0) == -1, "an empty output");
    CHECK(bbp_standing_sheet(NULL, 0, NULL, 0, NULL, 0) == -1, "nothing at all");
}

/* Outputs of 2^32 bytes and more are taken, and so few bytes are written as in others; ledgers and books are not. */
static void huge_examples(void)
{
    static uint8_t wanted[SHEET_MAX];
    for (uint64_t e = 0; e < 60; e += 1 + below(9)) {
        make_some(9, e);
        size_t len = SHEET_SIZE(e), lengths[] = {0, 15, len - 1, len, SHEET_MAX};
        CHECK(ref_standing_sheet(BOTH, wanted, sizeof wanted) == (int64_t)len, "the reference");
        for (int i = 0; i < 5; i++) {
            CHECK(bbp_standing_sheet(BOTH, lend_huge(), huge_length(lengths[i])) == (int64_t)len, "2^32 bytes and more");
            expect_huge(wanted, len);
        }
    }
    book.bytes[below(BOOK_SIZE)] ^= 1;
    CHECK(bbp_standing_sheet(BOTH, lend_huge(), huge_length(0)) == -5, "2^32 bytes, and a book that does not fit");
    CHECK(bbp_standing_sheet(lend_huge(), huge_length(LEDGER_SIZE), book.bytes, BOOK_SIZE, sheet, SHEET_MAX) == -1,
          "a ledger with 2^32 bytes more");
    make(1, 1, 256);
    memset(ledger + SUM_AT(0), 0, 16 * ROWS);
    CHECK(bbp_standing_sheet(ledger, LEDGER_SIZE, lend_huge(), huge_length(BOOK_SIZE), sheet, SHEET_MAX) == -1,
          "a book with 2^32 bytes more");
    expect_huge_kept();
    CHECK(bbp_standing_sheet(ledger, LEDGER_SIZE, lend_huge(), BOOK_SIZE, sheet, SHEET_MAX) == 156, "the same with its size");
}

int main(int argc, char **argv)
{
    static const struct suite suite = {prepare, damage, STANDING_KINDS + BOOK_KINDS, compare};
    static const uint64_t counts[] = {1, 7, 8, 9, 256};
    start("standing_sheet", argc, argv);
    try_cases();
    plain_example();
    null_examples();
    huge_examples();
    every_beyond();
    every_output_size();
    every_ledger_size(prepare_three, compare, &ledger_len, SHEET_SIZE(3));
    every_book_size(prepare_three, compare, &book.len, SHEET_SIZE(3));
    for (int i = 0; i < 4; i++)
        moved_run(counts[i]);
    for (uint64_t i = 0; i < 1 + case_count() / 20; i++) {
        taken_back();
        as_written();
    }
    damages(256, 256, 64);
    damages(200, 128, 64);
    damages(1, 0, 64);
    run_suite(&suite);
    for (int i = 0; i < 5; i++)
        every_ticket(counts[i]);
    every_count();
    moved_run(256);
    damages(200, 128, 1);
    require_met("1 5 1+5");
    return finish();
}
