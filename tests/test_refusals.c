/*
 * The small examples of document 01's refusal table, each put to every call
 * that it fits, and what slips 1, 4 and 5 of document 02 turn away: ledgers of
 * 256 bytes or of the other kind's size, what is past the kind's last row or
 * position, and totals at the edges of p = 1. The look of slip 6, which check
 * runs have not, is put to all that posting a sheet is, the quotes of slip 7 to
 * all that working is. The digits of slip 8, which are of no kind, have examples of
 * their own. The calls by a book of slip 9, which check runs have not either, are
 * put to all that posting is, by a book that fits, and books that do not fit have
 * examples of their own. The sheet of all that stands, of slip 10, is put to the
 * ledgers of these and to books, with room for seven tickets. The answers stand
 * here; no reference is asked. Every number of the table has an example here, and
 * words in the programs.
 */
#include "common.h"

#include <inttypes.h>
#include <string.h>

#include "program.h"

/* What calls are made with: a ledger, and up to two tickets of a run. `calls` are those that the example fits. */
struct example {
    int number;
    const char *words;
    unsigned calls;
    struct ledger_form ledger;
    uint64_t p, c;
    size_t e;
    uint64_t pairs[2];
};

/* The ledger of the example, and after a post what that left. The row sums of examples by a book are 0, so a book of zeros fits. */
static uint8_t ledger[LEDGER_ROOM];
#ifndef CHECK_RUN
static uint8_t book[BOOK_SIZE + 1];
#endif

static size_t put_sheet(uint8_t *sheet, const struct example *x)
{
    uint8_t list[4];
    put(list, 2, x->pairs[0]);
    put(list + 2, 2, x->pairs[1]);
    return any_sheet(sheet, x->p, x->c, list, x->e);
}

static int64_t call_working(work_call *call, const struct example *x)
{
    uint8_t found[16];
    any_bytes(found, 16);
    return call(x->p, x->c, x->pairs[0] / 256, x->pairs[0] % 256, lend(0, found, 16), 16, lend(1, found, 16), 16);
}

static int64_t call_quoting(quote_call *call, const struct example *x)
{
    uint8_t found[16];
    any_bytes(found, 16);
    return call(x->p, x->c, x->pairs[0] / 256, x->pairs[0] % 256, lend(0, found, 16), 16);
}

static int64_t call_work(const struct example *x)
{
    return call_working(CALL(work), x);
}

static int64_t call_work_lower(const struct example *x)
{
    return call_working(CALL(work_lower), x);
}

static int64_t call_work_upper(const struct example *x)
{
    return call_working(CALL(work_upper), x);
}

static int64_t call_quote(const struct example *x)
{
    return call_quoting(CALL(quote), x);
}

static int64_t call_quote_lower(const struct example *x)
{
    return call_quoting(CALL(quote_lower), x);
}

static int64_t call_quote_upper(const struct example *x)
{
    return call_quoting(CALL(quote_upper), x);
}

static int64_t call_open(const struct example *x)
{
    return CALL(open)(x->p, x->c, lend(0, ledger, x->ledger.len), x->ledger.len);
}

static int64_t call_post(const struct example *x)
{
    uint8_t sum[16] = {0}, *at = lend(0, ledger, x->ledger.len);
    int64_t answer = CALL(post)(at, x->ledger.len, x->p, x->c, x->pairs[0] / 256, x->pairs[0] % 256,
                                lend_input(1, sum, 16), 16);
    memcpy(ledger, at, x->ledger.len);
    return answer;
}

static int64_t call_write(const struct example *x)
{
    uint8_t list[4], sheet[56];
    any_bytes(sheet, 56);
    put(list, 2, x->pairs[0]);
    put(list + 2, 2, x->pairs[1]);
    return CALL(sheet_write)(x->p, x->c, lend_input(0, list, 2 * x->e), 2 * x->e, lend(1, sheet, 56), 56);
}

static int64_t call_read(const struct example *x)
{
    uint8_t sheet[56], list[4], sums[32];
    size_t len = put_sheet(sheet, x);
    any_bytes(list, 4);
    any_bytes(sums, 32);
    return CALL(sheet_read)(lend_input(0, sheet, len), len, lend(1, list, 4), 4, lend(2, sums, 32), 32);
}

static int64_t call_sheet_post(const struct example *x)
{
    uint8_t sheet[56], *at = lend(0, ledger, x->ledger.len);
    size_t len = put_sheet(sheet, x);
    int64_t answer = CALL(sheet_post)(at, x->ledger.len, lend_input(1, sheet, len), len);
    memcpy(ledger, at, x->ledger.len);
    return answer;
}

#ifndef CHECK_RUN
static int64_t call_look(const struct example *x)
{
    uint8_t sheet[56], total[16];
    size_t len = put_sheet(sheet, x);
    any_bytes(total, 16);
    return bbp_look(lend_input(0, ledger, x->ledger.len), x->ledger.len, lend_input(1, sheet, len), len, lend(2, total, 16), 16);
}

/* The calls by a book are lent the ledger at 0 and the book at 1. What they leave is kept for a next one. */
static int64_t left_by(const struct example *x, int64_t answer, const uint8_t *at, const uint8_t *places)
{
    memcpy(ledger, at, x->ledger.len);
    memcpy(book, places, BOOK_SIZE);
    return answer;
}

static int64_t call_book_post(const struct example *x)
{
    uint8_t sum[16] = {0}, *at = lend(0, ledger, x->ledger.len), *places = lend(1, book, BOOK_SIZE);
    int64_t answer = bbp_book_post(at, x->ledger.len, places, BOOK_SIZE, x->p, x->c, x->pairs[0] / 256, x->pairs[0] % 256,
                                   lend_input(2, sum, 16), 16);
    return left_by(x, answer, at, places);
}

static int64_t call_book_sheet_post(const struct example *x)
{
    uint8_t sheet[56], *at = lend(0, ledger, x->ledger.len), *places = lend(1, book, BOOK_SIZE);
    size_t len = put_sheet(sheet, x);
    int64_t answer = bbp_book_sheet_post(at, x->ledger.len, places, BOOK_SIZE, lend_input(2, sheet, len), len);
    return left_by(x, answer, at, places);
}

static int64_t call_book_withdraw(const struct example *x)
{
    uint8_t *at = lend(0, ledger, x->ledger.len), *places = lend(1, book, BOOK_SIZE);
    int64_t answer =
        bbp_book_withdraw(at, x->ledger.len, places, BOOK_SIZE, x->p, x->c, x->pairs[0] / 256, x->pairs[0] % 256);
    return left_by(x, answer, at, places);
}

static int64_t call_standing_sheet(const struct example *x)
{
    uint8_t sheet[SHEET_SIZE(7)];
    any_bytes(sheet, sizeof sheet);
    return bbp_standing_sheet(lend_input(0, ledger, x->ledger.len), x->ledger.len, lend_input(1, book, BOOK_SIZE), BOOK_SIZE,
                              lend(2, sheet, sizeof sheet), sizeof sheet);
}
#endif

static int64_t call_close(const struct example *x)
{
    uint8_t digits[32];
    any_bytes(digits, 32);
    return CALL(close)(lend_input(0, ledger, x->ledger.len), x->ledger.len, lend(1, digits, 32), 32);
}

/*
 * Each call has its bit, by its place; those of WORK are for working and
 * quoting. A call that marked tickets refuse has the one that marks them.
 */
static const struct call {
    const char *name;
    int64_t (*make)(const struct example *x);
    int64_t (*mark)(const struct example *x);
} calls[] = {
    {"work", call_work, NULL}, {"work_lower", call_work_lower, NULL}, {"work_upper", call_work_upper, NULL},
    {"quote", call_quote, NULL}, {"quote_lower", call_quote_lower, NULL}, {"quote_upper", call_quote_upper, NULL},
    {"open", call_open, NULL}, {"post", call_post, call_post}, {"sheet_write", call_write, NULL},
    {"sheet_read", call_read, NULL}, {"sheet_post", call_sheet_post, call_sheet_post}, {"close", call_close, NULL},
#ifndef CHECK_RUN
    {"look", call_look, call_sheet_post}, {"book_post", call_book_post, call_book_post},
    {"book_sheet_post", call_book_sheet_post, call_book_sheet_post}, {"book_withdraw", call_book_withdraw, NULL},
    {"standing_sheet", call_standing_sheet, NULL},
#endif
};
enum {
    WORK = 63, OPEN = 64, POST = 128, WRITE = 256, READ = 512, SHEET_POST = 1024, CLOSE = 2048, LOOK = 4096,
    BOOK_POST = 8192, BOOK_SHEET_POST = 16384, WITHDRAW = 32768, STANDING = 65536,
    POSTS = POST | SHEET_POST | LOOK | BOOK_POST | BOOK_SHEET_POST, ENTRIES = POSTS | WITHDRAW,
    SHEETS = WRITE | READ | SHEET_POST | LOOK | BOOK_SHEET_POST, TICKET = WORK | POST | BOOK_POST | WITHDRAW | SHEETS
};

#define FRESH {LEDGER_SIZE, 1, 1, 0, UNPATCHED}
#define FULL(len) {len, 1, 1, 1, UNPATCHED}
#define ZEROS {LEDGER_SIZE, 0, 0, 0, UNPATCHED}
/* The total in the first row. */
#define TOTAL(upper, lower) {LEDGER_SIZE, 1, 1, 1, {{SUM_AT(0) + 8, 8, upper}, {SUM_AT(0), 8, lower}}}
/* The sums of the first row and the last are 2^127 each. */
#define HALVES {LEDGER_SIZE, 1, 1, 1, {{SUM_AT(0) + 15, 1, 128}, {SUM_AT(LAST_ROW) + 15, 1, 128}}}

static const struct example examples[] = {
    {1, "closing 255 bytes", CLOSE, FULL(255), 1, 1, 0, {0, 0}},
    {1, "closing a byte less", CLOSE, FULL(LEDGER_SIZE - 1), 1, 1, 0, {0, 0}},
    {1, "closing a byte more", CLOSE, FULL(LEDGER_SIZE + 1), 1, 1, 0, {0, 0}},
    {1, "a fresh ledger of 256 bytes", OPEN | ENTRIES | STANDING, {256, 1, 1, 0, UNPATCHED}, 1, 1, 1, {0, 0}},
    {1, "a full ledger of 256 bytes", CLOSE, FULL(256), 1, 1, 0, {0, 0}},
    {1, "a fresh ledger of the other kind's size", OPEN | ENTRIES | STANDING, {OTHER_LEDGER_SIZE, 1, 1, 0, UNPATCHED}, 1, 1, 1,
     {0, 0}},
    {1, "a full ledger of the other kind's size", CLOSE, FULL(OTHER_LEDGER_SIZE), 1, 1, 0, {0, 0}},
    {1, "14 tickets and room for 7", STANDING, {LEDGER_SIZE, 1, 2, 1, UNPATCHED}, 1, 2, 0, {0, 0}},
    {1, "8 marks and room for 7, some at C and above", STANDING, {LEDGER_SIZE, 1, 1, 0, {{MARKS_AT(0), 1, 255}}}, 1, 1, 0, {0, 0}},
    {2, "p = 0, C = 1", OPEN | TICKET, FRESH, 0, 1, 1, {0, 0}},
    {2, "p above the last, C = 1", OPEN | TICKET, FRESH, LAST_POSITION + 1, 1, 1, {0, 0}},
    {3, "list or contents 5, 5", SHEETS, {LEDGER_SIZE, 1, 256, 0, UNPATCHED}, 1, 256, 2, {5, 5}},
    {4, "C = 1, block 1", TICKET, FRESH, 1, 1, 1, {1, 0}},
    {4, "row above the last", TICKET, FRESH, 1, 1, 1, {PAIR(ROWS, 0), 0}},
    {5, "ledger of zeros", ENTRIES | CLOSE | STANDING, ZEROS, 1, 1, 1, {0, 0}},
    {5, "ledger's p above the last", ENTRIES | CLOSE | STANDING, {LEDGER_SIZE, LAST_POSITION + 1, 1, 1, UNPATCHED}, 1, 1, 1,
     {0, 0}},
    {5, "7 marks and room for 7, some at C and above", STANDING, {LEDGER_SIZE, 1, 1, 0, {{MARKS_AT(0), 1, 127}}}, 1, 1, 0, {0, 0}},
    {6, "p = 2 on a ledger of 1", ENTRIES, FRESH, 2, 1, 1, {0, 0}},
    {7, "row 0, block 0 twice", POSTS, FRESH, 1, 1, 1, {0, 0}},
    {8, "closing a fresh ledger", CLOSE, FRESH, 1, 1, 0, {0, 0}},
    {9, "p = 1, all marked, total 0", CLOSE, FULL(LEDGER_SIZE), 1, 1, 0, {0, 0}},
    {9, "p = 1, all marked, total 0 of two sums", CLOSE, HALVES, 1, 1, 0, {0, 0}},
    {9, "p = 1, all marked, total b", CLOSE, TOTAL(0, OF_KIND(48, 97)), 1, 1, 0, {0, 0}},
    {9, "p = 1, all marked, total 2^128 - a - 1", CLOSE, TOTAL(UINT64_MAX, UINT64_MAX - OF_KIND(44, 33)), 1, 1, 0, {0, 0}},
    {13, "a ticket of a fresh ledger", WITHDRAW, FRESH, 1, 1, 1, {0, 0}},
    {13, "the last ticket, all others marked", WITHDRAW, {LEDGER_SIZE, 1, 1, 1, {{MARKS_AT(LAST_ROW), 1, 0}}}, 1, 1, 1,
     {PAIR(LAST_ROW, 0), 0}},
};

/* The example's call is refused, and no byte of what was lent is changed. */
static void try_example(const struct example *x, const struct call *call)
{
    for (int slot = 0; slot < SLOTS; slot++)
        lend(slot, NULL, 0);
    make_ledger(ledger, &x->ledger);
#ifndef CHECK_RUN
    memset(book, 0, sizeof book);
#endif
    if (x->number == 7)
        CHECK(call->mark(x) == 0, "%s, %s: the first time", call->name, x->words);
    int64_t answer = call->make(x);
    CHECK(answer == -x->number, "%s, %s: the answer is %" PRId64 " and not -%d", call->name, x->words, answer, x->number);
    for (int slot = 0; slot < SLOTS; slot++)
        expect_kept(slot, x->words);
}

#ifndef CHECK_RUN
/* Two digit strings with their positions, and bytes for the part. */
static const struct overlap_example {
    int number;
    const char *words, *first;
    uint64_t first_p;
    const char *second;
    uint64_t second_p;
    size_t part_len;
} overlap_examples[] = {
    {1, "a part of 23 bytes", "2", 1, "2", 1, 23},
    {1, "a part of 23 bytes, and no digits", "", 1, "2", 1, 23},
    {10, "no digits", "", 1, "2", 1, 24},
    {10, "31 digits", "0000000000000000000000000000000", 1, "0", 1, 24},
    {10, "a small letter", "2", 1, "a", 1, 24},
    {10, "a small letter, and the other digits share no position", "a", 1, "4", 2, 24},
    {10, "position 0", "2", 0, "2", 1, 24},
    {10, "position 2^60 + 1", "2", 1, "2", BBP_MAX_POSITION + 1, 24},
    {11, "2 at position 1 and 4 at position 2", "2", 1, "4", 2, 24},
    {12, "2 and 3 at position 1", "2", 1, "3", 1, 24},
};

/* Both calls are refused, but for a wrong size of the part, which one of them has not; no byte is changed. */
static void try_overlap_example(const struct overlap_example *x)
{
    uint8_t found[24];
    size_t first_len = strlen(x->first), second_len = strlen(x->second);
    const uint8_t *first = lend_input(0, (const uint8_t *)x->first, first_len);
    const uint8_t *second = lend_input(1, (const uint8_t *)x->second, second_len);
    any_bytes(found, 24);
    int64_t answer = bbp_overlap(first, first_len, x->first_p, second, second_len, x->second_p);
    CHECK(x->number == 1 ? answer != -1 : answer == -x->number, "overlap, %s: the answer is %" PRId64, x->words, answer);
    answer = bbp_overlap_part(first, first_len, x->first_p, second, second_len, x->second_p, lend(2, found, x->part_len),
                              x->part_len);
    CHECK(answer == -x->number, "overlap_part, %s: the answer is %" PRId64 " and not -%d", x->words, answer, x->number);
    for (int slot = 0; slot < 3; slot++)
        expect_kept(slot, x->words);
}

/* A ledger of p = 1, C = 2 with row 0, block 0 marked and a row sum of 5, and its book, with 5 there; then both patched. */
static const struct book_example {
    int number;
    const char *words;
    size_t book_len;
    struct patch ledger[PATCHES], book[PATCHES];
} book_examples[] = {
    {0, "a book that fits", BOOK_SIZE, UNPATCHED, UNPATCHED},
    {1, "a book of a byte less", BOOK_SIZE - 1, UNPATCHED, UNPATCHED},
    {1, "a book of a byte more", BOOK_SIZE + 1, UNPATCHED, UNPATCHED},
    {1, "no book", 0, UNPATCHED, UNPATCHED},
    {1, "a book of a byte less, and a ledger's zero byte", BOOK_SIZE - 1, {{10, 1, 1}}, UNPATCHED},
    {5, "6 kept of a row sum of 5", BOOK_SIZE, UNPATCHED, {{0, 1, 6}}},
    {5, "5 kept of a row sum of 6", BOOK_SIZE, {{SUM_AT(0), 1, 6}}, UNPATCHED},
    {5, "5 kept in row 0, a row sum of 5 in row 1", BOOK_SIZE, {{SUM_AT(0), 1, 0}, {SUM_AT(1), 1, 5}}, UNPATCHED},
    {5, "3 kept for block 0, and 2 for block 1 without a mark", BOOK_SIZE, UNPATCHED, {{0, 1, 3}, {BOOK_AT(0, 1), 1, 2}}},
    {5, "3 kept for block 0, and 2 for block 2, which is C", BOOK_SIZE, UNPATCHED, {{0, 1, 3}, {BOOK_AT(0, 2), 1, 2}}},
    {5, "5 kept, and no mark", BOOK_SIZE, {{MARKS_AT(0), 1, 0}}, UNPATCHED},
    {5, "the last byte of the book", BOOK_SIZE, UNPATCHED, {{BOOK_SIZE - 1, 1, 1}}},
    {0, "3 and 2 kept for blocks 0 and 1, both marked", BOOK_SIZE, {{MARKS_AT(0), 1, 3}}, {{0, 1, 3}, {BOOK_AT(0, 1), 1, 2}}},
    {0, "a marked ticket that keeps zero", BOOK_SIZE, {{MARKS_AT(0), 1, 3}}, UNPATCHED},
};

static void make_book_example(const struct book_example *x)
{
    static const struct ledger_form form = {LEDGER_SIZE, 1, 2, 0, {{SUM_AT(0), 1, 5}, {MARKS_AT(0), 1, 1}}};
    make_ledger(ledger, &form);
    memset(book, 0, sizeof book);
    book[0] = 5;
    patch(ledger, x->ledger);
    patch(book, x->book);
}

static void expect_refused(const struct book_example *x, const char *call, int64_t answer)
{
    CHECK(answer == -x->number, "%s, %s: the answer is %" PRId64 " and not -%d", call, x->words, answer, x->number);
    for (int slot = 0; slot < 2 && x->number != 0; slot++)
        expect_kept(slot, x->words);
}

/* The ledger has one mark or two. */
static void try_standing(const struct book_example *x)
{
    uint8_t found[SHEET_SIZE(2)];
    int64_t length = SHEET_SIZE(ledger[MARKS_AT(0)] == 3 ? 2 : 1);
    any_bytes(found, sizeof found);
    int64_t answer = bbp_standing_sheet(lend_input(0, ledger, LEDGER_SIZE), LEDGER_SIZE, lend_input(1, book, x->book_len),
                                        x->book_len, lend(2, found, sizeof found), sizeof found);
    expect_refused(x, "standing_sheet", x->number == 0 ? answer - length : answer);
    if (x->number != 0)
        expect_kept(2, x->words);
}

/* Posted are row 3, block 1, singly and as a sheet; withdrawn is row 0, block 0. */
static void try_book_example(const struct book_example *x)
{
    uint8_t sum[16] = {9}, sheet[36], list[2] = {1, 3}, *at;
    size_t len = any_sheet(sheet, 1, 2, list, 1);
    make_book_example(x);
    at = lend(0, ledger, LEDGER_SIZE);
    expect_refused(x, "book_post", bbp_book_post(at, LEDGER_SIZE, lend(1, book, x->book_len), x->book_len, 1, 2, 3, 1, sum, 16));
    at = lend(0, ledger, LEDGER_SIZE);
    expect_refused(x, "book_sheet_post",
                   bbp_book_sheet_post(at, LEDGER_SIZE, lend(1, book, x->book_len), x->book_len, sheet, len));
    at = lend(0, ledger, LEDGER_SIZE);
    int64_t answer = bbp_book_withdraw(at, LEDGER_SIZE, lend(1, book, x->book_len), x->book_len, 1, 2, 0, 0);
    expect_refused(x, "book_withdraw", answer);
    try_standing(x);
}

/* The table has one end, for the examples and for the programs. Check runs have fewer calls. */
static int has_example(int number)
{
    for (size_t i = 0; i < sizeof examples / sizeof examples[0]; i++)
        if (examples[i].number == number)
            return 1;
    for (size_t i = 0; i < sizeof overlap_examples / sizeof overlap_examples[0]; i++)
        if (overlap_examples[i].number == number)
            return 1;
    return 0;
}

static int has_words(int number)
{
    return strcmp(meaning(-number), meaning(0)) != 0;
}

static void whole_table(void)
{
    for (int number = 1; number <= REF_LAST_REFUSAL; number++) {
        CHECK(has_example(number), "no example of %d", number);
        CHECK(has_words(number), "no words for %d", number);
    }
    CHECK(!has_words(REF_LAST_REFUSAL + 1), "words for %d", REF_LAST_REFUSAL + 1);
}
#endif

int main(int argc, char **argv)
{
    start("refusals", argc, argv);
#ifndef CHECK_RUN
    whole_table();
    for (size_t i = 0; i < sizeof overlap_examples / sizeof overlap_examples[0]; i++)
        try_overlap_example(&overlap_examples[i]);
    for (size_t i = 0; i < sizeof book_examples / sizeof book_examples[0]; i++)
        try_book_example(&book_examples[i]);
#endif
    for (size_t i = 0; i < sizeof examples / sizeof examples[0]; i++)
        for (size_t j = 0; j < sizeof calls / sizeof calls[0]; j++)
            if (examples[i].calls >> j & 1)
                try_example(&examples[i], &calls[j]);
    return finish();
}
