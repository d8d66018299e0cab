/*
 * look against the reference, and every look beside a post of the same sheet
 * onto a copy of the ledger (document 02, slip 6). Bellard's runs alone have it.
 */
#include "postings.h"

#include <inttypes.h>
#include <stdlib.h>
#include <string.h>

enum { TOTAL_SIZE = 16, TOTAL_ROOM = 16 + 64 };

static struct posting t;
static uint8_t total[TOTAL_ROOM];
static size_t total_len;

static void lend_total(void)
{
    any_bytes(total, sizeof total);
    total_len = TOTAL_SIZE;
}

static void prepare(void)
{
    prepare_posting(&t);
    lend_total();
}

static int damage(int kind)
{
    switch (kind - POSTING_KINDS) {
    case 0: total_len = wrong_size(TOTAL_SIZE); return 1;
    case 1: total_len = 0; return 1;
    default: return damage_posting(&t, kind);
    }
}

/* A ledger's tickets that are not marked: 7C less the marks, wherever they stand. */
static int64_t unmarked(const uint8_t *ledger)
{
    int64_t marks = 0;
    for (size_t i = MARKS_AT(0); i < LEDGER_SIZE; i++)
        marks += __builtin_popcount(ledger[i]);
    return (int64_t)(ROWS * ref_load(ledger + 8, 2)) - marks;
}

/* What a look wrote and answered is what the ledger has with the sheet posted; and closing this is refused with 8 or not. */
static void expect_posted(const uint8_t *ledger, int64_t answer, const uint8_t *found)
{
    uint8_t digits[32];
    ref_u128 sum = 0;
    for (uint64_t row = 0; row < ROWS; row++)
        sum += ref_load_sum(ledger + SUM_AT(row));
    CHECK(answer == unmarked(ledger), "%" PRId64 " tickets would remain, and %" PRId64 " do", answer, unmarked(ledger));
    CHECK(ref_load_sum(found) == sum, "the total is not that of the row sums after the post");
    CHECK((answer != 0) == (bbp_close(ledger, LEDGER_SIZE, digits, 32) == -8),
          "%" PRId64 " tickets would remain, but closing says otherwise", answer);
}

/* Posts the sheet onto a copy of the ledger. A look with a total of another size is refused whatever the post does. */
static void beside_post(int64_t answer, const uint8_t *found)
{
    uint8_t *copy = copy_of(t.ledger, t.ledger_len);
    int64_t posted = bbp_sheet_post(copy, t.ledger_len, t.sheet.bytes, t.sheet.len);
    if (total_len != TOTAL_SIZE)
        CHECK(answer == -1, "a total of %zu bytes: the answer is %" PRId64, total_len, answer);
    else if (posted != 0)
        CHECK(answer == posted, "the look answers %" PRId64 ", the post %" PRId64, answer, posted);
    else
        expect_posted(copy, answer, found);
    free(copy);
}

/* The look against the reference and beside a post. Ledger and sheet stand in memory that cannot be written. */
static int64_t compare(void)
{
    size_t len = t.sheet.len;
    uint8_t *ledger_copy = copy_of(t.ledger, t.ledger_len), *sheet_copy = copy_of(t.sheet.bytes, len);
    uint8_t *wanted = copy_of(total, total_len);
    met(ref_look_refusals(FORMULA, ledger_copy, t.ledger_len, sheet_copy, len, total_len));
    int64_t wanted_answer = ref_look(FORMULA, ledger_copy, t.ledger_len, sheet_copy, len, wanted, total_len);
    const uint8_t *ledger = lend_input(0, t.ledger, t.ledger_len), *sheet = lend_input(1, t.sheet.bytes, len);
    uint8_t *found = lend(2, total, total_len);
    int64_t answer = bbp_look(ledger, t.ledger_len, sheet, len, found, total_len);
    CHECK(answer == wanted_answer, "look at a sheet of %zu on a ledger of %zu: answer %" PRId64 ", not %" PRId64, len,
          t.ledger_len, answer, wanted_answer);
    expect_kept(0, "look, the ledger");
    expect_kept(1, "look, the sheet");
    expect(2, wanted, "look, the total");
    beside_post(answer, found);
    free(ledger_copy);
    free(sheet_copy);
    free(wanted);
    return answer;
}

/* For cases that name refusals alone: a number of tickets is none. */
static int64_t refusal(void)
{
    int64_t answer = compare();
    return answer < 0 ? answer : 0;
}

/* Ledgers and sheets of p = 1: the marks and the tickets, from the first one on, and the answer. */
static const struct {
    const char *what;
    uint64_t c, marks, e;
    int64_t answer;
} counts[] = {
    {"C 1, fresh, no ticket", 1, 0, 0, 7},
    {"C 1, fresh, one ticket", 1, 0, 1, 6},
    {"C 1, fresh, all but the last", 1, 0, 6, 1},
    {"C 1, fresh, all", 1, 0, 7, 0},
    {"C 1, all marked, no ticket", 1, 7, 0, 0},
    {"C 1, all marked, one ticket", 1, 7, 1, -7},
    {"C 1, all marked, all", 1, 7, 7, -7},
    {"C 2, row 0 marked, no ticket", 2, 2, 0, 12},
    {"C 36, fresh, no ticket", 36, 0, 0, 252},
    {"C 37, fresh, no ticket", 37, 0, 0, 259},
    {"C 37, fresh, one ticket", 37, 0, 1, 258},
    {"C 37, all but 256 marked, no ticket", 37, 3, 0, 256},
    {"C 255, fresh, no ticket", 255, 0, 0, 1785},
    {"C 256, fresh, no ticket", 256, 0, 0, 1792},
    {"C 256, fresh, 768 tickets", 256, 0, 768, 1024},
    {"C 256, fresh, all but the last", 256, 0, 1791, 1},
    {"C 256, fresh, all", 256, 0, 1792, 0},
    {"C 256, all but the last marked, no ticket", 256, 1791, 0, 1},
    {"C 256, all marked, no ticket", 256, 1792, 0, 0},
    {"C 256, all marked, one ticket", 256, 1792, 1, -7},
};

static void make_count(uint64_t c, uint64_t marks, uint64_t e)
{
    first_tickets(&t, c, e);
    ledger_of(&t, c, 0);
    for (uint64_t i = 0; i < marks; i++)
        set_mark(t.ledger, i / c, i % c, 1);
    lend_total();
}

static void every_named_count(void)
{
    for (size_t i = 0; i < sizeof counts / sizeof counts[0]; i++) {
        make_count(counts[i].c, counts[i].marks, counts[i].e);
        CHECK(compare() == counts[i].answer, "%s", counts[i].what);
    }
}

/* The last tickets of the run are marked, and the first are on the sheet. */
static void marks_at_the_end(uint64_t c, uint64_t marks, uint64_t e)
{
    uint64_t all = ROWS * c;
    make_count(c, 0, e);
    for (uint64_t i = all - marks; i < all; i++)
        set_mark(t.ledger, i / c, i % c, 1);
    CHECK(compare() == (int64_t)(all - marks - e), "C %" PRIu64 ", %" PRIu64 " marks, a sheet of %" PRIu64, c, marks, e);
}

static void every_block_count(void)
{
    for (uint64_t c = 1; c <= 256; c++) {
        uint64_t all = ROWS * c, e = below(all + 1);
        marks_at_the_end(c, 0, 0);
        marks_at_the_end(c, all, 0);
        marks_at_the_end(c, 0, all);
        marks_at_the_end(c, all - 1, 1);
        marks_at_the_end(c, all - e, e);
        marks_at_the_end(c, below(all - e + 1), e);
    }
}

/* The number of tickets of the sheet, on a ledger without a mark. */
static void every_count(void)
{
    for (size_t e = 0; e <= TICKETS; e++) {
        make_count(256, 0, e);
        CHECK(compare() == (int64_t)(TICKETS - e), "the first %zu tickets of C = 256", e);
    }
}

/* The same sum in every row of the ledger, and the same for every ticket of the sheet. */
static const struct {
    const char *what;
    ref_u128 row, ticket;
} sums[] = {
    {"nothing", 0, 0},
    {"1 for a row", 1, 0},
    {"1 for a ticket", 0, 1},
    {"2^64 - 1 for a row", UINT64_MAX, 0},
    {"2^64 - 1 for a ticket", 0, UINT64_MAX},
    {"2^64 - 1 for both", UINT64_MAX, UINT64_MAX},
    {"2^127 for a row", SUM(UINT64_C(1) << 63, 0), 0},
    {"2^127 for a ticket", 0, SUM(UINT64_C(1) << 63, 0)},
    {"2^128 - 1 for a row, 1 for a ticket", SUM(UINT64_MAX, UINT64_MAX), 1},
    {"1 for a row, 2^128 - 1 for a ticket", 1, SUM(UINT64_MAX, UINT64_MAX)},
    {"2^128 - 1 for both", SUM(UINT64_MAX, UINT64_MAX), SUM(UINT64_MAX, UINT64_MAX)},
    {"another byte in each place", SUM(UINT64_C(0x0F0E0D0C0B0A0908), UINT64_C(0x0706050403020100)), 0},
};

static void try_sums(size_t i, uint64_t c, size_t e)
{
    make_count(c, 0, e);
    for (uint64_t row = 0; row < ROWS; row++)
        set_row_sum(t.ledger, row, sums[i].row);
    for (size_t ticket = 0; ticket < e; ticket++)
        put_sum(t.sheet.bytes + 16 + 4 * e + 16 * ticket, sums[i].ticket);
    put_sum(total, ~(ROWS * sums[i].row + e * sums[i].ticket));
    compare();
    CHECK(bbp_look(t.ledger, LEDGER_SIZE, t.sheet.bytes, t.sheet.len, total, TOTAL_SIZE) == (int64_t)(ROWS * c - e),
          "%s, %zu tickets: the answer", sums[i].what, e);
    CHECK(ref_load_sum(total) == ROWS * sums[i].row + e * sums[i].ticket, "%s, %zu tickets: the total", sums[i].what, e);
}

static void every_sum(void)
{
    for (size_t i = 0; i < sizeof sums / sizeof sums[0]; i++) {
        for (size_t e = 0; e <= 3 * ROWS; e++)
            try_sums(i, 3, e);
        try_sums(i, 256, TICKETS);
    }
}

/* One sum alone is not 0: that of a row, or of a ticket. Each is in the total, once. */
static void one_sum(void)
{
    uint8_t *bodies = t.sheet.bytes + 16 + 4 * ROWS;
    for (size_t place = 0; place < 2 * ROWS; place++) {
        make_count(3, 0, ROWS);
        memset(t.ledger + SUM_AT(0), 0, 16 * ROWS);
        memset(bodies, 0, 16 * ROWS);
        put_sum(place < ROWS ? t.ledger + SUM_AT(place) : bodies + 16 * (place - ROWS), any_sum() | 1);
        CHECK(compare() == 2 * ROWS, "one sum, at place %zu", place);
    }
}

static void every_total_size(void)
{
    for (size_t len = 0; len <= TOTAL_ROOM; len++) {
        prepare();
        total_len = len;
        CHECK(refusal() == (len == TOTAL_SIZE ? 0 : -1), "a total of %zu bytes", len);
    }
}

/* The size of the total counts before all that a post is refused with. */
static void refused_with_a_wrong_total(void)
{
    for (size_t len = 0; len <= TOTAL_ROOM; len++)
        for (int kind = 0; len != TOTAL_SIZE && kind < POSTING_KINDS; kind++) {
            prepare();
            damage(kind);
            total_len = len;
            CHECK(compare() == -1, "damage %d and a total of %zu bytes", kind, len);
        }
}

static void null_and_huge_examples(void)
{
    make_count(1, 0, 1);
    CHECK(bbp_look(t.ledger, LEDGER_SIZE, NULL, 0, total, 16) == -1, "an empty sheet");
    CHECK(bbp_look(NULL, 0, t.sheet.bytes, 36, total, 16) == -1, "an empty ledger");
    CHECK(bbp_look(t.ledger, LEDGER_SIZE, t.sheet.bytes, 36, NULL, 0) == -1, "an empty total");
    CHECK(bbp_look(NULL, 0, NULL, 0, NULL, 0) == -1, "nothing at all");
    CHECK(bbp_look(t.ledger, LEDGER_SIZE, lend_huge(), huge_length(36), total, 16) == -1, "a sheet of 2^32 + 36 bytes");
    CHECK(bbp_look(lend_huge(), huge_length(LEDGER_SIZE), t.sheet.bytes, 36, total, 16) == -1,
          "a ledger with 2^32 bytes more");
    CHECK(bbp_look(t.ledger, LEDGER_SIZE, t.sheet.bytes, 36, lend_huge(), huge_length(16)) == -1,
          "a total of 2^32 + 16 bytes");
    expect_huge_kept();
}

static int64_t look_at(const uint8_t *ledger, const struct sheet *sheet)
{
    uint8_t found[TOTAL_SIZE];
    return bbp_look(ledger, LEDGER_SIZE, sheet->bytes, sheet->len, found, TOTAL_SIZE);
}

static void next_sheet(struct sheet *sheet, uint64_t p, uint64_t c)
{
    uint8_t list[LIST_MAX];
    sheet->e = any_list(list, c, below(16) == 0 ? 256 : below(8));
    sheet->len = any_sheet(sheet->bytes, p, c, list, sheet->e);
}

/* The post of a sheet, then of a ticket, on two ledgers. One of them is looked at before and after, also with another sheet. */
static void post_both(uint8_t *looked, uint8_t *alone, uint64_t p, uint64_t c)
{
    static struct sheet sheet, other;
    uint8_t sum[16];
    uint64_t row = below(ROWS), block = below(c);
    any_bytes(sum, 16);
    next_sheet(&sheet, p, c);
    next_sheet(&other, below(4) == 0 ? p + 1 : p, c);
    int64_t seen = look_at(looked, &sheet);
    look_at(looked, &other);
    int64_t posted = bbp_sheet_post(looked, LEDGER_SIZE, sheet.bytes, sheet.len);
    CHECK(posted == (seen < 0 ? seen : 0), "a look answers %" PRId64 ", the post after it %" PRId64, seen, posted);
    CHECK(bbp_sheet_post(alone, LEDGER_SIZE, sheet.bytes, sheet.len) == posted, "a post after looks: the answer");
    CHECK(seen < 0 || unmarked(looked) == seen, "a post after a look: the tickets that remain");
    look_at(looked, &other);
    CHECK(bbp_post(looked, LEDGER_SIZE, p, c, row, block, sum, 16) == bbp_post(alone, LEDGER_SIZE, p, c, row, block, sum, 16),
          "a post of a ticket after a look: the answer");
    CHECK(memcmp(looked, alone, LEDGER_SIZE) == 0, "posts with looks in between leave another ledger");
}

/* A list of posts with looks in between leaves the ledger that the posts alone leave. */
static void looks_between_posts(void)
{
    uint8_t looked[LEDGER_SIZE], alone[LEDGER_SIZE];
    uint64_t p = any_position_upto(LAST_POSITION - 1), c = any_blocks();
    CHECK(bbp_open(p, c, looked, LEDGER_SIZE) == 0 && bbp_open(p, c, alone, LEDGER_SIZE) == 0, "opening is refused");
    for (uint64_t posts = below(40); posts > 0; posts--)
        post_both(looked, alone, p, c);
}

int main(int argc, char **argv)
{
    static const struct suite suite = {prepare, damage, POSTING_KINDS + 2, compare};
    start("look", argc, argv);
    lend_total();
    every_posting(&t, refusal);
    every_named_count();
    every_block_count();
    every_count();
    every_sum();
    one_sum();
    every_ledger_size(prepare, refusal, &t.ledger_len, 0);
    every_total_size();
    refused_with_a_wrong_total();
    null_and_huge_examples();
    one_marked(&t, refusal, 1);
    one_marked(&t, refusal, 9);
    one_marked(&t, refusal, 256);
    more_than_the_run_has(&t, refusal);
    for (uint64_t i = 0; i < 1 + case_count() / 20; i++)
        looks_between_posts();
    run_suite(&suite);
    require_met("1 2 3 4 5 6 7 1+2 1+3 1+4 1+5 1+6 1+7 2+3 2+4 2+5 2+6 2+7 3+4 3+5 3+6 3+7 4+5 4+6 4+7 5+6 5+7 6+7");
    return finish();
}
