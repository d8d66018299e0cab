/* sheet_post against the reference. */
#include "postings.h"

#include <inttypes.h>
#include <stdlib.h>
#include <string.h>

static struct posting t;

static void prepare(void)
{
    prepare_posting(&t);
}

static int damage(int kind)
{
    return damage_posting(&t, kind);
}

/* The call against the reference. The ledger is left as the call leaves it, for a next one. */
static int64_t compare(void)
{
    const uint8_t *bytes = t.sheet.bytes;
    size_t len = t.sheet.len;
    met(ref_sheet_post_refusals(FORMULA, t.ledger, t.ledger_len, bytes, len));
    uint8_t *wanted = copy_of(t.ledger, t.ledger_len), *sheet_copy = copy_of(bytes, len);
    int64_t wanted_answer = ref_sheet_post(FORMULA, wanted, t.ledger_len, sheet_copy, len);
    uint8_t *ledger = lend(0, t.ledger, t.ledger_len);
    const uint8_t *sheet = lend_input(1, bytes, len);
    int64_t answer = CALL(sheet_post)(ledger, t.ledger_len, sheet, len);
    CHECK(answer == wanted_answer, "post a sheet of %zu to a ledger of %zu: answer %" PRId64 ", not %" PRId64, len,
          t.ledger_len, answer, wanted_answer);
    expect(0, wanted, "sheet post, the ledger");
    expect_kept(1, "sheet post, the sheet");
    if (t.ledger_len > 0)
        memcpy(t.ledger, wanted, t.ledger_len);
    free(wanted);
    free(sheet_copy);
    return answer;
}

/* One ledger, sheet after sheet: its last ticket is marked first, so that the sheet of all is refused at its end. */
static void sheet_after_sheet(uint64_t c)
{
    uint64_t all = ROWS * c;
    struct ledger_form fresh = {LEDGER_SIZE, 1, c, 0, UNPATCHED};
    make_ledger(t.ledger, &fresh);
    t.ledger_len = LEDGER_SIZE;
    set_mark(t.ledger, LAST_ROW, c - 1, 1);
    first_tickets(&t, c, all);
    CHECK(compare() == -7, "the sheet of all, the last marked");
    first_tickets(&t, c, all - 1);
    CHECK(compare() == 0, "the sheet of all but the last");
    CHECK(compare() == -7, "the sheet of all but the last, twice");
    make_ledger(t.ledger, &fresh);
    first_tickets(&t, c, all);
    CHECK(compare() == 0, "the sheet of all");
    CHECK(compare() == -7, "the sheet of all, twice");
}

static void null_and_huge_examples(void)
{
    first_tickets(&t, 1, 0);
    ledger_of(&t, 1, 0);
    CHECK(CALL(sheet_post)(t.ledger, LEDGER_SIZE, NULL, 0) == -1, "an empty sheet");
    CHECK(CALL(sheet_post)(NULL, 0, t.sheet.bytes, 16) == -1, "an empty ledger");
    CHECK(CALL(sheet_post)(t.ledger, LEDGER_SIZE, lend_huge(), huge_length(16)) == -1, "a sheet of 2^32 + 16 bytes");
    CHECK(CALL(sheet_post)(lend_huge(), huge_length(LEDGER_SIZE), t.sheet.bytes, 16) == -1, "a ledger with 2^32 bytes more");
    expect_huge_kept();
}

/* A row's sum, the sum of each of the row's three tickets in a sheet, and the row's sum after the sheet is posted. */
static const struct {
    const char *what;
    ref_u128 before, each, after;
} additions[] = {
    {"1 three times", 0, 1, 3},
    {"2^64 - 1 three times", 0, UINT64_MAX, SUM(2, UINT64_MAX - 2)},
    {"2^127 three times", 0, SUM(UINT64_C(1) << 63, 0), SUM(UINT64_C(1) << 63, 0)},
    {"2^128 - 1, and 1 three times", SUM(UINT64_MAX, UINT64_MAX), 1, 2},
    {"2^128 - 1, and that three times", SUM(UINT64_MAX, UINT64_MAX), SUM(UINT64_MAX, UINT64_MAX),
     SUM(UINT64_MAX, UINT64_MAX - 3)},
};

/* The sheet of every ticket of some rows, C = 3, all with the same sum. */
static void sheet_of_rows(uint64_t first, uint64_t last, ref_u128 sum)
{
    uint8_t list[2 * 3 * ROWS] = {0};
    size_t e = 0;
    for (uint64_t row = first; row <= last; row++)
        for (uint64_t block = 0; block < 3; block++)
            put(list + 2 * e++, 2, PAIR(row, block));
    t.sheet.len = any_sheet(t.sheet.bytes, 1, 3, list, e);
    for (size_t i = 0; i < e; i++)
        put_sum(t.sheet.bytes + 16 + 4 * e + 16 * i, sum);
}

/* One addition in each of some rows: their sums and marks are changed, and no other byte. */
static void add_to_rows(size_t i, uint64_t first, uint64_t last)
{
    uint8_t wanted[LEDGER_SIZE];
    sheet_of_rows(first, last, additions[i].each);
    any_ledger(t.ledger, 1, 3, 0);
    t.ledger_len = LEDGER_SIZE;
    for (uint64_t row = first; row <= last; row++)
        set_row_sum(t.ledger, row, additions[i].before);
    memcpy(wanted, t.ledger, sizeof wanted);
    for (uint64_t row = first; row <= last; row++) {
        set_row_sum(wanted, row, additions[i].after);
        put(wanted + MARKS_AT(row), 1, 7);
    }
    CHECK(compare() == 0, "rows %" PRIu64 " to %" PRIu64 ", %s: refused", first, last, additions[i].what);
    CHECK(memcmp(t.ledger, wanted, sizeof wanted) == 0, "rows %" PRIu64 " to %" PRIu64 ": %s", first, last,
          additions[i].what);
}

static void every_addition(void)
{
    for (size_t i = 0; i < sizeof additions / sizeof additions[0]; i++)
        for (uint64_t first = 0; first < ROWS; first++)
            for (uint64_t last = first; last < ROWS; last++)
                add_to_rows(i, first, last);
}

static void every_count(void)
{
    for (size_t e = 0; e <= TICKETS; e++) {
        first_tickets(&t, 256, e);
        ledger_of(&t, 256, 0);
        CHECK(compare() == 0, "the first %zu tickets of C = 256", e);
    }
}

int main(int argc, char **argv)
{
    static const struct suite suite = {prepare, damage, POSTING_KINDS, compare};
    start("sheet_post", argc, argv);
    every_posting(&t, compare);
    sheet_after_sheet(1);
    sheet_after_sheet(256);
    null_and_huge_examples();
    every_ledger_size(prepare, compare, &t.ledger_len, 0);
    every_addition();
    one_marked(&t, compare, 1);
    one_marked(&t, compare, 9);
    one_marked(&t, compare, 256);
    every_count();
    more_than_the_run_has(&t, compare);
    run_suite(&suite);
    require_met("1 2 3 4 5 6 7 1+2 1+3 1+4 1+5 1+6 1+7 2+3 2+4 2+5 2+6 2+7 3+4 3+5 3+6 3+7 4+5 4+6 4+7 5+6 5+7 6+7");
    return finish();
}
