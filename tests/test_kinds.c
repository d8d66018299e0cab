/*
 * The two kinds of runs beside each other. Their closings agree. A ledger of
 * the other kind is refused, but a sheet does not name its formula: one of the
 * rows that both have is taken by either kind, and so is a sum. The header and
 * docs/FORMATS.md warn of that. Digits of both kinds are laid over each other.
 * There are runs of both kinds that settle a digit more than in versions which
 * charged every term.
 */
#include "common.h"

#include <inttypes.h>
#include <string.h>

/* The rows that both kinds have, the most bytes of either kind, and the digits of closings that are compared. */
enum { SHARED_ROWS = 4, MOST_LEDGER = 352, MOST_SHEET = 35856, MOST_LIST = 3584, MOST_SUMS = 16 * 1792, COMPARED = 28 };

static const struct kind {
    const char *name;
    uint64_t rows;
    size_t ledger_len, marks_at;
    work_call *work;
    int64_t (*open)(uint64_t p, uint64_t c, uint8_t *ledger, size_t ledger_len);
    int64_t (*post)(uint8_t *ledger, size_t ledger_len, uint64_t p, uint64_t c, uint64_t row, uint64_t block,
                    const uint8_t *sum, size_t sum_len);
    int64_t (*sheet_write)(uint64_t p, uint64_t c, const uint8_t *list, size_t list_len, uint8_t *sheet, size_t sheet_len);
    int64_t (*sheet_read)(const uint8_t *sheet, size_t sheet_len, uint8_t *list, size_t list_len, uint8_t *sums,
                          size_t sums_len);
    int64_t (*sheet_post)(uint8_t *ledger, size_t ledger_len, const uint8_t *sheet, size_t sheet_len);
    int64_t (*close)(const uint8_t *ledger, size_t ledger_len, uint8_t *digits, size_t digits_len);
} bellard = {"Bellard's", 7, 352, 128, bbp_work, bbp_open, bbp_post, bbp_sheet_write, bbp_sheet_read, bbp_sheet_post,
             bbp_close},
  check_runs = {"the check", 4, 208, 80, bbp_check_work, bbp_check_open, bbp_check_post, bbp_check_sheet_write,
                bbp_check_sheet_read, bbp_check_sheet_post, bbp_check_close};

static uint8_t sheet[MOST_SHEET], ledger[MOST_LEDGER];

/* The sheet of some rows, and its length. */
static size_t write_rows(const struct kind *kind, uint64_t p, uint64_t c, uint64_t first, uint64_t end)
{
    uint8_t list[MOST_LIST];
    size_t e = 0;
    for (uint64_t row = first; row < end; row++)
        for (uint64_t block = 0; block < c; block++)
            put(list + 2 * e++, 2, PAIR(row, block));
    size_t len = SHEET_SIZE(e);
    CHECK(kind->sheet_write(p, c, list, 2 * e, sheet, len) == (int64_t)len, "%s sheet of rows %" PRIu64 " to %" PRIu64,
          kind->name, first, end - 1);
    return len;
}

static void open_ledger(const struct kind *kind, uint64_t p, uint64_t c)
{
    CHECK(kind->open(p, c, ledger, kind->ledger_len) == 0, "opening a ledger of %s kind", kind->name);
}

/* The ledger has the sums of the sheet in the rows that both kinds have, their marks, and nothing in the others. */
static void expect_posted(const struct kind *kind, uint64_t p, uint64_t c)
{
    uint8_t wanted[MOST_LEDGER] = {0};
    size_t e = SHARED_ROWS * c;
    put(wanted, 8, p);
    put(wanted + 8, 2, c);
    for (uint64_t row = 0; row < SHARED_ROWS; row++) {
        ref_u128 sum = 0;
        for (uint64_t block = 0; block < c; block++) {
            sum += ref_load_sum(sheet + 16 + 4 * e + 16 * (row * c + block));
            wanted[kind->marks_at + 32 * row + block / 8] |= (uint8_t)(1 << block % 8);
        }
        put_sum(wanted + SUM_AT(row), sum);
    }
    CHECK(memcmp(ledger, wanted, kind->ledger_len) == 0, "a sheet in a ledger of %s kind", kind->name);
}

/* A sheet that one kind has written for rows 0 to 3 is read by the other as by the first, and posted. */
static void sheet_is_taken(const struct kind *from, const struct kind *by, uint64_t p, uint64_t c)
{
    uint8_t lists[2][MOST_LIST], sums[2][MOST_SUMS];
    size_t len = write_rows(from, p, c, 0, SHARED_ROWS), e = SHARED_ROWS * c;
    CHECK(from->sheet_read(sheet, len, lists[0], 2 * e, sums[0], 16 * e) == (int64_t)e, "%s sheet", from->name);
    CHECK(by->sheet_read(sheet, len, lists[1], 2 * e, sums[1], 16 * e) == (int64_t)e, "%s sheet, by the other", from->name);
    CHECK(memcmp(lists[0], lists[1], 2 * e) == 0, "%s sheet: the lists that are read", from->name);
    CHECK(memcmp(sums[0], sums[1], 16 * e) == 0, "%s sheet: the sums that are read", from->name);
    open_ledger(by, p, c);
    CHECK(by->sheet_post(ledger, by->ledger_len, sheet, len) == 0, "%s sheet is not posted", from->name);
    expect_posted(by, p, c);
    CHECK(by->sheet_post(ledger, by->ledger_len, sheet, len) == -7, "%s sheet, posted twice", from->name);
}

static void sum_is_taken(const struct kind *from, const struct kind *by)
{
    uint8_t sum[16], squarings[16];
    open_ledger(by, 1, 1);
    for (uint64_t row = 0; row < SHARED_ROWS; row++) {
        CHECK(from->work(1, 1, row, 0, sum, 16, squarings, 16) == 0, "row %" PRIu64 " is not worked", row);
        CHECK(by->post(ledger, by->ledger_len, 1, 1, row, 0, sum, 16) == 0, "%s sum is not posted", from->name);
        CHECK(memcmp(ledger + SUM_AT(row), sum, 16) == 0, "%s sum in the ledger", from->name);
    }
}

/* Each call with a ledger of the other kind, fresh and with every ticket posted. */
static void ledger_is_refused(const struct kind *of, const struct kind *by, uint64_t c)
{
    uint8_t before[MOST_LEDGER], sum[16] = {0}, digits[32] = {0}, total[16];
    size_t len = of->ledger_len;
    open_ledger(of, 1, c);
    for (int full = 0; full < 2; full++) {
        memcpy(before, ledger, len);
        size_t sheet_len = write_rows(by, 1, c, 0, SHARED_ROWS);
        CHECK(by->open(1, c, ledger, len) == -1, "%s ledger is opened", of->name);
        CHECK(by->post(ledger, len, 1, c, 0, 0, sum, 16) == -1, "a ticket is posted to %s ledger", of->name);
        CHECK(by->sheet_post(ledger, len, sheet, sheet_len) == -1, "a sheet is posted to %s ledger", of->name);
        CHECK(by->close(ledger, len, digits, 32) == -1, "%s ledger is closed", of->name);
        CHECK(of == &bellard || bbp_look(ledger, len, sheet, sheet_len, total, 16) == -1, "a sheet is looked at on %s ledger",
              of->name);
        CHECK(memcmp(ledger, before, len) == 0, "%s ledger is changed", of->name);
        sheet_len = write_rows(of, 1, c, 0, of->rows);
        CHECK(full || of->sheet_post(ledger, len, sheet, sheet_len) == 0, "%s sheet of all tickets", of->name);
    }
}

/* What check runs have no room for: a row above 3, a position above 2^59. */
static void beyond_check_runs(void)
{
    uint8_t list[2], sums[16];
    size_t len = write_rows(&bellard, 1, 1, SHARED_ROWS, SHARED_ROWS + 1);
    open_ledger(&check_runs, 1, 1);
    CHECK(bbp_check_sheet_read(sheet, len, list, 2, sums, 16) == -4, "Bellard's row 4 is read");
    CHECK(bbp_check_sheet_post(ledger, 208, sheet, len) == -4, "Bellard's row 4 is posted");
    len = write_rows(&bellard, (UINT64_C(1) << 59) + 1, 1, 0, 0);
    CHECK(bbp_check_sheet_read(sheet, len, list, 2, sums, 16) == -2, "a sheet of p = 2^59 + 1 is read");
    CHECK(bbp_check_sheet_post(ledger, 208, sheet, len) == -2, "a sheet of p = 2^59 + 1 is posted");
    CHECK(bbp_sheet_read(sheet, len, list, 2, sums, 16) == 0, "Bellard's sheet of p = 2^59 + 1 is not read");
}

/* Closes a run whose rows before `other` were worked by another kind. */
static int64_t close_run(const struct kind *kind, const struct kind *another, uint64_t other, uint64_t p, uint8_t *digits)
{
    open_ledger(kind, p, 3);
    size_t len = write_rows(another, p, 3, 0, other);
    CHECK(kind->sheet_post(ledger, kind->ledger_len, sheet, len) == 0, "the sheet of the first rows");
    len = write_rows(kind, p, 3, other, kind->rows);
    CHECK(kind->sheet_post(ledger, kind->ledger_len, sheet, len) == 0, "the sheet of the other rows");
    return kind->close(ledger, kind->ledger_len, digits, 32);
}

/* What a closing with sums of the other kind gives is refused beside Bellard's digits. */
static void other_digits(const struct kind *kind, const struct kind *another, uint64_t p, const uint8_t *digits, size_t d)
{
    uint8_t others[32];
    int64_t e = close_run(kind, another, SHARED_ROWS, p, others);
    CHECK(e >= COMPARED, "p %" PRIu64 ": %s closing with sums of the other kind", p, kind->name);
    CHECK(memcmp(digits, others, COMPARED) != 0, "p %" PRIu64 ": the right digits out of sums of the other kind", p);
    CHECK(bbp_overlap(digits, d, p, others, (size_t)e, p) == -12, "p %" PRIu64 ": wrong digits laid over the right ones", p);
}

/* Both kinds give the same digits, and a ledger with sums of the other kind gives others. */
static void compare_closings(uint64_t p)
{
    uint8_t digits[32], others[32], part[24];
    int64_t d = close_run(&bellard, &bellard, 0, p, digits), e = close_run(&check_runs, &check_runs, 0, p, others);
    CHECK(d >= COMPARED, "p %" PRIu64 ": Bellard's closing", p);
    CHECK(e >= COMPARED, "p %" PRIu64 ": the check closing", p);
    CHECK(memcmp(digits, others, COMPARED) == 0, "p %" PRIu64 ": the closings differ", p);
    CHECK(bbp_overlap_part(digits, (size_t)d, p, others, (size_t)e, p, part, 24) == 0, "p %" PRIu64 ": one over the other", p);
    CHECK(ref_load(part + 16, 8) == (uint64_t)(d > e ? d : e), "p %" PRIu64 ": the part is not the longer closing", p);
    other_digits(&bellard, &check_runs, p, digits, (size_t)d);
    other_digits(&check_runs, &bellard, p, digits, (size_t)d);
}

/* A run that had a digit less while terms with E below 0 were charged as well (document 02, slip 5). */
static void longer_closing(const struct kind *kind, uint64_t p, const char *wanted)
{
    uint8_t digits[32];
    int64_t d = (int64_t)strlen(wanted);
    CHECK(close_run(kind, kind, 0, p, digits) == d, "p %" PRIu64 ": %s closing: the answer", p, kind->name);
    CHECK(memcmp(digits, wanted, (size_t)d) == 0, "p %" PRIu64 ": %s closing: the digits", p, kind->name);
}

int main(int argc, char **argv)
{
    static const uint64_t positions[] = {1, 2, 3, 17, 1000}, counts[] = {1, 3, 256};
    start("kinds", argc, argv);
    for (int i = 0; i < 5; i++)
        for (int j = 0; j < 3; j++) {
            sheet_is_taken(&check_runs, &bellard, positions[i], counts[j]);
            sheet_is_taken(&bellard, &check_runs, positions[i], counts[j]);
        }
    sum_is_taken(&check_runs, &bellard);
    sum_is_taken(&bellard, &check_runs);
    for (int j = 0; j < 3; j++) {
        ledger_is_refused(&check_runs, &bellard, counts[j]);
        ledger_is_refused(&bellard, &check_runs, counts[j]);
    }
    beyond_check_runs();
    for (int i = 0; i < 5; i++)
        compare_closings(positions[i]);
    longer_closing(&bellard, 529, "2BA9C55D741831F6CE5C3E169B879");
    longer_closing(&check_runs, 117, "D5B5B54709179216D5D98979FB1BD");
    return finish();
}
