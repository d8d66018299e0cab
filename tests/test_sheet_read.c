/* sheet_read against the reference. */
#include "sheets.h"

#include <inttypes.h>
#include <stdlib.h>
#include <string.h>

enum { MORE = 100, LIST_ROOM = 2 * 65535 + MORE, SUMS_ROOM = 16 * 65535 + MORE };

static struct {
    struct sheet sheet;
    uint8_t list[LIST_ROOM], sums[SUMS_ROOM];
    size_t list_len, sums_len;
} t;

static void prepare(void)
{
    prepare_sheet(&t.sheet);
    t.list_len = 2 * t.sheet.e + (below(2) == 0 ? 0 : below(MORE));
    t.sums_len = 16 * t.sheet.e + (below(2) == 0 ? 0 : below(MORE));
}

/* Room for every count that a head can name. */
static int large_outputs(void)
{
    t.list_len = LIST_ROOM;
    t.sums_len = SUMS_ROOM;
    return UNSURE;
}

static int damage(int kind)
{
    size_t e = t.sheet.e;
    if (kind < SHEET_KINDS)
        return damage_sheet(&t.sheet, kind);
    switch (kind - SHEET_KINDS) {
    case 0: t.list_len = e > 0 ? 2 * e - 1 : 0; return e > 0 ? 1 : UNSURE;
    case 1: t.list_len = e > 0 ? below(2 * e) : 0; return e > 0 ? 1 : UNSURE;
    case 2: t.sums_len = e > 0 ? 16 * e - 1 : 0; return e > 0 ? 1 : UNSURE;
    case 3: t.sums_len = e > 0 ? below(16 * e) : 0; return e > 0 ? 1 : UNSURE;
    case 4: put(t.sheet.bytes + 10, 2, 65535 - below(2)); return t.list_len < 2 * 65534 ? 1 : UNSURE;
    default: return below(16) == 0 ? large_outputs() : UNSURE;
    }
}

static int64_t compare(void)
{
    const uint8_t *bytes = t.sheet.bytes;
    size_t len = t.sheet.len;
    met(ref_sheet_read_refusals(FORMULA, bytes, len, t.list_len, t.sums_len));
    uint8_t *sheet_copy = copy_of(bytes, len);
    uint8_t *wanted_list = copy_of(t.list, t.list_len), *wanted_sums = copy_of(t.sums, t.sums_len);
    int64_t wanted = ref_sheet_read(FORMULA, sheet_copy, len, wanted_list, t.list_len, wanted_sums, t.sums_len);
    const uint8_t *sheet = lend_input(0, bytes, len);
    uint8_t *list = lend(1, t.list, t.list_len), *sums = lend(2, t.sums, t.sums_len);
    int64_t answer = CALL(sheet_read)(sheet, len, list, t.list_len, sums, t.sums_len);
    CHECK(answer == wanted, "read a sheet of %zu with outputs of %zu and %zu: answer %" PRId64 ", not %" PRId64, len,
          t.list_len, t.sums_len, answer, wanted);
    expect_kept(0, "read, the sheet");
    expect(1, wanted_list, "read, the list");
    expect(2, wanted_sums, "read, the sums");
    free(sheet_copy);
    free(wanted_list);
    free(wanted_sums);
    return answer;
}

/* Reads with outputs for the count in the head and some tickets more, and with some bytes more. */
static int64_t read_into(size_t tickets, size_t bytes)
{
    size_t e = ref_load(t.sheet.bytes + 10, 2) + tickets;
    t.list_len = 2 * e + bytes;
    t.sums_len = 16 * e + bytes;
    return compare();
}

static void try_sheet_case(const struct sheet_case *one)
{
    int64_t wanted = one->number > 0 ? -one->number : (int64_t)one->form.e;
    make_sheet(&t.sheet, &one->form);
    for (size_t tickets = 0; tickets <= 2; tickets++)
        CHECK(read_into(tickets, 0) == wanted, "read %s, outputs for %zu tickets more", one->what, tickets);
    CHECK(read_into(0, 1) == wanted && read_into(0, MORE) == wanted, "read %s, longer outputs", one->what);
}

static void every_size_below_a_head(void)
{
    struct sheet_form none = {1, 1, 0, 16, UNPATCHED};
    make_sheet(&t.sheet, &none);
    for (t.sheet.len = 0; t.sheet.len < 16; t.sheet.len++)
        CHECK(read_into(0, 0) == -1, "a sheet of %zu bytes", t.sheet.len);
}

#define LONGEST {1, 256, TICKETS, SHEET_MAX, UNPATCHED}

/* Sheets with outputs of other sizes than they take. */
static const struct {
    const char *what;
    int64_t answer;
    struct sheet_form form;
    size_t list_len, sums_len;
} output_cases[] = {
    {"e 2, list of 3 bytes", -1, {1, 1, 2, 56, UNPATCHED}, 3, 32},
    {"e 2, sums of 31 bytes", -1, {1, 1, 2, 56, UNPATCHED}, 4, 31},
    {"e 2, list of 3 bytes, C 0", -1, {1, 0, 2, 56, {{16, 8, 0}}}, 3, 32},
    {"e 2, exact outputs", 2, {1, 1, 2, 56, UNPATCHED}, 4, 32},
    {"C 1, all tickets, a byte less for the list", -1, {1, 1, ROWS, SHEET_SIZE(ROWS), UNPATCHED}, 2 * ROWS - 1, 16 * ROWS},
    {"C 1, all tickets, a byte less for the sums", -1, {1, 1, ROWS, SHEET_SIZE(ROWS), UNPATCHED}, 2 * ROWS, 16 * ROWS - 1},
    {"longest sheet, a byte less for the list", -1, LONGEST, LIST_MAX - 1, 16 * TICKETS},
    {"longest sheet, a byte less for the sums", -1, LONGEST, LIST_MAX, 16 * TICKETS - 1},
    {"longest sheet, a byte more for each", TICKETS, LONGEST, LIST_MAX + 1, 16 * TICKETS + 1},
    {"e 65,535, small outputs", -1, {1, 256, 0, 16, {{10, 2, 65535}}}, 4, 32},
    {"e 65,535, list of one byte less", -1, {1, 256, 0, 16, {{10, 2, 65535}}}, 131069, 1048560},
    {"e 65,535, sums of one byte less", -1, {1, 256, 0, 16, {{10, 2, 65535}}}, 131070, 1048559},
    {"e 65,535, no sums, p 0", -1, {0, 1, 0, 16, {{10, 2, 65535}}}, 131070, 0},
};

static void try_output_cases(void)
{
    for (size_t i = 0; i < sizeof output_cases / sizeof output_cases[0]; i++) {
        make_sheet(&t.sheet, &output_cases[i].form);
        t.list_len = output_cases[i].list_len;
        t.sums_len = output_cases[i].sums_len;
        CHECK(compare() == output_cases[i].answer, "read %s", output_cases[i].what);
    }
}

static void null_examples(void)
{
    struct sheet_form none = {1, 1, 0, 16, UNPATCHED};
    make_sheet(&t.sheet, &none);
    CHECK(CALL(sheet_read)(t.sheet.bytes, 16, NULL, 0, NULL, 0) == 0, "a sheet of no ticket, no outputs");
    CHECK(CALL(sheet_read)(NULL, 0, NULL, 0, NULL, 0) == -1, "an empty sheet");
}

/* Outputs have no greatest size. */
static void huge_examples(void)
{
    uint8_t list[4], sums[32], outputs[112];
    struct sheet_form two = {1, 1, 2, 56, UNPATCHED};
    CHECK(CALL(sheet_read)(lend_huge(), huge_length(16), outputs, 14, outputs + 14, 98) == -1, "a sheet of 2^32 + 16 bytes");
    expect_huge_kept();
    make_sheet(&t.sheet, &two);
    CHECK(ref_sheet_read(FORMULA, t.sheet.bytes, 56, list, 4, sums, 32) == 2, "the reference refuses a sheet");
    CHECK(CALL(sheet_read)(t.sheet.bytes, 56, lend_huge(), huge_length(3), outputs, 32) == 2, "a list of 2^32 + 3 bytes");
    expect_huge(list, 4);
    CHECK(CALL(sheet_read)(t.sheet.bytes, 56, outputs, 4, lend_huge(), huge_length(31)) == 2, "sums of 2^32 + 31 bytes");
    expect_huge(sums, 32);
}

static void every_count(void)
{
    for (size_t e = 0; e <= TICKETS; e++) {
        struct sheet_form form = {any_position(), 256, e, SHEET_SIZE(e), UNPATCHED};
        make_sheet(&t.sheet, &form);
        CHECK(read_into(0, 0) == (int64_t)e, "the first %zu tickets of C = 256", e);
    }
}

/* Ascending and of its length, with one block more in each row than the run has. */
static void more_than_the_run_has(void)
{
    for (uint64_t c = 1; c < 256; c++) {
        sheet_of_blocks(&t.sheet, c + 1, c);
        CHECK(read_into(0, 0) == -4, "a sheet of %" PRIu64 " blocks a row for C = %" PRIu64, c + 1, c);
    }
}

int main(int argc, char **argv)
{
    static const struct suite suite = {prepare, damage, SHEET_KINDS + 6, compare};
    start("sheet_read", argc, argv);
    any_bytes(t.list, LIST_ROOM);
    any_bytes(t.sums, SUMS_ROOM);
    for (size_t i = 0; i < sheet_case_count; i++)
        try_sheet_case(&sheet_cases[i]);
    every_size_below_a_head();
    try_output_cases();
    null_examples();
    huge_examples();
    every_count();
    more_than_the_run_has();
    run_suite(&suite);
    require_met("1 2 3 4 1+2 1+3 1+4 2+3 2+4 3+4");
    return finish();
}
