#include "working.h"

#include <inttypes.h>
#include <stdlib.h>
#include <string.h>

struct arguments tried;

/* The number of slices that the calls in hand are lent. */
static int lent;

static void prepare(void)
{
    int far = below(16) == 0;
    tried.p = any_position_upto(far ? 300000 : 2000);
    tried.c = far ? 250 + below(7) : any_blocks();
    tried.row = below(ROWS);
    tried.block = below(8) == 0 ? tried.c - 1 : below(tried.c);
    tried.len[0] = tried.len[1] = 16;
}

/* Kinds 9 and 10 are for a second slice. */
static int damage(int kind)
{
    switch (kind) {
    case 0: tried.len[0] = wrong_size(16); return 1;
    case 1: tried.len[0] = 0; return 1;
    case 2: tried.p = bad_position(); return 2;
    case 3: tried.c = bad_blocks(); return 2;
    case 4: tried.row = ROWS; return 4;
    case 5: tried.row = wide_number(below(ROWS)); return 4;
    case 6: tried.block = tried.c; return 4;
    case 7: tried.block = wide_number(below(256)); return 4;
    case 8: tried.block = UINT64_MAX - below(2); return 4;
    case 9: tried.len[1] = wrong_size(16); return 1;
    default: tried.len[1] = 0; return 1;
    }
}

/* The comparison in hand, which counts the refusals that apply. */
static int64_t (*compare_tried)(void);

static int64_t compare(void)
{
    met(ref_work_refusals(FORMULA, tried.p, tried.c, tried.row, tried.block, tried.len[0], tried.len[1]));
    return compare_tried();
}

static void compare_ticket(uint64_t p, uint64_t c, uint64_t row, uint64_t block)
{
    tried = (struct arguments){p, c, row, block, {16, 16}};
    CHECK(compare() == 0, "p %" PRIu64 " C %" PRIu64 " row %" PRIu64 " block %" PRIu64 " is refused", p, c, row, block);
}

/*
 * Every block of every row at the smallest positions: E at its corners, N = 1,
 * N = 7, empty blocks, blocks of one term and of two. At p = 1 a row has 14
 * terms, in a check run 33.
 */
static void small_runs(void)
{
    static const uint64_t counts[] = {1, 3, 7, 14, 15, 33, 34, 255, 256};
    for (uint64_t p = 1; p <= 40; p++)
        for (uint64_t row = 0; row < ROWS; row++)
            for (size_t i = 0; i < sizeof counts / sizeof counts[0]; i++)
                for (uint64_t block = 0; block < counts[i]; block += p < 4 || counts[i] < 20 ? 1 : 1 + below(40))
                    compare_ticket(p, counts[i], row, block);
}

/* Rows on both sides of the last of either kind. */
static void every_row(void)
{
    for (uint64_t row = 0; row < 12; row++) {
        tried = (struct arguments){1, 1, row, 0, {16, 16}};
        CHECK(compare() == (row < ROWS ? 0 : -4), "row %" PRIu64, row);
    }
}

/*
 * Short ranges, on both sides of the terms at which the bit length of E - 64
 * changes: ranges with eight neighbouring terms that go together, and without.
 */
static void short_ranges(void)
{
    for (int i = 0; i < 60; i++) {
        uint64_t p = 200 + below(20000), c = 16 + below(241), row = below(ROWS);
        for (uint64_t block = 0; block < c; block += 1 + below(3))
            compare_ticket(p, c, row, block);
    }
}

static void far_tickets(void)
{
    for (uint64_t row = 0; row < ROWS; row++) {
        compare_ticket(1000000, 256, row, below(256));
        compare_ticket(1000000, 256, row, 255);
        compare_ticket(999999, 255, row, 0);
    }
}

/* Each is tried with `len` bytes in every choice of slices, and 16 in the others. */
static const struct {
    const char *what;
    int64_t answer;
    uint64_t p, c, row, block;
    size_t len;
} cases[] = {
    {"slice of 0 bytes", -1, 1, 1, 0, 0, 0},
    {"slice of 8 bytes", -1, 1, 1, 0, 0, 8},
    {"slice of 15 bytes", -1, 1, 1, 0, 0, 15},
    {"slice of 17 bytes", -1, 1, 1, 0, 0, 17},
    {"slice of 32 bytes", -1, 1, 1, 0, 0, 32},
    {"slice of 15 bytes, p 0", -1, 0, 1, 0, 0, 15},
    {"slice of 17 bytes, row above the last", -1, 1, 1, ROWS, 0, 17},
    {"slice of 0 bytes, C 257, block 257", -1, 1, 257, 0, 257, 0},
    {"p 0", -2, 0, 1, 0, 0, 16},
    {"p one above the last", -2, LAST_POSITION + 1, 1, 0, 0, 16},
    {"p twice the last", -2, 2 * LAST_POSITION, 1, 0, 0, 16},
    {"p 2^64 - 1", -2, UINT64_MAX, 1, 0, 0, 16},
    {"C 0", -2, 1, 0, 0, 0, 16},
    {"C 257", -2, 1, 257, 0, 0, 16},
    {"C 65,537", -2, 1, 65537, 0, 0, 16},
    {"p 0, row above the last", -2, 0, 1, ROWS, 0, 16},
    {"C 257, block 257", -2, 1, 257, 0, 257, 16},
    {"C 1, block 1", -4, 1, 1, 0, 1, 16},
    {"C 256, block 256", -4, 1, 256, LAST_ROW, 256, 16},
    {"row above the last", -4, 1, 1, ROWS, 0, 16},
    {"row 256", -4, 1, 1, 256, 0, 16},
    {"row 2^64 - 1", -4, 1, 1, UINT64_MAX, 0, 16},
    {"block 2^32", -4, 1, 1, 0, UINT64_C(1) << 32, 16},
    {"last p, row above the last", -4, LAST_POSITION, 256, ROWS, 0, 16},
    {"last p, row above the last, block 255", -4, LAST_POSITION, 256, ROWS, 255, 16},
    {"last p, block 256", -4, LAST_POSITION, 256, 0, 256, 16},
    {"last p, last row, block 256", -4, LAST_POSITION, 256, LAST_ROW, 256, 16},
    {"p 1, C 1, row 0", 0, 1, 1, 0, 0, 16},
    {"p 2, C 1, last row", 0, 2, 1, LAST_ROW, 0, 16},
    {"p 1, C 256, last row, block 255", 0, 1, 256, LAST_ROW, 255, 16},
};

static void try_cases(void)
{
    for (size_t i = 0; i < sizeof cases / sizeof cases[0]; i++)
        for (int chosen = 1; chosen < 1 << lent; chosen++) {
            tried = (struct arguments){cases[i].p, cases[i].c, cases[i].row, cases[i].block, {16, 16}};
            for (int slice = 0; slice < lent; slice++)
                if (chosen >> slice & 1)
                    tried.len[slice] = cases[i].len;
            CHECK(compare() == cases[i].answer, "%s", cases[i].what);
        }
}

/* Every combination of sizes up to twice the right one: of a ticket that is not refused, and with 2, with 4, with both. */
static void every_size(void)
{
    static const struct arguments tickets[] = {{1, 1, 0, 0, {16, 16}}, {0, 1, 0, 0, {16, 16}}, {1, 1, ROWS, 0, {16, 16}},
                                               {0, 1, 0, 1, {16, 16}}};
    static const int64_t answers[] = {0, -2, -4, -2};
    for (int i = 0; i < 4; i++)
        for (size_t first = 0; first <= 32; first++)
            for (size_t second = lent == TO_WORK ? 0 : 16; second <= (lent == TO_WORK ? 32 : 16); second++) {
                tried = tickets[i];
                tried.len[0] = first;
                tried.len[1] = second;
                CHECK(compare() == (first == 16 && second == 16 ? answers[i] : -1), "slices of %zu and %zu bytes", first, second);
            }
}

void try_tickets(int slices, int64_t (*compare_case)(void))
{
    const struct suite suite = {prepare, damage, slices == TO_WORK ? 11 : 9, compare};
    compare_tried = compare_case;
    lent = slices;
    try_cases();
    every_size();
    every_row();
    small_runs();
    short_ranges();
    far_tickets();
    run_suite(&suite);
    require_met("1 2 4 1+2 1+4 2+4");
}

/* One call. */

static struct working tested;

static int64_t compare_with_reference(void)
{
    const size_t *len = tried.len;
    uint8_t found[96], found_squarings[96];
    any_bytes(found, sizeof found);
    any_bytes(found_squarings, sizeof found_squarings);
    uint8_t *wanted = copy_of(found, len[0]), *wanted_squarings = copy_of(found_squarings, len[1]);
    int64_t wanted_answer = tested.reference(FORMULA, tried.p, tried.c, tried.row, tried.block, wanted, len[0],
                                             wanted_squarings, len[1]);
    uint8_t *sum = lend(0, found, len[0]), *squarings = lend(1, found_squarings, len[1]);
    int64_t answer = tested.engine(tried.p, tried.c, tried.row, tried.block, sum, len[0], squarings, len[1]);
    CHECK(answer == wanted_answer,
          "p %" PRIu64 " C %" PRIu64 " row %" PRIu64 " block %" PRIu64 " lengths %zu, %zu: answer %" PRId64 ", not %" PRId64,
          tried.p, tried.c, tried.row, tried.block, len[0], len[1], answer, wanted_answer);
    expect(0, wanted, "the sum");
    expect(1, wanted_squarings, "the squarings");
    free(wanted);
    free(wanted_squarings);
    return answer;
}

/* A sum or squarings of that length, beside 16 bytes for the other, are refused, and the other is not written. */
static void refused_length(uint8_t *at, size_t len, const char *what)
{
    uint8_t other[16], kept[16];
    any_bytes(other, 16);
    memcpy(kept, other, 16);
    CHECK(tested.engine(1, 1, 0, 0, at, len, other, 16) == -1, "a sum of %s bytes", what);
    CHECK(tested.engine(1, 1, 0, 0, other, 16, at, len) == -1, "squarings of %s bytes", what);
    CHECK(memcmp(other, kept, 16) == 0, "the slice beside one of %s bytes is changed", what);
}

static void null_and_huge_examples(void)
{
    CHECK(tested.engine(1, 1, 0, 0, NULL, 0, NULL, 0) == -1, "an empty sum and empty squarings");
    refused_length(NULL, 0, "no");
    refused_length(lend_huge(), huge_length(16), "2^32 + 16");
    expect_huge_kept();
}

static void work_at_the_last_position(void)
{
    uint8_t sum[16], squarings[16];
    tested.engine(LAST_POSITION, 256, 0, WRAPPING_BLOCK, sum, 16, squarings, 16);
}

int test_working(const struct working *call, int argc, char **argv)
{
    tested = *call;
    start(call->name, argc, argv);
    null_and_huge_examples();
    try_tickets(TO_WORK, compare_with_reference);
    CHECK(still_working(work_at_the_last_position), "block %d of C = 256 at the last p comes back at once", WRAPPING_BLOCK);
    return finish();
}
