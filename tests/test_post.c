/* post against the reference. */
#include "entries.h"

#include <inttypes.h>
#include <stdlib.h>
#include <string.h>

static struct entry t;
static uint8_t sum[96];
static size_t sum_len;

static void lend_sum(void)
{
    any_bytes(sum, sizeof sum);
    put_sum(sum, any_sum());
    sum_len = 16;
}

static void prepare(void)
{
    prepare_entry(&t);
    lend_sum();
}

static int damage(int kind)
{
    switch (kind - ENTRY_KINDS) {
    case 0: sum_len = wrong_size(16); return 1;
    case 1: sum_len = 0; return 1;
    case 2: return mark_entry(&t);
    default: return damage_entry(&t, kind);
    }
}

/* The call against the reference. The ledger is left as the call leaves it, for a next one. */
static int64_t compare(void)
{
    met(ref_post_refusals(FORMULA, t.ledger, t.ledger_len, t.p, t.c, t.row, t.block, sum_len));
    uint8_t *wanted = copy_of(t.ledger, t.ledger_len), *wanted_sum = copy_of(sum, sum_len);
    int64_t wanted_answer = ref_post(FORMULA, wanted, t.ledger_len, t.p, t.c, t.row, t.block, wanted_sum, sum_len);
    uint8_t *ledger = lend(0, t.ledger, t.ledger_len);
    const uint8_t *lent_sum = lend_input(1, sum, sum_len);
    int64_t answer = CALL(post)(ledger, t.ledger_len, t.p, t.c, t.row, t.block, lent_sum, sum_len);
    CHECK(answer == wanted_answer,
          "post p %" PRIu64 " C %" PRIu64 " row %" PRIu64 " block %" PRIu64 " lengths %zu %zu: answer %" PRId64
          ", not %" PRId64,
          t.p, t.c, t.row, t.block, t.ledger_len, sum_len, answer, wanted_answer);
    expect(0, wanted, "post, the ledger");
    expect_kept(1, "post, the sum");
    if (t.ledger_len > 0)
        memcpy(t.ledger, wanted, t.ledger_len);
    free(wanted);
    free(wanted_sum);
    return answer;
}

/* Every ticket of a run at every kind of block count, onto a ledger that fills. */
static void every_ticket(uint64_t c)
{
    prepare();
    t.c = c;
    memset(t.ledger, 0, LEDGER_SIZE);
    put(t.ledger, 8, t.p);
    put(t.ledger + 8, 2, c);
    for (t.row = 0; t.row < ROWS; t.row++)
        for (t.block = 0; t.block < c; t.block++) {
            put_sum(sum, any_sum());
            CHECK(compare() == 0, "a ticket that is not marked is refused");
            CHECK(compare() == -7, "a ticket that is marked is taken");
        }
}

/* A row's sum, the sum that is posted to the row, and the row's sum after that. */
static const struct {
    const char *what;
    ref_u128 before, posted, after;
} additions[] = {
    {"0 and 1", 0, 1, 1},
    {"0 and 2^128 - 1", 0, SUM(UINT64_MAX, UINT64_MAX), SUM(UINT64_MAX, UINT64_MAX)},
    {"2^64 - 1 and 1", UINT64_MAX, 1, SUM(1, 0)},
    {"a carry from the lower words to the upper", SUM(4, UINT64_MAX), SUM(5, 1), SUM(10, 0)},
    {"2^128 - 1 and 1", SUM(UINT64_MAX, UINT64_MAX), 1, 0},
    {"2^128 - 1 twice", SUM(UINT64_MAX, UINT64_MAX), SUM(UINT64_MAX, UINT64_MAX), SUM(UINT64_MAX, UINT64_MAX - 1)},
    {"2^127 twice", SUM(UINT64_C(1) << 63, 0), SUM(UINT64_C(1) << 63, 0), 0},
};

/* One addition in one row: its sum and the ticket's mark are changed, and no other byte, whatever the others hold. */
static void add_to_row(size_t i, uint64_t row, const ref_u128 *others)
{
    uint8_t wanted[LEDGER_SIZE];
    prepare();
    any_ledger(t.ledger, t.p, t.c, 0);
    for (uint64_t other = 0; others != NULL && other < ROWS; other++)
        set_row_sum(t.ledger, other, *others);
    t.row = row;
    set_row_sum(t.ledger, row, additions[i].before);
    put_sum(sum, additions[i].posted);
    memcpy(wanted, t.ledger, sizeof wanted);
    set_row_sum(wanted, row, additions[i].after);
    set_mark(wanted, row, t.block, 1);
    CHECK(compare() == 0, "row %" PRIu64 ", %s: refused", row, additions[i].what);
    CHECK(memcmp(t.ledger, wanted, sizeof wanted) == 0, "row %" PRIu64 ": %s", row, additions[i].what);
}

static void every_addition(void)
{
    static const ref_u128 zero = 0, ones = SUM(UINT64_MAX, UINT64_MAX);
    for (size_t i = 0; i < sizeof additions / sizeof additions[0]; i++)
        for (uint64_t row = 0; row < ROWS; row++) {
            add_to_row(i, row, &zero);
            add_to_row(i, row, &ones);
            add_to_row(i, row, NULL);
        }
}

static void try_cases(void)
{
    for (size_t i = 0; i < entry_case_count; i++) {
        make_entry(&t, &entry_cases[i]);
        lend_sum();
        sum_len = entry_cases[i].sum_len;
        CHECK(compare() == -entry_cases[i].number, "post: %s", entry_cases[i].what);
    }
}

/* One ledger, post after post. A sum of 255s is -1, so the sum of row 0 wraps. */
static void post_after_post(void)
{
    static const struct { uint64_t row, block; uint8_t byte; int64_t answer; } posts[] = {
        {0, 0, 3, 0}, {0, 0, 3, -7}, {0, 0, 255, -7}, {LAST_ROW, 255, 255, 0}, {LAST_ROW, 255, 255, -7},
        {0, 255, 255, 0}, {1, 0, 3, 0},
    };
    struct ledger_form fresh = {LEDGER_SIZE, 1, 256, 0, UNPATCHED};
    prepare();
    make_ledger(t.ledger, &fresh);
    t.p = 1, t.c = 256;
    for (size_t i = 0; i < sizeof posts / sizeof posts[0]; i++) {
        t.row = posts[i].row, t.block = posts[i].block;
        memset(sum, posts[i].byte, 16);
        CHECK(compare() == posts[i].answer, "post %zu of one ledger", i);
    }
}

static void plain_examples(void)
{
    uint8_t ledger[LEDGER_SIZE] = {1, [8] = 1}, five[16] = {5};
    CHECK(CALL(post)(ledger, LEDGER_SIZE, 1, 1, 0, 0, five, 16) == 0, "row 0, block 0");
    CHECK(ledger[16] == 5 && ledger[MARKS_AT(0)] == 1, "the sum and the mark of row 0, block 0");
    CHECK(CALL(post)(ledger, LEDGER_SIZE, 1, 1, LAST_ROW, 0, five, 16) == 0, "last row, block 0");
    CHECK(ledger[SUM_AT(LAST_ROW)] == 5 && ledger[LEDGER_SIZE - 32] == 1, "the sum and the mark of the last row, block 0");
    CHECK(ledger[16] == 5, "the sum of row 0 after a post to the last row");
    CHECK(CALL(post)(NULL, 0, 1, 1, 0, 0, five, 16) == -1, "an empty ledger");
    CHECK(CALL(post)(ledger, LEDGER_SIZE, 1, 1, 1, 0, NULL, 0) == -1, "an empty sum");
    CHECK(CALL(post)(lend_huge(), huge_length(LEDGER_SIZE), 1, 1, 0, 0, five, 16) == -1, "a ledger with 2^32 bytes more");
    CHECK(CALL(post)(ledger, LEDGER_SIZE, 1, 1, 1, 0, lend_huge(), huge_length(16)) == -1, "a sum of 2^32 + 16 bytes");
    expect_huge_kept();
}

int main(int argc, char **argv)
{
    static const struct suite suite = {prepare, damage, ENTRY_KINDS + 3, compare};
    static const uint64_t counts[] = {1, 7, 8, 9, 255, 256};
    start("post", argc, argv);
    try_cases();
    post_after_post();
    plain_examples();
    every_ledger_size(prepare, compare, &t.ledger_len, 0);
    every_addition();
    for (int i = 0; i < 6; i++)
        every_ticket(counts[i]);
    run_suite(&suite);
    require_met("1 2 4 5 6 7 1+2 1+4 1+5 1+6 1+7 2+4 2+5 2+6 2+7 4+5 4+6 4+7 5+6 5+7 6+7");
    return finish();
}
