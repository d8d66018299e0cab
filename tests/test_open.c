/* open against the reference. */
#include "common.h"

#include <inttypes.h>
#include <stdlib.h>
#include <string.h>

static struct {
    uint64_t p, c;
    uint8_t ledger[LEDGER_ROOM]; /* what is there before the call */
    size_t ledger_len;
} t;

static void prepare(void)
{
    any_bytes(t.ledger, sizeof t.ledger);
    t.p = any_position();
    t.c = any_blocks();
    t.ledger_len = LEDGER_SIZE;
}

static int damage(int kind)
{
    switch (kind) {
    case 0: t.ledger_len = wrong_ledger_size(); return 1;
    case 1: t.ledger_len = 0; return 1;
    case 2: t.ledger_len = OTHER_LEDGER_SIZE; return 1;
    case 3: t.p = bad_position(); return 2;
    default: t.c = bad_blocks(); return 2;
    }
}

static int64_t compare(void)
{
    met(ref_open_refusals(FORMULA, t.p, t.c, t.ledger_len));
    uint8_t *wanted = copy_of(t.ledger, t.ledger_len);
    int64_t wanted_answer = ref_open(FORMULA, t.p, t.c, wanted, t.ledger_len);
    uint8_t *ledger = lend(0, t.ledger, t.ledger_len);
    int64_t answer = CALL(open)(t.p, t.c, ledger, t.ledger_len);
    CHECK(answer == wanted_answer, "open p %" PRIu64 " C %" PRIu64 " length %zu: answer %" PRId64 ", not %" PRId64, t.p,
          t.c, t.ledger_len, answer, wanted_answer);
    expect(0, wanted, "open, the ledger");
    free(wanted);
    return answer;
}

static void every_block_count(void)
{
    for (uint64_t c = 0; c < 600; c++) {
        prepare();
        t.c = c;
        CHECK((compare() == 0) == (c >= 1 && c <= 256), "C = %" PRIu64, c);
    }
}

static const struct {
    const char *what;
    int64_t answer;
    uint64_t p, c;
    size_t ledger_len;
} cases[] = {
    {"ledger of 256 bytes, as version 1.0.0 had it", -1, 1, 1, 256},
    {"ledger of the other kind's size", -1, 1, 1, OTHER_LEDGER_SIZE},
    {"ledger of a byte less", -1, 1, 1, LEDGER_SIZE - 1},
    {"ledger of a byte more", -1, 1, 1, LEDGER_SIZE + 1},
    {"ledger of 256 bytes, p 0", -1, 0, 1, 256},
    {"ledger of a byte less, p 0", -1, 0, 1, LEDGER_SIZE - 1},
    {"ledger of a byte more, C 257", -1, 1, 257, LEDGER_SIZE + 1},
    {"ledger of the other kind's size, p twice the last", -1, 2 * LAST_POSITION, 1, OTHER_LEDGER_SIZE},
    {"p 0", -2, 0, 1, LEDGER_SIZE},
    {"p one above the last", -2, LAST_POSITION + 1, 1, LEDGER_SIZE},
    {"p twice the last", -2, 2 * LAST_POSITION, 1, LEDGER_SIZE},
    {"p 2^64 - 1", -2, UINT64_MAX, 1, LEDGER_SIZE},
    {"C 0", -2, 1, 0, LEDGER_SIZE},
    {"C 257", -2, 1, 257, LEDGER_SIZE},
    {"C 65,537", -2, 1, 65537, LEDGER_SIZE},
    {"p 1, C 1", 0, 1, 1, LEDGER_SIZE},
    {"p 1, C 3", 0, 1, 3, LEDGER_SIZE},
    {"last p, C 256", 0, LAST_POSITION, 256, LEDGER_SIZE},
};

static void try_cases(void)
{
    for (size_t i = 0; i < sizeof cases / sizeof cases[0]; i++) {
        prepare();
        t.p = cases[i].p, t.c = cases[i].c, t.ledger_len = cases[i].ledger_len;
        CHECK(compare() == cases[i].answer, "open: %s", cases[i].what);
    }
}

/* Opening over zeros, over a ledger as opening leaves it, and over one with every ticket marked. */
static void open_over_ledgers(void)
{
    static const struct ledger_form before[] = {
        {LEDGER_SIZE, 0, 0, 0, UNPATCHED},
        {LEDGER_SIZE, 2, 3, 0, UNPATCHED},
        {LEDGER_SIZE, LAST_POSITION, 256, 1, UNPATCHED},
    };
    for (int i = 0; i < 3; i++) {
        t.p = 2, t.c = 3, t.ledger_len = before[i].len;
        make_ledger(t.ledger, &before[i]);
        CHECK(compare() == 0, "opening over a ledger");
    }
}

/* Opening over one sum that is not 0, each in turn: p, C and zeros are left. */
static void open_over_each_sum(void)
{
    uint8_t fresh[LEDGER_SIZE] = {2, [8] = 3}, ledger[LEDGER_SIZE] = {0};
    for (uint64_t row = 0; row < ROWS; row++) {
        memset(ledger + SUM_AT(row), 0xFF, 16);
        CHECK(CALL(open)(2, 3, ledger, sizeof ledger) == 0, "opening over a sum of row %" PRIu64, row);
        CHECK(memcmp(ledger, fresh, sizeof ledger) == 0, "opening over a sum of row %" PRIu64 " leaves a byte", row);
    }
}

static void null_and_huge_examples(void)
{
    CHECK(CALL(open)(1, 1, NULL, 0) == -1, "an empty ledger");
    CHECK(CALL(open)(1, 1, lend_huge(), huge_length(LEDGER_SIZE)) == -1, "a ledger with 2^32 bytes more");
    expect_huge_kept();
}

int main(int argc, char **argv)
{
    static const struct suite suite = {prepare, damage, 5, compare};
    start("open", argc, argv);
    try_cases();
    open_over_ledgers();
    open_over_each_sum();
    null_and_huge_examples();
    every_block_count();
    every_ledger_size(prepare, compare, &t.ledger_len, 0);
    run_suite(&suite);
    require_met("1 2 1+2");
    return finish();
}
