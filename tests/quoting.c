#include "quoting.h"
#include "vectors.h"

#include <inttypes.h>
#include <stdlib.h>

/* The least squarings of a term with E of 128 or more, and the most of a term at the last position. */
enum { LEAST = 6, MOST = OF_KIND(62, 61) };

static struct quoting tested;

static ref_range terms_tried(void)
{
    return tested.terms(FORMULA, tried.p, tried.c, tried.block);
}

/* A quote is the reference's, and at most 62 times the number of terms. */
static int64_t compare_with_reference(void)
{
    size_t len = tried.len[0];
    uint8_t found[96];
    any_bytes(found, sizeof found);
    uint8_t *wanted = copy_of(found, len);
    int64_t wanted_answer = tested.reference(FORMULA, tried.p, tried.c, tried.row, tried.block, wanted, len);
    uint8_t *squarings = lend(0, found, len);
    int64_t answer = tested.engine(tried.p, tried.c, tried.row, tried.block, squarings, len);
    CHECK(answer == wanted_answer,
          "p %" PRIu64 " C %" PRIu64 " row %" PRIu64 " block %" PRIu64 " length %zu: answer %" PRId64 ", not %" PRId64,
          tried.p, tried.c, tried.row, tried.block, len, answer, wanted_answer);
    expect(0, wanted, "the squarings");
    free(wanted);
    if (answer == 0)
        CHECK(ref_load_sum(squarings) <= (ref_u128)62 * (terms_tried().end - terms_tried().first),
              "p %" PRIu64 " C %" PRIu64 " row %" PRIu64 " block %" PRIu64 ": more than 62 for each term", tried.p, tried.c,
              tried.row, tried.block);
    return answer;
}

/* And it is what working hands back. */
static int64_t compare_with_work(void)
{
    uint8_t quoted[16], sum[16], made[16];
    int64_t answer = compare_with_reference();
    if (answer != 0)
        return answer;
    tested.engine(tried.p, tried.c, tried.row, tried.block, quoted, 16);
    CHECK(tested.work(tried.p, tried.c, tried.row, tried.block, sum, 16, made, 16) == 0, "working is refused");
    CHECK(ref_load_sum(made) == ref_load_sum(quoted),
          "p %" PRIu64 " C %" PRIu64 " row %" PRIu64 " block %" PRIu64 ": working does not take what is quoted", tried.p, tried.c,
          tried.row, tried.block);
    return answer;
}

static void null_and_huge_examples(void)
{
    CHECK(tested.engine(1, 1, 0, 0, NULL, 0) == -1, "empty squarings");
    CHECK(tested.engine(1, 1, 0, 0, lend_huge(), huge_length(16)) == -1, "squarings of 2^32 + 16 bytes");
    expect_huge_kept();
}

static void quote_at_the_last_position(void)
{
    uint8_t squarings[16];
    tested.engine(LAST_POSITION, 1, 0, 0, squarings, 16);
}

static void compare_far(uint64_t p, uint64_t c, uint64_t row, uint64_t block)
{
    tried = (struct arguments){p, c, row, block, {16, 16}};
    CHECK(compare_with_reference() == 0, "p %" PRIu64 " C %" PRIu64 " row %" PRIu64 " block %" PRIu64 " is refused", p, c, row,
          block);
}

static void random_quotes(void)
{
    for (uint64_t i = 0; i < 4 * case_count(); i++) {
        uint64_t c = any_blocks();
        compare_far(any_position(), c, below(ROWS), below(8) == 0 ? c - 1 : below(c));
    }
}

/* How many quotes were met whose first term, or last, has E = 2^s + 64 or one less: there a term takes s, or one less. */
static struct {
    uint64_t first, first_below, last, last_below;
} met_at[MOST + 1];

static void count_edge(int s)
{
    int64_t edge = ((int64_t)1 << s) + 64;
    ref_range terms = terms_tried();
    if (terms.first == terms.end)
        return;
    int64_t first = ref_term_exponent(FORMULA, tried.p, tried.row, terms.first);
    int64_t last = ref_term_exponent(FORMULA, tried.p, tried.row, terms.end - 1);
    met_at[s].first += first == edge;
    met_at[s].first_below += first == edge - 1;
    met_at[s].last += last == edge;
    met_at[s].last_below += last == edge - 1;
}

/* A position at which E is about 2^s + 64 at the place `at` of 2c in a row: there a block starts, or is cut. */
static uint64_t position_of_edge(int s, uint64_t c, uint64_t at)
{
    ref_u128 first = (((ref_u128)1 << s) + 64) * 2 * c / (2 * c - at);
    return first < 130 ? 1 : (uint64_t)((first - 130) / 4) + 1;
}

static void edges_at(int s, uint64_t c, uint64_t at)
{
    uint64_t middle = position_of_edge(s, c, at), block = at / 2;
    for (uint64_t p = middle > 8 ? middle - 8 : 1; p <= middle + 8 && p <= LAST_POSITION; p++)
        for (uint64_t row = 0; row < ROWS; row++)
            for (uint64_t i = block > 0 ? block - 1 : 0; i <= block; i++) {
                compare_far(p, c, row, i);
                count_edge(s);
            }
}

/* The most squarings are left out: only the first terms of a row take them, and no upper half starts there. */
static void require_edges(void)
{
    for (int s = LEAST; s < MOST; s++)
        CHECK(met_at[s].first > 0 && met_at[s].first_below > 0 && met_at[s].last > 0 && met_at[s].last_below > 0,
              "E about 2^%d + 64: %" PRIu64 " and %" PRIu64 " first terms, %" PRIu64 " and %" PRIu64 " last ones", s,
              met_at[s].first, met_at[s].first_below, met_at[s].last, met_at[s].last_below);
}

static void edges(void)
{
    static const struct {
        uint64_t c, at;
    } places[] = {{1, 0}, {1, 1}, {2, 2}, {3, 3}, {256, 2}, {256, 255}};
    for (int s = LEAST; s <= MOST; s++)
        for (size_t i = 0; i < sizeof places / sizeof places[0]; i++)
            edges_at(s, places[i].c, places[i].at);
    require_edges();
}

void try_quotes(const struct quoting *call, int argc, char **argv)
{
    tested = *call;
    start(call->name, argc, argv);
    CHECK(!still_working(quote_at_the_last_position), "a quote at the last p is at work for a tenth of a second");
    null_and_huge_examples();
    try_tickets(TO_QUOTE, compare_with_work);
    compare_squarings(call->lines, call->engine, 100);
    random_quotes();
    edges();
}
