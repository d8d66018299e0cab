/*
 * The halves of a ticket beside the whole ticket, in the engine's own calls
 * (document 02, slips 3 and 7): answers, sums, squarings, quotes, the place of
 * the cut, and the stack.
 */
#include "working.h"

#include <inttypes.h>
#include <pthread.h>
#include <string.h>
#include <unistd.h>

/* A position where a row has at most 256 terms, so that each can be a block by itself, and one where it has four million. */
enum { NEAR = OF_KIND(600, 224), FAR = OF_KIND(10000000, 4000000) };

/* How many tickets of each kind had their halves compared. */
static struct {
    uint64_t empty, one_term, odd, even, odd_cut, even_cut;
} seen;

static void count_kind(void)
{
    uint64_t first = ref_block_first(FORMULA, tried.p, tried.c, tried.block);
    uint64_t cut = ref_block_cut(FORMULA, tried.p, tried.c, tried.block);
    uint64_t terms = ref_block_first(FORMULA, tried.p, tried.c, tried.block + 1) - first;
    seen.empty += terms == 0;
    seen.one_term += terms == 1;
    seen.odd += terms > 1 && terms % 2 == 1;
    seen.even += terms > 1 && terms % 2 == 0;
    seen.odd_cut += terms > 1 && cut % 2 == 1;
    seen.even_cut += terms > 1 && cut % 2 == 0;
}

static void require_kinds(void)
{
    CHECK(seen.empty > 0 && seen.one_term > 0, "%" PRIu64 " empty tickets, %" PRIu64 " of one term", seen.empty, seen.one_term);
    CHECK(seen.odd > 0 && seen.even > 0, "%" PRIu64 " tickets of odd length, %" PRIu64 " of even", seen.odd, seen.even);
    CHECK(seen.odd_cut > 0 && seen.even_cut > 0, "%" PRIu64 " odd cuts, %" PRIu64 " even", seen.odd_cut, seen.even_cut);
}

/* The whole ticket, its lower and its upper half. */
enum { WHOLE, LOWER, UPPER, PARTS };

/* Of each part the sum is in a slot, and the squarings are PARTS slots on. */
static int64_t call_with(work_call *call, int part, const uint8_t *found, const uint8_t **sums, const uint8_t **squarings)
{
    uint8_t *sum = lend(part, found, tried.len[0]), *count = lend(PARTS + part, found, tried.len[1]);
    sums[part] = sum;
    squarings[part] = count;
    return call(tried.p, tried.c, tried.row, tried.block, sum, tried.len[0], count, tried.len[1]);
}

static void add_up(const uint8_t *const numbers[PARTS], const char *what)
{
    CHECK((ref_u128)(ref_load_sum(numbers[LOWER]) + ref_load_sum(numbers[UPPER])) == ref_load_sum(numbers[WHOLE]),
          "p %" PRIu64 " C %" PRIu64 " row %" PRIu64 " block %" PRIu64 ": the %s of the halves do not add up to the ticket's",
          tried.p, tried.c, tried.row, tried.block, what);
}

/* The three calls answer alike. Refused, they change nothing; else the halves' sums and squarings add up to the ticket's. */
static int64_t compare_with_whole(void)
{
    uint8_t found[96];
    const uint8_t *sums[PARTS], *squarings[PARTS];
    any_bytes(found, sizeof found);
    int64_t answer = call_with(CALL(work), WHOLE, found, sums, squarings);
    int64_t of_lower = call_with(CALL(work_lower), LOWER, found, sums, squarings);
    int64_t of_upper = call_with(CALL(work_upper), UPPER, found, sums, squarings);
    CHECK(of_lower == answer && of_upper == answer,
          "p %" PRIu64 " C %" PRIu64 " row %" PRIu64 " block %" PRIu64 " lengths %zu, %zu: answers %" PRId64 ", %" PRId64
          " of the lower half, %" PRId64 " of the upper", tried.p, tried.c, tried.row, tried.block, tried.len[0], tried.len[1],
          answer, of_lower, of_upper);
    for (int slot = 0; slot < 2 * PARTS && answer != 0; slot++)
        expect_kept(slot, "a refused call, what was lent");
    if (answer != 0)
        return answer;
    add_up(sums, "sums");
    add_up(squarings, "squarings");
    count_kind();
    return answer;
}

/* The quotes of the halves add up to the ticket's, at any position. */
static void compare_quotes(void)
{
    uint8_t quotes[PARTS][16];
    const uint8_t *const all[PARTS] = {quotes[WHOLE], quotes[LOWER], quotes[UPPER]};
    uint64_t c = any_blocks();
    tried = (struct arguments){any_position(), c, below(ROWS), below(c), {16, 16}};
    CHECK(CALL(quote)(tried.p, tried.c, tried.row, tried.block, quotes[WHOLE], 16) == 0, "a quote is refused");
    CHECK(CALL(quote_lower)(tried.p, tried.c, tried.row, tried.block, quotes[LOWER], 16) == 0, "a lower half's is refused");
    CHECK(CALL(quote_upper)(tried.p, tried.c, tried.row, tried.block, quotes[UPPER], 16) == 0, "an upper half's is refused");
    add_up(all, "quotes");
}

static ref_u128 sum_by(work_call *call, uint64_t p, uint64_t c, uint64_t row, uint64_t block)
{
    uint8_t sum[16], squarings[16];
    CHECK(call(p, c, row, block, sum, 16, squarings, 16) == 0, "p %" PRIu64 " C %" PRIu64 " is refused", p, c);
    return ref_load_sum(sum);
}

/* The terms one by one: where C is the number of terms, block k has term k alone. */
static ref_u128 term_by_term(uint64_t p, uint64_t row, uint64_t first, uint64_t end)
{
    ref_u128 sum = 0;
    for (uint64_t k = first; k < end; k++)
        sum += sum_by(CALL(work), p, ref_term_count(FORMULA, p), row, k);
    return sum;
}

static void compare_with_terms(uint64_t p, uint64_t c, uint64_t row, uint64_t block)
{
    uint64_t first = ref_block_first(FORMULA, p, c, block), end = ref_block_first(FORMULA, p, c, block + 1);
    uint64_t cut = ref_block_cut(FORMULA, p, c, block);
    CHECK(sum_by(CALL(work_lower), p, c, row, block) == term_by_term(p, row, first, cut),
          "p %" PRIu64 " C %" PRIu64 " row %" PRIu64 ": terms %" PRIu64 " up to the cut", p, c, row, first);
    CHECK(sum_by(CALL(work_upper), p, c, row, block) == term_by_term(p, row, cut, end),
          "p %" PRIu64 " C %" PRIu64 " row %" PRIu64 ": terms from the cut up to %" PRIu64, p, c, row, end);
}

static void small_halves(void)
{
    static const uint64_t positions[] = {1, 2, 3, 4, 5, 17, 100, NEAR}, counts[] = {1, 2, 3, 5, 7, 14, 100, 256};
    for (int i = 0; i < 8; i++)
        for (int j = 0; j < 8; j++)
            for (uint64_t row = 0; row < ROWS; row++)
                for (uint64_t block = 0; block < counts[j]; block += counts[j] < 20 ? 1 : 1 + below(20))
                    compare_with_terms(positions[i], counts[j], row, block);
}

/*
 * A small stack. A recursion by halves makes at most 58 cuts one inside the
 * other, at the last p, C = 1, and in a check run 59. One whose depth grows with
 * the number of terms has no room here for some thousand of them.
 */
enum { STACK = 65536 };

static void on_small_stack(void *(*call)(void *))
{
    pthread_attr_t attributes;
    pthread_t thread;
    if (pthread_attr_init(&attributes) != 0 || pthread_attr_setstacksize(&attributes, STACK) != 0 ||
        pthread_create(&thread, &attributes, call, NULL) != 0 || pthread_join(thread, NULL) != 0)
        _exit(2);
}

static uint8_t far_sums[2][16], far_squarings[2][16];

static void *work_far_halves(void *unused)
{
    CALL(work_lower)(FAR, 1, 3, 0, far_sums[0], 16, far_squarings[0], 16);
    CALL(work_upper)(FAR, 1, 3, 0, far_sums[1], 16, far_squarings[1], 16);
    return unused;
}

/* Two million terms in a half. */
static void far_halves(void)
{
    on_small_stack(work_far_halves);
    CHECK((ref_u128)(ref_load_sum(far_sums[0]) + ref_load_sum(far_sums[1])) == sum_by(CALL(work), FAR, 1, 3, 0),
          "the halves at p = %d do not add up to the ticket", FAR);
    CHECK(ref_load_sum(far_squarings[0]) + ref_load_sum(far_squarings[1]) ==
              ref_range_squarings(FORMULA, FAR, 3, ref_whole(FORMULA, FAR, 1, 0)),
          "the squarings of the halves at p = %d", FAR);
}

static void *work_last_lower(void *unused)
{
    CALL(work_lower)(LAST_POSITION, 1, 0, 0, far_sums[0], 16, far_squarings[0], 16);
    return unused;
}

static void *work_last_upper(void *unused)
{
    CALL(work_upper)(LAST_POSITION, 1, 0, 0, far_sums[1], 16, far_squarings[1], 16);
    return unused;
}

/* The call does not come back. Of its greatest depth it lacks one cut at most when it comes to its first term, at once. */
static void last_lower(void)
{
    on_small_stack(work_last_lower);
}

static void last_upper(void)
{
    on_small_stack(work_last_upper);
}

int main(int argc, char **argv)
{
    start("halves", argc, argv);
    try_tickets(TO_WORK, compare_with_whole);
    require_kinds();
    small_halves();
    for (uint64_t i = 0; i < case_count(); i++)
        compare_quotes();
    CHECK(comes_back(far_halves), "the halves at p = %d, C = 1 on a stack of %d bytes", FAR, STACK);
    CHECK(still_working(last_lower), "the lower half at the last p, C = 1 on a stack of %d bytes", STACK);
    CHECK(still_working(last_upper), "the upper half at the last p, C = 1 on a stack of %d bytes", STACK);
    return finish();
}
