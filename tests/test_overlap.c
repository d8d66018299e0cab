/* overlap against the reference, and with the strings swapped (document 02, slip 8). It is of no kind of runs. */
#include "overlapping.h"

#include <inttypes.h>

static int64_t overlap(const struct string *first, const struct string *second)
{
    int64_t wanted = ref_overlap(GIVEN(first), GIVEN(second)), answer = bbp_overlap(GIVEN(first), GIVEN(second));
    CHECK(answer == wanted, "%zu digits at %" PRIu64 ", %zu at %" PRIu64 ": the answer is %" PRId64 " and not %" PRId64,
          first->len, first->p, second->len, second->p, answer, wanted);
    CHECK(bbp_overlap(GIVEN(second), GIVEN(first)) == answer, "%zu digits at %" PRIu64 ", %zu at %" PRIu64
          ": another answer with the strings swapped", first->len, first->p, second->len, second->p);
    return answer;
}

static int64_t compare(void)
{
    met(ref_overlap_refusals(GIVEN(&laid[0]), GIVEN(&laid[1])));
    return lent_overlap(overlap);
}

int main(int argc, char **argv)
{
    static const struct suite suite = {prepare_overlap, damage_overlap, OVERLAP_KINDS, compare};
    start("overlap", argc, argv);
    try_overlaps(compare, overlap);
    run_suite(&suite);
    require_met("10 11 12 10+11 10+12");
    return finish();
}
