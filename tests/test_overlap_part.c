/*
 * overlap_part against the reference, beside overlap, and with the strings
 * swapped: the place of the part, and its digits (document 02, slip 8). It is of
 * no kind of runs.
 */
#include "overlapping.h"

#include <inttypes.h>
#include <string.h>

enum { PART_SIZE = 24, PART_ROOM = PART_SIZE + 64 };

/* What is lent for the part, before the call. */
static uint8_t part[PART_ROOM];
static size_t part_len;

static void lend_part(void)
{
    any_bytes(part, sizeof part);
    part_len = PART_SIZE;
}

/* The numbers of a part that was written. */
static uint64_t which(const uint8_t *found)
{
    return ref_load(found, 8);
}

static uint64_t offset(const uint8_t *found)
{
    return ref_load(found + 8, 8);
}

static uint64_t part_length(const uint8_t *found)
{
    return ref_load(found + 16, 8);
}

static const uint8_t *digits_of(const uint8_t *found, const struct string *first, const struct string *second)
{
    return (which(found) ? second : first)->digits + offset(found);
}

/* Makes the call into bytes that hold what is lent, and compares with the reference; gives the answer. */
static int64_t place(const struct string *first, const struct string *second, uint8_t found[PART_ROOM])
{
    uint8_t wanted[PART_ROOM];
    memcpy(wanted, part, PART_ROOM);
    memcpy(found, part, PART_ROOM);
    int64_t wanted_answer = ref_overlap_part(GIVEN(first), GIVEN(second), wanted, part_len);
    int64_t answer = bbp_overlap_part(GIVEN(first), GIVEN(second), found, part_len);
    CHECK(answer == wanted_answer, "%zu digits at %" PRIu64 ", %zu at %" PRIu64 ", a part of %zu: the answer is %" PRId64
          " and not %" PRId64, first->len, first->p, second->len, second->p, part_len, answer, wanted_answer);
    size_t i = first_difference(found, wanted, PART_ROOM);
    CHECK(i == PART_ROOM, "%zu digits at %" PRIu64 ", %zu at %" PRIu64 ", answer %" PRId64 ": byte %zu of the part is not %02x",
          first->len, first->p, second->len, second->p, answer, i, wanted[i % PART_ROOM]);
    return answer;
}

/* The parts before and after the strings are swapped: the same digits, of the same string unless both end together. */
static void expect_same_part(const uint8_t *found, const uint8_t *swapped, const struct string *first,
                             const struct string *second)
{
    int end_together = first->p + first->len == second->p + second->len;
    CHECK(which(swapped) == (end_together ? 0 : 1 - which(found)), "strings swapped: string %" PRIu64 " and then %" PRIu64,
          which(found), which(swapped));
    CHECK(part_length(found) == part_length(swapped), "strings swapped: a part of %" PRIu64 " and then of %" PRIu64,
          part_length(found), part_length(swapped));
    CHECK(memcmp(digits_of(found, first, second), digits_of(swapped, second, first), part_length(found)) == 0,
          "strings swapped: other digits");
}

/* The call by itself, for cases that are many. */
static int64_t overlap_part(const struct string *first, const struct string *second)
{
    uint8_t found[PART_ROOM];
    return place(first, second, found);
}

/* The call with the part lent as well, beside overlap, and with the strings swapped. */
static int64_t overlap_lent_part(const struct string *first, const struct string *second)
{
    uint8_t found[PART_ROOM], swapped[PART_ROOM], *lent = lend(2, part, part_len);
    int64_t answer = bbp_overlap_part(GIVEN(first), GIVEN(second), lent, part_len);
    int64_t alone = bbp_overlap(GIVEN(first), GIVEN(second));
    CHECK(place(first, second, found) == answer, "a part of %zu, lent: the answer is %" PRId64, part_len, answer);
    expect(2, found, "the part");
    CHECK(answer == (part_len == PART_SIZE ? alone : -1), "a part of %zu: the answer is %" PRId64 ", overlap's is %" PRId64,
          part_len, answer, alone);
    CHECK(place(second, first, swapped) == answer, "strings swapped: not the same answer");
    if (answer == 0)
        expect_same_part(found, swapped, first, second);
    return answer;
}

static int64_t compare(void)
{
    met(ref_overlap_part_refusals(GIVEN(&laid[0]), GIVEN(&laid[1]), part_len));
    return lent_overlap(overlap_lent_part);
}

static void prepare(void)
{
    prepare_overlap();
    lend_part();
}

static int damage(int kind)
{
    switch (kind - OVERLAP_KINDS) {
    case 0: part_len = wrong_size(PART_SIZE); return 1;
    case 1: part_len = 0; return 1;
    default: return damage_overlap(kind);
    }
}

/* Parts with their numbers and their digits. */
static const struct {
    const char *what, *first;
    uint64_t first_p;
    const char *second;
    uint64_t second_p, which, offset, length;
    const char *digits;
} parts[] = {
    {"thirty digits over their equal", PI, 1, PI, 1, 0, 0, 30, PI},
    {"one digit each", "2", 1, "2", 1, 0, 0, 1, "2"},
    {"the second one position on", "243F6A88", 1, "43F6A888", 2, 1, 0, 8, "43F6A888"},
    {"the second one position before", "43F6A888", 2, "243F6A88", 1, 0, 0, 8, "43F6A888"},
    {"the second inside the first", "243F6A88", 1, "F6A", 4, 0, 3, 5, "F6A88"},
    {"the first inside the second", "F6A", 4, "243F6A88", 1, 1, 3, 5, "F6A88"},
    {"the second at the start of the first", "243F6A88", 1, "243", 1, 0, 0, 8, "243F6A88"},
    {"the first at the start of the second", "243", 1, "243F6A88", 1, 1, 0, 8, "243F6A88"},
    {"both end together, the first longer", "243F6A88", 1, "A88", 6, 0, 5, 3, "A88"},
    {"both end together, the second longer", "A88", 6, "243F6A88", 1, 0, 0, 3, "A88"},
    {"one shared position, the second further", "243", 1, "3F6A", 3, 1, 0, 4, "3F6A"},
    {"one shared position, the first further", "3F6A", 3, "243", 1, 0, 0, 4, "3F6A"},
    {"the longer string reaches less far", "243F6A888", 1, "885", 8, 1, 0, 3, "885"},
    {"the first starts later and is shorter", "885", 8, "243F6A888", 1, 0, 0, 3, "885"},
    {"past 2^60", "243", LAST_START - 1, "43F6", LAST_START, 1, 0, 4, "43F6"},
    {"past 2^60, the first further", "43F6", LAST_START, "243", LAST_START - 1, 0, 0, 4, "43F6"},
    {"past 2^60, the first inside the second", "3F", LAST_START, "243F6A88", LAST_START - 2, 1, 2, 6, "3F6A88"},
    {"29 positions on, the second further", PI, 1, "344A40938222", 30, 1, 0, 12, "344A40938222"},
};

static void every_named_part(void)
{
    for (size_t i = 0; i < sizeof parts / sizeof parts[0]; i++) {
        uint8_t wanted[PART_ROOM], found[PART_ROOM];
        lay_texts(parts[i].first, parts[i].first_p, parts[i].second, parts[i].second_p);
        lend_part();
        memcpy(wanted, part, PART_ROOM);
        put(wanted, 8, parts[i].which);
        put(wanted + 8, 8, parts[i].offset);
        put(wanted + 16, 8, parts[i].length);
        CHECK(compare() == 0 && place(&laid[0], &laid[1], found) == 0, "%s: the answer", parts[i].what);
        CHECK(memcmp(found, wanted, PART_ROOM) == 0, "%s: %" PRIu64 ", %" PRIu64 ", %" PRIu64, parts[i].what, which(found),
              offset(found), part_length(found));
        CHECK(memcmp(digits_of(found, &laid[0], &laid[1]), parts[i].digits, strlen(parts[i].digits)) == 0, "%s: the digits",
              parts[i].what);
    }
}

/* A string over a copy of itself gives the whole of it, as the first has it. */
static void every_string_over_itself(void)
{
    static const uint64_t positions[] = {1, 2, 1000000, LAST_START - 1, LAST_START};
    for (size_t i = 0; i < MOST_DIGITS * 5; i++) {
        uint8_t found[PART_ROOM];
        size_t len = 1 + i / 5;
        lay(len, positions[i % 5], len, positions[i % 5]);
        CHECK(place(&laid[0], &laid[1], found) == 0, "%zu digits over a copy of them", len);
        CHECK(digits_of(found, &laid[0], &laid[1]) == laid[0].digits && part_length(found) == len,
              "%zu digits over a copy of them: not the whole first string", len);
    }
}

/* Strings with each answer, and the answer. */
static const struct {
    int64_t answer;
    const char *first;
    uint64_t first_p;
    const char *second;
    uint64_t second_p;
} answers[] = {
    {0, PI, 1, PI, 1},       {-10, "", 1, PI, 1},   {-10, PI, 1, "", 1},  {-10, PI "4", 1, PI, 1}, {-10, PI, 0, PI, 1},
    {-10, "2", 1, "g", 100}, {-11, "2", 1, "4", 2}, {-12, "2", 1, "3", 1},
};

/* Any size but 24 is refused with 1, whatever the strings; the calls change no byte. */
static void every_part_size(void)
{
    for (size_t i = 0; i < sizeof answers / sizeof answers[0]; i++) {
        lay_texts(answers[i].first, answers[i].first_p, answers[i].second, answers[i].second_p);
        for (size_t len = 0; len <= PART_ROOM; len++) {
            lend_part();
            part_len = len;
            CHECK(compare() == (len == PART_SIZE ? answers[i].answer : -1), "a part of %zu bytes", len);
        }
        lend_part();
        CHECK(bbp_overlap_part(GIVEN(&laid[0]), GIVEN(&laid[1]), NULL, 0) == -1, "a part that is null");
        CHECK(bbp_overlap_part(GIVEN(&laid[0]), GIVEN(&laid[1]), lend_huge(), huge_length(PART_SIZE)) == -1,
              "a part of 2^32 + 24 bytes");
        expect_huge_kept();
    }
}

int main(int argc, char **argv)
{
    static const struct suite suite = {prepare, damage, OVERLAP_KINDS + 2, compare};
    start("overlap_part", argc, argv);
    every_named_part();
    every_string_over_itself();
    every_part_size();
    try_overlaps(compare, overlap_part);
    run_suite(&suite);
    require_met("1 10 11 12 1+10 1+11 1+12 10+11 10+12");
    return finish();
}
