#include "overlapping.h"

#include <inttypes.h>
#include <string.h>

static uint8_t rooms[2][STRING_ROOM];
struct string laid[2] = {{rooms[0], 0, 0}, {rooms[1], 0, 0}};

static const char hexadecimal[] = "0123456789ABCDEF";

static int is_digit(uint8_t c)
{
    return (c >= '0' && c <= '9') || (c >= 'A' && c <= 'F');
}

/* Digits at neighbouring positions differ, so that one taken for the other shows; 2^32 positions on they are the same. */
static uint8_t digit_at(uint64_t position)
{
    return (uint8_t)hexadecimal[(5 * position + position / 16) % 16];
}

static uint8_t another_digit(uint8_t digit)
{
    const char *at = strchr(hexadecimal, digit);
    return (uint8_t)hexadecimal[((uint64_t)(at - hexadecimal) + 1 + below(15)) % 16];
}

/* What stands past the end of a string goes on with its digits. */
void lay(size_t first_len, uint64_t first_p, size_t second_len, uint64_t second_p)
{
    laid[0].len = first_len, laid[0].p = first_p;
    laid[1].len = second_len, laid[1].p = second_p;
    for (size_t i = 0; i < STRING_ROOM; i++)
        rooms[0][i] = digit_at(first_p + i), rooms[1][i] = digit_at(second_p + i);
}

void lay_texts(const char *first, uint64_t first_p, const char *second, uint64_t second_p)
{
    lay(strlen(first), first_p, strlen(second), second_p);
    memcpy(rooms[0], first, laid[0].len);
    memcpy(rooms[1], second, laid[1].len);
}

int64_t lent_overlap(overlap_call *call)
{
    struct string lent[2];
    for (int i = 0; i < 2; i++) {
        lent[i] = laid[i];
        lent[i].digits = lend_input(i, laid[i].digits, laid[i].len);
    }
    int64_t answer = call(&lent[0], &lent[1]);
    expect_kept(0, "the first string");
    expect_kept(1, "the second string");
    return answer;
}

/* What both hold, for strings that are not bad. */

static int is_bad(const struct string *s)
{
    return s->len < 1 || s->len > MOST_DIGITS || s->p < 1 || s->p > LAST_START;
}

/* Whether the other string holds the position of digit i of this one. */
static int is_shared(int string, size_t i)
{
    const struct string *other = &laid[1 - string];
    uint64_t position = laid[string].p + i;
    return position >= other->p && position - other->p < other->len;
}

/* The place in the other string of a position that both hold. */
static size_t place_in_other(int string, size_t i)
{
    return (size_t)(laid[string].p + i - laid[1 - string].p);
}

static int any_shared(void)
{
    for (size_t i = 0; i < laid[0].len; i++)
        if (is_shared(0, i))
            return 1;
    return 0;
}

/* The answer for strings that have the same digit at each position, as `lay` makes them. */
static int64_t wanted_answer(void)
{
    return is_bad(&laid[0]) || is_bad(&laid[1]) ? -10 : any_shared() ? 0 : -11;
}

/* Named cases. */

static const struct {
    const char *what;
    int64_t answer;
    const char *first;
    uint64_t first_p;
    const char *second;
    uint64_t second_p;
} cases[] = {
    {"thirty digits over their equal", 0, PI, 1, PI, 1},
    {"the second one position on", 0, PI, 1, "43F6A8885A308D313198A2E0370734", 2},
    {"the second one position before", 0, "43F6A8885A308D313198A2E0370734", 2, PI, 1},
    {"one digit each", 0, "2", 1, "2", 1},
    {"one digit each, and they differ", -12, "2", 1, "3", 1},
    {"digits with the same lower four bits", -12, "1", 1, "A", 1},
    {"the second inside the first", 0, PI, 1, "F6A", 4},
    {"the second inside the first, at its start", 0, PI, 1, "243", 1},
    {"the second inside the first, at its end", 0, PI, 1, "073", 28},
    {"the first inside the second", 0, "F6A", 4, PI, 1},
    {"the last of the first is the first of the second", 0, "243", 1, "3F6A", 3},
    {"the last of the first is the first of the second, and they differ", -12, "243", 1, "2F6A", 3},
    {"the first of the first is the last of the second", 0, "3F6A", 3, "243", 1},
    {"the first of the first is the last of the second, and they differ", -12, "2F6A", 3, "243", 1},
    {"they differ at the first shared position", -12, PI, 1, "53F6A", 2},
    {"they differ at the last shared position", -12, PI, 1, "43F6B", 2},
    {"they differ at the last of thirty positions", -12, PI, 1, "243F6A8885A308D313198A2E037072", 1},
    {"they differ at every position", -12, "0000", 9, "FFFF", 9},
    {"the digits agree from both starts, but not by their positions", -12, "243F", 1, "243F", 2},
    {"the second starts where the first has ended", -11, "243", 1, "F6A", 4},
    {"the first starts where the second has ended", -11, "F6A", 4, "243", 1},
    {"a position between them", -11, "243", 1, "6A8", 5},
    {"the same digits, far apart", -11, PI, 1, PI, LAST_START},
    {"the same digits, 2^32 positions apart", -11, PI, 1, PI, (UINT64_C(1) << 32) + 1},
    {"other digits, apart", -11, "000", 1, "FFF", 100},
    {"both at 2^60", 0, PI, LAST_START, PI, LAST_START},
    {"at 2^60 - 1 and 2^60", 0, "24", LAST_START - 1, "4", LAST_START},
    {"one ends at 2^60", 0, "243", LAST_START - 2, "3F6A", LAST_START},
    {"they differ past 2^60", -12, "243F", LAST_START - 1, "43E", LAST_START},
    {"they agree past 2^60", 0, "243F", LAST_START - 1, "43F6", LAST_START},
    {"apart at 2^60", -11, "2", LAST_START - 1, "4", LAST_START},
    {"the first is empty", -10, "", 1, "2", 1},
    {"the second is empty", -10, "2", 1, "", 1},
    {"both are empty", -10, "", 1, "", 1},
    {"empty, and apart", -10, "", 1, "2", 9},
    {"31 digits in the first", -10, PI "4", 1, PI, 1},
    {"31 digits in the second", -10, PI, 1, PI "4", 1},
    {"32 digits", -10, PI "44", 1, PI "44", 1},
    {"31 digits, and apart", -10, PI "4", 1, PI, 100},
    {"31 digits, and they differ", -10, PI "4", 1, "3", 1},
    {"a small letter in the first", -10, "243f", 1, "243F", 1},
    {"a small letter in the second", -10, "243F", 1, "243f", 1},
    {"the same small letter in both", -10, "243f", 1, "243f", 1},
    {"a small letter that the other does not reach", -10, "243f", 1, "243", 1},
    {"a small letter, and apart", -10, "a", 1, "4", 2},
    {"a small letter, and they differ", -10, "3a", 1, "24", 1},
    {"the letter G", -10, "G", 1, "G", 1},
    {"the character before 0", -10, "/", 1, "/", 1},
    {"the character after 9", -10, ":", 1, ":", 1},
    {"the character before A", -10, "@", 1, "@", 1},
    {"the character before a", -10, "`", 1, "`", 1},
    {"a space behind the digits", -10, "24 ", 1, "24", 1},
    {"the letter O for a zero", -10, "O", 1, "0", 1},
    {"position 0 of the first", -10, "2", 0, "2", 1},
    {"position 0 of the second", -10, "2", 1, "2", 0},
    {"position 0 of both", -10, "2", 0, "2", 0},
    {"position 0, and they share position 1", -10, "02", 0, "2", 1},
    {"position 2^60 + 1", -10, "2", LAST_START + 1, "2", LAST_START + 1},
    {"position 2^60 + 1, which the other reaches", -10, "24", LAST_START, "4", LAST_START + 1},
    {"position 2^64 - 1, and the string would go on at 0", -10, "243", UINT64_MAX, "3", 1},
    {"position 2^64 - 30", -10, PI, UINT64_MAX - 29, PI, UINT64_MAX - 29},
    {"position 2^63, and apart", -10, "2", UINT64_C(1) << 63, "2", 1},
    {"position 0, and they differ", -10, "2", 0, "3", 0},
};

static void every_named_case(int64_t (*compare)(void))
{
    for (size_t i = 0; i < sizeof cases / sizeof cases[0]; i++) {
        lay_texts(cases[i].first, cases[i].first_p, cases[i].second, cases[i].second_p);
        int64_t answer = compare();
        CHECK(answer == cases[i].answer, "%s: the answer is %" PRId64 " and not %" PRId64, cases[i].what, answer,
              cases[i].answer);
    }
}

/* Alignments. */

/* Digit i of a string becomes another one: 12 where both hold its position, else the answer that there was before. */
static void change_digit(overlap_call *call, int string, size_t i, int64_t before)
{
    uint8_t *digit = &rooms[string][i], kept = *digit;
    int64_t wanted = is_shared(string, i) ? -12 : before;
    *digit = another_digit(kept);
    int64_t answer = call(&laid[0], &laid[1]);
    CHECK(answer == wanted, "%zu digits at %" PRIu64 ", %zu at %" PRIu64 ", digit %zu of string %d changed: the answer is %"
          PRId64, laid[0].len, laid[0].p, laid[1].len, laid[1].p, i, string, answer);
    *digit = kept;
}

static void try_alignment(int64_t (*compare)(void), overlap_call *call)
{
    int64_t answer = compare();
    CHECK(answer == wanted_answer(), "%zu digits at %" PRIu64 ", %zu at %" PRIu64 ": the answer is %" PRId64, laid[0].len,
          laid[0].p, laid[1].len, laid[1].p, answer);
    for (int string = 0; string < 2; string++)
        for (size_t i = 0; i < laid[string].len; i++)
            change_digit(call, string, i, answer);
}

/* All that share a position, touch, or have one position between them. */
static void every_alignment(int64_t (*compare)(void), overlap_call *call)
{
    for (size_t n = 1; n <= MOST_DIGITS; n++)
        for (size_t m = 1; m <= MOST_DIGITS; m++)
            for (size_t shift = 0; shift <= n + m + 2; shift++) {
                uint64_t p = 1 + below(LAST_START - 2 * STRING_ROOM);
                lay(n, p + m + 1, m, p + shift);
                try_alignment(compare, call);
            }
}

/* The same at positions around each limit; a position out of range refuses before all else. */
static void every_edge(int64_t (*compare)(void), overlap_call *call)
{
    static const uint64_t edges[] = {
        0, 1, 2, 3, 30, 31, 32, UINT32_MAX, UINT64_C(1) << 32, (UINT64_C(1) << 32) + 1, LAST_START / 2, LAST_START / 2 + 1,
        LAST_START - 30, LAST_START - 29, LAST_START - 1, LAST_START, LAST_START + 1, LAST_START + 29, UINT64_C(1) << 63,
        UINT64_MAX - 30, UINT64_MAX - 29, UINT64_MAX};
    static const size_t lengths[] = {1, 2, 29, 30};
    enum { EDGES = sizeof edges / sizeof edges[0] };
    for (int i = 0; i < EDGES * EDGES; i++)
        for (int j = 0; j < 4 * 4; j++) {
            lay(lengths[j / 4], edges[i / EDGES], lengths[j % 4], edges[i % EDGES]);
            if (wanted_answer() == -10)
                CHECK(compare() == -10, "positions %" PRIu64 " and %" PRIu64, laid[0].p, laid[1].p);
            else
                try_alignment(compare, call);
        }
}

/* Characters and lengths. */

static int64_t wanted_with(int string, size_t i, uint8_t c)
{
    if (!is_digit(c))
        return -10;
    return is_shared(string, i) && rooms[1 - string][place_in_other(string, i)] != c ? -12 : 0;
}

/* Every character at this place of a string; lent at the first, a middle and the last place. */
static void every_character_at(int64_t (*compare)(void), overlap_call *call, int string, size_t i)
{
    uint8_t kept = rooms[string][i];
    int is_lent = i == 0 || i == MOST_DIGITS / 2 || i == MOST_DIGITS - 1;
    for (int c = 0; c < 256; c++) {
        int64_t wanted = wanted_with(string, i, (uint8_t)c);
        rooms[string][i] = (uint8_t)c;
        int64_t answer = is_lent ? compare() : call(&laid[0], &laid[1]);
        CHECK(answer == wanted, "character %d at place %zu of string %d: the answer is %" PRId64 " and not %" PRId64, c, i,
              string, answer, wanted);
    }
    rooms[string][i] = kept;
}

/* At places that both hold, and at places that one of them holds. */
static void every_character(int64_t (*compare)(void), overlap_call *call)
{
    static const uint64_t starts[] = {100, 87, 113, 71, 129};
    for (int start = 0; start < 5; start++)
        for (int string = 0; string < 2; string++)
            for (size_t i = 0; i < MOST_DIGITS; i++) {
                lay(MOST_DIGITS, 100, MOST_DIGITS, starts[start]);
                every_character_at(compare, call, string, i);
            }
}

/* Both at one position, and apart. */
static void every_length(int64_t (*compare)(void))
{
    for (size_t n = 0; n <= STRING_ROOM - MOST_DIGITS; n++)
        for (size_t m = 0; m <= STRING_ROOM - MOST_DIGITS; m++)
            for (uint64_t p = 7; p < 1000; p += 900) {
                lay(n, 7, m, p);
                CHECK(compare() == wanted_answer(), "%zu digits at 7 and %zu at %" PRIu64, n, m, p);
            }
}

/* Lengths whose lower 32 bits are good ones, before good digits. */
static void huge_lengths(overlap_call *call)
{
    for (size_t len = 1; len <= MOST_DIGITS; len += MOST_DIGITS - 1) {
        lay(len, 1, len, 1);
        struct string longer = {memcpy(lend_huge(), laid[0].digits, len), huge_length(len), 1};
        CHECK(call(&longer, &laid[1]) == -10, "a first string of 2^32 + %zu digits", len);
        CHECK(call(&laid[0], &longer) == -10, "a second string of 2^32 + %zu digits", len);
        expect_huge(laid[0].digits, len);
    }
}

static void null_strings(overlap_call *call)
{
    static const struct string empty = {NULL, 0, 1};
    lay(1, 1, 1, 1);
    CHECK(call(&empty, &laid[1]) == -10, "a first string that is null");
    CHECK(call(&laid[0], &empty) == -10, "a second string that is null");
    CHECK(call(&empty, &empty) == -10, "two strings that are null");
}

void try_overlaps(int64_t (*compare)(void), overlap_call *call)
{
    every_named_case(compare);
    null_strings(call);
    huge_lengths(call);
    every_length(compare);
    every_character(compare, call);
    every_edge(compare, call);
    every_alignment(compare, call);
}

/* Random cases. */

static size_t any_length(void)
{
    static const uint8_t edges[] = {1, 2, 29, 30};
    return below(4) == 0 ? edges[below(4)] : 1 + below(MOST_DIGITS);
}

/* Some have one digit at every position. */
void prepare_overlap(void)
{
    size_t n = any_length(), m = any_length();
    uint64_t p = below(8) == 0 ? LAST_START - below(STRING_ROOM) : 1 + (any() >> (4 + below(60)));
    uint64_t back = below(m), q = below(2) == 0 ? p + below(n) : p > back ? p - back : 1;
    lay(n, p, m, q > LAST_START ? LAST_START : q);
    if (below(8) == 0)
        memset(rooms, hexadecimal[below(16)], sizeof rooms);
}

static int spoil_character(int string)
{
    static const uint8_t near[] = {'/', ':', '@', 'G', '`', 'a', 'f', 'g', ' ', 0};
    uint8_t c = below(2) == 0 ? near[below(sizeof near)] : (uint8_t)any();
    if (laid[string].len == 0)
        return NOTHING;
    rooms[string][below(laid[string].len)] = is_digit(c) ? 'x' : c;
    return 10;
}

static int bad_starts(void)
{
    return laid[0].p - 1 >= LAST_START || laid[1].p - 1 >= LAST_START;
}

/* One of them ends before the other starts, or right where it starts. */
static int move_apart(void)
{
    struct string *before = &laid[below(2)], *after = before == &laid[0] ? &laid[1] : &laid[0];
    if (bad_starts())
        return NOTHING;
    before->p = 1 + (any() >> (5 + below(59)));
    after->p = before->p + before->len + (below(2) == 0 ? 0 : any() >> (6 + below(58)));
    return 11;
}

/* Whether both strings hold the position of digit i of this one, and have a digit there. */
static int has_two_digits(int string, size_t i)
{
    return is_shared(string, i) && is_digit(rooms[string][i]) && is_digit(rooms[1 - string][place_in_other(string, i)]);
}

/* Another digit than the other string has, at the first such place from some place on. */
static int make_different(void)
{
    int string = (int)below(2);
    size_t len = laid[string].len, from = len > 0 ? below(len) : 0;
    for (size_t i = 0; i < len && !bad_starts(); i++) {
        size_t at = (from + i) % len;
        if (has_two_digits(string, at)) {
            rooms[string][at] = another_digit(rooms[1 - string][place_in_other(string, at)]);
            return 12;
        }
    }
    return NOTHING;
}

/* Kinds 0 to 7 are of the first string and of the second, in turn. */
int damage_overlap(int kind)
{
    struct string *of = &laid[kind % 2];
    switch (kind / 2) {
    case 0: of->len = 0; return 10;
    case 1: of->len = MOST_DIGITS + 1 + (below(2) == 0 ? 0 : below(STRING_ROOM - MOST_DIGITS)); return 10;
    case 2: return spoil_character(kind % 2);
    case 3: of->p = bad_position(); return 10;
    default: return kind == 8 ? move_apart() : make_different();
    }
}
