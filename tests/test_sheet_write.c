/* sheet_write against the reference. */
#include "common.h"

#include <inttypes.h>
#include <stdlib.h>
#include <string.h>

enum { LIST_ROOM = 4096, SHEET_ROOM = 42000 };

static struct {
    uint64_t p, c;
    uint8_t list[LIST_ROOM], sheet[SHEET_ROOM];
    size_t list_len, sheet_len;
    size_t e; /* as prepared */
} t;

/* Three tickets of three rows, one after the other. */
static size_t short_list(uint64_t c)
{
    uint64_t first = below(ROWS - 2);
    for (uint64_t i = 0; i < 3; i++)
        put(t.list + 2 * i, 2, PAIR(first + i, below(c)));
    return 3;
}

/* A short list for a far position, a list of any length for a near one: the reference is slow. */
static void prepare(void)
{
    int far = below(4) == 0;
    t.c = far ? 200 + below(57) : any_blocks();
    any_bytes(t.list, LIST_ROOM);
    t.e = far ? short_list(t.c) : any_list(t.list, t.c, any_chance());
    t.p = any_position_upto(far ? 100000 : below(16) == 0 ? 1000 : 40);
    t.list_len = 2 * t.e;
    t.sheet_len = SHEET_SIZE(t.e) + (below(2) == 0 ? 0 : below(100));
}

/* The first two pairs equal or in the wrong order. A third keeps the last one apart from them. */
static int spoil_order(int equal)
{
    uint64_t first = ref_load(t.list, 2), second = ref_load(t.list + 2, 2);
    if (t.e < 3)
        return NOTHING;
    if (!equal && first < second)
        put(t.list, 2, second);
    put(t.list + 2, 2, first);
    return 3;
}

static int last_pair(uint64_t row, uint64_t block)
{
    if (t.e == 0)
        return NOTHING;
    put(t.list + 2 * t.e - 2, 2, PAIR(row, block));
    return 4;
}

static int last_block(void)
{
    if (t.e == 0 || t.c > 255)
        return NOTHING;
    t.list[2 * t.e - 2] = (uint8_t)t.c;
    return 4;
}

/* Ascending pairs: every ticket of C = 256, and one or some more. */
static int long_list(void)
{
    size_t e = TICKETS + 1 + (below(2) == 0 ? 0 : below(LIST_ROOM / 2 - TICKETS));
    for (uint64_t i = 0; i < e; i++)
        put(t.list + 2 * i, 2, i);
    t.list_len = 2 * e;
    t.sheet_len = SHEET_SIZE(e);
    return 1;
}

static int damage(int kind)
{
    switch (kind) {
    case 0: t.list_len = t.list_len % 2 == 0 ? t.list_len + 1 : t.list_len; return 1;
    case 1: t.list_len = t.list_len % 2 == 0 && t.list_len > 0 ? t.list_len - 1 : t.list_len | 1; return 1;
    case 2: return long_list();
    case 3: t.sheet_len = SHEET_SIZE(t.e) - 1; return 1;
    case 4: t.sheet_len = below(SHEET_SIZE(t.e)); return 1;
    case 5: t.sheet_len = 0; return 1;
    case 6: t.p = bad_position(); return 2;
    case 7: t.c = bad_blocks(); return 2;
    case 8: return spoil_order(0);
    case 9: return spoil_order(1);
    case 10: return last_pair(ROWS, below(256));
    case 11: return last_pair(ROWS + below(256 - ROWS), below(256));
    case 12: return last_block();
    case 13: any_bytes(t.list, 2 * t.e); return UNSURE;
    default: t.list[below(2 * t.e + 1)] ^= (uint8_t)(1 << below(8)); return UNSURE;
    }
}

static int64_t compare(void)
{
    met(ref_sheet_write_refusals(FORMULA, t.p, t.c, t.list, t.list_len, t.sheet_len));
    uint8_t *list_copy = copy_of(t.list, t.list_len), *wanted = copy_of(t.sheet, t.sheet_len);
    int64_t wanted_answer = ref_sheet_write(FORMULA, t.p, t.c, list_copy, t.list_len, wanted, t.sheet_len);
    const uint8_t *list = lend_input(0, t.list, t.list_len);
    uint8_t *sheet = lend(1, t.sheet, t.sheet_len);
    int64_t answer = CALL(sheet_write)(t.p, t.c, list, t.list_len, sheet, t.sheet_len);
    CHECK(answer == wanted_answer,
          "write p %" PRIu64 " C %" PRIu64 " list of %zu to %zu bytes: answer %" PRId64 ", not %" PRId64, t.p, t.c,
          t.list_len, t.sheet_len, answer, wanted_answer);
    expect_kept(0, "sheet write, the list");
    expect(1, wanted, "sheet write, the sheet");
    free(list_copy);
    free(wanted);
    return answer;
}

#define PAIRS(first, second) {{0, 2, first}, {2, 2, second}}

/* The list is the first pairs of all for so many blocks a row, patched. */
static const struct {
    const char *what;
    int64_t answer;
    uint64_t p, c;
    size_t list_len, sheet_len;
    uint64_t blocks;
    struct patch patches[PATCHES];
} cases[] = {
    {"list of 1 byte", -1, 1, 1, 1, 56, 1, UNPATCHED},
    {"list of 3 bytes", -1, 1, 1, 3, 56, 1, UNPATCHED},
    {"list of 3 bytes, p 0", -1, 0, 1, 3, 56, 1, UNPATCHED},
    {"longest list, a byte more", -1, 1, 256, LIST_MAX + 1, SHEET_MAX + 40, 256, UNPATCHED},
    {"longest list, a ticket more", -1, 1, 256, LIST_MAX + 2, SHEET_MAX + 40, 256, UNPATCHED},
    {"longest list, a ticket more, p 0", -1, 0, 256, LIST_MAX + 2, SHEET_MAX + 40, 256, UNPATCHED},
    {"longest list, a byte less for the sheet", -1, 1, 256, LIST_MAX, SHEET_MAX - 1, 256, UNPATCHED},
    {"longest list, C 255", -4, 1, 255, LIST_MAX, SHEET_MAX, 256, UNPATCHED},
    {"longest list", SHEET_MAX, 1, 256, LIST_MAX, SHEET_MAX, 256, UNPATCHED},
    {"longest list, a byte more for the sheet", SHEET_MAX, 1, 256, LIST_MAX, SHEET_MAX + 1, 256, UNPATCHED},
    {"longest list into 42,000 bytes", SHEET_MAX, 1, 256, LIST_MAX, 42000, 256, UNPATCHED},
    {"no ticket into 15 bytes", -1, 1, 1, 0, 15, 1, UNPATCHED},
    {"no ticket into 15 bytes, p 0", -1, 0, 1, 0, 15, 1, UNPATCHED},
    {"1 ticket into 35 bytes", -1, 1, 1, 2, 35, 1, UNPATCHED},
    {"2 equal tickets into 55 bytes", -1, 1, 1, 4, 55, 1, PAIRS(0, 0)},
    {"p 0", -2, 0, 1, 2, 36, 1, UNPATCHED},
    {"p one above the last", -2, LAST_POSITION + 1, 1, 2, 36, 1, UNPATCHED},
    {"p twice the last", -2, 2 * LAST_POSITION, 1, 2, 36, 1, UNPATCHED},
    {"C 0", -2, 1, 0, 2, 36, 1, UNPATCHED},
    {"C 257", -2, 1, 257, 2, 36, 1, UNPATCHED},
    {"C 65,537", -2, 1, 65537, 2, 36, 1, UNPATCHED},
    {"p 0, equal pairs", -2, 0, 1, 4, 56, 1, PAIRS(0x0505, 0x0505)},
    {"p 2, C 1", 36, 2, 1, 2, 36, 1, UNPATCHED},
    {"list 5, 5, C 256", -3, 1, 256, 4, 56, 1, PAIRS(5, 5)},
    {"list 5, 5, C 6", -3, 1, 6, 4, 60, 1, PAIRS(5, 5)},
    {"list 5, 5, C 1", -3, 1, 1, 4, 60, 1, PAIRS(5, 5)},
    {"list 6, 5", -3, 1, 7, 4, 60, 1, PAIRS(6, 5)},
    {"list 256, 255", -3, 1, 256, 4, 60, 1, PAIRS(256, 255)},
    {"row above the last and (0, 0)", -3, 1, 256, 4, 60, 1, PAIRS(PAIR(ROWS, 0), 0)},
    {"C 1, block 1", -4, 1, 1, 4, 60, 1, PAIRS(0, 1)},
    {"C 255, block 255", -4, 1, 255, 4, 60, 1, PAIRS(255, 256)},
    {"row 6, block 0", ROWS > 6 ? 56 : -4, 1, 256, 4, 60, 1, PAIRS(0, PAIR(6, 0))},
    {"row 7, block 0", -4, 1, 256, 4, 60, 1, PAIRS(0, PAIR(7, 0))},
    {"row above the last", -4, 1, 256, 4, 60, 1, PAIRS(0, PAIR(ROWS, 0))},
    {"last row, block 255 and row above it", -4, 1, 256, 4, 56, 1, PAIRS(PAIR(LAST_ROW, 255), PAIR(ROWS, 0))},
    {"row 255, block 255", -4, 1, 256, 4, 60, 1, PAIRS(0, 65535)},
    {"list 255, 256", 56, 1, 256, 4, 60, 1, PAIRS(255, 256)},
    {"list 5, 6", 56, 1, 7, 4, 60, 1, PAIRS(5, 6)},
    {"C 1, block 0 of rows 0 and 1", 56, 1, 1, 4, 56, 1, PAIRS(0, 256)},
    {"last row, block 255", 56, 1, 256, 4, 56, 1, PAIRS(0, PAIR(LAST_ROW, 255))},
    {"no ticket, p 0", -2, 0, 1, 0, 16, 1, UNPATCHED},
    {"no ticket, C 257", -2, 1, 257, 0, 16, 1, UNPATCHED},
    {"no ticket, p twice the last", -2, 2 * LAST_POSITION, 256, 0, 16, 1, UNPATCHED},
    {"no ticket, last p, C 256", 16, LAST_POSITION, 256, 0, 16, 1, UNPATCHED},
    {"no ticket into 16 bytes", 16, 1, 1, 0, 16, 1, UNPATCHED},
    {"no ticket into 17 bytes", 16, 1, 1, 0, 17, 1, UNPATCHED},
    {"no ticket into 42,000 bytes", 16, 1, 1, 0, 42000, 1, UNPATCHED},
    {"C 1, a ticket too many", -4, 1, 1, 2 * ROWS + 2, 200, 1, UNPATCHED},
    {"C 1, a ticket too many, last row, block 1", -4, 1, 1, 2 * ROWS + 2, 200, 1, {{2 * ROWS, 2, PAIR(LAST_ROW, 1)}}},
    {"C 1, all tickets", SHEET_SIZE(ROWS), 1, 1, 2 * ROWS, 200, 1, UNPATCHED},
};

static void try_cases(void)
{
    for (size_t i = 0; i < sizeof cases / sizeof cases[0]; i++) {
        first_pairs(t.list, cases[i].blocks, cases[i].list_len / 2 + 1);
        patch(t.list, cases[i].patches);
        t.p = cases[i].p, t.c = cases[i].c;
        t.list_len = cases[i].list_len, t.sheet_len = cases[i].sheet_len;
        CHECK(compare() == cases[i].answer, "write: %s", cases[i].what);
    }
}

/* A sheet's output has no greatest size. */
static void null_and_huge_examples(void)
{
    uint8_t sheet[56], list[4] = {0, 0, 0, 1};
    CHECK(CALL(sheet_write)(1, 1, NULL, 0, sheet, 16) == 16, "a null list");
    CHECK(CALL(sheet_write)(1, 1, NULL, 0, NULL, 0) == -1, "a null list and a null sheet");
    CHECK(CALL(sheet_write)(1, 1, lend_huge(), huge_length(0), sheet, 16) == -1, "a list of 2^32 bytes");
    expect_huge_kept();
    CHECK(ref_sheet_write(FORMULA, 1, 1, list, 4, sheet, 56) == 56, "the reference refuses a list");
    CHECK(CALL(sheet_write)(1, 1, list, 4, lend_huge(), huge_length(55)) == 56, "a sheet of 2^32 + 55 bytes");
    expect_huge(sheet, 56);
}

static void write_first(uint64_t p, uint64_t c, size_t e, int64_t answer)
{
    t.p = p, t.c = c, t.list_len = 2 * e, t.sheet_len = SHEET_SIZE(e);
    CHECK(compare() == answer, "write %zu tickets, p %" PRIu64 " C %" PRIu64, e, p, c);
}

static void every_count(void)
{
    first_pairs(t.list, 256, TICKETS);
    for (size_t e = 0; e <= TICKETS; e++)
        write_first(1, 256, e, (int64_t)SHEET_SIZE(e));
}

/* An ascending list, with one block more in each row than the run has. */
static void more_than_the_run_has(void)
{
    for (uint64_t c = 1; c < 256; c++) {
        first_pairs(t.list, c + 1, ROWS * (c + 1));
        write_first(1, c, ROWS * (c + 1), -4);
    }
}

static void far_positions(void)
{
    static const uint64_t positions[] = {1000, 1001, 1002, 10000, 100000, 1000000};
    for (int i = 0; i < 6; i++)
        for (uint64_t row = 0; row < ROWS; row++) {
            put(t.list, 2, PAIR(row, below(256)));
            write_first(positions[i], 256, 1, 36);
        }
}

static void empty_lists(void)
{
    for (uint64_t p = 1; p <= LAST_POSITION; p *= 2)
        write_first(p, 1 + below(256), 0, 16);
}

static void write_at_the_last_position(void)
{
    uint8_t list[2] = {WRAPPING_BLOCK, 0}, sheet[36];
    CALL(sheet_write)(LAST_POSITION, 256, list, 2, sheet, 36);
}

int main(int argc, char **argv)
{
    static const struct suite suite = {prepare, damage, 15, compare};
    start("sheet_write", argc, argv);
    any_bytes(t.sheet, SHEET_ROOM);
    any_bytes(t.list, LIST_ROOM);
    try_cases();
    null_and_huge_examples();
    every_count();
    more_than_the_run_has();
    far_positions();
    empty_lists();
    run_suite(&suite);
    require_met("1 2 3 4 1+2 1+3 1+4 2+3 2+4 3+4");
    CHECK(still_working(write_at_the_last_position), "a sheet of one ticket at the last p is written at once");
    return finish();
}
