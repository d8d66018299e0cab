#include "sheets.h"

#include <string.h>

void prepare_sheet(struct sheet *sheet)
{
    uint8_t list[LIST_MAX];
    any_bytes(sheet->bytes, SHEET_ROOM);
    sheet->p = any_position();
    sheet->c = any_blocks();
    sheet->e = any_list(list, sheet->c, any_chance());
    sheet->len = any_sheet(sheet->bytes, sheet->p, sheet->c, list, sheet->e);
}

void make_sheet(struct sheet *sheet, const struct sheet_form *form)
{
    uint8_t list[LIST_MAX + 2];
    any_bytes(sheet->bytes, SHEET_ROOM);
    first_pairs(list, form->c > 0 ? form->c : 1, form->e);
    any_sheet(sheet->bytes, form->p, form->c, list, form->e);
    patch(sheet->bytes, form->patches);
    sheet->p = form->p;
    sheet->c = form->c;
    sheet->e = form->e;
    sheet->len = form->len;
}

void sheet_of_blocks(struct sheet *sheet, uint64_t blocks, uint64_t c)
{
    struct sheet_form form = {1, blocks, ROWS * blocks, SHEET_SIZE(ROWS * blocks), {{8, 2, c}}};
    make_sheet(sheet, &form);
    sheet->c = c;
}

/* Two entries of the contents, each of 4 bytes: the row, a zero byte, the block. */
#define ENTRY(row, block) ((row) | (uint64_t)(block) << 16)
#define ENTRIES(row, block, next_row, next_block) {{16, 4, ENTRY(row, block)}, {20, 4, ENTRY(next_row, next_block)}}

const struct sheet_case sheet_cases[] = {
    {"15 bytes", 1, {1, 1, 0, 15, UNPATCHED}},
    {"15 bytes, C 256", 1, {1, 256, 0, 15, UNPATCHED}},
    {"16 bytes", 0, {1, 1, 0, 16, UNPATCHED}},
    {"16 bytes, C 256", 0, {1, 256, 0, 16, UNPATCHED}},
    {"17 bytes, e 0", 3, {1, 1, 0, 17, UNPATCHED}},
    {"the longest sheet's bytes, e 0", 3, {1, 256, 0, SHEET_MAX, UNPATCHED}},
    {"a byte more than the longest sheet, e 0", 1, {1, 256, 0, SHEET_MAX + 1, UNPATCHED}},
    {"C 1, all tickets, a byte less", 3, {1, 1, ROWS, SHEET_SIZE(ROWS) - 1, UNPATCHED}},
    {"C 1, all tickets, a byte more", 3, {1, 1, ROWS, SHEET_SIZE(ROWS) + 1, UNPATCHED}},
    {"the longest sheet", 0, {1, 256, TICKETS, SHEET_MAX, UNPATCHED}},
    {"the longest sheet, a byte more", 1, {1, 256, TICKETS, SHEET_MAX + 1, UNPATCHED}},
    {"the longest sheet, a ticket more", 1, {1, 256, TICKETS + 1, SHEET_MAX + 20, UNPATCHED}},
    {"e 65,535 in 16 bytes", 3, {1, 1, 0, 16, {{10, 2, 65535}}}},
    {"e 65,535 in 16 bytes, C 256", 3, {1, 256, 0, 16, {{10, 2, 65535}}}},
    {"e 65,535 in 16 bytes, p 0", 2, {0, 256, 0, 16, {{10, 2, 65535}}}},
    {"e 65,535 in the longest sheet's bytes", 3, {1, 1, 0, SHEET_MAX, {{10, 2, 65535}}}},
    {"e 65,535 in a byte more", 1, {1, 1, 0, SHEET_MAX + 1, {{10, 2, 65535}}}},
    {"p 0", 2, {0, 1, 1, 36, UNPATCHED}},
    {"p one above the last", 2, {LAST_POSITION + 1, 1, 1, 36, UNPATCHED}},
    {"p twice the last", 2, {2 * LAST_POSITION, 1, 1, 36, UNPATCHED}},
    {"p twice the last, e 0", 2, {2 * LAST_POSITION, 1, 0, 16, UNPATCHED}},
    {"C 0", 2, {1, 0, 1, 36, UNPATCHED}},
    {"C 257", 2, {1, 257, 1, 36, UNPATCHED}},
    {"C 65,535", 2, {1, 65535, 1, 36, UNPATCHED}},
    {"last p, C 256", 0, {LAST_POSITION, 256, 1, 36, UNPATCHED}},
    {"C 257, equal tickets", 2, {1, 257, 2, 56, ENTRIES(0, 0, 0, 0)}},
    {"e 0, C 513, zero byte 15", 2, {1, 513, 0, 16, {{15, 1, 1}}}},
    {"e 0, p 0", 2, {0, 1, 0, 16, UNPATCHED}},
    {"e 0, zero byte 15", 3, {1, 1, 0, 16, {{15, 1, 1}}}},
    {"C 1, (0, 0), (0, 0)", 3, {1, 1, 2, 56, ENTRIES(0, 0, 0, 0)}},
    {"C 1, (1, 0), (0, 0)", 3, {1, 1, 2, 56, ENTRIES(1, 0, 0, 0)}},
    {"(0, 5), (0, 6)", 0, {1, 256, 2, 56, ENTRIES(0, 5, 0, 6)}},
    {"(0, 5), (0, 5)", 3, {1, 256, 2, 56, ENTRIES(0, 5, 0, 5)}},
    {"(0, 6), (0, 5)", 3, {1, 256, 2, 56, ENTRIES(0, 6, 0, 5)}},
    {"(0, 255), (1, 0)", 0, {1, 256, 2, 56, ENTRIES(0, 255, 1, 0)}},
    {"(0, 256), (1, 0): 256 twice", 3, {1, 256, 2, 56, ENTRIES(0, 256, 1, 0)}},
    {"(0, 300), (1, 44): 300 twice", 3, {1, 256, 2, 56, ENTRIES(0, 300, 1, 44)}},
    {"(0, 300), (1, 100): 300 below 356", 4, {1, 256, 2, 56, ENTRIES(0, 300, 1, 100)}},
    {"row above the last, (0, 0)", 3, {1, 256, 2, 56, ENTRIES(ROWS, 0, 0, 0)}},
    {"row above the last, last row", 3, {1, 256, 2, 56, ENTRIES(ROWS, 0, LAST_ROW, 255)}},
    {"last row, row above the last", 4, {1, 256, 2, 56, ENTRIES(LAST_ROW, 255, ROWS, 0)}},
    {"(0, 0), row above the last", 4, {1, 256, 2, 56, ENTRIES(0, 0, ROWS, 0)}},
    {"(0, 0), (6, 0)", ROWS > 6 ? 0 : 4, {1, 256, 2, 56, ENTRIES(0, 0, 6, 0)}},
    {"(0, 0), (7, 0)", 4, {1, 256, 2, 56, ENTRIES(0, 0, 7, 0)}},
    {"(0, 0), last row, block 256", 4, {1, 256, 2, 56, ENTRIES(0, 0, LAST_ROW, 256)}},
    {"(0, 0), (255, 65535)", 4, {1, 256, 2, 56, ENTRIES(0, 0, 255, 65535)}},
    {"the greatest entry twice", 3, {1, 256, 2, 56, ENTRIES(255, 65535, 255, 65535)}},
    {"C 1, (0, 0), (0, 1)", 4, {1, 1, 2, 56, ENTRIES(0, 0, 0, 1)}},
    {"head's zero byte 12", 3, {1, 1, 2, 56, {{12, 1, 1}}}},
    {"head's zero byte 15", 3, {1, 1, 2, 56, {{15, 1, 128}}}},
    {"first entry's zero byte", 3, {1, 1, 2, 56, {{17, 1, 1}}}},
    {"last entry's zero byte", 3, {1, 1, 2, 56, {{21, 1, 255}}}},
    {"e 1 in 56 bytes", 3, {1, 1, 2, 56, {{10, 1, 1}}}},
    {"e 0 in 56 bytes", 3, {1, 1, 2, 56, {{10, 1, 0}}}},
    {"C 1, e 2", 0, {1, 1, 2, 56, UNPATCHED}},
    {"C 1, e 2, another sum", 0, {1, 1, 2, 56, {{24, 1, 6}}}},
    {"C 1, all tickets", 0, {1, 1, ROWS, SHEET_SIZE(ROWS), UNPATCHED}},
    {"C 1, all tickets, row above the last", 4, {1, 1, ROWS + 1, SHEET_SIZE(ROWS + 1), UNPATCHED}},
    {"C 1, all tickets, last row twice", 3,
     {1, 1, ROWS + 1, SHEET_SIZE(ROWS + 1), {{16 + 4 * ROWS, 4, ENTRY(LAST_ROW, 0)}}}},
    {"C 1, all tickets, last row, block 1", 4,
     {1, 1, ROWS + 1, SHEET_SIZE(ROWS + 1), {{16 + 4 * ROWS, 4, ENTRY(LAST_ROW, 1)}}}},
};
const size_t sheet_case_count = sizeof sheet_cases / sizeof sheet_cases[0];

static uint8_t *entry(struct sheet *sheet, size_t i)
{
    return sheet->bytes + 16 + 4 * i;
}

static uint64_t key(const uint8_t *at)
{
    return 256 * at[0] + ref_load(at + 2, 2);
}

/* The first two entries equal, or in the wrong order. A third keeps the last one apart from them. */
static int spoil_order(struct sheet *sheet, int equal)
{
    uint8_t *first = entry(sheet, 0), *second = entry(sheet, 1), kept[4];
    if (sheet->e < 3)
        return NOTHING;
    memcpy(kept, first, 4);
    if (!equal && key(first) < key(second))
        memcpy(first, second, 4);
    memcpy(second, kept, 4);
    return 3;
}

static int last_row(struct sheet *sheet, uint8_t row)
{
    if (sheet->e == 0)
        return NOTHING;
    entry(sheet, sheet->e - 1)[0] = row;
    return 4;
}

static int last_block(struct sheet *sheet, uint64_t block)
{
    if (sheet->e == 0)
        return NOTHING;
    put(entry(sheet, sheet->e - 1) + 2, 2, block);
    return 4;
}

static int zero_byte(struct sheet *sheet)
{
    if (sheet->e == 0)
        return NOTHING;
    entry(sheet, below(sheet->e))[1] = (uint8_t)(1 << below(8));
    return 3;
}

/* A length that no count explains, in place of the one prepared. */
static int wrong_length(struct sheet *sheet)
{
    size_t step = 1 + below(19);
    if (sheet->len != SHEET_SIZE(sheet->e))
        return NOTHING;
    if (below(2) == 0 && sheet->e > 0)
        sheet->len -= step;
    else
        sheet->len += step;
    return sheet->len > SHEET_MAX ? 1 : 3;
}

int damage_sheet(struct sheet *sheet, int kind)
{
    switch (kind) {
    case 0: sheet->len = below(16); return 1;
    case 1: sheet->len = SHEET_MAX + 1 + below(SHEET_ROOM - SHEET_MAX); return 1;
    case 2: put(sheet->bytes + 10, 2, TICKETS + 1), sheet->len = SHEET_SIZE(TICKETS + 1); return 1;
    case 3: put(sheet->bytes, 8, bad_position()); return 2;
    case 4: put(sheet->bytes + 8, 2, below(2) == 0 ? 0 : 257 + below(65536 - 257)); return 2;
    case 5: return wrong_length(sheet);
    case 6: put(sheet->bytes + 10, 2, sheet->e + 1 + below(3)); return UNSURE;
    case 7: put(sheet->bytes + 10, 2, any()); return UNSURE;
    case 8: sheet->bytes[12 + below(4)] = (uint8_t)(1 << below(8)); return 3;
    case 9: return zero_byte(sheet);
    case 10: return spoil_order(sheet, 0);
    case 11: return spoil_order(sheet, 1);
    case 12: return last_row(sheet, ROWS);
    case 13: return last_row(sheet, (uint8_t)(ROWS + below(256 - ROWS)));
    case 14: return last_block(sheet, sheet->c);
    case 15: return last_block(sheet, 256 * (1 + below(255)) + below(256));
    case 16: any_bytes(sheet->bytes, sheet->len); return UNSURE;
    case 17: any_bytes(sheet->bytes + 16, 4 * sheet->e); return UNSURE;
    default: sheet->bytes[below(16 + 4 * sheet->e)] ^= (uint8_t)(1 << below(8)); return UNSURE;
    }
}
