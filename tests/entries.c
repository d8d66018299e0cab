#include "entries.h"

void prepare_entry(struct entry *x)
{
    x->p = any_position();
    x->c = any_blocks();
    x->row = below(ROWS);
    x->block = below(4) == 0 ? x->c - 1 : below(x->c);
    any_bytes(x->ledger, sizeof x->ledger);
    any_ledger(x->ledger, x->p, x->c, any_chance());
    set_mark(x->ledger, x->row, x->block, 0);
    x->ledger_len = LEDGER_SIZE;
}

int mark_entry(struct entry *x)
{
    if (x->row > LAST_ROW || x->block > 255)
        return NOTHING;
    set_mark(x->ledger, x->row, x->block, 1);
    return 7;
}

/* Another block count in which the block stays in range. */
static int other_count(struct entry *x)
{
    if (x->c == 0 || x->c > 256 || x->block >= x->c || x->block == 255)
        return UNSURE;
    x->c = x->c < 256 ? x->c + 1 : x->block + 1;
    return ref_load(x->ledger + 8, 2) == x->c ? UNSURE : 6;
}

static int other_position(struct entry *x)
{
    if (x->p == 0 || x->p > LAST_POSITION)
        return NOTHING;
    x->p = x->p > 1 ? x->p - 1 : 2;
    return ref_load(x->ledger, 8) == x->p ? UNSURE : 6;
}

int damage_entry(struct entry *x, int kind)
{
    switch (kind) {
    case 0: x->ledger_len = wrong_ledger_size(); return 1;
    case 1: x->ledger_len = 0; return 1;
    case 2: x->p = bad_position(); return 2;
    case 3: x->c = bad_blocks(); return 2;
    case 4: x->row = ROWS; return 4;
    case 5: x->row = wide_number(below(ROWS)); return 4;
    case 6: x->block = x->c; return 4;
    case 7: x->block = wide_number(below(256)); return 4;
    case 8:
    case 9: spoil_ledger(x->ledger); return 5;
    case 10: any_bytes(x->ledger, LEDGER_SIZE); return UNSURE;
    case 11: x->ledger[below(LEDGER_SIZE)] ^= (uint8_t)(1 << below(8)); return UNSURE;
    case 12: return other_position(x);
    default: return other_count(x);
    }
}

#define FRESH(c) {LEDGER_SIZE, 1, c, 0, UNPATCHED}
#define ZEROS {LEDGER_SIZE, 0, 0, 0, UNPATCHED}
#define BYTE(c, at, value) {LEDGER_SIZE, 1, c, 0, {{at, 1, value}}}
#define FULL {LEDGER_SIZE, 1, 1, 1, {{SUM_AT(0), 8, 50}}}
/* A ledger whose position is above the last. */
#define ABOVE(p) {LEDGER_SIZE, p, 1, 0, UNPATCHED}

const struct entry_case entry_cases[] = {
    {"fresh ledger of 256 bytes, as version 1.0.0 had it", 1, {256, 1, 1, 0, UNPATCHED}, 1, 1, 0, 0, 16},
    {"ledger of 256 bytes, p 0", 1, {256, 1, 1, 0, UNPATCHED}, 0, 1, 0, 0, 16},
    {"ledger of the other kind's size", 1, {OTHER_LEDGER_SIZE, 1, 1, 0, UNPATCHED}, 1, 1, 0, 0, 16},
    {"ledger of a byte less", 1, {LEDGER_SIZE - 1, 1, 1, 0, UNPATCHED}, 1, 1, 0, 0, 16},
    {"ledger of a byte more", 1, {LEDGER_SIZE + 1, 1, 1, 0, UNPATCHED}, 1, 1, 0, 0, 16},
    {"ledger of a byte less, p 0", 1, {LEDGER_SIZE - 1, 1, 1, 0, UNPATCHED}, 0, 1, 0, 0, 16},
    {"sum of 15 bytes", 1, FRESH(1), 1, 1, 0, 0, 15},
    {"sum of 17 bytes", 1, FRESH(1), 1, 1, 0, 0, 17},
    {"sum of 15 bytes, row above the last", 1, FRESH(1), 1, 1, ROWS, 0, 15},
    {"sum of 17 bytes, ledger of zeros", 1, ZEROS, 1, 1, 0, 0, 17},
    {"p 0", 2, FRESH(1), 0, 1, 0, 0, 16},
    {"p one above the last", 2, FRESH(1), LAST_POSITION + 1, 1, 0, 0, 16},
    {"p twice the last", 2, FRESH(1), 2 * LAST_POSITION, 1, 0, 0, 16},
    {"p twice the last, as the ledger's", 2, ABOVE(2 * LAST_POSITION), 2 * LAST_POSITION, 1, 0, 0, 16},
    {"C 0", 2, FRESH(1), 1, 0, 0, 0, 16},
    {"C 257", 2, FRESH(1), 1, 257, 0, 0, 16},
    {"C 65,537", 2, FRESH(1), 1, 65537, 0, 0, 16},
    {"p 0, row above the last", 2, FRESH(1), 0, 1, ROWS, 0, 16},
    {"C 1, block 1", 4, FRESH(1), 1, 1, 0, 1, 16},
    {"row above the last", 4, FRESH(1), 1, 1, ROWS, 0, 16},
    {"row 6", ROWS > 6 ? 0 : 4, FRESH(1), 1, 1, 6, 0, 16},
    {"row 7", 4, FRESH(1), 1, 1, 7, 0, 16},
    {"row 256", 4, FRESH(1), 1, 1, 256, 0, 16},
    {"C 256, block 256", 4, FRESH(256), 1, 256, 0, 256, 16},
    {"block 2^32", 4, FRESH(1), 1, 1, 0, UINT64_C(1) << 32, 16},
    {"block 1 of C 1 on a ledger of C 2", 4, FRESH(2), 1, 1, 0, 1, 16},
    {"block 1 of C 2 on a ledger of C 1", 6, FRESH(1), 1, 2, 0, 1, 16},
    {"p 2, row above the last", 4, FRESH(1), 2, 1, ROWS, 0, 16},
    {"ledger's p 0", 5, BYTE(1, 0, 0), 1, 1, 0, 0, 16},
    {"ledger's p one above the last", 5, ABOVE(LAST_POSITION + 1), 1, 1, 0, 0, 16},
    {"ledger's p twice the last", 5, ABOVE(2 * LAST_POSITION), 1, 1, 0, 0, 16},
    {"ledger's C 0", 5, BYTE(1, 8, 0), 1, 1, 0, 0, 16},
    {"ledger's C 257", 5, BYTE(1, 9, 1), 1, 1, 0, 0, 16},
    {"reserved byte 10", 5, BYTE(1, 10, 1), 1, 1, 0, 0, 16},
    {"reserved byte 15", 5, BYTE(1, 15, 128), 1, 1, 0, 0, 16},
    {"C 1, mark at 1", 5, BYTE(1, MARKS_AT(0), 2), 1, 1, 0, 0, 16},
    {"C 1, last row, mark at 255", 5, BYTE(1, MARKS_AT(LAST_ROW) + 31, 128), 1, 1, 0, 0, 16},
    {"C 255, mark at 255", 5, BYTE(255, MARKS_AT(0) + 31, 128), 1, 255, 0, 0, 16},
    {"C 256, mark at 255", 0, BYTE(256, MARKS_AT(0) + 31, 128), 1, 256, 0, 0, 16},
    {"row 1's sum 2, where version 1.0.0 had marks", 0, BYTE(1, SUM_AT(1), 2), 1, 1, 0, 0, 16},
    {"last row's sum 2^127, its ticket not marked", 0, BYTE(1, SUM_AT(LAST_ROW) + 15, 128), 1, 1, LAST_ROW, 0, 16},
    {"ledger of zeros", 5, ZEROS, 1, 1, 0, 0, 16},
    {"ledger of zeros, row above the last", 4, ZEROS, 1, 1, ROWS, 0, 16},
    {"ledger of zeros, p 2", 5, ZEROS, 2, 1, 0, 0, 16},
    {"p 2 on a ledger of 1", 6, FRESH(1), 2, 1, 0, 0, 16},
    {"last p on a ledger of 1", 6, FRESH(1), LAST_POSITION, 1, 0, 0, 16},
    {"C 2 on a ledger of 1", 6, FRESH(1), 1, 2, 0, 0, 16},
    {"C 256 on a ledger of 1", 6, FRESH(1), 1, 256, LAST_ROW, 255, 16},
    {"all marked, p 2 on a ledger of 1", 6, FULL, 2, 1, 0, 0, 16},
    {"all marked", 7, FULL, 1, 1, LAST_ROW, 0, 16},
};
const size_t entry_case_count = sizeof entry_cases / sizeof entry_cases[0];

void make_entry(struct entry *x, const struct entry_case *one)
{
    prepare_entry(x);
    make_ledger(x->ledger, &one->ledger);
    x->ledger_len = one->ledger.len;
    x->p = one->p, x->c = one->c, x->row = one->row, x->block = one->block;
}
