#include "postings.h"

#include <inttypes.h>

static void clear_marks_of_sheet(struct posting *x)
{
    for (size_t i = 0; i < x->sheet.e; i++)
        set_mark(x->ledger, x->sheet.bytes[16 + 4 * i], x->sheet.bytes[18 + 4 * i], 0);
}

void prepare_posting(struct posting *x)
{
    prepare_sheet(&x->sheet);
    any_bytes(x->ledger, sizeof x->ledger);
    any_ledger(x->ledger, x->sheet.p, x->sheet.c, any_chance());
    clear_marks_of_sheet(x);
    x->ledger_len = LEDGER_SIZE;
}

/* A mark for one of the tickets: the last, the first or any. */
static int mark_one(struct posting *x, size_t i)
{
    if (x->sheet.e == 0)
        return NOTHING;
    const uint8_t *entry = x->sheet.bytes + 16 + 4 * i;
    if (entry[0] > LAST_ROW || entry[3] != 0)
        return NOTHING;
    set_mark(x->ledger, entry[0], entry[2], 1);
    return entry[2] < ref_load(x->ledger + 8, 2) ? 7 : UNSURE;
}

static int other_run(struct posting *x)
{
    put(x->ledger, 8, x->sheet.p > 1 ? x->sheet.p - 1 : 2);
    return 6;
}

/* More blocks in the ledger than in the sheet: the ledger stays in order. */
static int other_count(struct posting *x)
{
    if (x->sheet.c >= 256 || ref_load(x->ledger + 8, 2) != x->sheet.c)
        return UNSURE;
    put(x->ledger + 8, 2, x->sheet.c + 1);
    return 6;
}

int damage_posting(struct posting *x, int kind)
{
    size_t e = x->sheet.e;
    if (kind < SHEET_KINDS)
        return damage_sheet(&x->sheet, kind);
    switch (kind - SHEET_KINDS) {
    case 0: x->ledger_len = wrong_ledger_size(); return 1;
    case 1: x->ledger_len = 0; return 1;
    case 2:
    case 3: spoil_ledger(x->ledger); return UNSURE;
    case 4: x->ledger[10 + below(6)] = (uint8_t)(1 << below(8)); return 5;
    case 5: any_bytes(x->ledger, LEDGER_SIZE); return UNSURE;
    case 6: x->ledger[below(LEDGER_SIZE)] ^= (uint8_t)(1 << below(8)); return UNSURE;
    case 7: return other_run(x);
    case 8: return other_count(x);
    case 9: return mark_one(x, 0);
    case 10: return mark_one(x, e > 0 ? e - 1 : 0);
    default: return mark_one(x, e > 0 ? below(e) : 0);
    }
}

void first_tickets(struct posting *x, uint64_t c, uint64_t e)
{
    struct sheet_form form = {1, c, e, SHEET_SIZE(e), UNPATCHED};
    make_sheet(&x->sheet, &form);
}

void ledger_of(struct posting *x, uint64_t c, uint64_t chance)
{
    any_ledger(x->ledger, 1, c, chance);
    x->ledger_len = LEDGER_SIZE;
}

#define ONE(p, c) {p, c, 1, 36, UNPATCHED}
#define NONE {1, 1, 0, 16, UNPATCHED}

/* Sheets and the ledgers that they meet. */
static const struct {
    const char *what;
    int64_t refusal;
    struct ledger_form ledger;
    struct sheet_form sheet;
} ledger_cases[] = {
    {"fresh ledger of 256 bytes, as version 1.0.0 had it", -1, {256, 1, 1, 0, UNPATCHED}, ONE(1, 1)},
    {"ledger of 256 bytes, p 0", -1, {256, 1, 1, 0, UNPATCHED}, ONE(0, 1)},
    {"ledger of the other kind's size", -1, {OTHER_LEDGER_SIZE, 1, 1, 0, UNPATCHED}, ONE(1, 1)},
    {"ledger of a byte less", -1, {LEDGER_SIZE - 1, 1, 1, 0, UNPATCHED}, ONE(1, 1)},
    {"ledger of a byte more", -1, {LEDGER_SIZE + 1, 1, 1, 0, UNPATCHED}, ONE(1, 1)},
    {"ledger of a byte less, p 0", -1, {LEDGER_SIZE - 1, 1, 1, 0, UNPATCHED}, ONE(0, 1)},
    {"ledger's p 0", -5, {LEDGER_SIZE, 0, 1, 0, UNPATCHED}, ONE(1, 1)},
    {"ledger's p one above the last", -5, {LEDGER_SIZE, LAST_POSITION + 1, 1, 0, UNPATCHED}, ONE(1, 1)},
    {"ledger's p twice the last", -5, {LEDGER_SIZE, 2 * LAST_POSITION, 1, 0, UNPATCHED}, ONE(1, 1)},
    {"both p twice the last", -2, {LEDGER_SIZE, 2 * LAST_POSITION, 1, 0, UNPATCHED}, ONE(2 * LAST_POSITION, 1)},
    {"ledger's C 0", -5, {LEDGER_SIZE, 1, 0, 0, UNPATCHED}, ONE(1, 1)},
    {"ledger's C 257", -5, {LEDGER_SIZE, 1, 1, 0, {{9, 1, 1}}}, ONE(1, 1)},
    {"reserved byte 10", -5, {LEDGER_SIZE, 1, 1, 0, {{10, 1, 1}}}, ONE(1, 1)},
    {"reserved byte 15", -5, {LEDGER_SIZE, 1, 1, 0, {{15, 1, 128}}}, ONE(1, 1)},
    {"mark at C", -5, {LEDGER_SIZE, 1, 1, 0, {{MARKS_AT(0), 1, 2}}}, ONE(1, 1)},
    {"last row, mark at 255", -5, {LEDGER_SIZE, 1, 1, 0, {{MARKS_AT(LAST_ROW) + 31, 1, 128}}}, ONE(1, 1)},
    {"row 1's sum 2, where 1.0.0 had marks", 0, {LEDGER_SIZE, 1, 1, 0, {{SUM_AT(1), 1, 2}}}, ONE(1, 1)},
    {"ledger of zeros", -5, {LEDGER_SIZE, 0, 0, 0, UNPATCHED}, ONE(1, 1)},
    {"ledger of zeros, p 2", -5, {LEDGER_SIZE, 0, 0, 0, UNPATCHED}, ONE(2, 1)},
    {"ledger of zeros, C 1, block 1", -4, {LEDGER_SIZE, 0, 0, 0, UNPATCHED}, {1, 1, 2, 56, {{20, 4, 1 << 16}}}},
    {"p 2 on a ledger of 1", -6, {LEDGER_SIZE, 1, 1, 0, UNPATCHED}, ONE(2, 1)},
    {"last p on a ledger of 1", -6, {LEDGER_SIZE, 1, 1, 0, UNPATCHED}, ONE(LAST_POSITION, 1)},
    {"C 2 on a ledger of 1", -6, {LEDGER_SIZE, 1, 1, 0, UNPATCHED}, ONE(1, 2)},
    {"all marked, p 2 on a ledger of 1", -6, {LEDGER_SIZE, 1, 1, 1, {{SUM_AT(0), 8, 50}}}, ONE(2, 1)},
    {"all marked", -7, {LEDGER_SIZE, 1, 1, 1, {{SUM_AT(0), 8, 50}}}, ONE(1, 1)},
    {"all marked, a ticket too many", -1, {LEDGER_SIZE, 1, 256, 1, UNPATCHED},
     {1, 256, TICKETS + 1, SHEET_MAX + 20, UNPATCHED}},
    {"e 0", 0, {LEDGER_SIZE, 1, 1, 0, UNPATCHED}, NONE},
    {"e 0, all marked", 0, {LEDGER_SIZE, 1, 1, 1, UNPATCHED}, NONE},
    {"e 0, ledger of zeros", -5, {LEDGER_SIZE, 0, 0, 0, UNPATCHED}, NONE},
    {"e 0, ledger of p 2", -6, {LEDGER_SIZE, 2, 1, 0, UNPATCHED}, NONE},
};

static void make_posting(struct posting *x, const struct ledger_form *ledger, const struct sheet_form *sheet)
{
    make_sheet(&x->sheet, sheet);
    make_ledger(x->ledger, ledger);
    x->ledger_len = ledger->len;
}

void every_posting(struct posting *x, refusal_call *refusal)
{
    for (size_t i = 0; i < sheet_case_count; i++) {
        const struct sheet_case *one = &sheet_cases[i];
        int in_range = one->number != 2;
        struct ledger_form fresh = {LEDGER_SIZE, in_range ? one->form.p : 1, in_range ? one->form.c : 1, 0, UNPATCHED};
        make_posting(x, &fresh, &one->form);
        CHECK(refusal() == -one->number, "a sheet: %s", one->what);
    }
    for (size_t i = 0; i < sizeof ledger_cases / sizeof ledger_cases[0]; i++) {
        make_posting(x, &ledger_cases[i].ledger, &ledger_cases[i].sheet);
        CHECK(refusal() == ledger_cases[i].refusal, "a sheet and a ledger: %s", ledger_cases[i].what);
    }
}

void one_marked(struct posting *x, refusal_call *refusal, uint64_t c)
{
    uint64_t all = ROWS * c;
    first_tickets(x, c, all);
    for (size_t i = 0; i < all; i++) {
        ledger_of(x, c, 0);
        set_mark(x->ledger, i / c, i % c, 1);
        CHECK(refusal() == -7, "the ticket at place %zu is marked", i);
    }
    ledger_of(x, c, 0);
    CHECK(refusal() == 0, "the sheet of all tickets of C = %" PRIu64, c);
}

void more_than_the_run_has(struct posting *x, refusal_call *refusal)
{
    for (uint64_t c = 1; c < 256; c++) {
        sheet_of_blocks(&x->sheet, c + 1, c);
        ledger_of(x, c, 0);
        CHECK(refusal() == -4, "a sheet of %" PRIu64 " blocks a row for C = %" PRIu64, c + 1, c);
    }
}
