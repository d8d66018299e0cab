#include "books.h"

#include <inttypes.h>
#include <stdlib.h>
#include <string.h>

ref_u128 kept_sum(const struct book *book, uint64_t row, uint64_t block)
{
    return ref_load_sum(book->bytes + BOOK_AT(row, block));
}

void set_kept_sum(struct book *book, uint64_t row, uint64_t block, ref_u128 sum)
{
    put_sum(book->bytes + BOOK_AT(row, block), sum);
}

static void add_to_place(struct book *book, uint64_t row, uint64_t block, ref_u128 sum)
{
    set_kept_sum(book, row, block, kept_sum(book, row, block) + sum);
}

static void add_to_row(uint8_t *ledger, uint64_t row, ref_u128 sum)
{
    set_row_sum(ledger, row, ref_load_sum(ledger + SUM_AT(row)) + sum);
}

void enter_sum(uint8_t *ledger, struct book *book, uint64_t row, uint64_t block, ref_u128 sum)
{
    set_mark(ledger, row, block, 1);
    set_kept_sum(book, row, block, sum);
    add_to_row(ledger, row, sum);
}

void take_sum(uint8_t *ledger, struct book *book, uint64_t row, uint64_t block)
{
    set_mark(ledger, row, block, 0);
    add_to_row(ledger, row, -kept_sum(book, row, block));
    set_kept_sum(book, row, block, 0);
}

void any_book(struct book *book, uint8_t *ledger)
{
    any_bytes(book->bytes, BOOK_ROOM);
    memset(book->bytes, 0, BOOK_SIZE);
    book->len = BOOK_SIZE;
    for (uint64_t row = 0; row < ROWS; row++) {
        set_row_sum(ledger, row, 0);
        for (uint64_t block = 0; block < 256; block++)
            if (ref_marked(FORMULA, ledger, row, block))
                enter_sum(ledger, book, row, block, below(8) == 0 ? 0 : any_sum());
    }
}

/* Damages. */

struct place {
    uint64_t row, block;
};

/* A place whose mark is set, or one whose mark is not; gives whether there is one in the row. */
static int any_place_of(const uint8_t *ledger, uint64_t row, int marked, struct place *place)
{
    uint64_t start = below(256);
    for (uint64_t i = 0; i < 256; i++) {
        *place = (struct place){row, (start + i) % 256};
        if (ref_marked(FORMULA, ledger, row, place->block) == marked)
            return 1;
    }
    return 0;
}

static int any_place(const uint8_t *ledger, int marked, struct place *place)
{
    return any_place_of(ledger, below(ROWS), marked, place);
}

static int change_byte(struct book *book)
{
    book->bytes[below(BOOK_SIZE)] ^= (uint8_t)(1 + below(255));
    return 5;
}

/* Something kept at a place that is not marked; the row sum has it too. */
static int keep_unmarked(struct book *book, uint8_t *ledger, ref_u128 sum)
{
    struct place at;
    if (!any_place(ledger, 0, &at))
        return NOTHING;
    add_to_place(book, at.row, at.block, sum);
    add_to_row(ledger, at.row, sum);
    return 5;
}

/* From one marked place to another: in two rows, where the total stays, or in one, where all is in order. */
static int move_kept(struct book *book, uint8_t *ledger, int one_row)
{
    struct place from, to;
    uint64_t row = below(ROWS), other = one_row ? row : (row + 1 + below(ROWS - 1)) % ROWS;
    ref_u128 sum = any_sum() | 1;
    if (!any_place_of(ledger, row, 1, &from) || !any_place_of(ledger, other, 1, &to))
        return NOTHING;
    add_to_place(book, from.row, from.block, -sum);
    add_to_place(book, to.row, to.block, sum);
    return one_row ? NOTHING : 5;
}

static int move_row_sum(uint8_t *ledger)
{
    uint64_t row = below(ROWS);
    ref_u128 sum = any_sum() | 1;
    add_to_row(ledger, row, -sum);
    add_to_row(ledger, (row + 1 + below(ROWS - 1)) % ROWS, sum);
    return 5;
}

/* A marked ticket keeps zero: in order. */
static int keep_zero(struct book *book, uint8_t *ledger)
{
    struct place at;
    if (!any_place(ledger, 1, &at))
        return NOTHING;
    add_to_row(ledger, at.row, -kept_sum(book, at.row, at.block));
    set_kept_sum(book, at.row, at.block, 0);
    return NOTHING;
}

static int change(struct book *book, uint8_t *ledger, int kind)
{
    switch (kind) {
    case 0: book->len = wrong_size(BOOK_SIZE); return 1;
    case 1: book->len = 0; return 1;
    case 2:
    case 3: return change_byte(book);
    case 4: return keep_unmarked(book, ledger, any_sum() | 1);
    case 5: return keep_unmarked(book, ledger, (ref_u128)(1 + below(255)) << 8 * below(16));
    case 6: return move_kept(book, ledger, 0);
    case 7: return move_kept(book, ledger, 1);
    case 8: return move_row_sum(ledger);
    case 9: return keep_zero(book, ledger);
    default: any_bytes(book->bytes, BOOK_SIZE); return UNSURE;
    }
}

/* One damage could undo another: 5 is sure where the two fitted before. */
int damage_book(struct book *book, uint8_t *ledger, int kind)
{
    int fitted = ref_book_in_order(ledger, book->bytes), number = change(book, ledger, kind);
    return number == 5 && !fitted ? UNSURE : number;
}

int unless_put_right(int fitted, int number, const uint8_t *ledger, const struct book *book)
{
    return !fitted && ref_book_in_order(ledger, book->bytes) ? UNSURE : number;
}

/* Sizes. */

void every_book_size(void (*prepare)(void), int64_t (*compare)(void), size_t *book_len, int64_t answer)
{
    static const size_t others[] = {LEDGER_SIZE, 4096, 7 * 16, 7 * 256, BOOK_SIZE / 2, 16384, BOOK_SIZE - 4096};
    for (size_t len = 0; len <= BOOK_ROOM; len++) {
        if (len == 65)
            len = BOOK_SIZE - 64;
        prepare();
        *book_len = len;
        CHECK(compare() == (len == BOOK_SIZE ? answer : -1), "a book of %zu bytes", len);
    }
    for (size_t i = 0; i < sizeof others / sizeof others[0]; i++) {
        prepare();
        *book_len = others[i];
        CHECK(compare() == -1, "a book of %zu bytes", others[i]);
    }
}

void expect_both(uint8_t *ledger, size_t ledger_len, struct book *book, uint8_t *wanted_ledger, uint8_t *wanted_book)
{
    expect(0, wanted_ledger, "the ledger");
    expect(1, wanted_book, "the book");
    if (ledger_len > 0)
        memcpy(ledger, wanted_ledger, ledger_len);
    if (book->len > 0)
        memcpy(book->bytes, wanted_book, book->len);
    free(wanted_ledger);
    free(wanted_book);
}

/* Every damage, one at a time, on copies. */

static uint8_t damaged_ledger[LEDGER_SIZE];
static struct book damaged;

static void copy_both(const uint8_t *ledger, const struct book *book)
{
    memcpy(damaged_ledger, ledger, LEDGER_SIZE);
    memcpy(damaged.bytes, book->bytes, BOOK_SIZE);
}

static void try_damage(book_call *call, int in_order, const char *what, uint64_t at, uint64_t other)
{
    static uint8_t kept_ledger[LEDGER_SIZE], kept_book[BOOK_SIZE];
    memcpy(kept_ledger, damaged_ledger, LEDGER_SIZE);
    memcpy(kept_book, damaged.bytes, BOOK_SIZE);
    int64_t answer = call(damaged_ledger, LEDGER_SIZE, damaged.bytes, BOOK_SIZE);
    CHECK(answer == (in_order ? 0 : -5), "%s, %" PRIu64 " and %" PRIu64 ": the answer is %" PRId64, what, at, other, answer);
    if (!in_order)
        CHECK(memcmp(kept_ledger, damaged_ledger, LEDGER_SIZE) == 0 && memcmp(kept_book, damaged.bytes, BOOK_SIZE) == 0,
              "%s, %" PRIu64 " and %" PRIu64 ": a byte was changed", what, at, other);
}

static void every_byte(const uint8_t *ledger, const struct book *book, book_call *call, uint64_t step)
{
    for (size_t at = below(step); at < BOOK_SIZE; at += 1 + below(2 * step - 1)) {
        uint64_t row = at / 4096, block = at / 16 % 256;
        copy_both(ledger, book);
        damaged.bytes[at] ^= (uint8_t)(1 + below(255));
        ref_u128 more = kept_sum(&damaged, row, block) - kept_sum(book, row, block);
        try_damage(call, 0, "a byte of the book", at, block);
        copy_both(ledger, book);
        add_to_place(&damaged, row, block, more);
        add_to_row(damaged_ledger, row, more);
        try_damage(call, ref_marked(FORMULA, ledger, row, block), "a byte of the book, with its row sum", at, block);
    }
}

static void every_row_sum(const uint8_t *ledger, const struct book *book, book_call *call)
{
    for (size_t at = SUM_AT(0); at < SUM_AT(ROWS); at++) {
        copy_both(ledger, book);
        damaged_ledger[at] ^= (uint8_t)(1 + below(255));
        try_damage(call, 0, "a byte of a row sum", at, 0);
    }
    for (uint64_t row = 0; row < ROWS; row++)
        for (uint64_t other = 0; other < ROWS; other++) {
            ref_u128 sum = any_sum() | 1;
            copy_both(ledger, book);
            add_to_row(damaged_ledger, row, -sum);
            add_to_row(damaged_ledger, other, sum);
            try_damage(call, row == other, "a sum from a row to another", row, other);
        }
}

static void move_place(const uint8_t *ledger, const struct book *book, book_call *call, struct place from, struct place to)
{
    ref_u128 sum = any_sum() | 1;
    int marked = ref_marked(FORMULA, ledger, from.row, from.block) && ref_marked(FORMULA, ledger, to.row, to.block);
    copy_both(ledger, book);
    add_to_place(&damaged, from.row, from.block, -sum);
    add_to_place(&damaged, to.row, to.block, sum);
    try_damage(call, marked && from.row == to.row, "a sum from a place to another", PAIR(from.row, from.block),
               PAIR(to.row, to.block));
}

/* Blocks at the edges of a row and of C. */
static void every_move(const uint8_t *ledger, const struct book *book, book_call *call)
{
    const uint64_t c = ref_load(ledger + 8, 2), blocks[] = {0, 1, 7, 8, c - 1, c % 256, 254, 255};
    const uint64_t places = 8 * ROWS;
    for (uint64_t i = 0; i < places; i++)
        for (uint64_t j = 0; j < places; j++) {
            const struct place from = {i / 8, blocks[i % 8]}, to = {j / 8, blocks[j % 8]};
            if (from.row != to.row || from.block != to.block)
                move_place(ledger, book, call, from, to);
        }
}

void every_damage(const uint8_t *ledger, const struct book *book, book_call *call, uint64_t step)
{
    copy_both(ledger, book);
    try_damage(call, 1, "no damage", 0, 0);
    every_row_sum(ledger, book, call);
    every_move(ledger, book, call);
    every_byte(ledger, book, call, step);
}
