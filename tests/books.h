/*
 * Books beside ledgers, for the tests of the calls by a book (document 02, slips
 * 9 and 10). Bellard's runs alone have them; what is here is built for check runs
 * too, and not used there.
 */
#ifndef BOOKS_H
#define BOOKS_H

#include "common.h"

#include <string.h>

enum { BOOK_ROOM = BOOK_SIZE + 64 };

struct book {
    uint8_t bytes[BOOK_ROOM];
    size_t len;
};

ref_u128 kept_sum(const struct book *book, uint64_t row, uint64_t block);
void set_kept_sum(struct book *book, uint64_t row, uint64_t block, ref_u128 sum);
/* A ticket with its sum into both, or out of both again. */
void enter_sum(uint8_t *ledger, struct book *book, uint64_t row, uint64_t block, ref_u128 sum);
void take_sum(uint8_t *ledger, struct book *book, uint64_t row, uint64_t block);

/* A book for a ledger: random sums for its marked tickets, some of them 0, and zero elsewhere. The row sums become theirs. */
void any_book(struct book *book, uint8_t *ledger);

/* Damages as `struct suite` has them, kinds 0 to BOOK_KINDS - 1, of a ledger and its book. */
enum { BOOK_KINDS = 11 };
int damage_book(struct book *book, uint8_t *ledger, int kind);
/* The number of another damage, before which the book fitted the ledger or not. Where it put that right, UNSURE. */
int unless_put_right(int fitted, int number, const uint8_t *ledger, const struct book *book);

/* A call on books of sizes around 0, around the book's own, and others: it gives `answer` at the book's own, else refusal 1. */
void every_book_size(void (*prepare)(void), int64_t (*compare)(void), size_t *book_len, int64_t answer);

/* After a call: the ledger in slot 0 and the book in slot 1 are as wanted, and are left so for a next call. Frees the wanted. */
void expect_both(uint8_t *ledger, size_t ledger_len, struct book *book, uint8_t *wanted_ledger, uint8_t *wanted_book);

/*
 * Posted by the engine onto a fresh ledger and a book of zeros, the sheet of what
 * stands brings back ledger and book. It is here and not in books.c, which is linked
 * without an engine as well.
 */
static inline void expect_moved(const uint8_t *sheet, size_t len, const uint8_t *ledger, const uint8_t *book)
{
    static uint8_t moved[LEDGER_SIZE], places[BOOK_SIZE];
    any_bytes(moved, sizeof moved);
    memset(places, 0, sizeof places);
    CHECK(bbp_open(ref_load(ledger, 8), ref_load(ledger + 8, 2), moved, sizeof moved) == 0, "opening is refused");
    CHECK(bbp_book_sheet_post(moved, sizeof moved, places, sizeof places, sheet, len) == 0, "what stands is not posted anew");
    CHECK(memcmp(moved, ledger, sizeof moved) == 0, "the ledger does not come back");
    CHECK(memcmp(places, book, sizeof places) == 0, "the book does not come back");
}

/*
 * Damages of a ledger and its book that nothing refuses `call` on. Where they are
 * then not in order together it answers refusal 5 and changes no byte; else it
 * answers 0.
 *
 * Each byte of each row sum. A sum moved from one row sum to another. A sum moved
 * from one place of the book to another, by places at the edges of C and of a
 * row: in order within the marked places of a row. Bytes of the book, one at a
 * time, alone and with the row sum: the second is in order at a marked place.
 * These are all bytes where `step` is 1, else every one of so many, by chance.
 */
typedef int64_t book_call(uint8_t *ledger, size_t ledger_len, uint8_t *book, size_t book_len);
void every_damage(const uint8_t *ledger, const struct book *book, book_call *call, uint64_t step);

#endif
