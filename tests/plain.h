/*
 * The plain ledger of document 01, with a sum for each row (document 02, slip 1)
 * and each posted sum by its ticket (slip 9). It is fed what the calls are fed,
 * and has no bytes of a ledger, a book or a sheet; what these have to be is written
 * from it.
 */
#ifndef PLAIN_H
#define PLAIN_H

#include "common.h"

struct plain {
    uint64_t p, c;
    uint8_t taken[ROWS][256];
    ref_u128 kept[ROWS][256], sums[ROWS];
};

void open_plain(struct plain *plain, uint64_t p, uint64_t c);
/* Its answer to a ticket in range, and to the tickets of a list: 0, -6 or -7. */
int plain_answer(const struct plain *plain, uint64_t p, uint64_t c, uint64_t row, uint64_t block);
int plain_list_answer(const struct plain *plain, uint64_t p, const uint8_t *list, size_t e);
/* What it does where it refuses nothing. `sums` are those of the list's tickets, 16 bytes each. */
void take(struct plain *plain, uint64_t row, uint64_t block, const uint8_t *sum);
void take_list(struct plain *plain, const uint8_t *list, size_t e, const uint8_t *sums);
void give_back(struct plain *plain, uint64_t row, uint64_t block);
/* Its set as a list, in the order of sheets; gives e. */
size_t plain_list(const struct plain *plain, uint8_t *list);
/* The tickets of the run that are not in its set. */
uint64_t plain_unmarked(const struct plain *plain);
/* The bytes that a ledger and a book have to be, and the sheet of all that stands (slip 10), which gives its length. */
void plain_ledger(const struct plain *plain, uint8_t *ledger);
void plain_book(const struct plain *plain, uint8_t *book);
size_t plain_sheet(const struct plain *plain, uint8_t *sheet);

#endif
