/*
 * An implementation of the twelve calls of each kind of runs, of the look of
 * Bellard's runs and their four calls by a book, and of the two calls for digits,
 * written from document 01 and slips 1 and 3 to 10 of document 02 alone, for
 * comparison. It prefers the obvious to the fast: remainders by `%` on 128 bits,
 * every condition of the refusal table evaluated by itself, terms added from first
 * to last, a look by posting onto a copy, the squarings of a quote by looking for
 * the terms at which they change, every digit of one string put beside every digit
 * of the other, a withdrawal by one subtraction, the sheet of all that stands by
 * asking of every block of every row whether it is marked.
 */
#ifndef REFERENCE_H
#define REFERENCE_H

#include <stddef.h>
#include <stdint.h>

__extension__ typedef unsigned __int128 ref_u128;

/*
 * A formula, by which a kind of runs goes. Term k of a row has N = mk + j and
 * E = 4n + l - step * k + 128; where signs alternate, those of odd k are not
 * the row's. The sizes are the ledger's, and the largest of a list and a sheet.
 */
typedef const struct ref_formula {
    uint64_t last_position, rows, step;
    int alternates;
    size_t ledger, list, sheet;
    struct { int m, j, l, added; } row[7];
} ref_formula;
extern ref_formula ref_bellard, ref_check;

/* The arguments and answers of the calls of bbp.h, with the formula before them. */
typedef int64_t ref_work_call(ref_formula *f, uint64_t p, uint64_t c, uint64_t row, uint64_t block, uint8_t *sum,
                              size_t sum_len, uint8_t *squarings, size_t squarings_len);
ref_work_call ref_work, ref_work_lower, ref_work_upper;
typedef int64_t ref_quote_call(ref_formula *f, uint64_t p, uint64_t c, uint64_t row, uint64_t block, uint8_t *squarings,
                               size_t squarings_len);
ref_quote_call ref_quote, ref_quote_lower, ref_quote_upper;
int64_t ref_open(ref_formula *f, uint64_t p, uint64_t c, uint8_t *ledger, size_t ledger_len);
int64_t ref_post(ref_formula *f, uint8_t *ledger, size_t ledger_len, uint64_t p, uint64_t c, uint64_t row, uint64_t block,
                 const uint8_t *sum, size_t sum_len);
int64_t ref_sheet_write(ref_formula *f, uint64_t p, uint64_t c, const uint8_t *list, size_t list_len, uint8_t *sheet,
                        size_t sheet_len);
int64_t ref_sheet_read(ref_formula *f, const uint8_t *sheet, size_t sheet_len, uint8_t *list, size_t list_len,
                       uint8_t *sums, size_t sums_len);
int64_t ref_sheet_post(ref_formula *f, uint8_t *ledger, size_t ledger_len, const uint8_t *sheet, size_t sheet_len);
int64_t ref_look(ref_formula *f, const uint8_t *ledger, size_t ledger_len, const uint8_t *sheet, size_t sheet_len,
                 uint8_t *total, size_t total_len);
int64_t ref_close(ref_formula *f, const uint8_t *ledger, size_t ledger_len, uint8_t *digits, size_t digits_len);

/* The calls by a book, which are of Bellard's runs alone. */
int64_t ref_book_post(uint8_t *ledger, size_t ledger_len, uint8_t *book, size_t book_len, uint64_t p, uint64_t c,
                      uint64_t row, uint64_t block, const uint8_t *sum, size_t sum_len);
int64_t ref_book_sheet_post(uint8_t *ledger, size_t ledger_len, uint8_t *book, size_t book_len, const uint8_t *sheet,
                            size_t sheet_len);
int64_t ref_book_withdraw(uint8_t *ledger, size_t ledger_len, uint8_t *book, size_t book_len, uint64_t p, uint64_t c,
                          uint64_t row, uint64_t block);
int64_t ref_standing_sheet(const uint8_t *ledger, size_t ledger_len, const uint8_t *book, size_t book_len, uint8_t *sheet,
                           size_t sheet_len);

/* The calls for digits, which have no formula. */
int64_t ref_overlap(const uint8_t *first, size_t first_len, uint64_t first_p, const uint8_t *second, size_t second_len,
                    uint64_t second_p);
int64_t ref_overlap_part(const uint8_t *first, size_t first_len, uint64_t first_p, const uint8_t *second, size_t second_len,
                         uint64_t second_p, uint8_t *part, size_t part_len);

/*
 * Which numbers of the refusal table apply to a call: bit i is set if number i
 * applies. A condition on bytes that are not there counts as not applying; a
 * smaller number applies then.
 */
typedef unsigned ref_refusals;
/* The last number of the table. */
enum { REF_LAST_REFUSAL = 13 };
/* The working calls, of a ticket and of its halves, are refused alike, and so are the quotes. */
ref_refusals ref_work_refusals(ref_formula *f, uint64_t p, uint64_t c, uint64_t row, uint64_t block, size_t sum_len,
                               size_t squarings_len);
ref_refusals ref_quote_refusals(ref_formula *f, uint64_t p, uint64_t c, uint64_t row, uint64_t block,
                                size_t squarings_len);
ref_refusals ref_open_refusals(ref_formula *f, uint64_t p, uint64_t c, size_t ledger_len);
ref_refusals ref_post_refusals(ref_formula *f, const uint8_t *ledger, size_t ledger_len, uint64_t p, uint64_t c,
                               uint64_t row, uint64_t block, size_t sum_len);
ref_refusals ref_sheet_write_refusals(ref_formula *f, uint64_t p, uint64_t c, const uint8_t *list, size_t list_len,
                                      size_t sheet_len);
ref_refusals ref_sheet_read_refusals(ref_formula *f, const uint8_t *sheet, size_t sheet_len, size_t list_len,
                                     size_t sums_len);
ref_refusals ref_sheet_post_refusals(ref_formula *f, const uint8_t *ledger, size_t ledger_len, const uint8_t *sheet,
                                     size_t sheet_len);
ref_refusals ref_look_refusals(ref_formula *f, const uint8_t *ledger, size_t ledger_len, const uint8_t *sheet,
                               size_t sheet_len, size_t total_len);
ref_refusals ref_close_refusals(ref_formula *f, const uint8_t *ledger, size_t ledger_len, size_t digits_len);
ref_refusals ref_book_post_refusals(const uint8_t *ledger, size_t ledger_len, const uint8_t *book, size_t book_len,
                                    uint64_t p, uint64_t c, uint64_t row, uint64_t block, size_t sum_len);
ref_refusals ref_book_sheet_post_refusals(const uint8_t *ledger, size_t ledger_len, const uint8_t *book, size_t book_len,
                                          const uint8_t *sheet, size_t sheet_len);
ref_refusals ref_book_withdraw_refusals(const uint8_t *ledger, size_t ledger_len, const uint8_t *book, size_t book_len,
                                        uint64_t p, uint64_t c, uint64_t row, uint64_t block);
ref_refusals ref_standing_sheet_refusals(const uint8_t *ledger, size_t ledger_len, const uint8_t *book, size_t book_len,
                                         size_t sheet_len);
ref_refusals ref_overlap_refusals(const uint8_t *first, size_t first_len, uint64_t first_p, const uint8_t *second,
                                  size_t second_len, uint64_t second_p);
ref_refusals ref_overlap_part_refusals(const uint8_t *first, size_t first_len, uint64_t first_p, const uint8_t *second,
                                       size_t second_len, uint64_t second_p, size_t part_len);

/* Parts that the vectors speak of. */
uint64_t ref_term_count(ref_formula *f, uint64_t p);
uint64_t ref_block_first(ref_formula *f, uint64_t p, uint64_t c, uint64_t block);
uint64_t ref_block_cut(ref_formula *f, uint64_t p, uint64_t c, uint64_t block);
uint64_t ref_term_divisor(ref_formula *f, uint64_t row, uint64_t k);
int64_t ref_term_exponent(ref_formula *f, uint64_t p, uint64_t row, uint64_t k);
int ref_term_added(ref_formula *f, uint64_t row, uint64_t k);
ref_u128 ref_term_size(ref_formula *f, uint64_t p, uint64_t row, uint64_t k);
uint64_t ref_term_squarings(ref_formula *f, uint64_t p, uint64_t row, uint64_t k);

/*
 * The number of a run's charged terms, those with E of 0 or more, that are
 * added, or of those that are subtracted: a and b of the documents.
 */
uint64_t ref_charged_terms(ref_formula *f, uint64_t p, int added);

/* The terms of a ticket or of a half, from `first` up to, not including, `end`. */
typedef struct ref_range {
    uint64_t first, end;
} ref_range;
typedef ref_range ref_terms_of(ref_formula *f, uint64_t p, uint64_t c, uint64_t block);
ref_terms_of ref_whole, ref_lower_half, ref_upper_half;
/* The squarings of these terms, which may be too many to be counted one by one. */
ref_u128 ref_range_squarings(ref_formula *f, uint64_t p, uint64_t row, ref_range terms);

/* Little-endian numbers, and the ledger, for the files of the quotes, of the closing and of the book. */
uint64_t ref_load(const uint8_t *at, size_t bytes);
ref_u128 ref_load_sum(const uint8_t *at);
void ref_store_sum(uint8_t *at, ref_u128 sum);
/* The head and the contents of the sheet of a list. Its bodies are zero. */
void ref_put_contents(uint8_t *sheet, uint64_t p, uint64_t c, const uint8_t *list, size_t e);
/* The smallest number, negated; 0 where none applies. */
int64_t ref_answer(ref_refusals refusals);
int ref_ledger_in_order(ref_formula *f, const uint8_t *ledger);
int ref_marked(ref_formula *f, const uint8_t *ledger, uint64_t row, uint64_t block);
ref_u128 ref_row_sum(const uint8_t *ledger, uint64_t row);
/* The sum of the row sums modulo 2^128. */
ref_u128 ref_total(ref_formula *f, const uint8_t *ledger);
/* Whether a book of its size fits a ledger of its size: its sums add up to the row sums, and it is zero where no mark is set. */
int ref_book_in_order(const uint8_t *ledger, const uint8_t *book);

#endif
