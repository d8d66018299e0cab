/*
 * bbp.h - hexadecimal digits of pi at far positions, by Bellard's formula, and
 * by an older formula to check them.
 *
 * A run is a position p (the first digit after the point being position 1)
 * and a block count C (1 to 256). The rows of its formula are cut into C blocks
 * each; one block of one row is a ticket. Tickets are worked one by one, here
 * or by a supplier, and posted to the run's ledger, singly or as a sheet. What
 * a sheet would do can be looked at before it is posted. A large ticket can be
 * worked by two machines, a half each, and posted with the sum of both. A
 * ledger with every ticket posted is closed: that gives the hexadecimal digits
 * of pi from position p on that the run settles.
 *
 * Beside the ledger of a Bellard run a book can be kept, which has the sum of
 * each posted ticket. Posted by the book, a ticket can be withdrawn again, where
 * its sum is found to be wrong, and then be posted anew ("Books", below). All
 * tickets that stand in ledger and book can be written as one sheet, by which the
 * run moves to another ledger and book.
 *
 * Work is charged by squarings: working a ticket or a half hands back how many
 * it made, and a quote gives the same number beforehand, at once.
 *
 * There are two kinds of runs, with thirty-one calls: seventeen for Bellard's
 * runs, twelve for check runs, which do the same over another formula, and two for
 * digits, whatever run gave them. bbp_look and the four calls by a book are for
 * Bellard's runs alone.
 *
 *                                  Bellard's run   check run
 *   calls and constants            bbp_, BBP_      bbp_check_, BBP_CHECK_
 *   formula of document 001        equation (4)    equation (3)
 *   positions                      1 to 2^60       1 to 2^59
 *   rows                           0 to 6          0 to 3
 *   bytes of a ledger              352             208
 *   bytes of a list, at most       3,584           2,048
 *   bytes of a sheet, at most      35,856          20,496
 *   terms of a ticket, about       0.4 p / C       p / C
 *
 * What this file says of a call holds for both its names, where it has two, each
 * with the numbers of its own column; constants without a form BBP_CHECK_ are
 * those of both.
 *
 * A check run is one more computation of the same digits, by another formula:
 * where the two closings agree, an error would have had to happen twice, alike.
 * Two closings are compared by bbp_overlap, over the positions that both hold:
 * those of both kinds at one position, or of one kind a position apart.
 *
 * Keep the two kinds apart. A ledger is of one kind by its size. A sheet does
 * not name its formula: one that a check run has written is taken by
 * bbp_sheet_read, and by bbp_sheet_post onto a Bellard ledger of the same p and
 * C, without a refusal, and a look does not tell it either; and a sheet of a
 * Bellard run with rows 0 to 3 alone and p up to 2^59 is taken by the check
 * calls. The ledger then holds wrong sums, and its digits are wrong or are
 * refused. Nor does a sum in 16 bytes name its formula.
 *
 * docs/FORMATS.md, installed as share/doc/bbp/FORMATS.md, gives the bytes of a
 * ledger, a book, a list and a sheet, the arithmetic, and each call's refusals in
 * order.
 *
 * Callers have to be built again with this header: since version 4.0.0 the six
 * working calls have two arguments more. An object built with an older header
 * still links with this library, but passes two arguments too few, and what
 * such a call then does is undefined.
 *
 * Answers. Every call answers an int64_t. A refusal is a number of the
 * refusal table, negated; of all numbers whose condition holds the smallest
 * is answered, and a refused call changes no byte of any slice. A call that
 * is not refused answers 0, or the length, count or number of digits that its
 * comment names.
 *
 * Slices. A byte slice is a pointer and then its length in bytes; it needs no
 * alignment. The slices of one call must not overlap, neither those that it
 * reads nor those that it writes. An empty slice (length 0) may have a null
 * pointer. A length is never more than the bytes that stand at the pointer.
 *
 * Numbers inside slices are unsigned and little-endian. The calls keep no
 * state, allocate nothing and can be called from several threads at once, as
 * long as no slice that one call writes is used by another.
 */
#ifndef BBP_H
#define BBP_H

#include <stddef.h>
#include <stdint.h>

#ifdef __cplusplus
extern "C" {
#endif

/* The version. BBP_VERSION grows from each version to the next, so that #if can compare it. */
#define BBP_VERSION_MAJOR 4
#define BBP_VERSION_MINOR 3
#define BBP_VERSION_PATCH 2
#define BBP_VERSION (1000000 * BBP_VERSION_MAJOR + 1000 * BBP_VERSION_MINOR + BBP_VERSION_PATCH)
#define BBP_VERSION_STRING \
    BBP_QUOTED(BBP_VERSION_MAJOR) "." BBP_QUOTED(BBP_VERSION_MINOR) "." BBP_QUOTED(BBP_VERSION_PATCH)
#define BBP_QUOTED(number) BBP_QUOTED_AS_IT_STANDS(number)
#define BBP_QUOTED_AS_IT_STANDS(text) #text

/* The largest position: 2^60, and 2^59 for check runs. */
#define BBP_MAX_POSITION UINT64_C(1152921504606846976)
#define BBP_CHECK_MAX_POSITION UINT64_C(576460752303423488)

/* The number of rows, which count from 0, and the largest block count; blocks are 0 to C - 1. */
#define BBP_ROWS 7
#define BBP_CHECK_ROWS 4
#define BBP_MAX_BLOCKS 256

/* Sizes of slices, in bytes. */
#define BBP_SUM_SIZE 16           /* the sum of a ticket or of a half, exactly */
#define BBP_SQUARINGS_SIZE 16     /* the squarings of a ticket or of a half, exactly */
#define BBP_DIGITS_SIZE 32        /* the digits' slice of a closing, exactly */
#define BBP_TOTAL_SIZE 16         /* the total of a look, exactly */
#define BBP_LEDGER_SIZE 352       /* a ledger, exactly: 16, and 48 for each row */
#define BBP_CHECK_LEDGER_SIZE 208
#define BBP_BOOK_SIZE 28672       /* a book, exactly: 16 for each of 256 blocks of each row; check runs have none */
#define BBP_LIST_MAX 3584         /* a list to be worked, at most: 2 for each of 256 tickets of each row */
#define BBP_CHECK_LIST_MAX 2048
#define BBP_SHEET_MAX 35856       /* a sheet to read, post or look at, at most: 16, and 20 for each of these tickets */
#define BBP_CHECK_SHEET_MAX 20496
#define BBP_OVERLAP_MAX 30        /* digits to be laid over others, at most, and at least 1; no closing has more */
#define BBP_PART_SIZE 24          /* the place of a part, exactly: 8 each for string, offset and length */

/* Where a row's sum, 16 bytes, and its marks, 32 bytes, stand in a ledger. */
#define BBP_ROW_SUM_AT(row) (16 + 16 * (row))
#define BBP_ROW_MARKS_AT(row) (128 + 32 * (row))
#define BBP_CHECK_ROW_MARKS_AT(row) (80 + 32 * (row))

/* Where the sum that a ticket keeps, 16 bytes, stands in a book: a row, and a block 0 to 255, whatever C is. */
#define BBP_BOOK_AT(row, block) (16 * (256 * (row) + (block)))

/* The length of a sheet of e tickets, and of its list and its sums when read. */
#define BBP_SHEET_SIZE(e) (16 + 20 * (e))
#define BBP_LIST_SIZE(e) (2 * (e))
#define BBP_SUMS_SIZE(e) (16 * (e))

/* A ticket as a list has it, in 2 bytes: a row, and a block 0 to 255. */
#define BBP_PAIR(row, block) (256 * (row) + (block))

/*
 * The refusal table. A refused call answers the number negated, so a caller
 * compares -answer with these.
 */
enum bbp_refusal {
    /* A slice of the wrong size: a ledger not of BBP_LEDGER_SIZE bytes, a book not of BBP_BOOK_SIZE, a sum,
       squarings or a total not of 16, the digits of a closing not of 32, a part not of 24; a list to be worked
       of odd length or over BBP_LIST_MAX; a sheet to read, post or look at under 16 or over BBP_SHEET_MAX; a
       sheet to write under 16 + 20e, where e is that of the list, or the number of set mark bits for the sheet
       of all that stands; read outputs under 2e or 16e, where e is the count in the sheet's head.
       Here and below, a check call goes by the BBP_CHECK_ constants. */
    BBP_REFUSED_SIZE = 1,
    /* The position or the block count, of the call or in the sheet's head, is out of range. */
    BBP_REFUSED_RANGE = 2,
    /* A sheet's length is not 16 + 20e, one of its zero bytes is not zero, or a list or a sheet's
       contents do not strictly ascend by 256 * row + block. */
    BBP_REFUSED_FORM = 3,
    /* A row not below BBP_ROWS, or a block not below the block count of the call or of the sheet. */
    BBP_REFUSED_TICKET = 4,
    /* The ledger is not in order: p or C out of range, one of its 6 zero bytes not zero, or a mark
       set at C or above. In a call by a book also: the book does not fit the ledger (below, "Books"). */
    BBP_REFUSED_LEDGER = 5,
    /* The position or the block count of the ticket or sheet is not the ledger's. */
    BBP_REFUSED_RUN = 6,
    /* The ticket, or one of the sheet's, is marked already. */
    BBP_REFUSED_MARKED = 7,
    /* Closing, and a ticket of the run is not marked. */
    BBP_REFUSED_UNMARKED = 8,
    /* Closing, and the total of the row sums does not settle the first digit. */
    BBP_REFUSED_UNSETTLED = 9,
    /* Laying digits over each other, and one of the two strings is empty, longer than BBP_OVERLAP_MAX, has
       a character outside 0-9A-F, or a position not from 1 to BBP_MAX_POSITION. */
    BBP_REFUSED_DIGITS = 10,
    /* The two strings share no position. */
    BBP_REFUSED_APART = 11,
    /* The two strings have different digits at a position that both hold. */
    BBP_REFUSED_DIFFERENT = 12,
    /* Withdrawing, and the ticket is not marked. */
    BBP_REFUSED_UNPOSTED = 13
};

/*
 * Works the ticket (p, c, row, block): writes its sum, the signed sum of its
 * terms modulo 2^128, into the 16 bytes of `sum`, and the number of squarings
 * that this took into the 16 bytes of `squarings`. An empty block has sum 0 and
 * takes none. Answers 0, or refusal 1 (sum_len or squarings_len not 16), 2 or 4;
 * refused, it writes neither. `sum` and `squarings` must not overlap, as no two
 * slices of a call may.
 * The time grows with the squarings.
 *
 * A term with exponent E of 128 or more takes one squaring less than E - 64 has
 * bits: 6 at E = 128, at most 62. Any other term takes none, E below 0 included.
 * The squarings of a ticket are those of its terms added up: the number itself,
 * not modulo anything, and at most 62 times the number of its terms. They can
 * pass 64 bits. Sheets do not carry them.
 */
int64_t bbp_work(uint64_t p, uint64_t c, uint64_t row, uint64_t block, uint8_t *sum, size_t sum_len,
                 uint8_t *squarings, size_t squarings_len);
int64_t bbp_check_work(uint64_t p, uint64_t c, uint64_t row, uint64_t block, uint8_t *sum, size_t sum_len,
                       uint8_t *squarings, size_t squarings_len);

/*
 * Work one half of the ticket (p, c, row, block), and are refused as bbp_work
 * is. Where the ticket has the terms from `first` up to, not including, `end`,
 * the cut is floor((first + end) / 2): the lower half has the terms before it,
 * the upper half the term at the cut and those after. A term has the sign that
 * it has in the ticket. Of a ticket with one term the lower half is empty, of
 * an empty ticket both are; an empty half has sum 0 and takes no squarings. Each
 * call writes the sum of its half, modulo 2^128, into the 16 bytes of `sum`, and
 * the squarings of its half into the 16 bytes of `squarings`. Answer 0, or
 * refusal 1 (sum_len or squarings_len not 16), 2 or 4.
 *
 * The two sums added modulo 2^128 are the ticket's: byte by byte from the
 * first, each with the carry of the one before, and the carry out of the last
 * byte is dropped. The squarings of both are added in the same way and are the
 * ticket's. A half is not a ticket: the ledger has no mark for it, and only the
 * sum of the whole ticket can be posted.
 *
 * These calls go on cutting in two until they come to single terms. The stack
 * that they need grows with the logarithm of the number of terms, which
 * matters to a caller that starts threads with small stacks: it is greatest at
 * the largest position with c = 1, and stays below 16,000 bytes there.
 */
int64_t bbp_work_lower(uint64_t p, uint64_t c, uint64_t row, uint64_t block, uint8_t *sum, size_t sum_len,
                       uint8_t *squarings, size_t squarings_len);
int64_t bbp_check_work_lower(uint64_t p, uint64_t c, uint64_t row, uint64_t block, uint8_t *sum, size_t sum_len,
                             uint8_t *squarings, size_t squarings_len);
int64_t bbp_work_upper(uint64_t p, uint64_t c, uint64_t row, uint64_t block, uint8_t *sum, size_t sum_len,
                       uint8_t *squarings, size_t squarings_len);
int64_t bbp_check_work_upper(uint64_t p, uint64_t c, uint64_t row, uint64_t block, uint8_t *sum, size_t sum_len,
                             uint8_t *squarings, size_t squarings_len);

/*
 * Quote the ticket (p, c, row, block), or its lower or its upper half: write the
 * squarings that working it takes, the same number that the working call hands
 * back, into the 16 bytes of `squarings`, without working it. So the quotes of
 * both halves, or of all blocks of a row, add up to that of the whole, and a
 * quote is at most 62 times the number of terms. Answer 0, or refusal 1
 * (squarings_len not 16), 2 or 4, as the working calls do.
 *
 * Terms that take the same number of squarings stand next to each other, and a
 * quote counts them together: it takes microseconds at any position, also where
 * no machine could work the ticket.
 */
int64_t bbp_quote(uint64_t p, uint64_t c, uint64_t row, uint64_t block, uint8_t *squarings, size_t squarings_len);
int64_t bbp_check_quote(uint64_t p, uint64_t c, uint64_t row, uint64_t block, uint8_t *squarings, size_t squarings_len);
int64_t bbp_quote_lower(uint64_t p, uint64_t c, uint64_t row, uint64_t block, uint8_t *squarings,
                        size_t squarings_len);
int64_t bbp_check_quote_lower(uint64_t p, uint64_t c, uint64_t row, uint64_t block, uint8_t *squarings,
                              size_t squarings_len);
int64_t bbp_quote_upper(uint64_t p, uint64_t c, uint64_t row, uint64_t block, uint8_t *squarings,
                        size_t squarings_len);
int64_t bbp_check_quote_upper(uint64_t p, uint64_t c, uint64_t row, uint64_t block, uint8_t *squarings,
                              size_t squarings_len);

/*
 * Opens the run (p, c): writes a fresh ledger, with no ticket marked and every
 * row sum 0, over all bytes of `ledger`, whatever they held. Answers 0, or
 * refusal 1 (ledger_len not BBP_LEDGER_SIZE) or 2.
 */
int64_t bbp_open(uint64_t p, uint64_t c, uint8_t *ledger, size_t ledger_len);
int64_t bbp_check_open(uint64_t p, uint64_t c, uint8_t *ledger, size_t ledger_len);

/*
 * Posts one ticket with the offered sum (16 bytes; it is not worked again):
 * marks the ticket in the ledger and adds the sum to that of the ticket's row
 * modulo 2^128.
 * Answers 0, or refusal 1, 2, 4, 5, 6 or 7.
 */
int64_t bbp_post(uint8_t *ledger, size_t ledger_len, uint64_t p, uint64_t c, uint64_t row, uint64_t block,
                 const uint8_t *sum, size_t sum_len);
int64_t bbp_check_post(uint8_t *ledger, size_t ledger_len, uint64_t p, uint64_t c, uint64_t row, uint64_t block,
                       const uint8_t *sum, size_t sum_len);

/*
 * Works every ticket of a list and writes them as one sheet. `list` has 2
 * bytes for each ticket, 256 * row + block, strictly ascending; it may be
 * empty. With e tickets the sheet takes 16 + 20e bytes of `sheet`; bytes past
 * them are left as found. Answers that length, or refusal 1 (list_len odd or
 * over BBP_LIST_MAX, or sheet_len under 16 + 20e), 2, 3 or 4.
 */
int64_t bbp_sheet_write(uint64_t p, uint64_t c, const uint8_t *list, size_t list_len, uint8_t *sheet, size_t sheet_len);
int64_t bbp_check_sheet_write(uint64_t p, uint64_t c, const uint8_t *list, size_t list_len, uint8_t *sheet,
                              size_t sheet_len);

/*
 * Reads a sheet: with e tickets in it, writes their list into the first 2e
 * bytes of `list` and their sums into the first 16e bytes of `sums`; bytes
 * past them are left as found. The run is in the sheet's head: p in its bytes
 * 0 to 7, C in its bytes 8 and 9. The sums are not worked again. Answers e, or
 * refusal 1 (sheet_len under 16 or over BBP_SHEET_MAX, list_len under 2e,
 * sums_len under 16e), 2, 3 or 4.
 */
int64_t bbp_sheet_read(const uint8_t *sheet, size_t sheet_len, uint8_t *list, size_t list_len,
                       uint8_t *sums, size_t sums_len);
int64_t bbp_check_sheet_read(const uint8_t *sheet, size_t sheet_len, uint8_t *list, size_t list_len,
                             uint8_t *sums, size_t sums_len);

/*
 * Posts every ticket of a sheet, in order, or none: marks them and adds each
 * sum to that of its ticket's row modulo 2^128. Answers 0, or refusal 1
 * (ledger_len not BBP_LEDGER_SIZE, sheet_len under 16 or over BBP_SHEET_MAX),
 * 2, 3, 4, 5, 6 or 7. The sheet has to be of the ledger's formula: no refusal
 * tells one of the other formula (above, "Keep the two kinds apart").
 */
int64_t bbp_sheet_post(uint8_t *ledger, size_t ledger_len, const uint8_t *sheet, size_t sheet_len);
int64_t bbp_check_sheet_post(uint8_t *ledger, size_t ledger_len, const uint8_t *sheet, size_t sheet_len);

/*
 * Looks at what bbp_sheet_post would do with this ledger and this sheet, and
 * changes neither: the ledger is only read. Where posting would be refused,
 * answers the same refusal. Otherwise writes the total that the ledger would
 * then have, all seven row sums added modulo 2^128, into the 16 bytes of
 * `total`, and answers how many tickets of the run would then be unmarked: 7 * C
 * less the marks. That is 0 where the sheet would fill the run, so that closing
 * would no longer be refused with 8. It is the same as posting the sheet onto a
 * copy of the ledger, then adding up the copy's row sums and counting its marks.
 *
 * Answers that number, 0 to 1,792, or refusal 1 (ledger_len not BBP_LEDGER_SIZE,
 * sheet_len under 16 or over BBP_SHEET_MAX, total_len not 16), 2, 3, 4, 5, 6 or
 * 7. A look at a sheet of no tickets gives the total and the unmarked tickets
 * that the ledger has now. Check runs have no such call, and a check ledger is
 * refused with 1.
 *
 * A look has no book. Where the ledger and its book are in order together (below,
 * "Books"), a look is refused as bbp_book_sheet_post would be, or gives the total
 * and the unmarked tickets of the ledger which that call would leave. Otherwise
 * the two may differ, by 1 where the book has another size, and by 5 where it does
 * not fit the ledger: a look tells neither.
 */
int64_t bbp_look(const uint8_t *ledger, size_t ledger_len, const uint8_t *sheet, size_t sheet_len,
                 uint8_t *total, size_t total_len);

/*
 * Books. A book has 16 bytes for each ticket that a Bellard run can have, at
 * BBP_BOOK_AT(row, block), whatever the block count: the sum that the ticket was
 * posted with while it is marked in the ledger, and zero while it is not. It has
 * no head: a book is of the ledger that it is lent with, and whoever keeps
 * several has to keep them apart.
 *
 * To start, lend a fresh ledger, as bbp_open leaves it, and a book of
 * BBP_BOOK_SIZE zero bytes. After that the two go from call to call together, as
 * each left them.
 *
 * The calls by a book refuse with 5 unless ledger and book are in order together:
 * the ledger is in order by itself; in every row the 256 sums that the book keeps
 * add up, modulo 2^128, to the row sum in the ledger; and the book is zero at
 * every place whose mark is not set, the places of blocks at C and above among
 * them. A marked ticket may keep sixteen zero bytes. What is tested is the ledger
 * and the book as they are lent, before anything is posted.
 *
 * Ledgers of one run on which the same tickets are marked, with books that keep the
 * same sums for them, are the same byte for byte, and so are the books, whatever
 * was posted and withdrawn before.
 *
 * The calls without a book know nothing of it. bbp_post or bbp_sheet_post onto a
 * ledger that has a book marks tickets for which the book keeps zero: from there
 * on the two are not in order together, and every call by the book is refused
 * with 5, unless the sums so posted to each row add up to 0 modulo 2^128. So a
 * ledger that is kept with a book is posted to by the book alone. Closing needs
 * the ledger and no book: bbp_close, bbp_look and the closing program take a ledger
 * that was posted to by a book as any other.
 *
 * Each call that gets so far tests the book once, and that goes through all of
 * it. A refused call changes no byte of the ledger and none of the book. Check
 * runs have no books.
 */

/*
 * Posts one ticket with the offered sum as bbp_post does, and writes the sum into
 * the book as well: the 16 bytes at BBP_BOOK_AT(row, block) become those of
 * `sum`. Answers 0, or refusal 1 (ledger_len not BBP_LEDGER_SIZE, book_len not
 * BBP_BOOK_SIZE, sum_len not 16), 2, 4, 5 (also by the book), 6 or 7.
 */
int64_t bbp_book_post(uint8_t *ledger, size_t ledger_len, uint8_t *book, size_t book_len, uint64_t p, uint64_t c,
                      uint64_t row, uint64_t block, const uint8_t *sum, size_t sum_len);

/*
 * Posts every ticket of a sheet, or none, as bbp_sheet_post does, and writes each
 * sum to its ticket's place in the book as well. Answers 0, or refusal 1
 * (ledger_len not BBP_LEDGER_SIZE, book_len not BBP_BOOK_SIZE, sheet_len under 16
 * or over BBP_SHEET_MAX), 2, 3, 4, 5 (also by the book), 6 or 7. A sheet of no
 * tickets changes nothing and is refused alike. The sheet has to be of a Bellard
 * run: no refusal tells one of a check run.
 */
int64_t bbp_book_sheet_post(uint8_t *ledger, size_t ledger_len, uint8_t *book, size_t book_len,
                            const uint8_t *sheet, size_t sheet_len);

/*
 * Withdraws one ticket: takes the sum that the book keeps for it out of its row's
 * sum modulo 2^128, clears its mark, and zeroes its 16 bytes of the book. So a
 * post by the book and its withdrawal leave ledger and book as they would be
 * without the two, as long as no call in between named the ticket. The ticket can
 * be posted again, with any sum.
 *
 * Answers 0, or refusal 1 (ledger_len not BBP_LEDGER_SIZE, book_len not
 * BBP_BOOK_SIZE), 2, 4, 5 (also by the book), 6, or 13 if the ticket is not
 * marked. A ledger from which a ticket was withdrawn is not closed before that
 * ticket is posted again: refusal 8.
 */
int64_t bbp_book_withdraw(uint8_t *ledger, size_t ledger_len, uint8_t *book, size_t book_len, uint64_t p, uint64_t c,
                          uint64_t row, uint64_t block);

/*
 * Writes the sheet of all that stands: of every ticket that is marked in the
 * ledger, in the order of sheets, with the sum that the book keeps for it. p and C
 * are the ledger's. No ticket is worked; ledger and book are only read. With e
 * marked tickets the sheet takes 16 + 20e bytes of `sheet`; bytes past them are
 * left as found. BBP_SHEET_MAX bytes always suffice, and `sheet` may be larger. A
 * ledger without a mark gives the sheet of no tickets, 16 bytes.
 *
 * Two histories that leave the same p, C, tickets and kept sums give the same
 * answer and the same bytes up to it. Posting the sheet by bbp_book_sheet_post onto
 * a fresh ledger, as bbp_open leaves it for the same p and C, and a book of zero
 * bytes answers 0 and brings back ledger and book, byte for byte. bbp_sheet_read
 * takes the sheet and gives those tickets and sums. Where every kept sum is right
 * it is exactly what bbp_sheet_write writes of the list of those tickets.
 *
 * Answers 16 + 20e, so 16 to 35,856, or refusal 1 (ledger_len not BBP_LEDGER_SIZE,
 * book_len not BBP_BOOK_SIZE, sheet_len under 16 and 20 for each set mark bit) or 5
 * (also by the book). For 1 every set bit of the 224 bytes of marks counts, also at
 * C and above: a ledger with such bits is 1 where `sheet` has no room for all of
 * them, else 5. Refused, the call writes nothing. Check runs have no such call.
 */
int64_t bbp_standing_sheet(const uint8_t *ledger, size_t ledger_len, const uint8_t *book, size_t book_len,
                           uint8_t *sheet, size_t sheet_len);

/*
 * Closes a ledger: writes the d digits that it settles, d from 1 to 32, as
 * characters 0-9A-F into the first d bytes of `digits`; the other bytes are
 * left as found. The first is the digit at position p. The total that settles
 * them is the sum of all row sums modulo 2^128. The ledger is not changed.
 * Answers d, or refusal 1 (ledger_len not BBP_LEDGER_SIZE, digits_len not 32),
 * 5, 8 or 9.
 *
 * Settled are the digits that total - b - 1 and total + a + 1, written with 32
 * hexadecimal digits each, share at the front; refusal 9 where these are none,
 * or where the one is below 0 or the other 2^128 or more. A term is charged if
 * its exponent E is 0 or more; a is the number of added charged terms and b of
 * subtracted ones, over all rows, and the one unit more on each side covers all
 * other terms (docs/FORMATS.md, section 7). Versions before 3.0.0 charged terms
 * with E below 0 as well: this version gives at least the digits that version
 * 2.2.0 gave of the same ledger, of some ledgers more, and it settles some that
 * were refused with 9.
 *
 * A ledger of 256 bytes, as version 1.0.0 kept it, is closed with the closing
 * program of that version. The closing program is for ledgers of Bellard's
 * runs; a check run is closed with this call alone.
 */
int64_t bbp_close(const uint8_t *ledger, size_t ledger_len, uint8_t *digits, size_t digits_len);
int64_t bbp_check_close(const uint8_t *ledger, size_t ledger_len, uint8_t *digits, size_t digits_len);

/*
 * Lays two digit strings over each other, as closings have given them: the
 * characters of `first` from position first_p on, and those of `second` from
 * position second_p on. A string of n digits at position p holds the positions
 * p to p + n - 1, one digit each. Answers 0 where there are positions that both
 * hold, and at each of these both have the same digit. Only reads.
 *
 * Otherwise answers refusal 10 if either string, whatever the other, is empty,
 * is longer than BBP_OVERLAP_MAX, has a character outside 0-9A-F, so also a
 * small letter, or has a position not from 1 to BBP_MAX_POSITION; then 11 if no
 * position is held by both; then 12 if they differ at a position that both hold.
 * A position out of range is never refusal 2 here, nor a wrong length refusal 1.
 * Only the first digit's position has a range: a string may reach past 2^60.
 *
 * Digits do not name the formula that gave them, and need not: those of a closing
 * of either kind are laid over those of either, so there is one call for both.
 * `first` and `second` must not overlap in memory, as no two slices of a call
 * may: a string is laid over itself by way of a copy.
 */
int64_t bbp_overlap(const uint8_t *first, size_t first_len, uint64_t first_p,
                    const uint8_t *second, size_t second_len, uint64_t second_p);

/*
 * Lays two digit strings over each other as bbp_overlap does, and says where the
 * digits from the first shared position on stand: in the string that reaches
 * further, the one whose last position is greater, or `first` if both end
 * together. They stay there uncopied. Their place goes into the 24 bytes of
 * `part`, as three numbers of 8 bytes each:
 *
 *   at 0    which string: 0 for `first`, 1 for `second`
 *   at 8    the offset in that string of the first position that both hold
 *   at 16   the number of digits from there to the end of that string
 *
 * So the part is that many characters at (which ? second : first) + offset. Its
 * length is at least 1 and does not tell how many positions are shared, since
 * the other string may end before it does.
 *
 * Answers refusal 1 if part_len is not 24, whatever the strings; with 24 bytes it
 * answers what bbp_overlap answers: 0, or refusal 10, 11 or 12. Refused, it
 * writes nothing. Swapping the strings changes neither the answer nor the digits
 * of the part.
 */
int64_t bbp_overlap_part(const uint8_t *first, size_t first_len, uint64_t first_p,
                         const uint8_t *second, size_t second_len, uint64_t second_p, uint8_t *part, size_t part_len);

#ifdef __cplusplus
}
#endif

#endif
