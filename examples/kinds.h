/*
 * The two kinds of runs, each with its numbers and its calls, so that a program
 * for both is written once. What takes a run's calls from one entry of this
 * table, and its ledger and sheets from these calls, keeps the kinds apart.
 */
#ifndef KINDS_H
#define KINDS_H

#include <bbp.h>

#include "program.h"

typedef int64_t work_call(uint64_t p, uint64_t c, uint64_t row, uint64_t block, uint8_t *sum, size_t sum_len,
                          uint8_t *squarings, size_t squarings_len);

struct kind {
    const char *word, *suffix; /* before its calls and its closing line; after the name of its file */
    uint64_t last_position, rows;
    size_t ledger_size, marks_at;
    work_call *work, *work_lower, *work_upper;
    int64_t (*quote)(uint64_t p, uint64_t c, uint64_t row, uint64_t block, uint8_t *squarings, size_t squarings_len);
    int64_t (*open)(uint64_t p, uint64_t c, uint8_t *ledger, size_t ledger_len);
    int64_t (*post)(uint8_t *ledger, size_t ledger_len, uint64_t p, uint64_t c, uint64_t row, uint64_t block,
                    const uint8_t *sum, size_t sum_len);
    int64_t (*sheet_write)(uint64_t p, uint64_t c, const uint8_t *list, size_t list_len, uint8_t *sheet, size_t sheet_len);
    int64_t (*sheet_read)(const uint8_t *sheet, size_t sheet_len, uint8_t *list, size_t list_len,
                          uint8_t *sums, size_t sums_len);
    int64_t (*sheet_post)(uint8_t *ledger, size_t ledger_len, const uint8_t *sheet, size_t sheet_len);
    int64_t (*look)(const uint8_t *ledger, size_t ledger_len, const uint8_t *sheet, size_t sheet_len, uint8_t *total,
                    size_t total_len); /* NULL where the kind has none */
    int64_t (*close)(const uint8_t *ledger, size_t ledger_len, uint8_t *digits, size_t digits_len);
};

#define KIND(word, suffix, calls, numbers, look)                                                                 \
    {word, suffix, numbers##MAX_POSITION, numbers##ROWS, numbers##LEDGER_SIZE, numbers##ROW_MARKS_AT(0), calls##work, \
     calls##work_lower, calls##work_upper, calls##quote, calls##open, calls##post, calls##sheet_write,            \
     calls##sheet_read, calls##sheet_post, look, calls##close}

enum { BELLARD, CHECK, KINDS };
static const struct kind kinds[KINDS] = {KIND("", "", bbp_, BBP_, bbp_look),
                                         KIND("check ", ".check", bbp_check_, BBP_CHECK_, NULL)};

/* Closes a ledger and prints its kind's word, position, number of digits, digits; gives that number. */
static inline int64_t print_closing(const struct kind *kind, uint64_t p, const uint8_t *ledger, uint8_t *digits)
{
    int64_t d = finished_by(kind->word, "close", kind->close(ledger, kind->ledger_size, digits, BBP_DIGITS_SIZE));
    printf("%s%" PRIu64 " %" PRId64 " %.*s\n", kind->word, p, d, (int)d, (const char *)digits);
    end_output();
    return d;
}

#endif
