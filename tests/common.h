/*
 * What the test programs share: counting checks, random numbers, slices lent
 * at the edge of unmapped pages, and the pairs of refusals that were met.
 */
#ifndef COMMON_H
#define COMMON_H

#include <stddef.h>
#include <stdint.h>

#include "kind.h"

/*
 * The name is that of the test, whatever its kind. Arguments of a test program:
 * its seed and its count of random cases; both have a default.
 */
void start(const char *name, int argc, char **argv);
/* Prints the number of checks and gives the exit status. */
int finish(void);
uint64_t case_count(void);

/* One check. A failed one prints the message with the seed, and ends the program. */
void check(int holds, const char *file, int line, const char *format, ...) __attribute__((format(printf, 4, 5)));
#define CHECK(holds, ...) check((holds), __FILE__, __LINE__, __VA_ARGS__)

/* Random numbers. `below` gives 0 to limit - 1. */
uint64_t any(void);
uint64_t below(uint64_t limit);
void any_bytes(uint8_t *at, size_t len);
uint64_t any_position(void);
uint64_t any_position_upto(uint64_t limit);
uint64_t any_blocks(void);
/* A size that is wrong for a slice that must have `size` bytes; at most 64 more. */
size_t wrong_size(size_t size);
/* A size that is wrong for a ledger, also that of the other kind and the 256 bytes of version 1.0.0. */
size_t wrong_ledger_size(void);

/*
 * Slices lent to the engine. The bytes are copied to a place that ends at an
 * unmapped page, or starts after one, or lies up to 15 bytes off one, so that
 * it is not aligned; guard bytes stand on both sides. An input is made
 * read-only. An empty slice is a null pointer or one at an unmapped page.
 * After the call, `expect` compares the bytes and the guards; `expect_kept`
 * compares them with what was lent.
 */
enum { SLOTS = 6 };
uint8_t *lend(int slot, const uint8_t *bytes, size_t len);
const uint8_t *lend_input(int slot, const uint8_t *bytes, size_t len);
void expect(int slot, const uint8_t *bytes, const char *what);
void expect_kept(int slot, const char *what);

/*
 * A slice of 2^32 + len bytes, all zero, of which the first 4,096 can be
 * written: a length cut to 32 bits shows. `expect_huge` compares the first
 * bytes and that the others are zero, then clears them.
 */
uint8_t *lend_huge(void);
size_t huge_length(size_t len);
void expect_huge(const uint8_t *bytes, size_t len);
void expect_huge_kept(void);

/* Whether a call, made in a child process, is still at work after 0.1 seconds of processor time; then it is stopped. */
int still_working(void (*call)(void));
/* Whether a call, made in a child process, comes back; a check that fails there ends the child. */
int comes_back(void (*call)(void));

/* A call that works a ticket or a half of one, and one that quotes it. */
typedef int64_t work_call(uint64_t p, uint64_t c, uint64_t row, uint64_t block, uint8_t *sum, size_t sum_len,
                          uint8_t *squarings, size_t squarings_len);
typedef int64_t quote_call(uint64_t p, uint64_t c, uint64_t row, uint64_t block, uint8_t *squarings, size_t squarings_len);

/* The place of the first byte in which they differ; the length where they do not. */
size_t first_difference(const uint8_t *x, const uint8_t *y, size_t len);

/* A copy on the heap, for the reference; freed by the caller. */
uint8_t *copy_of(const uint8_t *bytes, size_t len);

/*
 * Pairs of refusals. `met` counts what applied to one case; `require_met` fails
 * for a number or pair not met, of those that the text has, as "1 2 10 1+2 2+10".
 */
void met(ref_refusals refusals);
void require_met(const char *pairs);

/* Numbers in bytes, runs and ledgers for the cases. */
void put(uint8_t *at, size_t bytes, uint64_t value);
#define SUM(upper, lower) ((ref_u128)(upper) << 64 | (lower))
void put_sum(uint8_t *at, ref_u128 sum);
ref_u128 any_sum(void);
void set_row_sum(uint8_t *ledger, uint64_t row, ref_u128 sum);
void set_mark(uint8_t *ledger, uint64_t row, uint64_t block, int marked);
/* A ledger in order: random row sums, each ticket marked with the given chance in 256. */
void any_ledger(uint8_t *ledger, uint64_t p, uint64_t c, uint64_t chance);
/* Changes of some bytes: `width` bytes from `at` on become `value`. Width 0 changes nothing. */
enum { PATCHES = 2 };
struct patch {
    size_t at, width;
    uint64_t value;
};
#define UNPATCHED {{0, 0, 0}}
void patch(uint8_t *bytes, const struct patch patches[PATCHES]);
/*
 * A ledger of a case: of p, C and sums 0, with no ticket or every ticket
 * marked, then patched; lent in `len` bytes. There is room for a ledger of
 * either kind and some bytes more.
 */
enum { LEDGER_ROOM = 352 + 64 };
struct ledger_form {
    size_t len;
    uint64_t p, c;
    int marked;
    struct patch patches[PATCHES];
};
void make_ledger(uint8_t *ledger, const struct ledger_form *form);

/* A call on ledgers of every size up to LEDGER_ROOM: it gives `answer` at a ledger's own, and refusal 1 at any other. */
void every_ledger_size(void (*prepare)(void), int64_t (*compare)(void), size_t *ledger_len, int64_t answer);
/* Makes a ledger not in order in one of its ways. */
void spoil_ledger(uint8_t *ledger);
/* An ascending list of tickets, each taken with the given chance in 256; gives e. */
size_t any_list(uint8_t *list, uint64_t c, uint64_t chance);
/* The first e pairs of the list that has `blocks` blocks in each row. */
void first_pairs(uint8_t *list, uint64_t blocks, size_t e);
/* The sheet of a list with random sums. */
size_t any_sheet(uint8_t *sheet, uint64_t p, uint64_t c, const uint8_t *list, size_t e);
uint64_t any_chance(void);
/* A run's charged terms, those with E of 0 or more, that are added, or that are subtracted, counted one by one. */
uint64_t count_charged(uint64_t p, int added);

/*
 * A call's cases. `prepare` makes a case that nothing refuses; `damage` damages
 * it in one of its kinds and gives the number of the refusal table that then
 * applies, NOTHING where the case has no place for that damage, or UNSURE;
 * `compare` makes the call, compares with the reference and gives the answer.
 * `run_suite` tries every pair of kinds, where the answer must be the smaller
 * of the two numbers, and then `count` cases with up to three random kinds.
 */
enum { NOTHING = 0, UNSURE = -1 };
struct suite {
    void (*prepare)(void);
    int (*damage)(int kind);
    int kinds;
    int64_t (*compare)(void);
};
void run_suite(const struct suite *suite);

/* A position or block count out of range. */
uint64_t bad_position(void);
uint64_t bad_blocks(void);
/* A number that has the given one in its low 8, 16 or 32 bits. */
uint64_t wide_number(uint64_t low);

#endif
