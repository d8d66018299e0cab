/* Cases of sheets and the ledgers that they meet, for the tests of posting a sheet and of looking at one. */
#ifndef POSTINGS_H
#define POSTINGS_H

#include "sheets.h"

struct posting {
    struct sheet sheet;
    uint8_t ledger[LEDGER_ROOM];
    size_t ledger_len;
};

/* A sheet and a ledger that nothing refuses, with random sums and other tickets marked. */
void prepare_posting(struct posting *x);

/* Damages as `struct suite` has them, kinds 0 to POSTING_KINDS - 1. */
enum { POSTING_KINDS = SHEET_KINDS + 12 };
int damage_posting(struct posting *x, int kind);

/* The first e tickets of the run p = 1 with C = c, as a sheet. */
void first_tickets(struct posting *x, uint64_t c, uint64_t e);
/* A ledger of p = 1 with random row sums; each ticket is marked with the given chance in 256. */
void ledger_of(struct posting *x, uint64_t c, uint64_t chance);

/*
 * Cases whose refusals are known, each made in x; `refusal` then makes the call
 * and gives its refusal, negated, or 0 where it has none.
 */
typedef int64_t refusal_call(void);
/* Every sheet of sheets.h beside a fresh ledger, and sheets beside ledgers of every sort. */
void every_posting(struct posting *x, refusal_call *refusal);
/* All tickets of the run with C = c, one of which is marked, at each place once; and none. */
void one_marked(struct posting *x, refusal_call *refusal, uint64_t c);
/* Sheets in order and of their length, with one block more in each row than the run has. */
void more_than_the_run_has(struct posting *x, refusal_call *refusal);

#endif
