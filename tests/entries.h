/* Cases of one ticket and the ledger that it meets, for the tests of posting it, with a book or without, and of withdrawing it. */
#ifndef ENTRIES_H
#define ENTRIES_H

#include "common.h"

struct entry {
    uint8_t ledger[LEDGER_ROOM];
    size_t ledger_len;
    uint64_t p, c, row, block;
};

/* A ticket and a ledger of its run, with random row sums and other tickets marked; this one is not. */
void prepare_entry(struct entry *x);
/* The ticket's mark; gives what `damage` of a suite does where a marked ticket is refused with 7. */
int mark_entry(struct entry *x);

/* Damages as `struct suite` has them, kinds 0 to ENTRY_KINDS - 1. None of them is the ticket's mark alone. */
enum { ENTRY_KINDS = 14 };
int damage_entry(struct entry *x, int kind);

/* Cases of posting: the refusal, or 0 for a ticket that is taken. */
struct entry_case {
    const char *what;
    int number;
    struct ledger_form ledger;
    uint64_t p, c, row, block;
    size_t sum_len;
};
extern const struct entry_case entry_cases[];
extern const size_t entry_case_count;
void make_entry(struct entry *x, const struct entry_case *one);

#endif
