/*
 * The cases of the calls that work or quote a ticket, whole or half: they have
 * the same arguments but for the slices, and are refused alike. And the test
 * program of a call that works.
 */
#ifndef WORKING_H
#define WORKING_H

#include "common.h"

/* What is lent: to work, the slices of the sum and of the squarings, and to quote that of the squarings alone. */
enum { TO_QUOTE = 1, TO_WORK = 2 };

/* The arguments of the case that is tried. Of a slice that is not lent the length is 16. */
extern struct arguments {
    uint64_t p, c, row, block;
    size_t len[TO_WORK];
} tried;

/*
 * Tries named cases with their answers, every combination of sizes of so many
 * slices, every block of small runs, short ranges, tickets far on, every pair of
 * refusals and random cases. `compare` makes what calls it tests with the arguments `tried`,
 * and gives the answer.
 */
void try_tickets(int slices, int64_t (*compare)(void));

/* The test program of one call, against the reference's. */
struct working {
    const char *name;
    work_call *engine;
    ref_work_call *reference;
};
int test_working(const struct working *call, int argc, char **argv);

#endif
