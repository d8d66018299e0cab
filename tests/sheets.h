/* Cases of sheets for the tests of reading, posting and looking at them. */
#ifndef SHEETS_H
#define SHEETS_H

#include "common.h"

enum { SHEET_ROOM = 40000 };

struct sheet {
    uint8_t bytes[SHEET_ROOM];
    size_t len;
    /* as it was prepared */
    size_t e;
    uint64_t p, c;
};

/* A sheet that nothing refuses, with random sums. */
void prepare_sheet(struct sheet *sheet);

/* A sheet of a case: the head, the first e tickets of the run, random sums, then patched; lent in `len` bytes. */
struct sheet_form {
    uint64_t p, c, e;
    size_t len;
    struct patch patches[PATCHES];
};
void make_sheet(struct sheet *sheet, const struct sheet_form *form);

/* Cases of sheets alone, for reading, posting and looking: the refusal, or 0 for a sheet that is taken. */
struct sheet_case {
    const char *what;
    int number;
    struct sheet_form form;
};
extern const struct sheet_case sheet_cases[];
extern const size_t sheet_case_count;
/* The sheet of every ticket of C = `blocks`, but with a head of C = c, and its length. */
void sheet_of_blocks(struct sheet *sheet, uint64_t blocks, uint64_t c);

/* Damages as `struct suite` has them, kinds 0 to SHEET_KINDS - 1. */
enum { SHEET_KINDS = 19 };
int damage_sheet(struct sheet *sheet, int kind);

#endif
