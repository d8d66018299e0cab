/* The test program of a call that quotes a ticket or a half. */
#ifndef QUOTING_H
#define QUOTING_H

#include "working.h"

struct quoting {
    const char *name;
    quote_call *engine;
    ref_quote_call *reference;
    work_call *work;       /* of what is quoted, by the engine */
    ref_terms_of *terms;   /* and its terms */
    const char *lines;     /* the word of its lines in vectors.txt */
};

/* Tries the call. A test of its own can follow before the program finishes. */
void try_quotes(const struct quoting *call, int argc, char **argv);

#endif
