/*
 * What the programs over bbp.h share: numbers in arguments, bytes and decimal, sums, refusals in words, the standard
 * descriptors, the end of the output.
 */
#ifndef PROGRAM_H
#define PROGRAM_H

#include <bbp.h>

#include <errno.h>
#include <fcntl.h>
#include <inttypes.h>
#include <stdio.h>
#include <stdlib.h>
#include <string.h>

/* Decimal digits alone, and a value of at most 64 bits; anything else ends the program. */
static inline uint64_t number(const char *text)
{
    char *end;
    errno = 0;
    uint64_t value = strtoull(text, &end, 10);
    if (*text < '0' || *text > '9' || *end != '\0' || errno == ERANGE) {
        fprintf(stderr, "not a number of at most 64 bits: %s\n", text);
        exit(2);
    }
    return value;
}

/* A number in bytes, the lowest first. */
static inline uint64_t number_at(const uint8_t *at, int bytes)
{
    uint64_t value = 0;
    while (bytes-- > 0)
        value = value << 8 | at[bytes];
    return value;
}

/* A sum or squarings, which can pass 64 bits, in decimal; the text is in the room given. */
enum { DECIMAL_ROOM = 40 };
static inline const char *decimal(const uint8_t number[16], char room[DECIMAL_ROOM])
{
    uint8_t rest[16], zero[16] = {0};
    char *at = room + DECIMAL_ROOM - 1;
    memcpy(rest, number, 16);
    *at = '\0';
    do {
        unsigned remainder = 0;
        for (int i = 15; i >= 0; i--) {
            remainder = 256 * remainder + rest[i];
            rest[i] = (uint8_t)(remainder / 10);
            remainder %= 10;
        }
        *--at = (char)('0' + remainder);
    } while (memcmp(rest, zero, 16) != 0);
    return at;
}

/* Adds to a sum modulo 2^128: what is carried out of the last byte is dropped. Squarings never come to that. */
static inline void add_sum(uint8_t *sum, const uint8_t *more)
{
    unsigned carry = 0;
    for (int i = 0; i < BBP_SUM_SIZE; i++, carry >>= 8) {
        carry += (unsigned)sum[i] + more[i];
        sum[i] = (uint8_t)carry;
    }
}

static inline const char *meaning(int64_t answer)
{
    switch (-answer) {
    case BBP_REFUSED_SIZE: return "a slice of the wrong size";
    case BBP_REFUSED_RANGE: return "position or block count out of range";
    case BBP_REFUSED_FORM: return "list or sheet not in its form";
    case BBP_REFUSED_TICKET: return "row not one of the formula's, or block not below the block count";
    case BBP_REFUSED_LEDGER: return "ledger not in order";
    case BBP_REFUSED_RUN: return "ticket or sheet of another run than the ledger's";
    case BBP_REFUSED_MARKED: return "ticket marked already";
    case BBP_REFUSED_UNMARKED: return "a ticket of the run is not marked";
    case BBP_REFUSED_UNSETTLED: return "the total does not settle the first digit";
    case BBP_REFUSED_DIGITS: return "digits not in their form, too many or none, or their position out of range";
    case BBP_REFUSED_APART: return "digits that share no position";
    case BBP_REFUSED_DIFFERENT: return "digits that differ at a position of both";
    case BBP_REFUSED_UNPOSTED: return "ticket to withdraw not marked";
    default: return "an answer that is not in the refusal table";
    }
}

/* Gives the answer of a finished call; a refusal ends the program. `word` is that of the kind of run. */
static inline int64_t finished_by(const char *word, const char *call, int64_t answer)
{
    if (answer < 0) {
        fprintf(stderr, "%s%s: refused %" PRId64 ": %s\n", word, call, -answer, meaning(answer));
        exit(1);
    }
    return answer;
}

static inline int64_t finished(const char *call, int64_t answer)
{
    return finished_by("", call, answer);
}

/* What the system did not do, in words; ends the program. */
static inline void fail(const char *what)
{
    perror(what);
    exit(1);
}

/*
 * For the start of a program that opens files: a file must not get the number of
 * a standard descriptor that is closed, and with it what is written there. So
 * the root folder is opened in its place, which can be read and written as little
 * as a closed descriptor, also by names such as /dev/stderr.
 */
static inline void open_closed_descriptors(void)
{
    for (int i = 0; i <= 2; i++)
        if (fcntl(i, F_GETFD) < 0 && open("/", O_RDONLY) != i)
            fail("/");
}

/* Standard output that could not be written ends the program. */
static inline void end_output(void)
{
    if (fflush(stdout) != 0 || ferror(stdout))
        fail("standard output");
}

#endif
