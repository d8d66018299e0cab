/*
 * The digits of document 001, Table 4, against closings of both kinds of runs.
 *
 *   published POSITION...       works and closes each, by both formulas, and compares
 *   published overlap POSITION  closes there and one position before; where both have a digit they agree, by both formulas
 *   published -                 reads closing lines ("P D DIGITS" or "check P D DIGITS") and compares each
 *
 * The table's letter O is read as 0 (document 01, Marked figures). A closing
 * may settle fewer digits than the table has, and more: those that both have
 * are compared.
 */
#include "bbp.h"

#include <inttypes.h>
#include <stdio.h>
#include <stdlib.h>
#include <string.h>

#include "kinds.h"

static const struct {
    uint64_t p;
    const char *digits;
} table[] = {
    {UINT64_C(1000000), "26C65E52CB459350050E4BB17"},
    {UINT64_C(10000000), "17AF5863EFED8DE97033CDOF6"},
    {UINT64_C(100000000), "ECB840E21926EC5AEOD2F3405"},
    {UINT64_C(1000000000), "85895585A0428B564084E74A2"},
    {UINT64_C(10000000000), "921C73C6838FB2B6223630F51"},
    {UINT64_C(100000000000), "C9C381872D27596F81D0E48B9"},
    {UINT64_C(1000000000000), "5B4466E8D215388C4E014CEC5"},
};

static unsigned checks;

static void failed(const char *word, const char *what, uint64_t p, const char *found, const char *wanted)
{
    fprintf(stderr, "published: %s%s at %" PRIu64 ": %s, not %s\n", word, what, p, found, wanted);
    exit(1);
}

static const char *published_digits(uint64_t p)
{
    for (size_t i = 0; i < sizeof table / sizeof table[0]; i++)
        if (table[i].p == p)
            return table[i].digits;
    fprintf(stderr, "published: Table 4 has no position %" PRIu64 "\n", p);
    exit(2);
}

/* The closing of a run in this process; gives the number of digits. */
static size_t close_run(const struct kind *kind, uint64_t p, char digits[33])
{
    uint8_t ledger[BBP_LEDGER_SIZE], sum[BBP_SUM_SIZE], squarings[BBP_SQUARINGS_SIZE], lent[BBP_DIGITS_SIZE] = {0};
    int64_t answer = kind->open(p, 1, ledger, kind->ledger_size);
    for (uint64_t row = 0; row < kind->rows && answer == 0; row++) {
        answer = kind->work(p, 1, row, 0, sum, sizeof sum, squarings, sizeof squarings);
        if (answer == 0)
            answer = kind->post(ledger, kind->ledger_size, p, 1, row, 0, sum, sizeof sum);
    }
    if (answer == 0)
        answer = kind->close(ledger, kind->ledger_size, lent, sizeof lent);
    if (answer < 1) {
        fprintf(stderr, "published: %sposition %" PRIu64 " is refused with %" PRId64 "\n", kind->word, p, -answer);
        exit(1);
    }
    memset(digits, 0, 33);
    memcpy(digits, lent, (size_t)answer);
    return (size_t)answer;
}

/* A closing that settles next to nothing would agree with anything: 20 digits are asked for. */
static void compare(const char *word, uint64_t p, const char *digits)
{
    const char *wanted = published_digits(p);
    size_t i = 0;
    for (; digits[i] != '\0' && wanted[i] != '\0'; i++)
        if (digits[i] != (wanted[i] == 'O' ? '0' : wanted[i]))
            failed(word, "digits", p, digits, wanted);
    if (i < 20)
        failed(word, "too few digits", p, digits, wanted);
    checks++;
}

static void compare_run(const struct kind *kind, uint64_t p)
{
    char digits[33];
    close_run(kind, p, digits);
    compare(kind->word, p, digits);
}

/* The call compares the digits; how many positions both hold follows from where the two end. */
static void compare_overlap(const struct kind *kind, uint64_t p)
{
    char here[33], before[33];
    size_t d = close_run(kind, p, here), e = close_run(kind, p - 1, before);
    size_t shared = d < e - 1 ? d : e - 1;
    int64_t answer = bbp_overlap((const uint8_t *)here, d, p, (const uint8_t *)before, e, p - 1);
    if (shared < 20 || answer != 0)
        failed(kind->word, answer != 0 ? meaning(answer) : "too few shared positions", p, here, before);
    checks++;
}

/* The next closing line, with or without a word before it; gives whether there is one. */
static int read_line(uint64_t *p, unsigned *d, char digits[33])
{
    return scanf(" check") != EOF && scanf("%" SCNu64 " %u %32s", p, d, digits) == 3;
}

static void compare_lines(void)
{
    uint64_t p;
    unsigned d;
    char digits[33];
    while (read_line(&p, &d, digits)) {
        if (strlen(digits) != d)
            failed("", "the count of digits", p, digits, published_digits(p));
        compare("", p, digits);
    }
    if (checks == 0)
        failed("", "closing line", 0, "none", "one");
}

int main(int argc, char **argv)
{
    int overlap = argc == 3 && strcmp(argv[1], "overlap") == 0;
    if (argc == 2 && strcmp(argv[1], "-") == 0)
        compare_lines();
    else
        for (int i = 1 + overlap; i < argc; i++)
            for (int kind = 0; kind < KINDS; kind++)
                (overlap ? compare_overlap : compare_run)(&kinds[kind], strtoull(argv[i], NULL, 10));
    printf("published: %u checks\n", checks);
    return checks > 0 ? 0 : 2;
}
