/* The digits of pi from position 1,000 on, in one process. */
#include <bbp.h>
#include <stdio.h>
#include <stdlib.h>

/* Gives the answer of a finished call; a refusal ends the program. */
static int64_t finished(int64_t answer)
{
    if (answer < 0) {
        fprintf(stderr, "refused %d\n", (int)-answer);
        exit(1);
    }
    return answer;
}

int main(void)
{
    uint8_t ledger[BBP_LEDGER_SIZE], sum[BBP_SUM_SIZE], squarings[BBP_SQUARINGS_SIZE], digits[BBP_DIGITS_SIZE];
    const uint64_t p = 1000, c = 1;
    finished(bbp_open(p, c, ledger, sizeof ledger));
    for (uint64_t row = 0; row < BBP_ROWS; row++) {
        finished(bbp_work(p, c, row, 0, sum, sizeof sum, squarings, sizeof squarings));
        finished(bbp_post(ledger, sizeof ledger, p, c, row, 0, sum, sizeof sum));
    }
    int64_t d = finished(bbp_close(ledger, sizeof ledger, digits, sizeof digits));
    int written = printf("%.*s\n", (int)d, (const char *)digits);
    return written > 0 && fflush(stdout) == 0 ? 0 : 1;
}
