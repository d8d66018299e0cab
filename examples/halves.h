/*
 * A ticket worked as its two halves at the same time: the lower one here, the
 * upper one in a process of its own, which hands its answer, its sum and its
 * squarings back through a pipe. Needs Linux.
 */
#ifndef HALVES_H
#define HALVES_H

#include <bbp.h>

#include "kinds.h"
#include "process.h"
#include "program.h"

struct half {
    int64_t answer;
    uint8_t sum[BBP_SUM_SIZE], squarings[BBP_SQUARINGS_SIZE];
};

/* The child's part. So few bytes are written whole or not at all. */
static void hand_over(int pipe_end, work_call *work, uint64_t p, uint64_t c, uint64_t row, uint64_t block)
{
    struct half half = {0, {0}, {0}};
    half.answer = work(p, c, row, block, half.sum, sizeof half.sum, half.squarings, sizeof half.squarings);
    _exit(write(pipe_end, &half, sizeof half) == sizeof half ? 0 : 1);
}

/* What the child handed over; a child that ends in another way ends the program. It is waited for in any case. */
static struct half upper_from(pid_t child, int pipe_end)
{
    struct half upper;
    FILE *file = fdopen(pipe_end, "rb");
    if (file == NULL)
        fail("pipe");
    int whole = fread(&upper, sizeof upper, 1, file) == 1;
    fclose(file);
    if (!ended_well(child) || !whole) {
        fputs("the process of an upper half failed\n", stderr);
        exit(1);
    }
    return upper;
}

/* Writes the ticket's sum and its squarings; a refusal of either half ends the program. */
static void work_halves(const struct kind *kind, uint64_t p, uint64_t c, uint64_t row, uint64_t block, uint8_t *sum,
                        uint8_t *squarings)
{
    int ends[2];
    if (pipe(ends) != 0)
        fail("pipe");
    pid_t child = start_process();
    if (child == 0)
        hand_over(ends[1], kind->work_upper, p, c, row, block);
    close(ends[1]);
    int64_t answer = kind->work_lower(p, c, row, block, sum, BBP_SUM_SIZE, squarings, BBP_SQUARINGS_SIZE);
    struct half upper = upper_from(child, ends[0]);
    finished_by(kind->word, "work lower", answer);
    finished_by(kind->word, "work upper", upper.answer);
    add_sum(sum, upper.sum);
    add_sum(squarings, upper.squarings);
}

#endif
