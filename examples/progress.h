/* A progress bar on standard error, shown only where that is a terminal. Needs POSIX. */
#ifndef PROGRESS_H
#define PROGRESS_H

#include <stdio.h>
#include <time.h>
#include <unistd.h>

/* What is to be done is a number of tickets, or of squarings, which can pass 64 bits. */
struct progress {
    int on;
    double all, began, shown;
    int unended; /* the bar stands at the end of the output, with no newline after it */
};

static double progress_clock(void)
{
    struct timespec now;
    clock_gettime(CLOCK_MONOTONIC, &now);
    return (double)now.tv_sec + 1e-9 * (double)now.tv_nsec;
}

static struct progress progress_start(double all)
{
    struct progress bar = {isatty(STDERR_FILENO), all, progress_clock(), 0, 0};
    return bar;
}

/* What is shown next, the bar or words, is on a line of its own. */
static void progress_end_line(struct progress *bar)
{
    if (bar->unended)
        fputc('\n', stderr);
    bar->unended = 0;
}

/* Some part of all, from 0 to 1, and the time left, if the rest takes as long for its part. */
static void progress_draw(struct progress *bar, double part)
{
    enum { WIDTH = 40 };
    double spent = progress_clock() - bar->began, left = part > 0 ? spent / part * (1 - part) : 0;
    fputs("\r[", stderr);
    for (int i = 0; i < WIDTH; i++)
        fputc(i < part * WIDTH ? '#' : '.', stderr);
    fprintf(stderr, "] %3u%%  %.0f s spent, %.0f s left   ", (unsigned)(100 * part), spent, left);
    bar->unended = 1;
}

/* That all is done is for progress_end to show: tickets that take no squarings may still be left. */
static void progress_show(struct progress *bar, double done)
{
    double now = progress_clock();
    if (!bar->on || done >= bar->all || now - bar->shown < 0.1)
        return;
    bar->shown = now;
    progress_draw(bar, done / bar->all);
}

/* Shows that all is done, also where there was nothing to do. */
static void progress_end(struct progress *bar)
{
    if (!bar->on)
        return;
    progress_draw(bar, 1);
    progress_end_line(bar);
}

#endif
