/*
 * Times of the engine, in processor time, as minima of several repetitions.
 * Working is compared with C of the same algorithms (bench/ways.h), one term at
 * a time and several side by side, and with the engine's own halves, ticket by
 * ticket and turn by turn. Figures say nothing about whether answers are right;
 * the sums are compared all the same, so that equal work is timed. The engine
 * counts its squarings as it works, the C does not. Last come the quotes at the
 * last position, digits laid over each other, and the stack that a half takes.
 * Lines of check runs start with the word `check`; calls on ledgers are timed by
 * Bellard's. Calls by a book stand beside a copy of the book, and the sheet of all
 * that stands beside a copy of its own bytes and beside the post that takes it.
 */
#define _POSIX_C_SOURCE 200809L

#include <bbp.h>

#include <inttypes.h>
#include <pthread.h>
#include <stdio.h>
#include <stdlib.h>
#include <string.h>
#include <time.h>

#include "kinds.h"
#include "program.h"
#include "ways.h"

enum { BLOCKS = 256, MULTIPLICATIONS = 10000000, STACK = 1 << 20, UNTOUCHED = 0xA5 };
/* How many calls are timed together. */
enum { LEDGERS = 64, QUOTES = 64, OVERLAPS = 64, WITHDRAWN = 64, STANDING = 64 };

#if !defined WITH_gcc && !defined WITH_clang
#error "bench/lanes.c is not compiled: neither gcc nor clang was found"
#endif

/* Ways of working a ticket: the engine, the engine's halves, and those in C, of which one chain is the first. */
#define WAY_NAMED(compiler, way, name)                          \
    {#compiler " " name, #compiler, compiler##_##way##_version, \
     {compiler##_##way##_work, compiler##_##way##_check_work}},
#define WAY(compiler, lanes) WAY_NAMED(compiler, lanes, #lanes " lanes")
static const struct {
    const char *name, *compiler;
    const char *(*version)(void);
    ticket_call *work[KINDS];
} in_c[] = {
    {"one chain", NULL, NULL, {plain_work, plain_check_work}},
#ifdef WITH_gcc
    WAYS_OF(gcc)
#endif
#ifdef WITH_clang
    WAYS_OF(clang)
#endif
#ifdef WITH_gcc
    WAY_NAMED(gcc, tuned, "8 lanes")
#endif
#ifdef WITH_clang
    WAY_NAMED(clang, tuned, "8 lanes")
#endif
};
#if defined WITH_gcc && defined WITH_clang
enum { COMPILERS = 2 };
#else
enum { COMPILERS = 1 };
#endif
enum {
    ENGINE,
    HALVES,
    ONE_CHAIN,
    SIDE_BY_SIDE,
    TUNED = SIDE_BY_SIDE + COMPILERS * WAYS_OF_A_COMPILER,
    WAYS = TUNED + COMPILERS
};

struct ticket {
    uint64_t p, c, row, block;
};

/* Tickets of each row, every `step`-th block from `first` on, and how many of the ways and how often. */
struct sample {
    int kind;
    uint64_t p, c, first, step;
    int ways, repetitions;
};

/* Of a sample: the least times of its tickets, added up, and its squarings. */
struct figures {
    double times[WAYS], squarings;
};

/* What the table of kinds does not have: the step of E, and the last position in words. */
static const struct {
    uint64_t step;
    const char *last;
} extras[KINDS] = {{10, "2^60"}, {4, "2^59"}};

static double seconds(void)
{
    struct timespec now;
    clock_gettime(CLOCK_PROCESS_CPUTIME_ID, &now);
    return (double)now.tv_sec + 1e-9 * (double)now.tv_nsec;
}

static double least(double x, double y)
{
    return x < y ? x : y;
}

static void print_compilers(void)
{
    for (int way = SIDE_BY_SIDE; way < TUNED; way += WAYS_OF_A_COMPILER) {
        const char *version = in_c[way - ONE_CHAIN].version();
        printf("%s %s %.*s", way == SIDE_BY_SIDE ? "C by" : " and", in_c[way - ONE_CHAIN].compiler, (int)strcspn(version, " "),
               version);
    }
    printf(", -O3");
#ifndef WITH_gcc
    printf("; no gcc found");
#endif
#ifndef WITH_clang
    printf("; no clang found");
#endif
    printf("\n");
}

/* The time of multiplications each of which waits for the one before. */
static double time_multiplications(void)
{
    static volatile uint64_t seed = 3;
    uint64_t x = seed;
    double began = seconds();
    for (int i = 0; i < MULTIPLICATIONS; i++)
        x *= x;
    seed = x;
    return seconds() - began;
}

/*
 * The nanoseconds of a cycle. A multiplication of 64 bits is taken to have its
 * lower word after three cycles, and to be started each cycle, so that the three
 * of a squaring cannot take less than three cycles. That is so on x86-64 from
 * Intel since Nehalem and from AMD since Zen; on others the clock and the limit
 * that are printed are wrong.
 */
static double measure_cycle(void)
{
    double best = 1e9;
    for (int i = 0; i < 30; i++)
        best = least(best, time_multiplications());
    double cycle = 1e9 * best / MULTIPLICATIONS / 3;
    printf("clock about %.2f GHz, by a chain of multiplications of three cycles each\n", 1 / cycle);
    return cycle;
}

static void work_halves(int kind, const struct ticket *t, uint8_t sum[16])
{
    uint8_t upper[16], squarings[16];
    finished("work lower", kinds[kind].work_lower(t->p, t->c, t->row, t->block, sum, 16, squarings, 16));
    finished("work upper", kinds[kind].work_upper(t->p, t->c, t->row, t->block, upper, 16, squarings, 16));
    add_sum(sum, upper);
}

/* Works a ticket in one of the ways; the engine writes its squarings as well. */
static void work(int way, int kind, const struct ticket *t, uint8_t sum[16], uint8_t squarings[16])
{
    if (way == ENGINE)
        finished("work", kinds[kind].work(t->p, t->c, t->row, t->block, sum, 16, squarings, 16));
    else if (way == HALVES)
        work_halves(kind, t, sum);
    else
        in_c[way - ONE_CHAIN].work[kind](t->p, t->c, t->row, t->block, sum);
}

/* Works one ticket in each way; keeps the least time of each, wants one sum of all, and gives the squarings. */
static double time_ticket(const struct sample *s, const struct ticket *t, double times[WAYS])
{
    uint8_t sums[WAYS][16], squarings[16] = {0};
    for (int way = 0; way < s->ways; way++) {
        double began = seconds();
        work(way, s->kind, t, sums[way], squarings);
        times[way] = least(times[way], seconds() - began);
        if (memcmp(sums[way], sums[ENGINE], 16) != 0) {
            fprintf(stderr, "bench: %sp = %" PRIu64 ", the engine and %s differ\n", kinds[s->kind].word, s->p,
                    way == HALVES ? "its halves" : in_c[way - ONE_CHAIN].name);
            exit(1);
        }
    }
    return (double)number_at(squarings, 8);
}

static uint64_t in_a_row(const struct sample *s)
{
    return (s->c - s->first + s->step - 1) / s->step;
}

/* Works each ticket of a sample once in each way, and gives the squarings. */
static double time_tickets(const struct sample *s, double times[][WAYS])
{
    double squarings = 0;
    for (uint64_t i = 0; i < kinds[s->kind].rows * in_a_row(s); i++) {
        const struct ticket t = {s->p, s->c, i / in_a_row(s), s->first + i % in_a_row(s) * s->step};
        squarings += time_ticket(s, &t, times[i]);
    }
    return squarings;
}

static struct figures time_sample(const struct sample *s)
{
    static double times[BBP_ROWS * BLOCKS][WAYS];
    uint64_t count = kinds[s->kind].rows * in_a_row(s);
    struct figures all = {{0}, 0};
    for (uint64_t i = 0; i < count; i++)
        for (int way = 0; way < WAYS; way++)
            times[i][way] = 1e9;
    for (int repetition = 0; repetition < s->repetitions; repetition++)
        all.squarings = time_tickets(s, times);
    for (uint64_t i = 0; i < count; i++)
        for (int way = 0; way < s->ways; way++)
            all.times[way] += times[i][way];
    return all;
}

static int fastest_side_by_side(const double times[WAYS])
{
    int best = SIDE_BY_SIDE;
    for (int way = SIDE_BY_SIDE + 1; way < TUNED; way++)
        if (times[way] < times[best])
            best = way;
    return best;
}

static void print_side_by_side(const double times[WAYS])
{
    printf("engine / side by side:");
    for (int way = SIDE_BY_SIDE; way < WAYS; way++)
        printf("%s %s %.3f", way == SIDE_BY_SIDE ? "" : way == TUNED ? "; tuned:" : ",", in_c[way - ONE_CHAIN].name,
               times[ENGINE] / times[way]);
    printf("\n");
}

/* Prints the ratios and gives the engine's time for the whole run. */
static double compare_work(const struct sample *s, double cycle)
{
    char title[80];
    struct figures all = time_sample(s);
    const double *times = all.times;
    int best = fastest_side_by_side(times);
    double whole = times[ENGINE] * (double)s->c / (double)in_a_row(s), squaring = 1e9 * times[ENGINE] / all.squarings;
    snprintf(title, sizeof title, "%sp = %-10" PRIu64, kinds[s->kind].word, s->p);
    printf("%s engine %.3f s, one chain %.3f s: %.3f; fastest side by side %s %.3f s: %.3f; whole run about %.1f s\n", title,
           times[ENGINE], times[ONE_CHAIN], times[ENGINE] / times[ONE_CHAIN], in_c[best - ONE_CHAIN].name, times[best],
           times[ENGINE] / times[best], whole);
    printf("%s %.3f ns a squaring, %.2f of the limit; halves %.3f s: %.3f of the whole\n", title, squaring, 3 * cycle / squaring,
           times[HALVES], times[HALVES] / times[ENGINE]);
    printf("%s ", title);
    print_side_by_side(times);
    return whole;
}

static uint64_t terms_of_a_row(int kind, uint64_t p)
{
    return (4 * (p - 1) + 130) / extras[kind].step + 1;
}

static double terms_by_bits(int kind, uint64_t p)
{
    int bits = 0;
    for (uint64_t n = 4 * p; n > 0; n /= 2)
        bits++;
    return (double)terms_of_a_row(kind, p) * bits;
}

/* So many blocks that a repetition takes some tenths of a second in each way; at 10^9 it takes over a second. */
static void compare_runs(int kind, double cycle)
{
    const struct sample samples[] = {{kind, 1000000, BLOCKS, 0, 1, WAYS, 15},
                                     {kind, 10000000, BLOCKS, 8, 16, WAYS, 15},
                                     {kind, 100000000, BLOCKS, 64, 128, WAYS, 15},
                                     {kind, 1000000000, BLOCKS, 128, 256, WAYS, 5}};
    double near = compare_work(&samples[0], cycle), far = compare_work(&samples[1], cycle);
    compare_work(&samples[2], cycle);
    compare_work(&samples[3], cycle);
    printf("%sfrom p = 10^6 to 10^7: time grows by %.2f, terms x bits by %.2f\n", kinds[kind].word, far / near,
           terms_by_bits(kind, samples[1].p) / terms_by_bits(kind, samples[0].p));
}

/* The first position whose rows have so many terms. */
static uint64_t position_with(int kind, uint64_t terms)
{
    return (extras[kind].step * (terms - 1) - 130 + 3) / 4 + 1;
}

static void compare_halves_of(int kind, uint64_t terms, uint64_t c)
{
    const struct sample s = {kind, position_with(kind, terms * c), c, c / 2, c, HALVES + 1, 30};
    uint64_t of_a_row = terms_of_a_row(kind, s.p);
    if ((s.first + 1) * of_a_row / c - s.first * of_a_row / c != terms) {
        fprintf(stderr, "bench: %sp = %" PRIu64 ", C = %" PRIu64 ": not %" PRIu64 " terms\n", kinds[kind].word, s.p, c, terms);
        exit(1);
    }
    struct figures all = time_sample(&s);
    printf("%s%" PRIu64 " terms, C = %" PRIu64 ", p = %" PRIu64 ": halves / whole %.3f\n", kinds[kind].word, terms, c, s.p,
           all.times[HALVES] / all.times[ENGINE]);
}

/* 2^15 + 1, 5 * 2^13 and 39,321 terms: cut in two again and again, they end in parts of different sizes. */
static void compare_halves(int kind)
{
    static const uint64_t terms[] = {32769, 40960, 39321};
    for (int i = 0; i < 3; i++) {
        compare_halves_of(kind, terms[i], 1);
        compare_halves_of(kind, terms[i], BLOCKS);
    }
}

static uint8_t ledgers[LEDGERS][BBP_LEDGER_SIZE];
static uint8_t ledger[BBP_LEDGER_SIZE], list[BBP_LIST_MAX], sheet[BBP_SHEET_MAX], sums[BBP_ROWS * BLOCKS * 16];

static void open_ledger(void)
{
    finished("open", bbp_open(1, BLOCKS, ledger, sizeof ledger));
}

/* The block count of the ledgers. */
static uint64_t blocks;

static void open_ledgers(void)
{
    for (int i = 0; i < LEDGERS; i++)
        finished("open", bbp_open(1, blocks, ledgers[i], sizeof ledgers[i]));
}

/* One post is too short for the clock, and so is a closing that is refused. */
static void post_one_each(void)
{
    for (int i = 0; i < LEDGERS; i++)
        finished("post", bbp_post(ledgers[i], sizeof ledgers[i], 1, blocks, 3, blocks / 2, sums, 16));
}

static void close_each_unfinished(void)
{
    uint8_t digits[BBP_DIGITS_SIZE];
    for (int i = 0; i < LEDGERS; i++)
        if (bbp_close(ledgers[i], sizeof ledgers[i], digits, sizeof digits) != -8)
            abort();
}

static void post_all(void)
{
    for (uint64_t row = 0; row < BBP_ROWS; row++)
        for (uint64_t block = 0; block < BLOCKS; block++)
            finished("post", bbp_post(ledger, sizeof ledger, 1, BLOCKS, row, block, sums, 16));
}

static void read_sheet(void)
{
    static uint8_t read_list[BBP_LIST_MAX], read_sums[sizeof sums];
    finished("sheet read", bbp_sheet_read(sheet, sizeof sheet, read_list, sizeof read_list, read_sums, sizeof read_sums));
}

static void look_at_sheet(void)
{
    uint8_t total[BBP_TOTAL_SIZE];
    finished("look", bbp_look(ledger, sizeof ledger, sheet, sizeof sheet, total, sizeof total));
}

static void post_sheet(void)
{
    finished("sheet post", bbp_sheet_post(ledger, sizeof ledger, sheet, sizeof sheet));
}

static void close_ledger(void)
{
    uint8_t digits[BBP_DIGITS_SIZE];
    finished("close", bbp_close(ledger, sizeof ledger, digits, sizeof digits));
}

static void nothing(void)
{
}

/* Prints the time of one call, of so many that `calls` makes, and gives it. */
static double time_calls(const char *what, int count, void (*before)(void), void (*calls)(void))
{
    double best = 1e9;
    for (int i = 0; i < 200; i++) {
        before();
        double began = seconds();
        calls();
        best = least(best, seconds() - began);
    }
    printf("%-52s %9.2f us\n", what, 1e6 * best / count);
    return best / count;
}

/* Both start from a fresh ledger. What is posted stays. */
static void compare_look(void)
{
    double look = time_calls("looking at a sheet of 1,792 tickets", 1, open_ledger, look_at_sheet);
    double post = time_calls("posting a sheet of 1,792 tickets", 1, open_ledger, post_sheet);
    printf("%-52s %9.3f\n", "looking / posting", look / post);
}

/* The marks that a call asks for depend on the block count. */
static void time_counts(void)
{
    static const uint64_t counts[] = {1, 16, BLOCKS};
    char what[64];
    for (int i = 0; i < 3; i++) {
        blocks = counts[i];
        snprintf(what, sizeof what, "posting one ticket, C = %d", (int)blocks);
        time_calls(what, LEDGERS, open_ledgers, post_one_each);
        snprintf(what, sizeof what, "closing that ledger, refused, C = %d", (int)blocks);
        time_calls(what, LEDGERS, nothing, close_each_unfinished);
    }
}

/* By a book at C = 256 that is full but for some tickets: each of these calls tests all of it. */

static uint8_t book[BBP_BOOK_SIZE], copied[BBP_BOOK_SIZE], some_sheet[BBP_SHEET_SIZE(WITHDRAWN)];

static void open_both(void)
{
    open_ledger();
    memset(book, 0, sizeof book);
}

static void post_sheet_by_book(void)
{
    finished("book sheet post", bbp_book_sheet_post(ledger, sizeof ledger, book, sizeof book, sheet, sizeof sheet));
}

static void fill_book(void)
{
    open_both();
    post_sheet_by_book();
}

/* The first tickets of row 3, as many as there are to be withdrawn. */
static void withdraw_some(void)
{
    for (uint64_t i = 0; i < WITHDRAWN; i++)
        finished("book withdraw", bbp_book_withdraw(ledger, sizeof ledger, book, sizeof book, 1, BLOCKS, 3, i));
}

static void fill_but_some(void)
{
    fill_book();
    withdraw_some();
}

static void post_some(void)
{
    for (uint64_t i = 0; i < WITHDRAWN; i++)
        finished("book post", bbp_book_post(ledger, sizeof ledger, book, sizeof book, 1, BLOCKS, 3, i, sums, 16));
}

static void post_some_as_sheet(void)
{
    finished("book sheet post", bbp_book_sheet_post(ledger, sizeof ledger, book, sizeof book, some_sheet, sizeof some_sheet));
}

/* Nothing of it may be left out by the compiler, which is told that the bytes are read and written elsewhere. */
static void copy_book(void)
{
    for (int i = 0; i < WITHDRAWN; i++) {
        memcpy(copied, book, sizeof book);
        __asm__ volatile("" : : "r"(copied), "r"(book) : "memory");
    }
}

static void print_ratio(const char *what, double call, double other)
{
    printf("%-52s %9.2f\n", what, call / other);
}

/* The sheet of all that stands of a full ledger and book is the one that was posted. */

static uint8_t standing[BBP_SHEET_MAX];

static void write_standing(void)
{
    for (int i = 0; i < STANDING; i++)
        finished("standing sheet", bbp_standing_sheet(ledger, sizeof ledger, book, sizeof book, standing, sizeof standing));
}

static void copy_sheet(void)
{
    for (int i = 0; i < STANDING; i++) {
        memcpy(standing, sheet, sizeof sheet);
        __asm__ volatile("" : : "r"(standing), "r"(sheet) : "memory");
    }
}

/* `post` is the time of posting that sheet by an empty book. */
static void compare_standing(double post)
{
    fill_book();
    double copy = time_calls("copying the bytes of a sheet of 1,792", STANDING, nothing, copy_sheet);
    double written = time_calls("writing the sheet of all that stands, 1,792", STANDING, nothing, write_standing);
    if (memcmp(standing, sheet, sizeof sheet) != 0)
        abort();
    print_ratio("the sheet of all that stands / copying its bytes", written, copy);
    print_ratio("the sheet of all that stands / posting it by a book", written, post);
}

static void compare_with_copy(void)
{
    finished("sheet write", bbp_sheet_write(1, BLOCKS, list + BBP_LIST_SIZE(3 * BLOCKS), BBP_LIST_SIZE(WITHDRAWN), some_sheet,
                                            sizeof some_sheet));
    fill_book();
    double copy = time_calls("copying a book, 28,672 bytes", WITHDRAWN, nothing, copy_book);
    double post = time_calls("posting one ticket by a nearly full book", WITHDRAWN, fill_but_some, post_some);
    double as_sheet = time_calls("posting a sheet of 64 by a nearly full book", 1, fill_but_some, post_some_as_sheet);
    double withdrawal = time_calls("withdrawing one ticket by a full book", WITHDRAWN, fill_book, withdraw_some);
    double all = time_calls("posting a sheet of 1,792 by an empty book", 1, open_both, post_sheet_by_book);
    print_ratio("posting one ticket by a book / copying the book", post, copy);
    print_ratio("posting a sheet of 64 by a book / copying the book", as_sheet, copy);
    print_ratio("withdrawing one ticket / copying the book", withdrawal, copy);
    compare_standing(all);
}

static void compare_ledgers(void)
{
    for (uint64_t i = 0; i < BBP_ROWS * BLOCKS; i++)
        list[2 * i] = (uint8_t)i, list[2 * i + 1] = (uint8_t)(i / 256);
    finished("sheet write", bbp_sheet_write(1, BLOCKS, list, sizeof list, sheet, sizeof sheet));
    time_counts();
    time_calls("post of all 1,792 tickets, one by one", 1, open_ledger, post_all);
    time_calls("reading a sheet of 1,792 tickets", 1, nothing, read_sheet);
    compare_look();
    time_calls("closing a full ledger of C = 256", 1, nothing, close_ledger);
    compare_with_copy();
}

static const struct kind *quoted;

/* One quote is too short for the clock. */
static void quote_all(void)
{
    uint8_t squarings[16];
    for (int i = 0; i < QUOTES; i++)
        finished("quote", quoted->quote(quoted->last_position, 1, 0, 0, squarings, 16));
}

static void time_quote(int kind)
{
    char title[80];
    quoted = &kinds[kind];
    snprintf(title, sizeof title, "%squote at p = %s, C = 1", kinds[kind].word, extras[kind].last);
    time_calls(title, QUOTES, nothing, quote_all);
}

/* Thirty digits, and those a position on: as they are, and with another one at the last position that both hold. */
static const char first_digits[] = "243F6A8885A308D313198A2E037073";
static const struct overlap {
    const char *second;
    int64_t answer;
} agreeing = {"43F6A8885A308D313198A2E0370734", 0}, differing = {"43F6A8885A308D313198A2E0370724", -BBP_REFUSED_DIFFERENT};
static const struct overlap *overlap;

static void expect_overlap(int64_t answer)
{
    if (answer != overlap->answer)
        abort();
}

/* One of these calls is too short for the clock. */
static void overlap_each(void)
{
    for (int i = 0; i < OVERLAPS; i++)
        expect_overlap(bbp_overlap((const uint8_t *)first_digits, 30, 1, (const uint8_t *)overlap->second, 30, 2));
}

static void place_each(void)
{
    uint8_t part[BBP_PART_SIZE];
    for (int i = 0; i < OVERLAPS; i++)
        expect_overlap(bbp_overlap_part((const uint8_t *)first_digits, 30, 1, (const uint8_t *)overlap->second, 30, 2, part,
                                        sizeof part));
}

static void time_overlaps(void)
{
    overlap = &agreeing;
    time_calls("30 digits over 30, a position apart", OVERLAPS, nothing, overlap_each);
    time_calls("the same, with the place of the part", OVERLAPS, nothing, place_each);
    overlap = &differing;
    time_calls("30 digits over 30, refused at the last shared one", OVERLAPS, nothing, overlap_each);
    time_calls("the same, with bytes for the part", OVERLAPS, nothing, place_each);
}

static uint8_t stacks[KINDS][STACK] __attribute__((aligned(4096)));
static volatile uintptr_t stack_before;

static void *work_largest_half(void *kind)
{
    const struct kind *of = kind;
    uint8_t sum[16], squarings[16];
    stack_before = (uintptr_t)__builtin_frame_address(0);
    finished("work lower", of->work_lower(of->last_position, 1, 0, 0, sum, 16, squarings, 16));
    return NULL;
}

/*
 * The half with the most cuts one inside the other. It never ends, so its stack
 * is looked at while it is at work; nothing can be timed after that.
 */
static void measure_stack(int kind)
{
    const struct timespec while_at_work = {0, 200000000};
    uint8_t *stack = stacks[kind];
    char title[80];
    pthread_attr_t attributes;
    pthread_t thread;
    size_t untouched = 0;
    memset(stack, UNTOUCHED, STACK);
    if ((errno = pthread_attr_init(&attributes)) != 0 || (errno = pthread_attr_setstack(&attributes, stack, STACK)) != 0 ||
        (errno = pthread_create(&thread, &attributes, work_largest_half, (void *)&kinds[kind])) != 0 ||
        nanosleep(&while_at_work, NULL) != 0)
        fail("thread");
    while (untouched < STACK && ((const volatile uint8_t *)stack)[untouched] == UNTOUCHED)
        untouched++;
    snprintf(title, sizeof title, "%sstack of a half at p = %s, C = 1", kinds[kind].word, extras[kind].last);
    printf("%-52s %9zu bytes\n", title, stack_before - (uintptr_t)stack - untouched);
}

int main(void)
{
    setvbuf(stdout, NULL, _IOLBF, 0);
    print_compilers();
    double cycle = measure_cycle();
    compare_runs(BELLARD, cycle);
    compare_halves(BELLARD);
    compare_ledgers();
    compare_runs(CHECK, cycle);
    compare_halves(CHECK);
    time_quote(BELLARD);
    time_quote(CHECK);
    time_overlaps();
    measure_stack(BELLARD);
    measure_stack(CHECK);
    return 0;
}
