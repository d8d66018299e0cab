/*
 * acceptance [--check] [--halves] [--keep FILE] POSITION [BLOCKS] - opens a
 * run, works all its tickets, closes it and prints the closing line: position,
 * number of digits, digits. With --keep the ledger is written to FILE before it
 * is closed, so that it is there where the closing is refused or looks odd. A
 * FILE that cannot be written is known before the work. An older FILE stays as
 * it is until the new one is complete and takes its place; a device or a pipe is
 * written itself.
 *
 * In each row every fourth ticket comes as a supplier's: it is written into a
 * sheet, the sheet is read back, looked at beside the ledger, and posted as a
 * whole. The others are worked and posted one by one. With --halves each of
 * these is worked by two processes, a half by each, and posted with the sum of
 * both: the ledger and the closing line are the same.
 *
 * The look is before the post: a sheet that would be refused ends the program
 * with nothing of it posted. What the look answered is said on standard error, a
 * line for each sheet:
 *
 *     look at the sheet of row 0: 48 of 56 tickets would remain
 *
 * Check runs have no look; their sheets are posted without one.
 *
 * Work is charged by squarings. Before the work the quote of the whole run is
 * said on standard error, and before the closing what was made of it:
 *
 *     quote: 28243 squarings in 56 tickets
 *     squarings: 22268 made, 22268 quoted in 42 tickets worked; 5975 quoted in 14 tickets of sheets
 *
 * Tickets that are worked one by one, whole or by halves, hand back what they
 * made. Sheets do not carry it, so their tickets are named apart, with what they
 * are quoted at; without sheets that part is left out. Where the tickets worked
 * made another number than they were quoted at, the program says so and ends
 * with status 1 before it closes; the ledger is then kept all the same. On a
 * terminal a bar shows the part of the quoted squarings that is done.
 *
 * With --check a check run with the same position and block count is worked and
 * closed after that run, and two more lines are printed. The first of them is
 * the check run's closing line with the word `check` before it; the second says
 * that the digits agree, as many as the shorter closing has:
 *
 *     1000 29 349F1C09B075372C980991B7B25D4
 *     check 1000 28 349F1C09B075372C980991B7B25D
 *     agree 28 digits
 *
 * or which is the first that differs, counted from 1: `differ at digit 7`. The
 * status is then 4. Both runs are opened before any work, so that a position
 * beyond those of check runs is refused at once. With --keep the check run's
 * ledger is written to FILE.check in the same way. Where a call is refused the
 * program ends: the lines printed before stay, and so does what was kept. A call
 * of the check run is named with the word `check` before it, and so are its quote
 * and its squarings. Both quotes come before any work.
 *
 * A sum and a sheet do not name their formula: a ledger of the other kind can
 * take them, and its digits would be wrong. So each run has a struct of its own
 * with its ledger, and takes all its calls from one entry of the table in
 * kinds.h. A sheet is written, read and posted in one function, which knows one
 * run; the only function that is given both runs compares their digits.
 *
 * acceptance --rows LEDGER [ROW ..] - shows which rows of a kept ledger to work
 * again. LEDGER is a file, `-` being standard input; tickets may be missing
 * from it, its block count may be any from 1 to 256, and by its size it is that
 * of a check run or not. For each row named, for all where none is, the marked
 * tickets are worked anew, and a line has the row, its sum in the ledger and the
 * sum of these tickets modulo 2^128, both in hexadecimal:
 *
 *     row 3 ledger aaaf9647.. worked aaaf9647..
 *
 * with ` differs` at its end where the two differ; the status is then 3, and 0
 * where no row shown differs. Rows are shown in ascending order. The quote of
 * these tickets and what they made are said on standard error, as of a run, and
 * where the two differ the program ends with status 1 before a row is shown.
 *
 * A refusal or a failure ends with status 1, arguments that are not these with 2.
 */
#define _XOPEN_SOURCE 700

#include <bbp.h>

#include <stdio.h>
#include <stdlib.h>
#include <string.h>

#include "halves.h"
#include "keep.h"
#include "kinds.h"
#include "program.h"
#include "progress.h"

enum { SUPPLIED = 4, ROWS_DIFFER = 3, DIGITS_DIFFER = 4 };

/* Tickets, and the squarings that they are quoted at. */
struct tally {
    uint64_t tickets;
    uint8_t squarings[BBP_SQUARINGS_SIZE];
};

struct run {
    const struct kind *kind;
    uint64_t p, c;
    int by_halves;
    struct tally all, worked, supplied; /* those to be done, and of these done so far: worked here, and of sheets */
    uint8_t made[BBP_SQUARINGS_SIZE];   /* the squarings that those worked here handed back */
    uint8_t ledger[BBP_LEDGER_SIZE], digits[BBP_DIGITS_SIZE]; /* a check ledger is the shorter */
    int64_t d;
    char *kept;
    int direct; /* a device or pipe of that name, to be written itself; otherwise -1 */
    struct progress bar;
};

static int64_t run_finished(const struct run *run, const char *call, int64_t answer)
{
    return finished_by(run->kind->word, call, answer);
}

static void open_run(struct run *run, const struct kind *kind, uint64_t p, uint64_t c)
{
    run->kind = kind;
    run->p = p;
    run->c = c;
    run_finished(run, "open", kind->open(p, c, run->ledger, kind->ledger_size));
}

/* Counts a ticket and what it is quoted at. */
static void add_ticket(const struct run *run, struct tally *tally, uint64_t row, uint64_t block)
{
    uint8_t squarings[BBP_SQUARINGS_SIZE];
    run_finished(run, "quote", run->kind->quote(run->p, run->c, row, block, squarings, sizeof squarings));
    add_sum(tally->squarings, squarings);
    tally->tickets++;
}

static double squarings_in(const struct tally *tally)
{
    return (double)number_at(tally->squarings + 8, 8) * 18446744073709551616.0 + (double)number_at(tally->squarings, 8);
}

static void say_quote(const struct run *run)
{
    char room[DECIMAL_ROOM];
    fprintf(stderr, "%squote: %s squarings in %" PRIu64 " tickets\n", run->kind->word, decimal(run->all.squarings, room),
            run->all.tickets);
}

static void start_bar(struct run *run)
{
    run->bar = progress_start(squarings_in(&run->all));
}

static void show_done(struct run *run)
{
    progress_show(&run->bar, squarings_in(&run->worked) + squarings_in(&run->supplied));
}

/* Says what was made and quoted; where the two differ, the program ends. */
static void say_squarings(const struct run *run)
{
    char made[DECIMAL_ROOM], quoted[DECIMAL_ROOM], supplied[DECIMAL_ROOM];
    fprintf(stderr, "%ssquarings: %s made, %s quoted in %" PRIu64 " tickets worked", run->kind->word, decimal(run->made, made),
            decimal(run->worked.squarings, quoted), run->worked.tickets);
    if (run->supplied.tickets > 0)
        fprintf(stderr, "; %s quoted in %" PRIu64 " tickets of sheets", decimal(run->supplied.squarings, supplied),
                run->supplied.tickets);
    fputc('\n', stderr);
    if (memcmp(run->made, run->worked.squarings, sizeof run->made) != 0) {
        fprintf(stderr, "%ssquarings: not those that were quoted\n", run->kind->word);
        exit(1);
    }
}

static void work_and_post(struct run *run, uint64_t row, uint64_t block)
{
    const struct kind *kind = run->kind;
    uint8_t sum[BBP_SUM_SIZE], squarings[BBP_SQUARINGS_SIZE];
    if (run->by_halves)
        work_halves(kind, run->p, run->c, row, block, sum, squarings);
    else
        run_finished(run, "work", kind->work(run->p, run->c, row, block, sum, sizeof sum, squarings, sizeof squarings));
    run_finished(run, "post", kind->post(run->ledger, kind->ledger_size, run->p, run->c, row, block, sum, sizeof sum));
    add_sum(run->made, squarings);
    add_ticket(run, &run->worked, row, block);
    show_done(run);
}

/* The list of a row's tickets that are supplied; gives its length. */
static size_t supplied_list(const struct run *run, uint64_t row, uint8_t *list)
{
    size_t e = 0;
    for (uint64_t block = SUPPLIED - 1; block < run->c; block += SUPPLIED, e++) {
        list[2 * e] = (uint8_t)block;
        list[2 * e + 1] = (uint8_t)row;
    }
    return BBP_LIST_SIZE(e);
}

/* Reads a sheet back: it must hold the tickets that were ordered. */
static void inspect(const struct run *run, const uint8_t *sheet, size_t sheet_len, const uint8_t *list, size_t list_len)
{
    uint8_t found[BBP_LIST_MAX], sums[BBP_SUMS_SIZE(BBP_LIST_MAX / 2)];
    int64_t answer = run->kind->sheet_read(sheet, sheet_len, found, sizeof found, sums, sizeof sums);
    size_t e = (size_t)run_finished(run, "sheet read", answer);
    if (e != list_len / 2 || memcmp(found, list, list_len) != 0) {
        fprintf(stderr, "%ssheet read: not the tickets that were ordered\n", run->kind->word);
        exit(1);
    }
}

/* Says how many tickets would remain; a sheet that would be refused ends the program. */
static void look_at(struct run *run, uint64_t row, const uint8_t *sheet, size_t sheet_len)
{
    const struct kind *kind = run->kind;
    uint8_t total[BBP_TOTAL_SIZE];
    int64_t answer = kind->look(run->ledger, kind->ledger_size, sheet, sheet_len, total, sizeof total);
    int64_t remaining = run_finished(run, "look", answer);
    progress_end_line(&run->bar);
    fprintf(stderr, "look at the sheet of row %" PRIu64 ": %" PRId64 " of %" PRIu64 " tickets would remain\n", row, remaining,
            kind->rows * run->c);
}

static void order_and_post(struct run *run, uint64_t row)
{
    const struct kind *kind = run->kind;
    uint8_t list[BBP_LIST_MAX], sheet[BBP_SHEET_MAX];
    size_t list_len = supplied_list(run, row, list);
    int64_t answer = kind->sheet_write(run->p, run->c, list, list_len, sheet, sizeof sheet);
    size_t sheet_len = (size_t)run_finished(run, "sheet write", answer);
    inspect(run, sheet, sheet_len, list, list_len);
    if (kind->look != NULL)
        look_at(run, row, sheet, sheet_len);
    run_finished(run, "sheet post", kind->sheet_post(run->ledger, kind->ledger_size, sheet, sheet_len));
    for (size_t i = 0; i < list_len / 2; i++)
        add_ticket(run, &run->supplied, row, list[2 * i]);
    show_done(run);
}

static void quote_run(struct run *run)
{
    for (uint64_t row = 0; row < run->kind->rows; row++)
        for (uint64_t block = 0; block < run->c; block++)
            add_ticket(run, &run->all, row, block);
    say_quote(run);
}

static void work_run(struct run *run)
{
    start_bar(run);
    for (uint64_t row = 0; row < run->kind->rows; row++) {
        for (uint64_t block = 0; block < run->c; block++)
            if (block % SUPPLIED != SUPPLIED - 1)
                work_and_post(run, row, block);
        order_and_post(run, row);
    }
    progress_end(&run->bar);
}

static void name_kept(struct run *run, const char *name)
{
    size_t room = strlen(name) + strlen(run->kind->suffix) + 1;
    run->kept = malloc(room);
    if (run->kept == NULL)
        fail(name);
    snprintf(run->kept, room, "%s%s", name, run->kind->suffix);
    run->direct = open_kept(run->kept);
}

static void write_kept(struct run *run)
{
    size_t size = run->kind->ledger_size;
    if (run->direct < 0)
        keep(run->kept, run->ledger, size);
    else if (!write_all(run->direct, run->ledger, size) || close(run->direct) != 0)
        fail(run->kept);
    free(run->kept);
}

/* Works a run, keeps its ledger if it has a file, says what it took, closes it and prints its closing line. */
static void finish_run(struct run *run)
{
    work_run(run);
    if (run->kept != NULL)
        write_kept(run);
    say_squarings(run);
    run->d = print_closing(run->kind, run->p, run->ledger, run->digits);
}

/* Gives the program's status. */
static int compare_digits(const struct run *run, const struct run *check)
{
    int64_t both = run->d < check->d ? run->d : check->d, same = 0;
    while (same < both && run->digits[same] == check->digits[same])
        same++;
    if (same < both)
        printf("differ at digit %" PRId64 "\n", same + 1);
    else
        printf("agree %" PRId64 " digits\n", both);
    end_output();
    return same < both ? DIGITS_DIFFER : 0;
}

/* The rows named, each once; all where none is. */
static void take_rows(uint64_t rows, int count, char **names, int *shown)
{
    for (uint64_t row = 0; row < rows; row++)
        shown[row] = count == 0;
    for (int i = 0; i < count; i++) {
        uint64_t row = number(names[i]);
        if (row >= rows)
            fprintf(stderr, "row above %" PRIu64 ": %s\n", rows - 1, names[i]);
        else if (shown[row])
            fprintf(stderr, "row named twice: %s\n", names[i]);
        if (row >= rows || shown[row])
            exit(2);
        shown[row] = 1;
    }
}

/* The ledger in a file, in order; gives its kind. Tickets may be missing, and its total may settle no digit. */
static const struct kind *read_ledger(const char *name, uint8_t *ledger, size_t room)
{
    uint8_t digits[BBP_DIGITS_SIZE];
    FILE *file = strcmp(name, "-") == 0 ? stdin : fopen(name, "rb");
    if (file == NULL)
        fail(name);
    size_t len = fread(ledger, 1, room, file);
    if (ferror(file))
        fail(name);
    fclose(file);
    const struct kind *kind = &kinds[len == BBP_CHECK_LEDGER_SIZE ? CHECK : BELLARD];
    int64_t answer = kind->close(ledger, len, digits, sizeof digits);
    if (answer != -BBP_REFUSED_UNMARKED && answer != -BBP_REFUSED_UNSETTLED)
        finished(name, answer);
    return kind;
}

/* Starts from the head of a kept ledger. It is not opened: its block count need not be one that runs are opened with. */
static void start_anew(struct run *run, const struct kind *kind, const uint8_t *ledger)
{
    run->kind = kind;
    run->p = number_at(ledger, 8);
    run->c = number_at(ledger + 8, 2);
    memset(run->ledger, 0, sizeof run->ledger);
    memcpy(run->ledger, ledger, BBP_ROW_SUM_AT(0));
}

static int is_marked(const struct kind *kind, const uint8_t *ledger, uint64_t row, uint64_t block)
{
    return ledger[kind->marks_at + 32 * row + block / 8] >> block % 8 & 1;
}

static void quote_marked(struct run *run, const uint8_t *ledger, const int *shown)
{
    for (uint64_t row = 0; row < run->kind->rows; row++)
        for (uint64_t block = 0; block < run->c; block++)
            if (shown[row] && is_marked(run->kind, ledger, row, block))
                add_ticket(run, &run->all, row, block);
    say_quote(run);
}

/* The marked tickets of the rows shown, into the run's ledger. */
static void work_marked(struct run *run, const uint8_t *ledger, const int *shown)
{
    quote_marked(run, ledger, shown);
    start_bar(run);
    for (uint64_t row = 0; row < run->kind->rows; row++)
        for (uint64_t block = 0; block < run->c; block++)
            if (shown[row] && is_marked(run->kind, ledger, row, block))
                work_and_post(run, row, block);
    progress_end(&run->bar);
    say_squarings(run);
}

static void print_sum(const char *what, const uint8_t *sum)
{
    printf(" %s ", what);
    for (int i = BBP_SUM_SIZE - 1; i >= 0; i--)
        printf("%02x", sum[i]);
}

/* Prints a row's line; gives whether its sum in the ledger is not the one worked. */
static int print_row(const uint8_t *ledger, const uint8_t *anew, uint64_t row)
{
    const uint8_t *sum = ledger + BBP_ROW_SUM_AT(row), *worked = anew + BBP_ROW_SUM_AT(row);
    int differs = memcmp(sum, worked, BBP_SUM_SIZE) != 0;
    printf("row %" PRIu64, row);
    print_sum("ledger", sum);
    print_sum("worked", worked);
    puts(differs ? " differs" : "");
    return differs;
}

/* Gives the program's status. A byte is read past a ledger's, so that a longer file is not taken for one. */
static int show_rows(const char *name, int count, char **names)
{
    static struct run run;
    uint8_t ledger[BBP_LEDGER_SIZE + 1];
    int shown[BBP_ROWS], status = 0;
    const struct kind *kind = read_ledger(name, ledger, sizeof ledger);
    take_rows(kind->rows, count, names, shown);
    start_anew(&run, kind, ledger);
    work_marked(&run, ledger, shown);
    for (uint64_t row = 0; row < kind->rows; row++)
        if (shown[row] && print_row(ledger, run.ledger, row))
            status = ROWS_DIFFER;
    end_output();
    return status;
}

struct options {
    int check, by_halves;
    const char *kept;
};

static int is_option(const char *word, const char *option)
{
    return word != NULL && strcmp(word, option) == 0;
}

/* Takes the options from the front, in any order and each once; gives where the numbers start. */
static char **take_options(char **at, struct options *taken)
{
    for (;; at++)
        if (is_option(*at, "--check") && !taken->check)
            taken->check = 1;
        else if (is_option(*at, "--halves") && !taken->by_halves)
            taken->by_halves = 1;
        else if (is_option(*at, "--keep") && at[1] != NULL && taken->kept == NULL)
            taken->kept = *++at;
        else
            return at;
}

/* All that can be refused or fail before the work comes first, for both runs. Gives the program's status. */
static int accept_runs(const struct options *options, uint64_t p, uint64_t c)
{
    static struct run runs[KINDS];
    int count = options->check ? KINDS : 1;
    for (int i = 0; i < count; i++)
        open_run(&runs[i], &kinds[i], p, c);
    for (int i = 0; i < count; i++) {
        runs[i].by_halves = options->by_halves;
        if (options->kept != NULL)
            name_kept(&runs[i], options->kept);
    }
    for (int i = 0; i < count; i++)
        quote_run(&runs[i]);
    for (int i = 0; i < count; i++)
        finish_run(&runs[i]);
    return options->check ? compare_digits(&runs[BELLARD], &runs[CHECK]) : 0;
}

int main(int argc, char **argv)
{
    struct options options = {0, 0, NULL};
    open_closed_descriptors();
    if (argc > 2 && strcmp(argv[1], "--rows") == 0)
        return show_rows(argv[2], argc - 3, argv + 3);
    char **numbers = take_options(argv + 1, &options);
    int count = (int)(argv + argc - numbers);
    if (count < 1 || count > 2 || numbers[0][0] == '-') {
        fputs("usage: acceptance [--check] [--halves] [--keep FILE] POSITION [BLOCKS]\n"
              "       acceptance --rows LEDGER [ROW ..]\n",
              stderr);
        return 2;
    }
    return accept_runs(&options, number(numbers[0]), count == 2 ? number(numbers[1]) : BBP_MAX_BLOCKS);
}
