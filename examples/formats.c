/*
 * formats - prints the worked examples of docs/FORMATS.md, each with its title:
 * a run at p = 1 from opening to closing, the halves of a ticket, a kept ledger
 * with another block count, and the sums of another run; first of a Bellard run,
 * then the same of a check run, with the word `check` before its titles. A look
 * is there in the Bellard run alone. Then, of both in the same order, the
 * squarings of a ticket and its halves, and the quotes at the last position. Then
 * come a closing of each kind, laid over each other, and some digits laid over one
 * of them. Last is a Bellard run with a book: two tickets posted, one withdrawn and
 * posted again, one of another row posted, and the sheet of all that stands, which
 * is posted onto a fresh ledger and an empty book.
 *
 * Every run that is opened has a block count that is a power of two. The kept
 * ledgers have not: they are made from the layout and not by opening.
 */
#include <bbp.h>

#include <stdio.h>
#include <string.h>

#include "kinds.h"
#include "program.h"

enum { P = 1, LATER_P = 3, CHARGED_P = 21, LINE = 16 };

struct ticket {
    uint64_t c, row, block;
};

/*
 * A run at P whose blocks have one term or none, a ticket of it that is empty
 * and two with a term, which come on a sheet; a ticket that is halved, and a
 * ticket at CHARGED_P for its squarings; the block count of the kept ledger,
 * which has a term in each block.
 */
struct example {
    const struct kind *kind;
    struct ticket empty, posted[2], halved, charged;
    uint8_t kept_c;
    uint8_t ledger[BBP_LEDGER_SIZE]; /* a check ledger is the shorter */
};

static struct example examples[KINDS] = {
    {&kinds[BELLARD], {16, 0, 0}, {{16, 0, 1}, {16, 3, 2}}, {4, 3, 3}, {4, 2, 0}, 14, {0}},
    {&kinds[CHECK], {64, 0, 0}, {{64, 0, 3}, {64, 2, 3}}, {8, 1, 7}, {2, 0, 0}, 33, {0}},
};

static int is_zero(const uint8_t *line, size_t len)
{
    while (len > 0 && line[len - 1] == 0)
        len--;
    return len == 0;
}

/* Lines of 16 bytes with the place of the first; where there are several, those of zeros alone are left out. */
static void print_bytes(const struct example *example, const char *title, const uint8_t *bytes, size_t len)
{
    printf("%s%s\n", example->kind->word, title);
    for (size_t at = 0; at < len; at += LINE) {
        size_t count = len - at < LINE ? len - at : LINE;
        if (len > LINE && is_zero(bytes + at, count))
            continue;
        printf("%4zu ", at);
        for (size_t i = 0; i < count; i++)
            printf(" %02x", bytes[at + i]);
        printf("\n");
    }
}

static void print_ledger(const struct example *example, const char *title)
{
    print_bytes(example, title, example->ledger, example->kind->ledger_size);
}

/* A number of 16 bytes: what it is, and of what. */
static void print_number(const struct example *example, const char *what, const char *of, uint64_t p, struct ticket ticket,
                         const uint8_t *number)
{
    char title[80];
    snprintf(title, sizeof title, "%s of %sticket (%" PRIu64 ", %" PRIu64 ") of p = %" PRIu64 ", C = %" PRIu64, what, of,
             ticket.row, ticket.block, p, ticket.c);
    print_bytes(example, title, number, LINE);
}

static void print_sum_by(const struct example *example, work_call *call, const char *of, uint64_t p, struct ticket ticket)
{
    uint8_t sum[BBP_SUM_SIZE], squarings[BBP_SQUARINGS_SIZE];
    finished("work", call(p, ticket.c, ticket.row, ticket.block, sum, sizeof sum, squarings, sizeof squarings));
    print_number(example, "sum", of, p, ticket, sum);
}

static void print_sum(const struct example *example, uint64_t p, struct ticket ticket)
{
    print_sum_by(example, example->kind->work, "", p, ticket);
}

static void print_halves(const struct example *example)
{
    print_sum_by(example, example->kind->work_lower, "the lower half of ", P, example->halved);
    print_sum_by(example, example->kind->work_upper, "the upper half of ", P, example->halved);
    print_sum(example, P, example->halved);
}

static void print_look(const struct example *example, const uint8_t *sheet, size_t sheet_len)
{
    const struct kind *kind = example->kind;
    uint8_t total[BBP_TOTAL_SIZE];
    int64_t remaining = finished("look", kind->look(example->ledger, kind->ledger_size, sheet, sheet_len, total, sizeof total));
    print_bytes(example, "total by a look at that sheet", total, sizeof total);
    printf("its answer, the tickets that would remain\n%" PRId64 "\n", remaining);
}

static void post_sheet(struct example *example)
{
    const struct kind *kind = example->kind;
    const struct ticket *tickets = example->posted;
    uint8_t list[BBP_LIST_SIZE(2)], sheet[BBP_SHEET_SIZE(2)];
    char title[80], names[40];
    for (int i = 0; i < 2; i++)
        list[2 * i] = (uint8_t)tickets[i].block, list[2 * i + 1] = (uint8_t)tickets[i].row;
    snprintf(names, sizeof names, "of tickets (%d, %d) and (%d, %d)", list[1], list[0], list[3], list[2]);
    snprintf(title, sizeof title, "list %s", names);
    print_bytes(example, title, list, sizeof list);
    finished("sheet write", kind->sheet_write(P, tickets[0].c, list, sizeof list, sheet, sizeof sheet));
    snprintf(title, sizeof title, "sheet %s", names);
    print_bytes(example, title, sheet, sizeof sheet);
    if (kind->look != NULL)
        print_look(example, sheet, sizeof sheet);
    finished("sheet post", kind->sheet_post(example->ledger, kind->ledger_size, sheet, sizeof sheet));
    print_ledger(example, "ledger after posting that sheet");
}

/* Every ticket of a run: those that are marked already are refused. */
static void post_rest(struct example *example, uint64_t p, uint64_t c)
{
    const struct kind *kind = example->kind;
    uint8_t sum[BBP_SUM_SIZE], squarings[BBP_SQUARINGS_SIZE];
    for (uint64_t row = 0; row < kind->rows; row++)
        for (uint64_t block = 0; block < c; block++) {
            finished("work", kind->work(p, c, row, block, sum, sizeof sum, squarings, sizeof squarings));
            int64_t answer = kind->post(example->ledger, kind->ledger_size, p, c, row, block, sum, sizeof sum);
            if (answer != -BBP_REFUSED_MARKED)
                finished("post", answer);
        }
}

/* The row sums added up modulo 2^128, as closing adds them. */
static void print_total(const struct example *example)
{
    uint8_t total[BBP_SUM_SIZE] = {0};
    for (uint64_t row = 0; row < example->kind->rows; row++)
        add_sum(total, example->ledger + BBP_ROW_SUM_AT(row));
    print_bytes(example, "total of its row sums", total, sizeof total);
}

static void print_digits(const struct example *example)
{
    uint8_t digits[BBP_DIGITS_SIZE];
    printf("its closing: position, d, digits\n");
    print_closing(example->kind, P, example->ledger, digits);
}

static void print_run(struct example *example)
{
    const struct kind *kind = example->kind;
    uint64_t c = example->posted[0].c;
    finished("open", kind->open(P, c, example->ledger, kind->ledger_size));
    print_ledger(example, "ledger, fresh");
    post_sheet(example);
    post_rest(example, P, c);
    print_ledger(example, "ledger with every ticket posted");
    print_total(example);
    print_digits(example);
}

/* Its head is written by hand, so that its count need not be one that runs are opened with. */
static void print_kept(struct example *example)
{
    char title[80];
    memset(example->ledger, 0, sizeof example->ledger);
    example->ledger[0] = P;
    example->ledger[8] = example->kept_c;
    post_rest(example, P, example->kept_c);
    snprintf(title, sizeof title, "kept ledger of p = %d, C = %d, every ticket posted", P, example->kept_c);
    print_ledger(example, title);
    print_digits(example);
}

static void print_example(struct example *example)
{
    print_sum(example, P, example->empty);
    print_sum(example, P, example->posted[0]);
    print_sum(example, P, example->posted[1]);
    print_halves(example);
    print_run(example);
    print_kept(example);
    for (uint64_t row = 0; row < example->kind->rows; row++)
        print_sum(example, 1000, (struct ticket){1, row, 0});
}

static void print_squarings_by(const struct example *example, work_call *call, const char *of)
{
    const struct ticket *ticket = &example->charged;
    uint8_t sum[BBP_SUM_SIZE], squarings[BBP_SQUARINGS_SIZE];
    finished("work", call(CHARGED_P, ticket->c, ticket->row, ticket->block, sum, sizeof sum, squarings, sizeof squarings));
    print_number(example, "squarings", of, CHARGED_P, *ticket, squarings);
}

/* Those of the last position with C = 1: the first in bytes, then all rows in decimal. */
static void print_quotes(const struct example *example)
{
    const struct kind *kind = example->kind;
    uint64_t p = kind->last_position;
    uint8_t quotes[BBP_ROWS][BBP_SQUARINGS_SIZE];
    char room[DECIMAL_ROOM];
    for (uint64_t row = 0; row < kind->rows; row++)
        finished("quote", kind->quote(p, 1, row, 0, quotes[row], sizeof quotes[row]));
    print_number(example, "quote", "", p, (struct ticket){1, 0, 0}, quotes[0]);
    printf("%squotes of p = %" PRIu64 ", C = 1: row, squarings\n", kind->word, p);
    for (uint64_t row = 0; row < kind->rows; row++)
        printf("%" PRIu64 " %s\n", row, decimal(quotes[row], room));
}

static void print_charges(const struct example *example)
{
    print_squarings_by(example, example->kind->work_lower, "the lower half of ");
    print_squarings_by(example, example->kind->work_upper, "the upper half of ");
    print_squarings_by(example, example->kind->work, "");
    print_quotes(example);
}

/* Digits with the position of the first: those of a closing, or others. */
struct digits {
    uint64_t p;
    size_t len;
    uint8_t at[BBP_DIGITS_SIZE];
};

static struct digits close_at(struct example *example, uint64_t p)
{
    const struct kind *kind = example->kind;
    struct digits digits = {p, 0, {0}};
    finished("open", kind->open(p, 1, example->ledger, kind->ledger_size));
    post_rest(example, p, 1);
    digits.len = (size_t)print_closing(kind, p, example->ledger, digits.at);
    return digits;
}

static void print_part(const char *title, const struct digits *first, const struct digits *second)
{
    uint8_t part[BBP_PART_SIZE];
    finished("overlap part", bbp_overlap_part(first->at, first->len, first->p, second->at, second->len, second->p, part,
                                              sizeof part));
    const uint8_t *digits = (number_at(part, 8) ? second : first)->at + number_at(part + 8, 8);
    print_bytes(&examples[BELLARD], title, part, sizeof part);
    printf("its digits\n%.*s\n", (int)number_at(part + 16, 8), (const char *)digits);
}

static void print_overlaps(void)
{
    static const struct digits some = {4, 8, "F6A8885A"};
    printf("two closings: position, d, digits\n");
    const struct digits closing = close_at(&examples[BELLARD], P), check = close_at(&examples[CHECK], LATER_P);
    print_part("place of the part of these two", &closing, &check);
    print_part("place of the part of F6A8885A at position 4 and the first of them", &some, &closing);
}

static uint8_t book[BBP_BOOK_SIZE];

static void post_by_book(struct example *example, struct ticket ticket, const uint8_t *sum)
{
    finished("book post", bbp_book_post(example->ledger, BBP_LEDGER_SIZE, book, sizeof book, P, ticket.c, ticket.row,
                                        ticket.block, sum, BBP_SUM_SIZE));
}

static int64_t withdraw(struct example *example, struct ticket ticket)
{
    return bbp_book_withdraw(example->ledger, BBP_LEDGER_SIZE, book, sizeof book, P, ticket.c, ticket.row, ticket.block);
}

static void print_both(const struct example *example, const char *title)
{
    print_ledger(example, title);
    print_bytes(example, "its book", book, sizeof book);
}

/* The output has 100 bytes, each ee before the call. */
static void print_standing(struct example *example)
{
    const struct ticket earlier = {16, 0, 1};
    uint8_t sum[BBP_SUM_SIZE] = {5}, sheet[100];
    memset(sheet, 0xee, sizeof sheet);
    post_by_book(example, earlier, sum);
    print_ledger(example, "ledger after ticket (0, 1) is posted with 5");
    int64_t length = finished("standing sheet", bbp_standing_sheet(example->ledger, BBP_LEDGER_SIZE, book, sizeof book, sheet,
                                                                   sizeof sheet));
    print_bytes(example, "100 bytes with the sheet of all that stands", sheet, sizeof sheet);
    printf("its answer, the length of the sheet\n%" PRId64 "\n", length);
    printf("answer for 75 bytes\n%" PRId64 "\n",
           bbp_standing_sheet(example->ledger, BBP_LEDGER_SIZE, book, sizeof book, sheet, 75));
    finished("open", bbp_open(P, earlier.c, example->ledger, BBP_LEDGER_SIZE));
    memset(book, 0, sizeof book);
    finished("book sheet post", bbp_book_sheet_post(example->ledger, BBP_LEDGER_SIZE, book, sizeof book, sheet, (size_t)length));
    print_both(example, "fresh ledger after that sheet is posted by an empty book");
}

/* The second ticket comes with sixteen bytes ff, which is not its sum. */
static void print_books(struct example *example)
{
    const struct ticket first = {16, 3, 1}, second = {16, 3, 2};
    uint8_t sum[BBP_SUM_SIZE], squarings[BBP_SQUARINGS_SIZE], wrong[BBP_SUM_SIZE];
    memset(wrong, 255, sizeof wrong);
    finished("open", bbp_open(P, first.c, example->ledger, BBP_LEDGER_SIZE));
    finished("work", bbp_work(P, first.c, first.row, first.block, sum, sizeof sum, squarings, sizeof squarings));
    post_by_book(example, first, sum);
    post_by_book(example, second, wrong);
    print_both(example, "ledger with two tickets posted by a book");
    finished("book withdraw", withdraw(example, second));
    print_both(example, "ledger after ticket (3, 2) is withdrawn");
    printf("answer where it is withdrawn once more\n%" PRId64 "\n", withdraw(example, second));
    finished("work", bbp_work(P, second.c, second.row, second.block, sum, sizeof sum, squarings, sizeof squarings));
    post_by_book(example, second, sum);
    print_both(example, "ledger after ticket (3, 2) is posted again");
}

int main(void)
{
    for (int kind = 0; kind < KINDS; kind++)
        print_example(&examples[kind]);
    for (int kind = 0; kind < KINDS; kind++)
        print_charges(&examples[kind]);
    print_overlaps();
    print_books(&examples[BELLARD]);
    print_standing(&examples[BELLARD]);
    end_output();
    return 0;
}
