/*
 * farm [--check] POSITION BLOCKS DIRECTORY [PROCESSES] - works a long run, with
 * --check a check run, with one process for each ticket, PROCESSES of them at a
 * time (by default one for each core), and prints the closing line, that of a
 * check run with the word `check` before it.
 *
 * A finished ticket is kept as a sheet of its own in the directory, with a
 * checksum of the sheet in a file beside it. A run that was stopped goes on
 * where it was: tickets whose sheet is there, reads well and has its checksum
 * are not worked again. The processes end when the farm ends, however that
 * was stopped.
 *
 * Before it is closed, the ledger is kept in the directory too, as
 * POSITION-BLOCKS.ledger. Where the closing looks odd, `acceptance --rows` shows
 * in it which row differs; without that row's sheets the farm works it again.
 *
 * A sheet does not name its formula, so the files of a check run have names of
 * their own (1000-8-3-0.check.sheet): both kinds can share a directory.
 */
#define _XOPEN_SOURCE 700

#include <bbp.h>

#include <errno.h>
#include <inttypes.h>
#include <stdio.h>
#include <stdlib.h>
#include <string.h>
#include <sys/stat.h>
#include <unistd.h>

#include "keep.h"
#include "kinds.h"
#include "process.h"
#include "program.h"
#include "progress.h"

enum { PATH_ROOM = 4096, SHEET_LEN = BBP_SHEET_SIZE(1), CHECKSUM_LEN = 8 };

static struct {
    const struct kind *kind;
    uint64_t p, c;
    const char *directory;
    uint64_t processes, running, done;
    struct progress bar;
} farm;

static void farm_finished(const char *call, int64_t answer)
{
    finished_by(farm.kind->word, call, answer);
}

/* The names of a ticket's two files. */
struct kept {
    char sheet[PATH_ROOM], checksum[PATH_ROOM];
};

/* Ends the program where a name, of the length that snprintf gives, did not fit. */
static void need_room(int len)
{
    if (len < 0 || len >= PATH_ROOM) {
        fputs("the directory's name is too long\n", stderr);
        exit(1);
    }
}

static struct kept kept_files(uint64_t row, uint64_t block)
{
    struct kept kept;
    int len = snprintf(kept.sheet, PATH_ROOM, "%s/%" PRIu64 "-%" PRIu64 "-%" PRIu64 "-%" PRIu64 "%s.sheet", farm.directory,
                       farm.p, farm.c, row, block, farm.kind->suffix);
    need_room(len);
    need_room(snprintf(kept.checksum, PATH_ROOM, "%s.fnv", kept.sheet));
    return kept;
}

/* FNV-1a of 64 bits, little-endian. Each step is one-to-one, so a change within one byte always shows. */
static void checksum_of(const uint8_t *sheet, uint8_t *checksum)
{
    uint64_t hash = UINT64_C(14695981039346656037);
    for (int i = 0; i < SHEET_LEN; i++)
        hash = (hash ^ sheet[i]) * UINT64_C(1099511628211);
    for (int i = 0; i < CHECKSUM_LEN; i++)
        checksum[i] = (uint8_t)(hash >> 8 * i);
}

/* Whether the bytes are a sheet of this ticket alone. */
static int is_sheet_of(const uint8_t *sheet, uint64_t row, uint64_t block)
{
    uint8_t list[2], sum[BBP_SUM_SIZE];
    return farm.kind->sheet_read(sheet, SHEET_LEN, list, sizeof list, sum, sizeof sum) == 1 &&
           number_at(sheet, 8) == farm.p && number_at(sheet + 8, 2) == farm.c && number_at(list, 2) == BBP_PAIR(row, block);
}

/* Whether there is a file of exactly that length; its bytes. */
static int load(const char *path, uint8_t *bytes, size_t len)
{
    FILE *file = fopen(path, "rb");
    if (file == NULL)
        return 0;
    int whole = fread(bytes, 1, len, file) == len && fgetc(file) == EOF && !ferror(file);
    fclose(file);
    return whole;
}

/* The kept sheet of a ticket; gives 0 where there is none or it is damaged. */
static int load_sheet(uint64_t row, uint64_t block, uint8_t *sheet)
{
    struct kept kept = kept_files(row, block);
    uint8_t stored[CHECKSUM_LEN], worked[CHECKSUM_LEN];
    if (!load(kept.sheet, sheet, SHEET_LEN) || !load(kept.checksum, stored, CHECKSUM_LEN))
        return 0;
    checksum_of(sheet, worked);
    return memcmp(stored, worked, CHECKSUM_LEN) == 0 && is_sheet_of(sheet, row, block);
}

static void work_ticket(uint64_t row, uint64_t block)
{
    uint8_t list[2] = {(uint8_t)block, (uint8_t)row}, sheet[SHEET_LEN], checksum[CHECKSUM_LEN];
    struct kept kept = kept_files(row, block);
    farm_finished("sheet write", farm.kind->sheet_write(farm.p, farm.c, list, sizeof list, sheet, sizeof sheet));
    checksum_of(sheet, checksum);
    keep(kept.sheet, sheet, sizeof sheet);
    keep(kept.checksum, checksum, sizeof checksum);
}

static void wait_for_one(void)
{
    if (!ended_well(-1)) {
        fputs("a ticket's process failed\n", stderr);
        exit(1);
    }
    farm.running--;
    progress_show(&farm.bar, (double)++farm.done);
}

static void start_ticket(uint64_t row, uint64_t block)
{
    if (farm.running == farm.processes)
        wait_for_one();
    if (start_process() == 0) {
        work_ticket(row, block);
        _exit(0);
    }
    farm.running++;
}

static uint64_t kept_tickets(void)
{
    uint8_t sheet[SHEET_LEN];
    uint64_t kept = 0;
    for (uint64_t row = 0; row < farm.kind->rows; row++)
        for (uint64_t block = 0; block < farm.c; block++)
            kept += (uint64_t)load_sheet(row, block, sheet);
    return kept;
}

/* Blocks outermost: the rows' blocks at one place take about the same time, so the estimate is even. */
static void work_missing(void)
{
    uint8_t sheet[SHEET_LEN];
    farm.bar = progress_start((double)(farm.kind->rows * farm.c - kept_tickets()));
    for (uint64_t block = 0; block < farm.c; block++)
        for (uint64_t row = 0; row < farm.kind->rows; row++)
            if (!load_sheet(row, block, sheet))
                start_ticket(row, block);
    while (farm.running > 0)
        wait_for_one();
    progress_end(&farm.bar);
}

static void post_all(uint8_t *ledger)
{
    uint8_t sheet[SHEET_LEN];
    for (uint64_t row = 0; row < farm.kind->rows; row++)
        for (uint64_t block = 0; block < farm.c; block++) {
            if (!load_sheet(row, block, sheet)) {
                fputs("a sheet is missing\n", stderr);
                exit(1);
            }
            farm_finished("sheet post", farm.kind->sheet_post(ledger, farm.kind->ledger_size, sheet, SHEET_LEN));
        }
}

static void keep_ledger(const uint8_t *ledger)
{
    char path[PATH_ROOM];
    need_room(snprintf(path, PATH_ROOM, "%s/%" PRIu64 "-%" PRIu64 "%s.ledger", farm.directory, farm.p, farm.c,
                       farm.kind->suffix));
    keep(path, ledger, farm.kind->ledger_size);
}

static uint64_t cores(void)
{
    long count = sysconf(_SC_NPROCESSORS_ONLN);
    return count < 1 ? 1 : (uint64_t)count;
}

static void prepare(int argc, char **argv)
{
    int check = argc > 1 && strcmp(argv[1], "--check") == 0;
    argc -= check;
    argv += check;
    if (argc != 4 && argc != 5) {
        fputs("usage: farm [--check] POSITION BLOCKS DIRECTORY [PROCESSES]\n", stderr);
        exit(2);
    }
    farm.kind = &kinds[check ? CHECK : BELLARD];
    farm.p = number(argv[1]);
    farm.c = number(argv[2]);
    farm.directory = argv[3];
    farm.processes = argc == 5 ? number(argv[4]) : cores();
    if (farm.processes == 0) {
        fputs("no process to work with\n", stderr);
        exit(2);
    }
}

int main(int argc, char **argv)
{
    uint8_t ledger[BBP_LEDGER_SIZE], digits[BBP_DIGITS_SIZE];
    open_closed_descriptors();
    prepare(argc, argv);
    farm_finished("open", farm.kind->open(farm.p, farm.c, ledger, farm.kind->ledger_size));
    if (mkdir(farm.directory, 0777) != 0 && errno != EEXIST)
        fail(farm.directory);
    work_missing();
    post_all(ledger);
    keep_ledger(ledger);
    print_closing(farm.kind, farm.p, ledger, digits);
    return 0;
}
