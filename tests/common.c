#include "common.h"

#include <inttypes.h>
#include <signal.h>
#include <stdarg.h>
#include <stdio.h>
#include <stdlib.h>
#include <string.h>
#include <sys/mman.h>
#include <sys/time.h>
#include <sys/wait.h>
#include <unistd.h>

/* Checks. */

static const char *test_name;
static uint64_t seed, count, checks, state;

/* A read or write outside the lent slices, or a write to an input. */
static void on_fault(int number, siginfo_t *info, void *context)
{
    (void)number;
    (void)context;
    dprintf(STDERR_FILENO, TEST_PREFIX "%s, seed %" PRIu64 ", after check %" PRIu64 ": no access to %p is allowed\n",
            test_name, seed, checks, info->si_addr);
    _exit(1);
}

static void catch_faults(void)
{
    struct sigaction action = {.sa_sigaction = on_fault, .sa_flags = SA_SIGINFO};
    sigaction(SIGSEGV, &action, NULL);
    sigaction(SIGBUS, &action, NULL);
}

void start(const char *name, int argc, char **argv)
{
    test_name = name;
    seed = argc > 1 ? strtoull(argv[1], NULL, 10) : 1;
    count = argc > 2 ? strtoull(argv[2], NULL, 10) : 2000;
    state = seed;
    catch_faults();
}

int finish(void)
{
    printf(TEST_PREFIX "%s: %" PRIu64 " checks\n", test_name, checks);
    return 0;
}

uint64_t case_count(void)
{
    return count;
}

void check(int holds, const char *file, int line, const char *format, ...)
{
    va_list arguments;
    checks++;
    if (holds)
        return;
    fprintf(stderr, "%s:%d: " TEST_PREFIX "%s, seed %" PRIu64 ", check %" PRIu64 ": ", file, line, test_name, seed, checks);
    va_start(arguments, format);
    vfprintf(stderr, format, arguments);
    va_end(arguments);
    fputc('\n', stderr);
    exit(1);
}

/* Random numbers (splitmix64). */

uint64_t any(void)
{
    uint64_t z = state += UINT64_C(0x9E3779B97F4A7C15);
    z = (z ^ z >> 30) * UINT64_C(0xBF58476D1CE4E5B9);
    z = (z ^ z >> 27) * UINT64_C(0x94D049BB133111EB);
    return z ^ z >> 31;
}

uint64_t below(uint64_t limit)
{
    return any() % limit;
}

void any_bytes(uint8_t *at, size_t len)
{
    uint64_t word;
    for (; len >= sizeof word; at += sizeof word, len -= sizeof word) {
        word = any();
        memcpy(at, &word, sizeof word);
    }
    put(at, len, any());
}

uint64_t bad_position(void)
{
    switch (below(4)) {
    case 0: return 0;
    case 1: return LAST_POSITION + 1;
    case 2: return UINT64_MAX - below(3);
    default: return LAST_POSITION + 1 + (any() >> (4 + below(60)));
    }
}

uint64_t bad_blocks(void)
{
    switch (below(4)) {
    case 0: return 0;
    case 1: return 257;
    case 2: return wide_number(1 + below(256));
    default: return 257 + (any() >> (1 + below(63)));
    }
}

uint64_t wide_number(uint64_t low)
{
    static const uint8_t widths[] = {9, 16, 32, 63};
    return low + ((uint64_t)1 << widths[below(4)]);
}

uint64_t any_position_upto(uint64_t limit)
{
    uint64_t p = any() >> below(64);
    return below(8) == 0 ? 1 + below(8 < limit ? 8 : limit) : 1 + p % limit;
}

uint64_t any_position(void)
{
    return below(8) == 0 ? LAST_POSITION - below(3) : any_position_upto(LAST_POSITION);
}

uint64_t any_blocks(void)
{
    static const uint16_t edges[] = {1, 2, 7, 8, 9, 16, 255, 256};
    return below(2) == 0 ? edges[below(8)] : 1 + below(256);
}

size_t wrong_size(size_t size)
{
    static const int steps[] = {-1, 1, -8, 8, 64};
    size_t wrong = below(4) == 0 ? below(size + 64) : size + (size_t)(int64_t)steps[below(5)];
    return wrong == size || wrong > size + 64 ? size + 1 : wrong;
}

size_t wrong_ledger_size(void)
{
    switch (below(8)) {
    case 0: return 256;
    case 1: return OTHER_LEDGER_SIZE;
    default: return wrong_size(LEDGER_SIZE);
    }
}

void every_ledger_size(void (*prepare)(void), int64_t (*compare)(void), size_t *ledger_len, int64_t answer)
{
    for (size_t len = 0; len <= LEDGER_ROOM; len++) {
        prepare();
        *ledger_len = len;
        CHECK(compare() == (len == LEDGER_SIZE ? answer : -1), "a ledger of %zu bytes", len);
    }
}

/* Lent slices. */

enum { PAGE = 4096, ROOM = 320 * PAGE, GUARD = 64 };

static struct slot {
    uint8_t *room; /* ROOM bytes between two unmapped pages */
    uint8_t *at;   /* the lent bytes */
    size_t len;
    uint8_t *kept; /* what was lent */
} slots[SLOTS];

static uint8_t *map(size_t len, int protection)
{
    void *at = mmap(NULL, len, protection, MAP_PRIVATE | MAP_ANONYMOUS | MAP_NORESERVE, -1, 0);
    if (at == MAP_FAILED) {
        perror("mmap");
        exit(2);
    }
    return at;
}

static void protect(uint8_t *at, size_t len, int protection)
{
    if (mprotect(at, len, protection) != 0) {
        perror("mprotect");
        exit(2);
    }
}

static uint8_t guard_byte(size_t i)
{
    return (uint8_t)(0xA5 + 7 * i);
}

static void place_empty(struct slot *slot)
{
    uint8_t *places[] = {NULL, slot->room - PAGE, slot->room + ROOM};
    slot->at = places[below(3)];
}

/* Guard bytes before the slice, and after it, as far as there is room. */
static size_t guards_before(const struct slot *slot)
{
    size_t room = (size_t)(slot->at - slot->room);
    return room < GUARD ? room : GUARD;
}

static size_t guards_after(const struct slot *slot)
{
    size_t room = (size_t)(slot->room + ROOM - (slot->at + slot->len));
    return room < GUARD ? room : GUARD;
}

static void place(struct slot *slot, const uint8_t *bytes, size_t len)
{
    size_t gap = below(2) == 0 ? 0 : 1 + below(15);
    slot->at = below(2) == 0 ? slot->room + ROOM - len - gap : slot->room + gap;
    memcpy(slot->at, bytes, len);
    for (size_t i = 0; i < guards_before(slot); i++)
        slot->at[-1 - (ptrdiff_t)i] = guard_byte(i);
    for (size_t i = 0; i < guards_after(slot); i++)
        slot->at[len + i] = guard_byte(i);
}

uint8_t *lend(int number, const uint8_t *bytes, size_t len)
{
    struct slot *slot = &slots[number];
    if (slot->room == NULL)
        slot->room = map(ROOM + 2 * PAGE, PROT_NONE) + PAGE;
    protect(slot->room, ROOM, PROT_READ | PROT_WRITE);
    slot->len = len;
    free(slot->kept);
    slot->kept = copy_of(bytes, len);
    if (len == 0)
        place_empty(slot);
    else
        place(slot, bytes, len);
    return slot->at;
}

const uint8_t *lend_input(int number, const uint8_t *bytes, size_t len)
{
    const uint8_t *at = lend(number, bytes, len);
    protect(slots[number].room, ROOM, PROT_READ);
    return at;
}

size_t first_difference(const uint8_t *x, const uint8_t *y, size_t len)
{
    size_t i = memcmp(x, y, len) == 0 ? len : 0;
    while (i < len && x[i] == y[i])
        i++;
    return i;
}

static int guards_hold(const struct slot *slot)
{
    for (size_t i = 0; i < guards_before(slot); i++)
        if (slot->at[-1 - (ptrdiff_t)i] != guard_byte(i))
            return 0;
    for (size_t i = 0; i < guards_after(slot); i++)
        if (slot->at[slot->len + i] != guard_byte(i))
            return 0;
    return 1;
}

void expect(int number, const uint8_t *bytes, const char *what)
{
    struct slot *slot = &slots[number];
    size_t i = slot->len == 0 ? 0 : first_difference(slot->at, bytes, slot->len);
    CHECK(i == slot->len, "%s: byte %zu of %zu is %02x and not %02x", what, i, slot->len,
          i < slot->len ? slot->at[i] : 0, i < slot->len ? bytes[i] : 0);
    CHECK(slot->len == 0 || guards_hold(slot), "%s: a byte outside the slice of %zu was changed", what, slot->len);
}

void expect_kept(int number, const char *what)
{
    expect(number, slots[number].kept, what);
}

static uint8_t *huge;

size_t huge_length(size_t len)
{
    return ((size_t)1 << 32) + len;
}

uint8_t *lend_huge(void)
{
    if (huge == NULL) {
        huge = map(huge_length(ROOM), PROT_READ);
        protect(huge, PAGE, PROT_READ | PROT_WRITE);
    }
    return huge;
}

void expect_huge(const uint8_t *bytes, size_t len)
{
    uint8_t wanted[PAGE] = {0};
    if (len > 0)
        memcpy(wanted, bytes, len);
    size_t i = first_difference(huge, wanted, PAGE);
    CHECK(i == PAGE, "byte %zu of a slice of over 2^32 bytes is %02x and not %02x", i, huge[i % PAGE],
          wanted[i % PAGE]);
    memset(huge, 0, PAGE);
}

void expect_huge_kept(void)
{
    expect_huge(NULL, 0);
}

/* Calls in child processes: those that take longer than anyone waits, and those that may not survive. */

/* The child's status. It is stopped after that much processor time; with none it is not. */
static int status_of_child(void (*call)(void), suseconds_t microseconds)
{
    int status;
    const struct itimerval limit = {{0, 0}, {0, microseconds}};
    pid_t child = fork();
    if (child == 0) {
        if (signal(SIGPROF, SIG_DFL) == SIG_ERR || setitimer(ITIMER_PROF, &limit, NULL) != 0)
            _exit(2);
        call();
        _exit(0);
    }
    if (child < 0 || waitpid(child, &status, 0) != child || (WIFEXITED(status) && WEXITSTATUS(status) == 2)) {
        fprintf(stderr, TEST_PREFIX "%s: no child process\n", test_name);
        exit(2);
    }
    return status;
}

int still_working(void (*call)(void))
{
    int status = status_of_child(call, 100000);
    return WIFSIGNALED(status) && WTERMSIG(status) == SIGPROF;
}

int comes_back(void (*call)(void))
{
    int status = status_of_child(call, 0);
    return WIFEXITED(status) && WEXITSTATUS(status) == 0;
}

uint8_t *copy_of(const uint8_t *bytes, size_t len)
{
    uint8_t *copy = malloc(len > 0 ? len : 1);
    if (copy == NULL) {
        perror("malloc");
        exit(2);
    }
    if (len > 0)
        memcpy(copy, bytes, len);
    return copy;
}

/* Pairs of refusals; a number alone is a pair with itself. */

/* One more than the largest number that a bit of ref_refusals can stand for. */
enum { NUMBERS = 8 * sizeof(ref_refusals) };

static uint64_t times_met[NUMBERS][NUMBERS];

void met(ref_refusals refusals)
{
    for (int i = 1; i < NUMBERS; i++)
        for (int j = i; j < NUMBERS; j++)
            if ((refusals >> i & 1) && (refusals >> j & 1))
                times_met[i][j]++;
    if (refusals == 0)
        times_met[0][0]++;
}

/* The first number or pair of the text. Gives the text behind it. */
static const char *require_first(const char *pairs)
{
    char *end;
    long i = strtol(pairs, &end, 10), j = *end == '+' ? strtol(end + 1, &end, 10) : i;
    CHECK(i >= 1 && i <= j && j < NUMBERS && (*end == ' ' || *end == '\0'), "neither a number nor a pair: %s", pairs);
    CHECK(times_met[i][j] > 0, "no case was met to which %ld and %ld apply", i, j);
    return end;
}

void require_met(const char *pairs)
{
    CHECK(times_met[0][0] > 0, "no case without a refusal was met");
    while (*pairs != '\0')
        pairs = require_first(pairs);
}

/* Numbers, ledgers, lists and sheets. */

void put(uint8_t *at, size_t bytes, uint64_t value)
{
    for (size_t i = 0; i < bytes; i++)
        at[i] = (uint8_t)(value >> 8 * i);
}

void put_sum(uint8_t *at, ref_u128 sum)
{
    put(at, 8, (uint64_t)sum);
    put(at + 8, 8, (uint64_t)(sum >> 64));
}

/* A lower word of zeros or ones is at the edge of a carry into the upper one. */
ref_u128 any_sum(void)
{
    uint64_t upper = any(), lower = any();
    if (below(4) == 0)
        lower = below(2) == 0 ? UINT64_MAX : 0;
    return SUM(upper, lower);
}

void set_row_sum(uint8_t *ledger, uint64_t row, ref_u128 sum)
{
    put_sum(ledger + SUM_AT(row), sum);
}

void set_mark(uint8_t *ledger, uint64_t row, uint64_t block, int marked)
{
    uint8_t bit = (uint8_t)(1 << block % 8), *at = ledger + MARKS_AT(row) + block / 8;
    *at = (uint8_t)(marked ? *at | bit : *at & ~bit);
}

uint64_t any_chance(void)
{
    static const uint16_t chances[] = {0, 1, 16, 128, 250, 256};
    return chances[below(6)];
}

static void put_run(uint8_t *bytes, uint64_t p, uint64_t c)
{
    put(bytes, 8, p);
    put(bytes + 8, 2, c);
}

void any_ledger(uint8_t *ledger, uint64_t p, uint64_t c, uint64_t chance)
{
    memset(ledger, 0, LEDGER_SIZE);
    put_run(ledger, p, c);
    for (uint64_t row = 0; row < ROWS; row++) {
        set_row_sum(ledger, row, any_sum());
        for (uint64_t block = 0; block < c; block++)
            set_mark(ledger, row, block, below(256) < chance);
    }
}

void patch(uint8_t *bytes, const struct patch patches[PATCHES])
{
    for (int i = 0; i < PATCHES; i++)
        put(bytes + patches[i].at, patches[i].width, patches[i].value);
}

void make_ledger(uint8_t *ledger, const struct ledger_form *form)
{
    any_ledger(ledger, form->p, form->c, form->marked ? 256 : 0);
    for (uint64_t row = 0; row < ROWS; row++)
        set_row_sum(ledger, row, 0);
    patch(ledger, form->patches);
}

static void mark_beyond(uint8_t *ledger)
{
    uint64_t c = ref_load(ledger + 8, 2);
    if (c < 256)
        set_mark(ledger, below(ROWS), below(2) == 0 ? c : c + below(256 - c), 1);
    else
        put(ledger + 8, 2, 257 + below(65535 - 257));
}

void spoil_ledger(uint8_t *ledger)
{
    switch (below(7)) {
    case 0: put(ledger, 8, 0); break;
    case 1: put(ledger, 8, LAST_POSITION + 1 + (any() >> (4 + below(60)))); break;
    case 2: put(ledger + 8, 2, 0); break;
    case 3: put(ledger + 8, 2, 257 + below(65536 - 257)); break;
    case 4: ledger[10 + below(6)] = (uint8_t)(1 << below(8)); break;
    default: mark_beyond(ledger); break;
    }
}

size_t any_list(uint8_t *list, uint64_t c, uint64_t chance)
{
    size_t e = 0;
    for (uint64_t row = 0; row < ROWS; row++)
        for (uint64_t block = 0; block < c; block++)
            if (below(256) < chance)
                put(list + 2 * e++, 2, PAIR(row, block));
    return e;
}

void first_pairs(uint8_t *list, uint64_t blocks, size_t e)
{
    for (size_t i = 0; i < e; i++)
        put(list + 2 * i, 2, PAIR(i / blocks, i % blocks));
}

size_t any_sheet(uint8_t *sheet, uint64_t p, uint64_t c, const uint8_t *list, size_t e)
{
    memset(sheet, 0, 16 + 4 * e);
    put_run(sheet, p, c);
    put(sheet + 10, 2, e);
    for (size_t i = 0; i < e; i++) {
        sheet[16 + 4 * i] = list[2 * i + 1];
        sheet[18 + 4 * i] = list[2 * i];
    }
    any_bytes(sheet + 16 + 4 * e, 16 * e);
    return SHEET_SIZE(e);
}

uint64_t count_charged(uint64_t p, int added)
{
    uint64_t terms = ref_term_count(FORMULA, p), charged = 0;
    for (uint64_t row = 0; row < ROWS; row++)
        for (uint64_t k = 0; k < terms; k++)
            if (ref_term_exponent(FORMULA, p, row, k) >= 0 && ref_term_added(FORMULA, row, k) == added)
                charged++;
    return charged;
}

/* Cases. */

/* The answer where these two apply; 0 where neither does. */
static int64_t smaller(int first, int second)
{
    if (first == NOTHING || second == NOTHING)
        return -(first == NOTHING ? second : first);
    return -(first < second ? first : second);
}

static void run_pair(const struct suite *suite, int first, int second)
{
    suite->prepare();
    int x = suite->damage(first), y = suite->damage(second);
    int64_t answer = suite->compare();
    if (x == UNSURE || y == UNSURE)
        return;
    int64_t wanted = smaller(x, y);
    CHECK(wanted == 0 ? answer >= 0 : answer == wanted, "damages %d and %d: the answer is %" PRId64 " and not %" PRId64,
          first, second, answer, wanted);
}

void run_suite(const struct suite *suite)
{
    for (int i = 0; i < suite->kinds; i++)
        for (int j = 0; j < suite->kinds; j++)
            for (int times = 0; times < 4; times++)
                run_pair(suite, i, j);
    for (uint64_t i = 0; i < count; i++) {
        suite->prepare();
        for (uint64_t damages = below(4); damages > 0; damages--)
            suite->damage((int)below((uint64_t)suite->kinds));
        suite->compare();
    }
}
