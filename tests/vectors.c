#include "vectors.h"

#include <inttypes.h>
#include <stdio.h>
#include <stdlib.h>
#include <string.h>

static FILE *open_vectors(void)
{
    FILE *file = fopen("tests/vectors.txt", "r");
    if (file == NULL) {
        perror("tests/vectors.txt");
        exit(2);
    }
    return file;
}

static ref_u128 hexadecimal(const char *text)
{
    char upper[17] = {0};
    memcpy(upper, text, 16);
    return (ref_u128)strtoull(upper, NULL, 16) << 64 | strtoull(text + 16, NULL, 16);
}

static ref_u128 decimal(const char *text)
{
    ref_u128 value = 0;
    for (; *text != '\0'; text++)
        value = 10 * value + (unsigned)(*text - '0');
    return value;
}

static void bytes_of(const char *text, uint8_t *bytes)
{
    for (int i = 0; i < 16; i++) {
        char two[3] = {text[2 * i], text[2 * i + 1], '\0'};
        bytes[i] = (uint8_t)strtoul(two, NULL, 16);
    }
}

struct squarings_vector {
    uint64_t p, c, row, block;
    ref_u128 squarings;
};

/* The next line of the kind, or 0 at the end. */
static int next_line(FILE *file, const char *kind, char line[256])
{
    char start[32];
    int length = snprintf(start, sizeof start, LINE_PREFIX "%s ", kind);
    while (fgets(line, 256, file) != NULL)
        if (strncmp(line, start, (size_t)length) == 0)
            return 1;
    fclose(file);
    return 0;
}

static void need(int found, int fields, const char *line)
{
    if (found != fields) {
        fprintf(stderr, "vectors.txt: bad line %s", line);
        exit(2);
    }
}

int each_term(void (*use)(const struct term_vector *))
{
    FILE *file = open_vectors();
    char line[256], sign, size[33];
    int lines = 0;
    struct term_vector v;
    for (; next_line(file, "term", line); lines++) {
        need(sscanf(line, "%*s %" SCNu64 " %" SCNu64 " %" SCNu64 " %" SCNu64 " %" SCNd64 " %c %32s", &v.p, &v.row, &v.k,
                    &v.divisor, &v.exponent, &sign, size), 7, line);
        v.added = sign == '+';
        v.size = hexadecimal(size);
        use(&v);
    }
    return lines;
}

int each_count(void (*use)(uint64_t p, uint64_t terms))
{
    FILE *file = open_vectors();
    char line[256];
    int lines = 0;
    uint64_t p, terms;
    for (; next_line(file, "count", line); lines++) {
        need(sscanf(line, "%*s %" SCNu64 " %" SCNu64, &p, &terms), 2, line);
        use(p, terms);
    }
    return lines;
}

int each_block(const char *kind, void (*use)(const struct block_vector *))
{
    FILE *file = open_vectors();
    char line[256];
    int lines = 0;
    struct block_vector v;
    for (; next_line(file, kind, line); lines++) {
        need(sscanf(line, "%*s %" SCNu64 " %" SCNu64 " %" SCNu64 " %" SCNu64 " %" SCNu64, &v.p, &v.c, &v.block,
                    &v.first, &v.end), 5, line);
        use(&v);
    }
    return lines;
}

/* The next line of squarings of the kind, or 0 at the end. */
static int next_squarings(FILE *file, const char *kind, struct squarings_vector *v)
{
    char line[256], squarings[40];
    if (!next_line(file, kind, line))
        return 0;
    need(sscanf(line, "%*s %" SCNu64 " %" SCNu64 " %" SCNu64 " %" SCNu64 " %39s", &v->p, &v->c, &v->row, &v->block, squarings), 5,
         line);
    v->squarings = decimal(squarings);
    return 1;
}

/* The squarings that the lines of the kind have for a ticket or a half. */
static ref_u128 squarings_of(const char *kind, uint64_t p, uint64_t c, uint64_t row, uint64_t block)
{
    FILE *file = open_vectors();
    struct squarings_vector v;
    while (next_squarings(file, kind, &v))
        if (v.p == p && v.c == c && v.row == row && v.block == block) {
            fclose(file);
            return v.squarings;
        }
    fprintf(stderr, "vectors.txt: no line " LINE_PREFIX "%s %" PRIu64 " %" PRIu64 " %" PRIu64 " %" PRIu64 "\n", kind, p, c, row,
            block);
    exit(2);
}

void compare_sums(const char *kind, const char *squarings_kind, work_call *call, int least)
{
    FILE *file = open_vectors();
    char line[256], sum[33], bytes[33];
    int lines = 0;
    uint64_t p, c, row, block;
    for (; next_line(file, kind, line); lines++) {
        uint8_t wanted[16], found[16], squarings[16];
        need(sscanf(line, "%*s %" SCNu64 " %" SCNu64 " %" SCNu64 " %" SCNu64 " %32s %32s", &p, &c, &row, &block, sum, bytes),
             6, line);
        bytes_of(bytes, wanted);
        any_bytes(found, 16);
        any_bytes(squarings, 16);
        CHECK(call(p, c, row, block, found, 16, squarings, 16) == 0, "%s p %" PRIu64 " is refused", kind, p);
        CHECK(memcmp(found, wanted, 16) == 0 && ref_load_sum(found) == hexadecimal(sum),
              "%s p %" PRIu64 " C %" PRIu64 " row %" PRIu64 " block %" PRIu64, kind, p, c, row, block);
        CHECK(ref_load_sum(squarings) == squarings_of(squarings_kind, p, c, row, block),
              "%s p %" PRIu64 " C %" PRIu64 " row %" PRIu64 " block %" PRIu64 ": the squarings", kind, p, c, row, block);
    }
    CHECK(lines > least, "vectors.txt has too few lines of %s", kind);
}

void compare_squarings(const char *kind, quote_call *call, int least)
{
    FILE *file = open_vectors();
    int lines = 0;
    struct squarings_vector v;
    for (; next_squarings(file, kind, &v); lines++) {
        uint8_t found[16];
        any_bytes(found, 16);
        CHECK(call(v.p, v.c, v.row, v.block, found, 16) == 0, "%s p %" PRIu64 " is refused", kind, v.p);
        CHECK(ref_load_sum(found) == v.squarings, "%s p %" PRIu64 " C %" PRIu64 " row %" PRIu64 " block %" PRIu64, kind, v.p,
              v.c, v.row, v.block);
    }
    CHECK(lines > least, "vectors.txt has too few lines of %s", kind);
}

int each_closing(void (*use)(const struct closing_vector *))
{
    FILE *file = open_vectors();
    char line[256], total[33];
    int lines = 0;
    struct closing_vector v;
    for (; next_line(file, "closing", line); lines++) {
        need(sscanf(line, "%*s %" SCNu64 " %32s %d %32s", &v.p, total, &v.answer, v.digits), 4, line);
        v.total = hexadecimal(total);
        use(&v);
    }
    return lines;
}
