/*
 * Lists of posts of both kinds from an opening on, against a plain ledger, which
 * has no bytes of a ledger (document 01, The ledger; document 02, slips 1 and 4).
 * After each post the ledger's bytes are compared with what it holds.
 */
#include "plain.h"

#include <inttypes.h>
#include <string.h>

static struct plain plain;
static uint8_t ledger[LEDGER_SIZE];

static void compare_bytes(const char *after)
{
    uint8_t bytes[LEDGER_SIZE];
    plain_ledger(&plain, bytes);
    CHECK(memcmp(bytes, ledger, sizeof ledger) == 0, "the ledger is not the plain ledger after %s", after);
}

static void post_one(void)
{
    uint8_t sum[16];
    uint64_t p = below(10) == 0 ? plain.p % 1000 + 1 : plain.p, c = plain.c, row = below(ROWS), block = below(c);
    any_bytes(sum, 16);
    if (below(10) == 0 && c < 256)
        c++;
    int wanted = plain_answer(&plain, p, c, row, block);
    CHECK(CALL(post)(ledger, sizeof ledger, p, c, row, block, sum, 16) == wanted,
          "post: the answer is not the plain ledger's");
    if (wanted == 0)
        take(&plain, row, block, sum);
    compare_bytes("a post");
}

static void post_out_of_table(void)
{
    uint8_t sum[16] = {0};
    CHECK(CALL(post)(ledger, sizeof ledger, plain.p, plain.c, ROWS, 0, sum, 16) == -4, "row above the last");
    CHECK(CALL(post)(ledger, sizeof ledger, plain.p, plain.c, 0, plain.c, sum, 16) == -4, "block C");
    CHECK(CALL(post)(ledger, sizeof ledger, 0, plain.c, 0, 0, sum, 16) == -2, "p = 0");
    CHECK(CALL(post)(ledger, sizeof ledger, LAST_POSITION + 1, plain.c, 0, 0, sum, 16) == -2, "p above the last");
    CHECK(CALL(post)(ledger, sizeof ledger, plain.p, plain.c, 0, 0, sum, 15) == -1, "a sum of 15 bytes");
    CHECK(CALL(post)(ledger, sizeof ledger - 1, plain.p, plain.c, 0, 0, sum, 16) == -1, "a ledger of a byte less");
    compare_bytes("posts out of the table");
}

static void post_sheet(uint64_t chance)
{
    static uint8_t list[LIST_MAX], sheet[SHEET_MAX];
    uint64_t p = below(10) == 0 ? plain.p % 1000 + 1 : plain.p;
    size_t e = any_list(list, plain.c, chance);
    size_t len = any_sheet(sheet, p, plain.c, list, e);
    int wanted = plain_list_answer(&plain, p, list, e);
    CHECK(CALL(sheet_post)(ledger, sizeof ledger, sheet, len) == wanted,
          "sheet post: the answer is not the plain ledger's");
    if (wanted == 0)
        take_list(&plain, list, e, sheet + 16 + 4 * e);
    compare_bytes("a sheet post");
}

static void one_list(void)
{
    uint64_t p = any_position();
    open_plain(&plain, p, any_blocks());
    any_bytes(ledger, sizeof ledger);
    CHECK(CALL(open)(plain.p, plain.c, ledger, sizeof ledger) == 0, "opening is refused");
    compare_bytes("opening");
    for (uint64_t posts = below(200); posts > 0; posts--)
        switch (below(8)) {
        case 0: post_out_of_table(); break;
        case 1: post_sheet(below(4)); break;
        case 2: post_sheet(below(16) == 0 ? 256 : 1); break;
        default: post_one();
        }
}

int main(int argc, char **argv)
{
    start("list", argc, argv);
    for (uint64_t i = 0; i < 1 + case_count() / 20; i++)
        one_list();
    return finish();
}
