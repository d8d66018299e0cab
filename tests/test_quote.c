/* quote against the reference, and the blocks of a row beside the whole row. */
#include "quoting.h"

#include <inttypes.h>

static ref_u128 quote_of(uint64_t p, uint64_t c, uint64_t row, uint64_t block)
{
    uint8_t squarings[16];
    CHECK(CALL(quote)(p, c, row, block, squarings, 16) == 0, "p %" PRIu64 " C %" PRIu64 " is refused", p, c);
    return ref_load_sum(squarings);
}

static void blocks_add_up(uint64_t p, uint64_t c)
{
    for (uint64_t row = 0; row < ROWS; row++) {
        ref_u128 squarings = 0;
        for (uint64_t block = 0; block < c; block++)
            squarings += quote_of(p, c, row, block);
        CHECK(squarings == quote_of(p, 1, row, 0), "p %" PRIu64 " row %" PRIu64 ": %" PRIu64 " blocks do not add up to the row",
              p, row, c);
    }
}

int main(int argc, char **argv)
{
    static const struct quoting call = {"quote", CALL(quote), ref_quote, CALL(work), ref_whole, "squarings"};
    static const uint64_t positions[] = {1, 2, 17, 1000, 1000000, LAST_POSITION / 2, LAST_POSITION - 1, LAST_POSITION};
    try_quotes(&call, argc, argv);
    for (int i = 0; i < 8; i++) {
        blocks_add_up(positions[i], 256);
        blocks_add_up(positions[i], 3);
    }
    return finish();
}
