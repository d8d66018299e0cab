/* quote_upper against the reference. */
#include "quoting.h"

int main(int argc, char **argv)
{
    static const struct quoting call = {"quote_upper",      CALL(quote_upper), ref_quote_upper,
                                        CALL(work_upper), ref_upper_half,    "squarings-upper"};
    try_quotes(&call, argc, argv);
    return finish();
}
