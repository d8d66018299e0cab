/* quote_lower against the reference. */
#include "quoting.h"

int main(int argc, char **argv)
{
    static const struct quoting call = {"quote_lower",      CALL(quote_lower), ref_quote_lower,
                                        CALL(work_lower), ref_lower_half,    "squarings-lower"};
    try_quotes(&call, argc, argv);
    return finish();
}
