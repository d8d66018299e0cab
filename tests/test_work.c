/* work against the reference. */
#include "working.h"

int main(int argc, char **argv)
{
    static const struct working call = {"work", CALL(work), ref_work};
    return test_working(&call, argc, argv);
}
