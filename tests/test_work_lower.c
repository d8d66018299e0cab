/* work_lower against the reference. */
#include "working.h"

int main(int argc, char **argv)
{
    static const struct working call = {"work_lower", CALL(work_lower), ref_work_lower};
    return test_working(&call, argc, argv);
}
