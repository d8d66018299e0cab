/* work_upper against the reference. */
#include "working.h"

int main(int argc, char **argv)
{
    static const struct working call = {"work_upper", CALL(work_upper), ref_work_upper};
    return test_working(&call, argc, argv);
}
