/* The calls that work a ticket or a half against vectors.txt, without the reference: sums and squarings. */
#include "vectors.h"

int main(int argc, char **argv)
{
    start("tickets", argc, argv);
    compare_sums("ticket", "squarings", CALL(work), 100);
    compare_sums("lower", "squarings-lower", CALL(work_lower), 100);
    compare_sums("upper", "squarings-upper", CALL(work_upper), 100);
    compare_sums("far", "squarings", CALL(work), 0);
    compare_sums("far-lower", "squarings-lower", CALL(work_lower), 0);
    compare_sums("far-upper", "squarings-upper", CALL(work_upper), 0);
    return finish();
}
