#!/usr/bin/env bash
# header.sh DIRECTORY - the header compiles by itself, and included twice, as C99 and as C++; its sizes fit its places.
set -eu
checks=0
cat >"$1/header.c" <<'END'
#include "bbp.h"
#include "bbp.h"
#define FITS(name, prefix) \
    char name##_list[BBP_LIST_SIZE(BBP_MAX_BLOCKS * prefix##ROWS) == prefix##LIST_MAX ? 1 : -1]; \
    char name##_sheet[BBP_SHEET_SIZE(BBP_MAX_BLOCKS * prefix##ROWS) == prefix##SHEET_MAX ? 1 : -1]; \
    char name##_sums[BBP_ROW_SUM_AT(prefix##ROWS) == prefix##ROW_MARKS_AT(0) ? 1 : -1]; \
    char name##_marks[prefix##ROW_MARKS_AT(prefix##ROWS) == prefix##LEDGER_SIZE ? 1 : -1];
FITS(bellard, BBP_)
FITS(check, BBP_CHECK_)
char book[BBP_BOOK_AT(BBP_ROWS, 0) == BBP_BOOK_SIZE ? 1 : -1];
END
cp "$1/header.c" "$1/header.cc"
strict="-Wall -Wextra -Werror -pedantic -Iinclude -c -o /dev/null"
for standard in c99 c11 c17; do
    ${CC:-gcc} -std=$standard -Wstrict-prototypes $strict "$1/header.c"
    checks=$((checks + 1))
done
for standard in c++98 c++11 c++17; do
    ${CXX:-g++} -std=$standard $strict "$1/header.cc"
    checks=$((checks + 1))
done
echo "header: $checks checks"
