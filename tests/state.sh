#!/usr/bin/env bash
# state.sh LIBRARY - the library can keep no state and allocate nothing: each of its sections that can be written is
# empty, no symbol is common, and it calls nothing outside itself but `memset`.
set -euo pipefail
library=$1

# Name, size and flags of each section; a section without flags has a number in their place.
sections=$(readelf -SW "$library" | sed -n 's/^ *\[ *[0-9]*\] *//p' | awk '{ print $1, $5, $7 }')
if ! grep -q '^\.text' <<<"$sections"; then
    echo "state: $library: no code found" >&2
    exit 1
fi
written=$(awk '$3 ~ /W/ && $2 !~ /^0+$/ { print $1 }' <<<"$sections")
common=$(nm "$library" | awk '$2 == "C" { print $3 }')
called=$(nm -u "$library" | awk '$1 == "U" && $2 != "memset" { print $2 }')
if [ -n "$written$common$called" ]; then
    echo "state: $library can write at or calls:" $written $common $called >&2
    exit 1
fi
echo "state: $(wc -l <<<"$sections") checks"
