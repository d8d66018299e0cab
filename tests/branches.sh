#!/usr/bin/env bash
# branches.sh LIBRARY MULTIPLICATIONS.. - in the machine code the loop of the power has no conditional jump but its own,
# calls nothing and multiplies no vectors. It is the innermost loop with three multiplications or more, once for each
# place that the compiler put it; a library without one fails. With numbers, each such loop has one of them as its
# multiplications, and each number has a loop: 3 is the power of one term, 24 that of a group, three for each lane.
set -euo pipefail
library=$1
shift
checks=0

fail() {
    echo "branches: $library: $*" >&2
    exit 1
}

loops=$(LC_ALL=C objdump -dr --no-show-raw-insn "$library" | awk -f tests/loops.awk)
if [ -z "$loops" ]; then fail "no loop with three multiplications found"; fi
while read -r products vectors branches others address function; do
    loop="$function at $address, $products multiplications"
    if [ "$vectors" -ne 0 ]; then fail "$loop: $vectors more by vector"; fi
    if [ "$branches" -ne 1 ] || [ "$others" -ne 0 ]; then
        fail "$loop: $branches conditional jumps, $others calls or jumps to unknown places"
    fi
    case " ${*:-$products} " in *" $products "*) ;; *) fail "$loop, not one of: $*" ;; esac
    checks=$((checks + 1))
done <<<"$loops"
for number in "$@"; do
    if ! grep -q "^$number " <<<"$loops"; then fail "no loop with $number multiplications"; fi
    checks=$((checks + 1))
done
echo "branches: $checks checks"
