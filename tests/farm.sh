#!/usr/bin/env bash
# farm.sh FARM DIRECTORY - a run by processes: worked, stopped, taken up again with damaged files; the ledger kept;
# a check run in the same directory; arguments that are no numbers, output that cannot be written, refusals. ENGINE is
# the library that it is built with.
set -u
farm=$1
directory=$2
name=farm
line="1000 29 349F1C09B075372C980991B7B25D4"
. "$(dirname "$0")/checks.sh"

# damaged WHAT TICKET COMMAND.. - after the command the digits are right, and that ticket alone is worked again.
damaged() {
    local what=$1 ticket=$2
    shift 2
    "$@"
    touch "$scratch/damaged"
    sleep 0.05
    same "the run after $what" "$("$farm" 1000 4 "$directory")" "$line"
    same "what is worked again after $what" "$(cd "$directory" && find . -name '*.sheet' -newer "$scratch/damaged")" "./$ticket.sheet"
}

damages() {
    local ticket=1000-4-3-3
    local sheet=$directory/$ticket.sheet
    local checksum=$sheet.fnv
    damaged "a bit of the sum" "$ticket" flip "$sheet" 20
    damaged "the last bit of the sum" "$ticket" flip "$sheet" 35
    damaged "a bit of the position" "$ticket" flip "$sheet" 0
    damaged "a bit of the block count" "$ticket" flip "$sheet" 8
    damaged "a bit of the row" "$ticket" flip "$sheet" 16
    damaged "a bit of the checksum" "$ticket" flip "$checksum" 3
    damaged "a sheet cut short" "$ticket" truncate -s 35 "$sheet"
    damaged "a sheet too long" "$ticket" truncate -s 37 "$sheet"
    damaged "an empty sheet" "$ticket" truncate -s 0 "$sheet"
    damaged "a checksum cut short" "$ticket" truncate -s 7 "$checksum"
    damaged "a checksum lost" "$ticket" rm "$checksum"
    damaged "a sheet lost" "$ticket" rm "$sheet"
}

# full_ledger WORD ROW.. - the bytes of the run's full ledger, in hexadecimal; a row's sum is that of its one ticket where C
# is 1, in a line of tests/vectors.txt with that word.
full_ledger() {
    local word=$1
    shift
    printf '%s' e803000000000000 0400 000000000000
    sed -n "s/^$word 1000 1 [0-9] 0 [0-9a-f]* //p" tests/vectors.txt | tr -d '\n'
    for _ in "$@"; do printf '0f%062d' 0; done
}

# ledger_in FILE - its bytes, in hexadecimal.
ledger_in() { od -An -v -tx1 "$directory/$1" | tr -d ' \n'; }

# Another ticket's sheet with its own checksum, both whole.
misplace() {
    cp "$directory/1000-4-1-1.sheet" "$directory/1000-4-1-2.sheet"
    cp "$directory/1000-4-1-1.sheet.fnv" "$directory/1000-4-1-2.sheet.fnv"
}

# A check run beside the other: each takes its own sheets alone, though one of the other kind would be read.
check_run() {
    local check_line="check 1000 28 349F1C09B075372C980991B7B25D" before
    before=$(cksum "$directory"/*)
    same "a check run" "$("$farm" --check 1000 4 "$directory" 2)" "$check_line"
    same "files kept of both" "$(find "$directory" -type f | wc -l) $(find "$directory" -name '*.check.*' | wc -l)" "90 33"
    same "the check ledger kept" "$(ledger_in 1000-4.check.ledger)" "$(full_ledger check-ticket 0 1 2 3)"
    touch "$scratch/both"
    sleep 0.05
    same "a check run again" "$("$farm" --check 1000 4 "$directory")" "$check_line"
    same "the run again" "$("$farm" 1000 4 "$directory")" "$line"
    same "what is worked again" "$(find "$directory" -name '*.sheet' -newer "$scratch/both")" ""
    rm "$directory"/*.check.*
    same "the files of the run after the check run" "$(cksum "$directory"/*)" "$before"
    ends 1 "$farm" --check 576460752303423489 4 "$directory"
    same "what is said of position 2^59 + 1" "$said" "check open: refused 2: position or block count out of range"
}

rm -rf "$directory"
same "a run" "$("$farm" 1000 4 "$directory" 2)" "$line"
same "files kept" "$(find "$directory" -type f | wc -l)" 57
same "the ledger kept" "$(ledger_in 1000-4.ledger)" "$(full_ledger ticket 0 1 2 3 4 5 6)"
check_run
damages
damaged "a sheet in another's place" 1000-4-1-2 misplace
unwritable "$farm" 1000 4 "$directory"
rm "$directory/1000-4.ledger"
mkdir "$directory/1000-4.ledger"
ends 1 "$farm" 1000 4 "$directory"
same "what is said of a ledger that cannot be kept" "$said" "$directory/1000-4.ledger: Is a directory"
same "files after a ledger that cannot be kept" "$(find "$directory" -type f | wc -l)" 56

# No file gets the number of a standard descriptor that is closed.
rm -rf "$directory"
opened='fcntl(0, F_GETFD) >= 0 && fcntl(2, F_GETFD) >= 0'
wrapped opened tools/farm.c '#include <fcntl.h>' \
    "$(instead bbp_sheet_write "$opened ? $(call bbp_sheet_write) : -7")" \
    "$(instead bbp_sheet_post "$opened ? $(call bbp_sheet_post) : -7")"
same "a run without standard input and standard error" "$("$scratch/opened" 1000 4 "$directory" <&- 2>&-)" "$line"
unwritable "$scratch/opened" 1000 4 "$directory"

# Tickets that take minutes.
for end in 'TERM 143' 'INT 130' 'HUP 129' 'KILL 137'; do
    stopped $end 2 "$farm" 100000000000 256 "$directory" 2
done

ends 1 "$farm" 0 4 "$directory"
same "what a refusal says" "$said" "open: refused 2: position or block count out of range"
for word in '' 5x x ' 5' +5 -5 18446744073709551621; do
    ends 2 "$farm" "$word" 5 "$directory"
    ends 2 "$farm" 5 "$word" "$directory"
    ends 2 "$farm" 5 5 "$directory" "$word"
done
ends 2 "$farm" 5 5 "$directory" 0
ends 2 "$farm" --check 5 5
ends 2 "$farm" --check --check 5 5 "$directory"
for call in open sheet_write sheet_read sheet_post close; do
    rm -rf "$directory"
    refusing tools/farm.c bbp_check_$call --check 5 1 "$directory"
    rm -rf "$directory"
    refusing tools/farm.c bbp_$call 5 1 "$directory"
done
same "the size of the ledger kept before a refused closing" "$(wc -c <"$directory/5-1.ledger")" 352
rm -rf "$directory"
echo "farm: $checks checks"
