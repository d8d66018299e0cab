#!/usr/bin/env bash
# closer.sh PROGRAM - the closing program on the marked closings of documents 01 and 02, with the total in one row and
# spread over the rows, on damaged ledgers, on ledgers of version 1.0.0 and of a check run, on input of other sizes, and
# where it cannot read or write.
set -eu
program=$1
checks=0

zeros() { head -c "$1" /dev/zero; }

# number BYTES HEX - a hexadecimal number in so many bytes, the lowest first.
number() {
    local digits=$2 i
    while [ ${#digits} -lt $((2 * $1)) ]; do digits=0$digits; done
    for ((i = 2 * $1 - 2; i >= 0; i -= 2)); do printf '%b' "\\x${digits:i:2}"; done
}

# head_of P C - the 16 bytes before the sums.
head_of() {
    number 8 "$1"
    number 2 "$2"
    zeros 6
}

# marks MARKS ROWS - bit i is that of block i, in every row.
marks() {
    local row
    for ((row = 0; row < $2; row++)); do number 32 "$1"; done
}

# ledger P C MARKS SUM.. - in hexadecimal; the sums of the rows from row 0 on, and 0 for the rows after them.
ledger() {
    head_of "$1" "$2"
    local all=$3 row
    shift 3
    for row in 1 2 3 4 5 6 7; do number 16 "${!row:-0}"; done
    marks "$all" 7
}

# A full ledger as version 1.0.0 kept it, 256 bytes: the total, 50, where the sums now stand.
ledger_of_version_1() {
    head_of 1 1
    number 16 32
    marks 1 7
}

# A full ledger of a check run, 208 bytes: the total, 100, in row 0.
ledger_of_a_check_run() {
    head_of 1 1
    number 16 64
    zeros 48
    marks 1 4
}

# expect LINE LABEL - standard input is closed: the line, its end and status 0 come out, and nothing else.
expect() {
    local got
    got=$("$program"; echo "status $?")
    if [ "$got" != "$1"$'\n''status 0' ]; then
        printf 'closer: %s: printed %s, not %s\n' "$2" "$got" "$1" >&2
        exit 1
    fi
}

# try LINE LABEL COMMAND.. - what the command writes is closed, and the line is printed.
try() {
    local line=$1 label=$2
    shift 2
    "$@" | expect "$line" "$label"
    checks=$((checks + 1))
}

# fails LABEL COMMAND.. - the program ends with status 1 where the command runs it, and prints nothing.
fails() {
    local label=$1 got
    shift
    got=$("$@" 2>/dev/null; echo "status $?")
    if [ "$got" != 'status 1' ]; then
        printf 'closer: %s: printed %s\n' "$label" "$got" >&2
        exit 1
    fi
    checks=$((checks + 1))
}

# The ledger of document 01's line, its first bytes, its last bytes, and more behind it.
full() { ledger 1 1 1 32; }
first() { full | head -c "$1"; }
last() { full | tail -c "$1"; }
longer() { full; zeros "$1"; }

from_a_folder() { "$program" <.; }
to_a_full_device() { full | "$program" >/dev/full; }

in_pieces() { first 100; sleep 0.2; last 252; }
reserved_byte() { first 15; number 1 1; last 336; }
last_row_unmarked() { first 320; zeros 32; }

ones=ffffffffffffffffffffffffffffffff
eights=88888888888888888888888888888888

# finished
try '1 30 000000000000000000000000000000' 'total 50' full
try '1 30 000000000000000000000000000000' 'total 49' ledger 1 1 1 31
try '1 30 FFFFFFFFFFFFFFFFFFFFFFFFFFFFFF' 'total 2^128 - 46' ledger 1 1 1 ffffffffffffffffffffffffffffffd2
try '1 30 FFFFFFFFFFFFFFFFFFFFFFFFFFFFFF' 'total 2^128 - 50' ledger 1 1 1 ffffffffffffffffffffffffffffffce
try '1 1 1' 'total 2^124 + 2^120' ledger 1 1 1 11000000000000000000000000000000
try '1 30 0123456789ABCDEFFEDCBA98765432' 'every digit' ledger 1 1 1 0123456789abcdeffedcba9876543280
try '1 30 000000000000000000000000000000' '256 blocks' ledger 1 100 "$ones$ones" 32
try '1152921504606846976 16 8888888888888888' 'position 2^60' ledger 1000000000000000 1 1 "$eights"
try '1152921504606846975 16 8888888888888888' 'position 2^60 - 1' ledger fffffffffffffff 1 1 "$eights"
try '1000000 26 88888888888888888888888888' 'position 10^6' ledger f4240 1 1 "$eights"
try '1 30 000000000000000000000000000000' 'in pieces' in_pieces

# finished: the total is the sum of the row sums modulo 2^128
try '1 30 000000000000000000000000000000' 'total 50 in row 3' ledger 1 1 1 0 0 0 32
try '1 30 000000000000000000000000000000' 'total 50 in row 6' ledger 1 1 1 0 0 0 0 0 0 32
try '1 30 000000000000000000000000000000' 'total 50 of seven sums' ledger 1 1 1 7 7 7 7 7 7 8
try '1 30 000000000000000000000000000000' 'total 50, past 2^128 once' ledger 1 1 1 "$ones" 0 0 0 0 0 33
try '1 30 000000000000000000000000000000' 'total 50, past 2^128 six times' \
    ledger 1 1 1 "$ones" "$ones" "$ones" "$ones" "$ones" "$ones" 38
try '1 1 1' 'total 2^124 + 2^120, a carry between the words' \
    ledger 1 1 1 10ffffffffffffff8000000000000000 0 0 0 0 0 8000000000000000
try '1000000 26 88888888888888888888888888' 'position 10^6, past 2^128 once' \
    ledger f4240 1 1 "$ones" 0 0 0 0 0 88888888888888888888888888888889

# refused: 1, the size
for size in 0 1 100 207 208 209 255 256 351; do try 'refused 1' "$size bytes" first "$size"; done
for more in 1 352 3744 3745 65536 99648; do try 'refused 1' "$more bytes more" longer "$more"; done
try 'refused 1' '100,000 zeros' zeros 100000
try 'refused 1' '256 zeros' zeros 256
try 'refused 1' 'a full ledger of version 1.0.0' ledger_of_version_1
try 'refused 1' 'a full ledger of a check run' ledger_of_a_check_run

# refused: 5, the order
try 'refused 5' 'zeros' zeros 352
try 'refused 5' 'position 0' ledger 0 1 1 32
try 'refused 5' 'position 2^60 + 1' ledger 1000000000000001 1 1 32
try 'refused 5' 'no block' ledger 1 0 0 32
try 'refused 5' '257 blocks' ledger 1 101 "$ones$ones" 32
try 'refused 5' 'a mark at C' ledger 1 1 3 32
try 'refused 5' 'a reserved byte' reserved_byte

# refused: 8, a ticket unmarked; 9, no digit settled
try 'refused 8' 'no mark' ledger 1 1 0 32
try 'refused 8' 'the last row unmarked' last_row_unmarked
try 'refused 8' 'one block of 256 unmarked' ledger 1 100 "7${ones:1}$ones" 32
try 'refused 9' 'total 0' ledger 1 1 1
try 'refused 9' 'total 0 of two sums' ledger 1 1 1 "$ones" 0 0 0 0 0 1
try 'refused 9' 'total 48' ledger 1 1 1 30
try 'refused 9' 'total 2^128 - 45' ledger 1 1 1 ffffffffffffffffffffffffffffffd3
try 'refused 9' 'seven sums of 2^128 - 1' ledger 1 1 1 "$ones" "$ones" "$ones" "$ones" "$ones" "$ones" "$ones"

fails 'input that cannot be read' from_a_folder
fails 'a line that cannot be written' to_a_full_device
echo "closer: $checks checks"
