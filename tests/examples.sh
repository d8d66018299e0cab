#!/usr/bin/env bash
# examples.sh MINIMAL WITHDRAWAL HANDOVER ACCEPTANCE - the examples, run: digits of pi at 1 and 1,000, also with a ticket
# withdrawn and posted again, and of a run that moves over half done, refusals, arguments that are no numbers, output that
# cannot be written, sheets looked at before they are posted, tickets worked by halves, squarings
# quoted and made, check runs beside the others, ledgers of both kinds kept, also in place of older ones and without
# standard descriptors, and their rows shown, also of block counts that are no powers of two, and the bytes that
# docs/FORMATS.md shows.
# ENGINE is the library that they are built with.
set -u
minimal=$1
withdrawal=$2
handover=$3
acceptance=$4
name=examples
. "$(dirname "$0")/checks.sh"
ledger=$scratch/ledger
digits=349F1C09B075372C980991B7B25D
line="1000 29 ${digits}4"
first_line="1 30 243F6A8885A308D313198A2E037073"
check_line="check 1000 28 $digits"
both=$line$'\n'$check_line$'\nagree 28 digits'
out_of_range="refused 2: position or block count out of range"
wrong_size="a slice of the wrong size"

same minimal "$("$minimal")" "${line##* }"
prints 0 "$line" "$withdrawal"
same "what withdrawal says" "$said" "withdrawn: row 3, block 2"
prints 0 "$line" "$handover"
same "what handover says" "$said" "handed over: 14 tickets in 296 bytes"
prints 0 "$first_line" "$acceptance" 1
prints 0 "$first_line" "$acceptance" 1 1
prints 0 "$line" "$acceptance" 1000 2
prints 0 "$line" "$acceptance" 1000 256

for run in 0 '1 0' '1 257' 1152921504606846977 18446744073709551615 '--halves 0' '--halves 1 257' '--check 0' \
    '--check 1 257' '--check 1152921504606846977'; do
    ends 1 "$acceptance" $run
    same "what acceptance $run says" "$said" "open: $out_of_range"
done

# 2^64 + 1,000 would be 1,000 in 64 bits.
for word in '' 1000x x ' 1000' +1000 -1000 1e3 --check 0x3e8 18446744073709551616 18446744073709552616; do
    ends 2 "$acceptance" "$word"
    ends 2 "$acceptance" 1000 "$word"
    ends 2 "$acceptance" --keep "$ledger" "$word"
    ends 2 "$acceptance" --keep "$ledger" 1000 "$word"
    ends 2 "$acceptance" --halves "$word"
    ends 2 "$acceptance" --halves 1000 "$word"
    ends 2 "$acceptance" --check "$word"
    ends 2 "$acceptance" --check 1000 "$word"
done
for words in '' '1 2 3' --rows --keep "--keep $ledger" "--keep $ledger 1 2 3" '--row 1' '--help' --halves '--halves 1 2 3' \
    '--halves --halves 1' '--half 1' '--halves --keep' "--halves --keep $ledger" "--keep $ledger --halves" \
    "--keep $ledger --keep $ledger 1" "--halves --rows $ledger" --check '--check 1 2 3' '--check --check 1' '--checks 1' \
    '--check --halves --check 1' '--check --keep' "--check --keep $ledger" "--check --rows $ledger"; do
    ends 2 "$acceptance" $words
    same "what acceptance $words says" "${said%%:*}" usage
done
same "ledgers kept from arguments that are refused" "$(ls "$ledger" "$ledger.check" 2>/dev/null)" ""

unwritable "$minimal"
unwritable "$withdrawal"
unwritable "$handover"
unwritable "$acceptance" 1000 2
unwritable "$acceptance" --halves 1000 2

for call in open work post close; do
    refusing examples/minimal.c bbp_$call
    same "what minimal says of $call" "$said" "refused 7"
done
wrapped refusing examples/minimal.c "$(instead bbp_close -12)"
ends 1 "$scratch/refusing"
same "what minimal says of a number of two digits" "$said" "refused 12"
for call in open sheet_write book_sheet_post work book_post book_withdraw close; do
    refusing examples/withdrawal.c bbp_$call
    same "what withdrawal says of $call" "${said##*$'\n'}" "${call//_/ }: refused 7: ticket marked already"
done
wrapped refusing examples/withdrawal.c "$(instead bbp_book_withdraw -13)"
ends 1 "$scratch/refusing"
same "what withdrawal says of 13" "${said##*$'\n'}" "book withdraw: refused 13: ticket to withdraw not marked"
# The wrong sum shows in the digits where its ticket is neither withdrawn nor posted again.
wrapped kept examples/withdrawal.c "$(instead bbp_book_withdraw 0)" \
    "$(instead bbp_book_post "row == 3 && block == 2 ? 0 : $(call bbp_book_post)")"
prints 0 "1000 29 B${line##* 3}" "$scratch/kept"
for call in open work book_post standing_sheet book_sheet_post close; do
    refusing examples/handover.c bbp_$call
    same "what handover says of $call" "${said##*$'\n'}" "${call//_/ }: refused 7: ticket marked already"
done
# A mark or a kept sum that does not come over, and a wrong sum in one of the two runs after that.
for change in 'ledger[128] ^= 1' 'book[0] ^= 1'; do
    wrapped changed examples/handover.c "$(instead bbp_book_sheet_post "($(call bbp_book_sheet_post), $change, 0)")"
    ends 1 "$scratch/changed"
    same "what handover says after $change" "${said##*$'\n'}" "the ledgers or the books differ"
done
wrapped changed examples/handover.c 'static int posts;' \
    "$(instead bbp_book_post "(((uint8_t *)sum)[15] ^= 128 * (++posts == 30), $(call bbp_book_post))")"
ends 1 "$scratch/changed"
same "what handover says of other digits" "${said##*$'\n'}" "the digits differ"
for call in open quote work post sheet_write sheet_read look sheet_post close; do
    refusing examples/acceptance.c bbp_$call 1000 4
    same "what acceptance says of $call" "$said" "${call/_/ }: refused 7: ticket marked already"
    ends 1 "$scratch/refusing" --check 1000 4
    same "what acceptance --check says of $call" "$said" "${call/_/ }: refused 7: ticket marked already"
done

for half in lower upper; do
    refusing examples/acceptance.c bbp_work_$half --halves 1000 4
    same "what acceptance says of the $half half" "$said" "work $half: refused 7: ticket marked already"
done

# The check run is opened and quoted before the work and worked after the other run. Without --check it is neither.
for call in open quote work post sheet_write sheet_read sheet_post close work_lower work_upper; do
    wrapped refusing examples/acceptance.c "$(instead bbp_check_$call -7)"
    before=$line option=
    case $call in open | quote) before= ;; work_*) option=--halves ;; esac
    prints 1 "$before" "$scratch/refusing" --check $option 1000 4
    same "what acceptance --check says of check $call" "$said" "check ${call/_/ }: refused 7: ticket marked already"
    prints 0 "$line" "$scratch/refusing" $option 1000 4
done

# A sheet that holds another ticket than the one ordered, or none.
for calls in bbp_ bbp_check_; do
    before=
    if [ $calls = bbp_check_ ]; then before=$line; fi
    engine=$(call ${calls}sheet_read)
    for answer in "$engine - 1" "(list_len = (size_t)$engine, list[0] ^= 1, (int64_t)list_len)"; do
        wrapped other examples/acceptance.c "$(instead ${calls}sheet_read "$answer")"
        prints 1 "$before" "$scratch/other" --check 1000 4
        same "what is said of another ticket" "$said" "${before:+check }sheet read: not the tickets that were ordered"
    done
done

# What docs/FORMATS.md shows is what the library gives.
${CC:-gcc} -std=c99 -Wall -Wextra -Werror -Iinclude examples/formats.c "$ENGINE" ${LDFLAGS:-} -o "$scratch/formats" || exit 1
same "the bytes in docs/FORMATS.md" "$(sed -n '/^```text/,/^```$/p' docs/FORMATS.md | grep -v '^```')" "$("$scratch/formats")"
unwritable "$scratch/formats"

# It opens runs with powers of two alone, and two ledgers of the document have other counts.
power='(c & (c - 1)) != 0 ? -2 :'
wrapped opened examples/formats.c "$(instead bbp_open "$power $(call bbp_open)")" \
    "$(instead bbp_check_open "$power $(call bbp_check_open)")"
prints 0 "$("$scratch/formats")" "$scratch/opened"
same "block counts that are no powers of two" "$(grep -h -o 'C = [0-9]*' docs/FORMATS.md README.md include/bbp.h | sort -u |
    awk '{ for (c = $3; c > 1; c /= 2); if (c != 1) print $3 }' | tr '\n' ' ')" "14 33 "

# Each row of its table of blocks has two lines in tests/vectors.txt, for the halves of the block.
rows_seen=0
while read -r kind p c block first cut end; do
    if [ "$kind" = check ]; then kind=check-; else kind=; fi
    same "the block $block of p = $p, C = $c in docs/FORMATS.md" "$(grep -c -x -e "${kind}lower-half $p $c $block $first $cut" \
        -e "${kind}upper-half $p $c $block $cut $end" tests/vectors.txt)" 2
    rows_seen=$((rows_seen + 1))
done < <(sed -n '/^| run | p | C | block | terms from |/,/^$/s/^| [Bc]/&/p' docs/FORMATS.md | tr -d '|,' |
    sed 's/2^60/1152921504606846976/; s/2^59/576460752303423488/')
same "the rows of that table" $rows_seen 13

# The lines that examples/acceptance.c and README.md quote.
prints 0 "$line" "$acceptance" 1000 8
same "the quote in examples/acceptance.c" "$(grep -c -x -F -e " *     ${billed%%$'\n'*}" -e " *     ${billed#*$'\n'}" examples/acceptance.c)" 2
same "the look in examples/acceptance.c" "$(grep -c -x -F " *     ${looked%%$'\n'*}" examples/acceptance.c)" 1
same "the look in README.md" "$(grep -c -F "\`${looked%%$'\n'*}\`" README.md)" 1

# What stands before the words of lines in tests/vectors.txt, and the rows, of Bellard's runs; check_rows COMMAND.. - the
# same of check runs.
prefix= rows='0 1 2 3 4 5 6'
check_rows() { prefix=check- rows='0 1 2 3' "$@"; }

# sum_of P ROW - the sum of all terms of a row, as tests/vectors.txt has it for the row's one ticket where C is 1.
sum_of() { sed -n "s/^${prefix}ticket $1 1 $2 0 \([0-9a-f]*\) .*/\1/p" tests/vectors.txt; }

# squarings_of P C BLOCK [ROW ..] - those of the block in all rows, or in these, as tests/vectors.txt has them.
squarings_of() {
    local place="$1 $2" block=$3 row sum=0
    shift 3
    for row in ${*:-$rows}; do
        sum=$((sum + $(sed -n "s/^${prefix}squarings $place $row $block //p" tests/vectors.txt)))
    done
    echo $sum
}

# lines P [ROW SUM] - what --rows prints of a full ledger that has another sum in one row.
lines() {
    local row sum
    for row in $rows; do
        sum=$(sum_of "$1" "$row")
        if [ "$row" = "${2-}" ]; then
            echo "row $row ledger $3 worked $sum differs"
        else
            echo "row $row ledger $sum worked $sum"
        fi
    done
}

# lines_of TITLE - the lines of bytes below that title in docs/FORMATS.md.
lines_of() { sed -n "/^$1/,/^[^ ]/p" docs/FORMATS.md | sed -n '/^ /p'; }

# shown WORD FILE SIZE - where lines of zeros are left out, the ledger is the full one that docs/FORMATS.md shows.
shown() {
    same "the ${1}ledger kept" "$(od -An -v -tx1 -w16 "$2" | grep -v '^\( 00\)*$')" \
        "$(lines_of "${1}ledger with every" | sed 's/^ *[0-9]* //')"
    same "its size" "$(wc -c <"$2")" "$3"
}

# written TITLE SIZE - the bytes of a ledger that docs/FORMATS.md shows, with the lines of zeros that it leaves out.
written() {
    local at byte line
    head -c "$2" /dev/zero >"$ledger"
    while read -r at line; do
        for byte in $line; do printf '%b' "\\x$byte"; done | dd of="$ledger" bs=16 seek=$((at / 16)) conv=notrunc status=none
    done < <(lines_of "$1")
}

# The kept ledgers of docs/FORMATS.md, whose block counts are no powers of two. Their rows are worked without opening a run.
kept_ledgers() {
    written 'kept ledger' 352
    same "the block count of the kept ledger" "$(od -An -tu1 -j 8 -N 1 "$ledger" | tr -d ' ')" 14
    prints 0 "$(lines 1)" "$acceptance" --rows "$ledger"
    same "row 3 in docs/FORMATS.md" "$(sed -n 's/^    \(row 3 ledger .*\)/\1/p' docs/FORMATS.md)" "$(lines 1 | sed -n 4p)"
    wrapped unopened examples/acceptance.c "$(instead bbp_open -7)" "$(instead bbp_check_open -7)"
    prints 0 "$(lines 1)" "$scratch/unopened" --rows "$ledger"
    written 'check kept ledger' 208
    same "the block count of the kept check ledger" "$(od -An -tu1 -j 8 -N 1 "$ledger" | tr -d ' ')" 33
    prints 0 "$(check_rows lines 1)" "$acceptance" --rows "$ledger"
    prints 0 "$(check_rows lines 1)" "$scratch/unopened" --rows "$ledger"
}

keeping() {
    prints 0 "$first_line" "$acceptance" --keep "$ledger" 1 16
    shown '' "$ledger" 352
    same "what is kept of a check run where there is none" "$(ls "$ledger".* 2>/dev/null)" ""
    cp "$ledger" "$scratch/before"
    ends 1 "$acceptance" --keep "$ledger" 0
    same "the ledger kept before, after a run refused" "$(cmp "$ledger" "$scratch/before")" ""
    ends 1 "$acceptance" --keep /dev/full 1000 2
    same "what is said of a full device" "${said%%:*}" /dev/full
    # Known before the work, which would not end.
    ends 1 timeout 60 "$acceptance" --keep "$scratch/none/ledger" 1152921504606846976
    same "what is said of a file that cannot be written" "${said%%:*}" "$scratch/none/ledger"
}

full_ledgers() {
    local run
    for run in '1 1' '1 16' '1 256' '1000 1' '1000 4'; do
        "$acceptance" --keep "$ledger" $run >/dev/null 2>&1
        prints 0 "$(lines ${run% *})" "$acceptance" --rows "$ledger"
        same "what --rows says of a full ledger" "$said" ""
    done
    same "--rows of standard input" "$("$acceptance" --rows - <"$ledger" 2>/dev/null)" "$(lines 1000)"
    prints 0 "$(lines 1000 | sed -n 4p)" "$acceptance" --rows "$ledger" 3
    prints 0 "$(lines 1000 | sed -n '1p; 3p; 7p')" "$acceptance" --rows "$ledger" 6 0 2
    prints 0 "$(lines 1000)" "$acceptance" --rows "$ledger" 0 1 2 3 4 5 6
    unwritable "$acceptance" --rows "$ledger"
}

# spoiled ROW SUM DIGITS LINE - a run at 1,000 built with that line, which spoils a sum of the row as it is posted: the
# closing, the row's sum in the ledger kept, and that this row alone differs.
spoiled() {
    local row=$1 sum=$2
    wrapped spoiled examples/acceptance.c "$4"
    prints 0 "1000 29 $3" "$scratch/spoiled" --keep "$ledger" 1000 4
    prints 3 "$(lines 1000 "$row" "$sum")" "$acceptance" --rows "$ledger"
    prints 3 "row $row ledger $sum worked $(sum_of 1000 "$row") differs" "$acceptance" --rows "$ledger" "$row"
    prints 0 "$(lines 1000 | sed "$((row + 1))d")" "$acceptance" --rows "$ledger" $(seq 0 6 | grep -v "$row")
    unwritable "$acceptance" --rows "$ledger"
}

# changed CALL SLICE CHANGE - C after which a change of a slice's bytes comes before the call.
changed() { instead "$1" "(((uint8_t *)$2)$3, $(call "$1"))"; }

# Block 1 is posted singly and block 3 on a sheet of its own, whose row stands at byte 16 and whose sum at 20. One more
# in a sum does not show in the digits; the highest bit does.
spoiled_ledgers() {
    local right=${line##* } row sum more
    for row in 0 3 6; do
        sum=$(sum_of 1000 "$row")
        more=${sum%?}$(printf %x $((0x${sum: -1} + 1)))
        spoiled "$row" "$more" "$right" "$(changed bbp_post sum "[0] += row == $row && block == 1")"
        spoiled "$row" "$more" "$right" "$(changed bbp_sheet_post sheet "[20] += sheet[16] == $row")"
    done
    sum=$(sum_of 1000 4)
    spoiled 4 "$(printf %x $((0x${sum:0:1} ^ 8)))${sum:1}" "B${right#3}" \
        "$(changed bbp_post sum "[15] ^= 128 * (row == 4 && block == 1)")"
}

# A ledger is kept also where its closing is refused, and only marked tickets are worked.
unfinished_ledgers() {
    local none=00000000000000000000000000000000 one
    one=$(sed -n 's/^ticket 1 256 2 36 \([0-9a-f]*\) .*/\1/p' tests/vectors.txt)
    wrapped unfinished examples/acceptance.c "$(instead bbp_sheet_post 0)" \
        "$(instead bbp_post "row == 2 && block == 36 ? $(call bbp_post) : 0")"
    ends 1 "$scratch/unfinished" --keep "$ledger" 1
    same "what an unfinished run says" "$said" "close: refused 8: a ticket of the run is not marked"
    prints 0 "$(for row in 0 1 2 3 4 5 6; do echo "row $row ledger $none worked $none"; done | sed "3s/$none/$one/g")" \
        "$acceptance" --rows "$ledger"
    # All marked, every sum 0: closing it is refused with 9.
    "$acceptance" --keep "$ledger" 1 1 >/dev/null 2>&1
    dd if=/dev/zero of="$ledger" bs=16 seek=1 count=7 conv=notrunc status=none
    prints 3 "$(lines 1 | sed "s/ledger [0-9a-f]*/ledger $none/; s/\$/ differs/")" "$acceptance" --rows "$ledger"
    # Position 2^60, C = 1, row 6 marked: that ticket would not end.
    { printf '\0\0\0\0\0\0\0\20\1'; head -c 311 /dev/zero; printf '\1'; head -c 31 /dev/zero; } >"$ledger"
    prints 0 "row 0 ledger $none worked $none" timeout 60 "$acceptance" --rows "$ledger" 0
    prints 0 "row 5 ledger $none worked $none" timeout 60 "$acceptance" --rows "$ledger" 5
    ends 124 timeout 1 "$acceptance" --rows "$ledger" 6
    same "the quote of that ticket" "$billed" "quote: $(number_of squarings 1152921504606846976 6) squarings in 1 tickets"
}

# number_of WORD P ROW - the number in the line of tests/vectors.txt for the row's one ticket where C is 1.
number_of() { sed -n "s/^$1 $2 1 $3 0 //p" tests/vectors.txt; }

# failing OPTIONS TEXT LINE.. - built with these lines, a run with these options ends with status 1, and says that.
failing() {
    local options=$1 text=$2
    shift 2
    wrapped failing examples/acceptance.c '#include <errno.h>' '#include <signal.h>' '#include <stdio.h>' \
        '#include <unistd.h>' "$@"
    ends 1 "$scratch/failing" $options 1000 4
    same "what is said of $*" "$said" "$text"
}

# The closing line and the ledger are those of whole tickets.
halves() {
    local run closing failed="the process of an upper half failed" kept=$scratch/kept none_left
    for run in 1 '1 1' '1 16' '2 256' '1000 1' '1000 2' '1000 256' '12345 8'; do
        closing=$("$acceptance" --keep "$kept" $run 2>/dev/null)
        prints 0 "$closing" "$acceptance" --halves $run
        same "what --halves says" "$said" ""
        prints 0 "$closing" "$acceptance" --halves --keep "$ledger" $run
        same "the ledger by halves" "$(cmp "$ledger" "$kept" 2>&1)" ""
        rm "$ledger"
        prints 0 "$closing" "$acceptance" --keep "$ledger" --halves $run
        same "the ledger by halves, the options the other way round" "$(cmp "$ledger" "$kept" 2>&1)" ""
    done
    # No ticket is worked whole but the supplier's, and no child is left at the end; of a check run, too.
    none_left='waitpid(-1, NULL, WNOHANG) == -1'
    wrapped halves examples/acceptance.c '#include <sys/wait.h>' "$(instead bbp_work -7)" "$(instead bbp_check_work -7)" \
        "$(instead bbp_close "$none_left ? $(call bbp_close) : -9")" \
        "$(instead bbp_check_close "$none_left ? $(call bbp_check_close) : -9")"
    prints 0 "$line" "$scratch/halves" --halves 1000 4
    prints 0 "$both" "$scratch/halves" --halves --check 1000 4
    wrapped whole examples/acceptance.c "$(instead bbp_work_lower -7)" "$(instead bbp_work_upper -7)"
    prints 0 "$line" "$scratch/whole" 1000 4
    # The child is killed, ends without a word, writes short, or fails after it wrote.
    failing --halves "$failed" "$(instead bbp_work_upper 'raise(SIGKILL)')"
    failing --halves "$failed" "$(instead bbp_work_upper '(_exit(0), 0)')"
    failing --halves "$failed" '#define write(file, bytes, len) write(file, bytes, (len) - 1)'
    failing --halves "$failed" '#define write(file, bytes, len) (write(file, bytes, (len) - 1), (ssize_t)(len))'
    failing --halves "$failed" '#define write(file, bytes, len) (write(file, bytes, len), (ssize_t)-1)'
    failing --halves "$failed" '#define write(file, bytes, len) (write(file, bytes, len), raise(SIGKILL), (ssize_t)0)'
    failing --halves "pipe: Too many open files" '#define pipe(ends) (errno = EMFILE, -1)'
    failing --halves "fork: Resource temporarily unavailable" '#define fork() (errno = EAGAIN, (pid_t)-1)'
    stopped TERM 143 1 "$acceptance" --halves 1152921504606846976 1
    stopped KILL 137 1 "$acceptance" --halves 1152921504606846976 1
}

# looks C - the lines of the looks: with a row's sheet, all tickets of this row and of those before it are posted.
looks() {
    local row
    for row in $rows; do
        echo "look at the sheet of row $row: $(((6 - row) * $1)) of $((7 * $1)) tickets would remain"
    done
}

# A line for each sheet of a Bellard run, and on a terminal bars between them. Each sheet is looked at before it is posted,
# but for those of check runs.
looking() {
    local run closing bar='^'$'\r''\[[#.]*\] *[0-9]*%  [0-9]* s spent, [0-9]* s left   '
    wrapped seen examples/acceptance.c '#include <unistd.h>' '#define isatty(file) 1'
    for run in '1 1' '1 2' '1 16' '1000 4' '1000 256'; do
        case $run in '1 '*) closing=$first_line ;; *) closing=$line ;; esac
        prints 0 "$closing" "$acceptance" $run
        same "the looks of $run" "$looked" "$(looks ${run#* })"
        same "what else is said of $run" "$said" ""
        prints 0 "$closing" "$scratch/seen" $run
        same "the looks of $run on a terminal" "$looked" "$(looks ${run#* })"
        same "what else is said of $run on a terminal" "$(grep -a -v -e "$bar" <<<"$said")" ""
    done
    prints 0 "$both" "$acceptance" --check --halves 1000 4
    same "the looks beside a check run" "$looked" "$(looks 4)"
    same "what else is said beside a check run" "$said" ""
    wrapped before examples/acceptance.c 'static const uint8_t *seen;' "$(instead bbp_look "(seen = sheet, $(call bbp_look))")" \
        "$(instead bbp_sheet_post "sheet == seen ? (seen = NULL, $(call bbp_sheet_post)) : -3")"
    prints 0 "$both" "$scratch/before" --check 1000 4
    # A sheet that would be refused is not posted.
    wrapped stopped examples/acceptance.c "$(instead bbp_look -7)" "$(instead bbp_sheet_post -3)"
    ends 1 "$scratch/stopped" 1000 4
    same "what is said of a sheet that would be refused" "$said" "look: refused 7: ticket marked already"
}

# quote_line WORD P TICKETS [ROW ..] - of all tickets of these rows, whatever C.
quote_line() { echo "$1quote: $(squarings_of "$2" 1 0 "${@:4}") squarings in $3 tickets"; }

# made_line WORD QUOTED TICKETS [SUPPLIED TICKETS] - of tickets that made what they were quoted at, and of those of sheets.
made_line() {
    echo "$1squarings: $2 made, $2 quoted in $3 tickets worked${4:+; $4 quoted in $5 tickets of sheets}"
}

# With C = 4 block 3 of each row comes on its sheet, and the others are worked: both have their lines in tests/vectors.txt.
run_lines() {
    local word=$1 p=$2 count=$3 supplied
    supplied=$(squarings_of "$p" 4 3)
    quote_line "$word" "$p" $((4 * count))
    made_line "$word" $(($(squarings_of "$p" 1 0) - supplied)) $((3 * count)) "$supplied" "$count"
}

# The quote before the work, and what was made of it; both quotes before either run.
billing() {
    local p halves bellard check
    for p in 1000 12345; do
        bellard=$(run_lines '' $p 7) check=$(check_rows run_lines 'check ' $p 4)
        for halves in '' --halves; do
            "$acceptance" $halves $p 4 >/dev/null 2>"$scratch/err"
            same "the first line of $halves $p" "$(head -n 1 "$scratch/err")" "${bellard%%$'\n'*}"
            same "the last line of $halves $p" "$(tail -n 1 "$scratch/err")" "${bellard#*$'\n'}"
            "$acceptance" $halves --check $p 4 >/dev/null 2>"$scratch/err"
            same "the quotes of --check $halves $p" "$(head -n 2 "$scratch/err")" \
                "${bellard%%$'\n'*}"$'\n'"${check%%$'\n'*}"
            same "the squarings of --check $halves $p" "$(grep squarings: "$scratch/err")" \
                "${bellard#*$'\n'}"$'\n'"${check#*$'\n'}"
        done
    done
    # Position 2^60, which no machine can work: the seven quotes of tests/vectors.txt come to this.
    ends 124 timeout 1 "$acceptance" 1152921504606846976
    same "the quote of position 2^60" "$billed" "quote: 193690812773950294528 squarings in 1792 tickets"
    ends 124 timeout 1 "$acceptance" --check 576460752303423488 4
    same "the check quote of position 2^59" "${billed#*$'\n'}" "check quote: 136044737543607946694 squarings in 16 tickets"
}

# Without sheets their part is left out; with them, both parts come to the quote.
billed_runs() {
    local p c made supplied
    for p in 1 17; do
        for c in 1 2; do
            prints 0 "$("$acceptance" $p 2>/dev/null)" "$acceptance" $p $c
            same "the squarings of $p $c" "$billed" \
                "$(quote_line '' $p $((7 * c)); made_line '' "$(squarings_of $p 1 0)" $((7 * c)))"
        done
    done
    for c in 4 8 128 256; do
        prints 0 "$line" "$acceptance" 1000 $c
        read -r _ made _ _ _ _ _ _ _ supplied _ <<<"${billed#*$'\n'}"
        same "all squarings of C = $c" $((made + supplied)) "$(squarings_of 1000 1 0)"
        same "the squarings of C = $c" "$billed" \
            "$(quote_line '' 1000 $((7 * c)); made_line '' $made $((7 * (c - c / 4))) $supplied $((7 * (c / 4))))"
    done
}

# The rows shown, with their own tickets alone. No term of row 0 reaches 128 at p = 1.
billed_rows() {
    "$acceptance" --check --keep "$ledger" 1000 4 >/dev/null 2>&1
    prints 0 "$(lines 1000)" "$acceptance" --rows "$ledger"
    same "the squarings of --rows" "$billed" "$(quote_line '' 1000 28; made_line '' "$(squarings_of 1000 1 0)" 28)"
    prints 0 "$(lines 1000 | sed -n '3p; 7p')" "$acceptance" --rows "$ledger" 6 2
    same "the squarings of two rows" "$billed" "$(quote_line '' 1000 8 2 6; made_line '' "$(squarings_of 1000 1 0 2 6)" 8)"
    prints 0 "$(check_rows lines 1000)" "$acceptance" --rows "$ledger.check"
    same "the squarings of check rows" "$billed" \
        "$(check_rows quote_line 'check ' 1000 16; made_line 'check ' "$(check_rows squarings_of 1000 1 0)" 16)"
    "$acceptance" --keep "$ledger" 1 2 >/dev/null 2>&1
    prints 0 "$(lines 1 | sed -n 1p)" "$acceptance" --rows "$ledger" 0
    same "no squarings" "$billed" "$(quote_line '' 1 2 0; made_line '' 0 2)"
    same "no squarings in tests/vectors.txt" "$(squarings_of 1 1 0 0)" 0
}

# wrong_bill CALL CHANGE OPTIONS OUTPUT WORD BILL - a call that spoils the squarings of a ticket ends the program before it
# closes, with the ledger kept.
wrong_bill() {
    wrapped billed examples/acceptance.c 'static int64_t given;' "$(instead "$1" "(given = $(call "$1"), $2, given)")"
    rm -f "$ledger" "$ledger.check"
    prints 1 "$4" "$scratch/billed" $3 --keep "$ledger" 1000 4
    same "what is said where $1 does $2" "$said" "$5squarings: not those that were quoted"
    same "the line where $1 does $2" "$(tail -n 1 <<<"$billed")" "$6"
    same "the ledger kept where $1 does $2" "$("$acceptance" --rows "$ledger${5:+.check}" 2>/dev/null | grep -c -v differs)" \
        "$(wc -w <<<"$rows")"
}

# One more in a ticket's squarings, and 2^64 more, beside what was quoted.
billed_wrong() {
    local one='row == 2 && block == 1' supplied quoted rest more=18446744073709551616
    supplied=$(squarings_of 1000 4 3) quoted=$(($(squarings_of 1000 1 0) - supplied))
    rest="quoted in 21 tickets worked; $supplied quoted in 7 tickets of sheets"
    wrong_bill bbp_work "squarings[0] += $one" '' '' '' "squarings: $((quoted + 1)) made, $quoted $rest"
    wrong_bill bbp_work "squarings[8] += $one" '' '' '' "squarings: ${more%??????}$((${more: -6} + quoted)) made, $quoted $rest"
    wrong_bill bbp_work_lower "squarings[0] += $one" --halves '' '' "squarings: $((quoted + 1)) made, $quoted $rest"
    wrong_bill bbp_work_upper "squarings[0] -= $one" --halves '' '' "squarings: $((quoted - 1)) made, $quoted $rest"
    wrong_bill bbp_quote "squarings[0] += $one" '' '' '' "squarings: $quoted made, $((quoted + 1)) $rest"
    supplied=$(check_rows squarings_of 1000 4 3) quoted=$(($(check_rows squarings_of 1000 1 0) - supplied))
    rest="quoted in 12 tickets worked; $supplied quoted in 4 tickets of sheets"
    check_rows wrong_bill bbp_check_work "squarings[0] += $one" --check "$line" 'check ' \
        "check squarings: $((quoted + 1)) made, $quoted $rest"
    "$acceptance" --keep "$ledger" 1000 4 >/dev/null 2>&1
    wrapped billed examples/acceptance.c 'static int64_t given;' \
        "$(instead bbp_work "(given = $(call bbp_work), squarings[0] += $one, given)")"
    prints 1 '' "$scratch/billed" --rows "$ledger"
    same "what --rows says of other squarings" "$said" "squarings: not those that were quoted"
}

# bar_parts - the parts that the bars of `said` show.
bar_parts() { grep -a -o '[0-9]*%' <<<"$said"; }

# On a terminal a bar shows that all is done once, at the end. The first bar is after the first ticket: at p = 17, C = 2 that has all
# squarings of its row and is one of 14 tickets.
bars() {
    local run options
    wrapped seen examples/acceptance.c '#include <unistd.h>' '#define isatty(file) 1'
    for run in '1 1' '1 2' '1 256' '17 2' '1000 1' '1000 2' '1000 4'; do
        for options in '' --halves; do
            prints 0 "$("$acceptance" $run 2>/dev/null)" "$scratch/seen" $options $run
            same "bars of $options $run that show all" "$(bar_parts | grep -c '^100%')" 1
            same "the last bar of $options $run" "$(bar_parts | tail -n 1)" 100%
        done
    done
    prints 0 "$("$acceptance" 17 2>/dev/null)" "$scratch/seen" 17 2
    same "the first bar of 17 2" "$(bar_parts | head -n 1)" \
        $((100 * $(squarings_of 17 2 0 0) / $(squarings_of 17 1 0)))%
    "$acceptance" --keep "$ledger" 1 2 >/dev/null 2>&1
    prints 0 "$(lines 1 | sed -n 1p)" "$scratch/seen" --rows "$ledger" 0
    same "the bars of no squarings" "$(bar_parts)" 100%
}

# The run without --check stays as it is, line and ledger; the check run's ledger is the one that docs/FORMATS.md shows.
checked() {
    local run options digits_1=243F6A8885A308D313198A2E03707 both_1 keep="--keep $ledger" kept=$scratch/kept
    both_1="1 30 ${digits_1}3"$'\n'"check 1 29 $digits_1"$'\nagree 29 digits'
    for run in 1 '1 1' '1 64' '1 256'; do prints 0 "$both_1" "$acceptance" --check $run; done
    for run in 1000 '1000 1' '1000 4' '1000 256'; do prints 0 "$both" "$acceptance" --check $run; done
    "$acceptance" --keep "$kept" 1 64 >/dev/null 2>&1
    for options in "--check $keep" "$keep --check" "--check --halves $keep" "--check $keep --halves" "--halves --check $keep" \
        "--halves $keep --check" "$keep --check --halves" "$keep --halves --check"; do
        rm -f "$ledger" "$ledger.check"
        prints 0 "$both_1" "$acceptance" $options 1 64
        same "what $options says" "$said" ""
        same "the ledger kept beside a check run" "$(cmp "$ledger" "$kept" 2>&1)" ""
        shown 'check ' "$ledger.check" 208
    done
    # Digits that only one of them settles are not compared.
    wrapped shorter examples/acceptance.c "$(instead bbp_close "$(call bbp_close) - 5")"
    prints 0 "1000 24 ${digits%????}"$'\n'"$check_line"$'\nagree 24 digits' "$scratch/shorter" --check 1000 4
    wrapped shorter examples/acceptance.c "$(instead bbp_check_close "$(call bbp_check_close) > 0")"
    prints 0 "$line"$'\ncheck 1000 1 3\nagree 1 digits' "$scratch/shorter" --check 1000 4
}

# Both runs are opened, and both files, before the work, which would not end.
before_the_work() {
    local p last=576460752303423488
    for p in 576460752303423489 1152921504606846976; do
        ends 1 timeout 60 "$acceptance" --check --keep "$scratch/new" $p
        same "what acceptance --check $p says" "$said" "check open: $out_of_range"
        ends 124 timeout 1 "$acceptance" $p
    done
    same "ledgers kept from a position that is refused" "$(ls "$scratch"/new* 2>/dev/null)" ""
    ends 124 timeout 1 "$acceptance" --check $last
    ends 1 timeout 60 "$acceptance" --check --keep "$scratch/none/ledger" $last
    same "what is said of a file that cannot be written" "${said%%:*}" "$scratch/none/ledger"
    mkdir "$scratch/folder.check"
    ends 1 timeout 60 "$acceptance" --check --keep "$scratch/folder" $last
    same "what is said of a check ledger's file that cannot be written" "$said" "$scratch/folder.check: Is a directory"
    ln -s /dev/full "$scratch/full_device.check"
    prints 1 "$line" "$acceptance" --check --keep "$scratch/full_device" 1000 4
    same "what is said of its full device" "$said" "$scratch/full_device.check: No space left on device"
}

# unsettled CALL SAID OUTPUT SIZES - a closing that is refused with 9; the sizes of the ledgers kept.
unsettled() {
    rm -f "$ledger" "$ledger.check"
    wrapped unsettled examples/acceptance.c "$(instead "$1" -9)"
    prints 1 "$3" "$scratch/unsettled" --check --keep "$ledger" 1000 4
    same "what is said of $1" "$said" "$2: refused 9: the total does not settle the first digit"
    same "the sizes of the ledgers kept" "$(stat -c %s "$ledger" "$ledger.check" 2>/dev/null | tr '\n' ' ')" "$4 "
}

# A folder with ledgers of both kinds, which an earlier run left, and those that the next run, 1000 4, is to keep.
folder=$scratch/older older=$scratch/older/ledger
older_ledgers() {
    rm -rf "$folder"
    mkdir "$folder"
    "$acceptance" --check --keep "$older" 1 16 >/dev/null 2>&1
    cp "$older" "$scratch/earlier"
    cp "$older.check" "$scratch/earlier.check"
    "$acceptance" --check --keep "$scratch/next" 1000 4 >/dev/null 2>&1
}

# kept_is WHAT RUN [CHECK_RUN] - both ledgers are those of the `earlier` or the `next` run, and nothing is beside them.
kept_is() {
    same "the ledger after $1" "$(cmp "$older" "$scratch/$2" 2>&1)" ""
    same "the check ledger after $1" "$(cmp "$older.check" "$scratch/${3:-$2}.check" 2>&1)" ""
    same "the files after $1" "$(ls -A "$folder" | tr '\n' ' ')" "ledger ledger.check "
}

is_quoted() { [ "$(grep -c quote: "$scratch/err")" -eq 2 ]; }

# A run that is killed at its work, and one that is killed when its ledger is to take the older one's place.
killed_runs() {
    local parent left
    older_ledgers
    "$acceptance" --check --keep "$older" 576460752303423488 >/dev/null 2>"$scratch/err" &
    parent=$!
    until_true is_quoted
    kill -KILL "$parent"
    wait "$parent" 2>/dev/null
    same "the status of a run that is killed" $? 137
    kept_is "a run that is killed" earlier
    wrapped killed examples/acceptance.c '#include <signal.h>' '#include <stdio.h>' '#define rename(from, to) raise(SIGKILL)'
    ends 137 bash -c '"$0" --check --keep "$1" 1000 4; exit $?' "$scratch/killed" "$older"
    left=$(find "$folder" -name '.kept-*')
    same "the file left by a run that is killed" "$(cmp "$left" "$scratch/next" 2>&1)" ""
    rm "$left"
    kept_is "a run that is killed before its ledger is in place" earlier
}

# A ledger that cannot be written whole or be put in the older one's place, and runs that end before.
failed_runs() {
    local keep="--check --keep $older"
    older_ledgers
    failing "$keep" "$older: No space left on device" '#define write(file, bytes, len) (errno = ENOSPC, (ssize_t)-1)'
    kept_is "a write that fails" earlier
    failing "$keep" "$older: No space left on device" \
        '#define write(file, bytes, len) (len < 352 ? (errno = ENOSPC, (ssize_t)-1) : write(file, bytes, 100))'
    kept_is "a second write that fails" earlier
    failing "$keep" "$older: Input/output error" '#define fsync(file) (errno = EIO, -1)'
    kept_is "a disk that fails" earlier
    failing "$keep" "$older: Operation not permitted" '#define rename(from, to) (errno = EPERM, -1)'
    kept_is "a file that cannot be replaced" earlier
    # No file may grow, as on a full disk.
    same "what is said where no file may grow" \
        "$( (trap '' XFSZ; ulimit -f 0; exec "$acceptance" $keep 1000 4 2>&1) | tail -n 1)" "$older: File too large"
    kept_is "a run where no file may grow" earlier
    ends 2 "$acceptance" $keep 1000 x
    ends 1 "$acceptance" $keep 1000 257
    kept_is "refused arguments" earlier
    refusing examples/acceptance.c bbp_work $keep 1000 4
    kept_is "a refused call" earlier
    wrapped refusing examples/acceptance.c "$(instead bbp_check_work -7)"
    prints 1 "$line" "$scratch/refusing" $keep 1000 4
    kept_is "a refused call of the check run" next earlier
}

# Permissions are those of a new file. A name that is taken is left alone, a short write goes on, and the name may have the
# greatest length.
replaced_ledgers() {
    local long program
    older_ledgers
    chmod 600 "$older" "$older.check"
    (umask 027; "$acceptance" --check --keep "$older" 1000 4 >/dev/null 2>&1)
    kept_is "a run" next
    same "the permissions of the ledgers kept" "$(stat -c %a "$older" "$older.check" | tr '\n' ' ')" "640 640 "
    older_ledgers
    echo other >"$folder/.kept-7-0"
    wrapped taken examples/acceptance.c '#include <unistd.h>' '#define getpid() 7' \
        '#define write(file, bytes, len) write(file, bytes, (len) < 100 ? (len) : 100)'
    prints 0 "$both" "$scratch/taken" --check --keep "$older" 1000 4
    same "the file of another run" "$(cat "$folder/.kept-7-0")" other
    rm "$folder/.kept-7-0"
    kept_is "a run beside another" next
    long=$(printf 'x%.0s' $(seq 255)) program=$(realpath "$acceptance")
    (cd "$folder" && "$program" --keep "$long" 1000 4 >/dev/null 2>&1)
    same "the ledger under a long name" "$(cmp "$folder/$long" "$scratch/next" 2>&1)" ""
}

# The file that a link leads to is replaced, and not the link. A pipe or a device is written itself.
links_and_devices() {
    local links=$scratch/links
    older_ledgers
    mkdir "$links"
    ln -s ../older/ledger "$links/link"
    ln -s ../older/ledger.check "$links/link.check"
    prints 0 "$both" "$acceptance" --check --keep "$links/link" 1000 4
    kept_is "a run by links" next
    same "the links" "$(find "$links" -type l | wc -l) $(ls -A "$links" | wc -l)" "2 2"
    mkfifo "$scratch/pipe"
    cat "$scratch/pipe" >"$scratch/piped" &
    prints 0 "$line" "$acceptance" --keep "$scratch/pipe" 1000 4
    wait $!
    same "the ledger by a pipe" "$(cmp "$scratch/piped" "$scratch/next" 2>&1)" ""
    same "the pipe" "$(find "$scratch/pipe" -type p)" "$scratch/pipe"
    same "the ledger and the line by one pipe" "$("$acceptance" --keep /dev/stdout 1000 4 2>/dev/null | cksum)" \
        "$({ cat "$scratch/next"; echo "$line"; } | cksum)"
}

# Known before the work, which would not end.
refused_files() {
    local file last=1152921504606846976
    ends 1 timeout 60 "$acceptance" --keep '' $last
    same "what is said of no name" "$said" "No such file or directory"
    ln -s none "$scratch/nowhere"
    ends 1 timeout 60 "$acceptance" --keep "$scratch/nowhere" $last
    same "what is said of a link that leads nowhere" "$said" "$scratch/nowhere: No such file or directory"
    for file in "$scratch/out" "$scratch/err" /dev/stdout /dev/stderr; do
        ends 1 timeout 60 "$acceptance" --keep "$file" $last
        same "what is said of $file" "$said" "$file: standard output or standard error goes there"
    done
    # A file that can be written, in a folder that cannot; then a ledger that may not be written, unless by root.
    ends 1 timeout 60 "$acceptance" --keep /proc/self/comm $last
    same "what is said of a folder that cannot be written" "${said%%:*}" /proc/self/comm
    older_ledgers
    chmod 444 "$older"
    if [ ! -w "$older" ]; then
        ends 1 timeout 60 "$acceptance" --keep "$older" $last
        same "what is said of a ledger that may not be written" "$said" "$older: Permission denied"
    fi
}

# No file gets the number of a standard descriptor that is closed. Messages that cannot be written change no status.
closed_descriptors() {
    local options
    for options in '' --halves; do
        older_ledgers
        same "a run without standard error" \
            "$("$acceptance" $options --check --keep "$older" 1000 4 2>&-; echo "status $?")" "$both"$'\nstatus 0'
        kept_is "a run without standard error" next
        older_ledgers
        "$acceptance" $options --check --keep "$older" 1000 4 <&- >&- 2>&-
        same "the status of a run without standard descriptors" $? 1
        kept_is "a run without standard descriptors" next earlier
    done
    same "a run with standard error on a full device" "$("$acceptance" 1000 4 2>/dev/full; echo "status $?")" "$line"$'\nstatus 0'
    "$acceptance" --keep /dev/stderr 1000 4 >/dev/null 2>&-
    same "the status where the ledger goes to standard error, which is closed" $? 1
    "$acceptance" --rows - <&- >"$scratch/out" 2>&1
    same "the status without standard input" $? 1
    same "what is said without standard input" "$(cat "$scratch/out")" "-: Is a directory"
}

# A line that cannot be written ends the program, also the second and the third.
unwritable_lines() {
    local wanted
    for wanted in 1 2 3; do
        wrapped unwritable examples/acceptance.c '#include <stdio.h>' 'static int lines;' \
            "#define fflush(file) (++lines == $wanted ? fflush(file), EOF : fflush(file))"
        "$scratch/unwritable" --check 1000 4 >"$scratch/out" 2>/dev/null
        same "the status where line $wanted cannot be written" $? 1
        same "the lines written" "$(wc -l <"$scratch/out")" $wanted
    done
    unwritable "$acceptance" --check 1000 2
}

# Each call that works notes its kind; one that reads or posts is refused where the last that worked was of the other.
apart() {
    local kind calls call lines=('static int worked;')
    for kind in 0 1; do
        calls=(bbp_ bbp_check_)
        for call in work work_lower sheet_write; do
            call=${calls[kind]}$call
            lines+=("$(instead "$call" "(worked = $kind, $(call "$call"))")")
        done
        for call in post sheet_read sheet_post; do
            call=${calls[kind]}$call
            lines+=("$(instead "$call" "worked == $kind ? $(call "$call") : -3")")
        done
    done
    wrapped apart examples/acceptance.c "${lines[@]}"
    prints 0 "$both" "$scratch/apart" --check 1000 4
    prints 0 "$both" "$scratch/apart" --check --halves 1000 4
}

# differing KIND ROW STATUS OUTPUT CODE - a run at 1,000 built with that code, which spoils a sum of the row in a ledger of
# that kind as it is posted: what is printed, and that this row of this ledger alone differs.
differing() {
    local row=$2 right=$ledger wrong=$ledger.check rows_right=lines rows_wrong='check_rows lines'
    if [ "$1" = bellard ]; then
        right=$ledger.check wrong=$ledger rows_right='check_rows lines' rows_wrong=lines
    fi
    wrapped differing examples/acceptance.c "$5"
    prints "$3" "$4" "$scratch/differing" --check --keep "$ledger" 1000 4
    prints 0 "$($rows_right 1000)" "$acceptance" --rows "$right"
    prints 3 "$($rows_wrong 1000 "$row" "$(sum_in "$wrong" "$row")")" "$acceptance" --rows "$wrong"
}

# sum_in LEDGER ROW - in hexadecimal, the highest digit first.
sum_in() { od -An -v -tx1 -w1 -j $((16 + 16 * $2)) -N 16 "$1" | tac | tr -d ' \n'; }

# Blocks 1 and 3 as in spoiled_ledgers. Byte 15 of a sum has digits 1 and 2, byte 13 digits 5 and 6, byte 2 digits 27 and 28.
differing_runs() {
    local one='row == 1 && block == 1'
    differing check 1 4 "$line"$'\n'"check 1000 28 B${digits#3}"$'\ndiffer at digit 1' \
        "$(changed bbp_check_post sum "[15] ^= 128 * ($one)")"
    differing check 2 4 "$line"$'\n'"check 1000 28 B${digits#3}"$'\ndiffer at digit 1' \
        "$(changed bbp_check_sheet_post sheet "[35] ^= 128 * (sheet[16] == 2)")"
    differing check 1 4 "$line"$'\n'"check 1000 28 ${digits/1C/1D}"$'\ndiffer at digit 6' \
        "$(changed bbp_check_post sum "[13] += $one")"
    differing check 3 4 "$line"$'\n'"check 1000 28 ${digits%D}E"$'\ndiffer at digit 28' \
        "$(changed bbp_check_sheet_post sheet "[22] += sheet[16] == 3")"
    differing check 0 0 "$both" "$(changed bbp_check_post sum "[0] += row == 0 && block == 1")"
    differing bellard 1 4 "1000 29 B${digits#3}4"$'\n'"$check_line"$'\ndiffer at digit 1' \
        "$(changed bbp_post sum "[15] ^= 128 * ($one)")"
    # The digit after those that both have.
    differing bellard 1 0 "1000 29 ${digits}5"$'\n'"$check_line"$'\nagree 28 digits' \
        "$(changed bbp_post sum "[1] += 16 * ($one)")"
}

# The ledger of version 1.0.0 with every ticket of p = 1, C = 1 posted and total 50.
old_ledger() {
    head -c 16 "$1"
    printf 2
    head -c 15 /dev/zero
    tail -c 224 "$1"
}

refused_ledgers() {
    local full=$scratch/full size byte
    "$acceptance" --keep "$full" 1 1 >/dev/null 2>&1
    for size in 0 1 256 351; do
        head -c $size "$full" >"$ledger"
        ends 1 "$acceptance" --rows "$ledger"
        same "what is said of $size bytes" "$said" "$ledger: refused 1: $wrong_size"
    done
    { cat "$full"; printf '\0'; } >"$ledger"
    ends 1 "$acceptance" --rows "$ledger"
    same "what is said of 353 bytes" "$said" "$ledger: refused 1: $wrong_size"
    old_ledger "$full" >"$ledger"
    same "the size of an old ledger" "$(wc -c <"$ledger")" 256
    ends 1 "$acceptance" --rows "$ledger"
    same "what is said of an old ledger" "$said" "$ledger: refused 1: $wrong_size"
    ends 1 "$acceptance" --rows - </dev/null
    same "what is said of no input" "$said" "-: refused 1: $wrong_size"
    # The position, the block count, zero bytes, marks of block 8.
    for byte in 0 8 10 15 129 321; do
        cp "$full" "$ledger"
        flip "$ledger" $byte
        ends 1 "$acceptance" --rows "$ledger" 3
        same "what is said of byte $byte" "$said" "$ledger: refused 5: ledger not in order"
    done
    ends 1 "$acceptance" --rows "$scratch/none"
    same "what is said of a file that is not there" "$said" "$scratch/none: No such file or directory"
    ends 1 "$acceptance" --rows "$scratch"
    same "what is said of a file that cannot be read" "$said" "$scratch: Is a directory"
}

# The rows of a check ledger, which is known by its size.
check_ledgers() {
    local check=$ledger.check none=00000000000000000000000000000000 run row
    for run in '1 1' '1 64' '1 256' '1000 1' '1000 4'; do
        "$acceptance" --check --keep "$ledger" $run >/dev/null 2>&1
        prints 0 "$(check_rows lines ${run% *})" "$acceptance" --rows "$check"
    done
    same "--rows of standard input" "$("$acceptance" --rows - <"$check" 2>/dev/null)" "$(check_rows lines 1000)"
    prints 0 "$(check_rows lines 1000 | sed -n '1p; 4p')" "$acceptance" --rows "$check" 3 0
    for row in 4 6 7; do
        ends 2 "$acceptance" --rows "$check" "$row"
        same "what is said of row $row" "$said" "row above 3: $row"
    done
    ends 2 "$acceptance" --rows "$check" 3 0 3
    same "what is said of row 3 twice" "$said" "row named twice: 3"
    unwritable "$acceptance" --rows "$check"
    # All marked, every sum 0.
    dd if=/dev/zero of="$check" bs=16 seek=1 count=4 conv=notrunc status=none
    prints 3 "$(check_rows lines 1000 | sed "s/ledger [0-9a-f]*/ledger $none/; s/\$/ differs/")" "$acceptance" --rows "$check"
    # Position 2^59, C = 1, row 3 marked: that ticket would not end.
    { printf '\0\0\0\0\0\0\0\10\1'; head -c 167 /dev/zero; printf '\1'; head -c 31 /dev/zero; } >"$check"
    prints 0 "row 2 ledger $none worked $none" timeout 60 "$acceptance" --rows "$check" 2
    ends 124 timeout 1 "$acceptance" --rows "$check" 3
    same "the quote of that ticket" "$billed" \
        "check quote: $(number_of check-squarings 576460752303423488 3) squarings in 1 tickets"
    # One position more.
    printf '\1' | dd of="$check" bs=1 conv=notrunc status=none
    ends 1 "$acceptance" --rows "$check" 2
    same "what is said of position 2^59 + 1" "$said" "$check: refused 5: ledger not in order"
}

# refused_calls PREFIX WORD LEDGER - each call of the kind is refused in turn, and --rows says which.
refused_calls() {
    local call
    for call in quote work post; do
        refusing examples/acceptance.c "bbp_$1$call" --rows "$3"
        same "what --rows says of $2$call" "$said" "$2$call: refused 7: ticket marked already"
    done
    refusing examples/acceptance.c "bbp_$1close" --rows "$3"
    same "what --rows says of $2close" "$said" "$3: refused 7: ticket marked already"
}

refused_check_ledgers() {
    local full=$scratch/full check=$scratch/check size byte
    "$acceptance" --check --keep "$full" 1 1 >/dev/null 2>&1
    for size in 207 209; do
        { cat "$full.check"; printf '\0'; } | head -c $size >"$check"
        ends 1 "$acceptance" --rows "$check"
        same "what is said of $size bytes" "$said" "$check: refused 1: $wrong_size"
    done
    # The position, the block count, zero bytes, marks of block 8 in the first and in the last row.
    for byte in 0 8 10 15 81 177; do
        cp "$full.check" "$check"
        flip "$check" $byte
        ends 1 "$acceptance" --rows "$check"
        same "what is said of byte $byte" "$said" "$check: refused 5: ledger not in order"
    done
    head -c 208 "$full" >"$check"
    ends 1 "$acceptance" --rows "$check"
    same "what is said of 208 bytes of the other kind" "$said" "$check: refused 5: ledger not in order"
    refused_calls check_ 'check ' "$full.check"
}

# 2^64 + 3 would be 3 in 64 bits.
bad_rows() {
    local full=$scratch/full word
    for word in '' x 3x ' 3' +3 -3 3.0 0x3 3,4 18446744073709551616 18446744073709551619; do
        ends 2 "$acceptance" --rows "$full" "$word"
        same "what is said of row '$word'" "$said" "not a number of at most 64 bits: $word"
        ends 2 "$acceptance" --rows "$full" 0 "$word"
    done
    for word in 7 8 256 18446744073709551615; do
        ends 2 "$acceptance" --rows "$full" 6 "$word"
        same "what is said of row $word" "$said" "row above 6: $word"
    done
    ends 2 "$acceptance" --rows "$full" 3 0 3
    same "what is said of row 3 twice" "$said" "row named twice: 3"
    refused_calls '' '' "$full"
}

looking
halves
keeping
checked
before_the_work
unsettled bbp_close close "" 352
unsettled bbp_check_close "check close" "$line" "352 208"
killed_runs
failed_runs
replaced_ledgers
links_and_devices
refused_files
closed_descriptors
unwritable_lines
apart
billing
billed_runs
billed_rows
billed_wrong
bars
full_ledgers
kept_ledgers
spoiled_ledgers
differing_runs
check_ledgers
unfinished_ledgers
refused_ledgers
refused_check_ledgers
bad_rows
echo "examples: $checks checks"
