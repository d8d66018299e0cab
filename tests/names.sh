#!/usr/bin/env bash
# names.sh DOCUMENT.. - what the documents cite is there: paths, functions with their modules, definitions, theorems and
# their fields, must-fail edits, mutants, names in C, options, make targets (names.awk). All that is missing is said, a line
# for each with the document and its line. Then copies of the first document that are damaged in one way each have to fail.
set -u
name=names
. "$(dirname "$0")/checks.sh"

find . \( -name .git -o -path ./build -o -path './crates/*/out' -o -path ./published \) -prune -o -type f -print |
    sed 's/^\.\///' >"$scratch/files"

# of FOLDER PATTERN - the files of that name below the folder. What is in the proof of a single function is not cited.
of() {
    find "$1" -name out -prune -o -path '*/proofs/*' \( -name Proof.antt -o -name Answers.antt -o -name Invariants.antt \) -prune \
        -o -name "$2" -print
}

# asked DOCUMENT.. - prints the number of checks, or on standard error all that fail.
asked() {
    LC_ALL=C awk -f tests/names.awk -v base=docs part=files "$scratch/files" part=antt $(of crates '*.antt') \
        part=rt $(of crates '*.rt') part=c $(of tests '*.[ch]') examples/*.[ch] tools/*.c bench/*.[ch] \
        part=header include/bbp.h part=sh $(of tests '*.sh') part=make Makefile part=mutants tests/mutants/list.txt \
        part=figures tests/vectors.txt crates/vectors/stdout part=document "$@"
}

count=$(asked "$@") || exit 1
checks=$count
document=$1
copy=$scratch/copy
lines=$(wc -l <"$document")
mutants=$(sed -n 's/^\([0-9]*\) .*/\1/p' tests/mutants/list.txt | sort -n | tail -n 1)

# damaged PATTERN TEXT SAYING - the copy fails where the first piece that fits the pattern is replaced, and says so.
damaged() {
    sed -E "0,/$1/s//$2/" "$document" >"$copy"
    same "whether the copy is changed at $1" "$(cmp -s "$copy" "$document"; echo $?)" 1
    ends 1 asked "$copy"
    case $said in *"$3"*) said=$3 ;; esac
    same "what is said of a damaged copy" "$said" "$3"
}

# with LINE SAYING.. - the copy fails with this line at its end, and these are all that it says.
with() {
    { cat "$document"; echo "$1"; } >"$copy"
    ends 1 asked "$copy"
    same "what is said of $1" "$said" "$(printf "names: $copy:$((lines + 1)): %s\n" "${@:2}")"
}

# taken LINE - the copy passes with this line at its end.
taken() {
    { cat "$document"; echo "$1"; } >"$copy"
    asked "$copy" >/dev/null
    same "the status with $1" $? 0
}

prints 0 "$count" asked "$@"

# Pieces of the document.
damaged '`[a-z_]+\/S\/[A-Za-z]+\.antt`' '`series\/S\/Nowhere.antt`' '`series/S/Nowhere.antt`: no file or folder'
damaged 'edits? `([a-z_]+\/[a-z0-9_]+)`' 'edit `\1_no_more`' '_no_more`: no file, folder or must-fail edit'
damaged 'mutant [0-9]+' "mutant $((mutants + 1))" "\`mutant $((mutants + 1))\`: not in the list"
damaged 'mutants ([0-9]+) to [0-9]+' "mutants \1 to $((mutants + 1))" "\`mutant $((mutants + 1))\`: not in the list"
damaged '(mutants [0-9]+, )[0-9]+' '\199999' '`mutant 99999`: not in the list'
damaged '`([a-z]+_[a-z_]+)`' '`\1_misspelt`' '_misspelt`: not '
damaged 'proved by `([a-z]+_[a-z_]+)`' 'proved by `\1_misspelt`' '_misspelt`: not '
damaged '`([A-Z][A-Za-z]+)\.[a-z_]+`' '`\1.misspelt`' '.misspelt`: no member of '
damaged '`([a-z_]+::[a-z_]+)`' '`\1_misspelt`' '_misspelt`: not in '
damaged '`(bbp_[a-z_]+)`' '`\1_misspelt`' '_misspelt`: not in the header'
damaged '`tests\/([a-z_]+)\.sh`' '`tests\/\1_no_more.sh`' '_no_more.sh`: no file or folder'

# Lines more: paths and links.
with '`docs/NOWHERE.md`' '`docs/NOWHERE.md`: no file or folder'
with '`words/P/Nowhere.antt` `nonesuch`' '`words/P/Nowhere.antt`: no file or folder' '`nonesuch`: not defined'
with '`engine/src/*.c`' '`engine/src/*.c`: no file or folder'
with '`tests/test_CALL.rt`' '`tests/test_CALL.rt`: no file or folder'
with '`nowhere.c`' '`nowhere.c`: no file of that name'
with '`nowhere/`' '`nowhere/`: no file or folder'
with 'see docs/NOWHERE.md.' '`docs/NOWHERE.md`: no file or folder'
with '[here](NOWHERE.md#place)' '`NOWHERE.md#place`: a link that leads nowhere'
with '[`bbp_look`](../include/none.h)' '`../include/none.h`: a link that leads nowhere'
with '[`finished`](../include/bbp.h)' '`finished`: not in include/bbp.h'
taken '[`bbp_look`](../include/bbp.h), [there](https://example.org/), `src/`, `tests/test_CALL.c`, `bbp.h`, `include/`'

# Names, and where they are.
with '`nonesuch`' '`nonesuch`: not defined'
with '`include/bbp.h` `finished`' '`finished`: not in include/bbp.h'
with '`include/bbp.h`: `bbp_look`, `finished`' '`finished`: not in include/bbp.h'
with '`finished`, `number` in `include/bbp.h`' '`finished`: not in include/bbp.h' '`number`: not in include/bbp.h'
with '`bbp_look` (`words/src/lib.rt`)' '`bbp_look`: not in crates/words/src/lib.rt'
with '`engine` and `bbp_nonesuch`' '`bbp_nonesuch`: not in the header'
with '`bbp_nonesuch_`' '`bbp_nonesuch_`: in no name of the header'
with '`nonesuch-`' '`nonesuch-`: begins no line of figures'
with 'no `bbp_look`' '`bbp_look`: said not to be there, and is'
with '`test_nonesuch`' '`test_nonesuch`: not defined'
taken 'no `bbp_nonesuch`; `include/bbp.h` `bbp_look`, `BBP_ROWS`; `finished` in `examples/program.h`; `bbp_check_`; `check-`'
taken '`acceptance`, `test_check_close`, `tests/test_check_CALL`, `CALLS`, `engine`'

# Functions and members.
with '`words::nonesuch`' '`words::nonesuch`: not in words'
with '`nonesuch::add`' '`nonesuch::add`: no module or type nonesuch'
with '`words::add`, `nonesuch`' '`nonesuch`: not in words'
with '`words::add`, `finished`' '`finished`: not in words'
with '`words::add`, `nonesuch::add`' '`nonesuch::add`: no module or type nonesuch'
with '`words` `Series::Nonesuch`' '`Series::Nonesuch`: no module or type Series'
with '`montgomery::Modulus::new`' '`montgomery::Modulus::new`: no module or type montgomery::Modulus'
with '`ledger::marks::Ledger::count`' '`ledger::marks::Ledger::count`: no module or type ledger::marks::Ledger'
with '`montgomery::Counted::squarings`' '`montgomery::Counted::squarings`: no module or type montgomery::Counted'
with '`Modulus::valid`' '`Modulus::valid`: no module or type Modulus'
with '`Nonesuch.field`' '`Nonesuch.field`: no record, struct or enum Nonesuch'
with '`Wide.hi`, `.nonesuch`' '`.nonesuch`: no member of Wide'
with '`Wide.ghost`' '`Wide.ghost`: no member of Wide'
with '`add nonesuch`' '`add nonesuch`: nonesuch is not defined'
with '`add.nonesuch 7`' '`add.nonesuch 7`: no member .nonesuch'
with '`add.nonesuch`' '`add.nonesuch`: no member .nonesuch'
with '`nonesuch.lo`' '`nonesuch.lo`: nonesuch is not defined'
taken '`words::add`; `Wide.hi`, `.lo`; `Series::Check`; `add 7 add.lo`; `check.last`'
taken '`montgomery::modulus::Modulus::new`, `Modulus::new`, `Modulus.valid`, `ledger::Ledger::count`, `words::Wide::ZERO`'

# Other shapes, and several at once.
with '`make nonesuch`' '`make nonesuch`: no target of the Makefile'
with '`rt ci nonesuch`' '`rt ci nonesuch`: no such crate'
with '`refused 99`' '`refused 99`: no refusal of the header'
with '`--nonesuch`' '`--nonesuch`: no option'
with '`acceptance --nonesuch 1`' '`acceptance --nonesuch 1`: no option of examples/acceptance.c'
with '`examples/acceptance.c` `--keep`, `--nonesuch`' '`--nonesuch`: no option of examples/acceptance.c'
with '`nonesuch --keep`' '`nonesuch --keep`: no option of tools/nonesuch.c'
with '`x <<< nonesuch`' '`x <<< nonesuch`: not in the sources'
with '``' '``: not in the sources'
with '`bbp_look` `' '``: a backtick that is not closed'
with 'mutants 1 (one), 99999 and 1 to 2' '`mutant 99999`: not in the list'
with '`nonesuch`, `bbp_look`, `unheard` and mutant 99999' '`nonesuch`: not defined' '`unheard`: not defined' \
    '`mutant 99999`: not in the list'
taken '`make check SEED=7`, `rt ci words`, `refused 9`, `acceptance --rows FILE`, `&[u8]`, `P/`, `tests/vectors.txt` `add`'
taken 'mutants 1, 2 (two), 3 to 5 and 6; see docs/FORMATS.md.'
taken $'```\n`nonesuch`\n```'

echo "names: $checks checks"
