#!/usr/bin/env bash
# exports.sh CRATES HEADER SYMBOL.. - no exported function is forgotten. The functions that the engine's sources export, the
# requests, the header's declarations and the symbols named are compared, both ways. A contract asks nothing and has one
# `ensures`: that the function serves its request by the formula of its name, with every parameter and every slice lent, to be
# written or to be read. Then the comparison is tried on copies that are damaged in one way each, and has to tell it.
set -u
crates=$1
header=$2
shift 2
name=exports
. "$(dirname "$0")/checks.sh"

# The definitions that the contracts and the requests go by.
crate=calls
requests=$crate/specs/Request.antt
imported=Rattle.$crate.specs.Request
data=Request
serves=Serves
call_of=call_of
to_write=lent_to_write
to_read=lent_to_read
bellard=bellard
check=check

# compared CRATES HEADER SYMBOL.. - prints the number of checks, or on standard error the first that fails.
compared() {
    local crates=$1 header=$2
    shift 2
    ${CC:-gcc} -E -P "$header" -o "$scratch/header.i" || return 2
    LC_ALL=C awk -f tests/exports.awk -v symbols="$*" -v data="$data" -v serves="$serves" -v call_of="$call_of" \
        -v to_write="$to_write" -v to_read="$to_read" -v from="$imported" \
        -v bellard_formula="$bellard" -v check_formula="$check" part=engine $(find "$crates/engine/src" -name '*.rt') \
        part=other $(find "$crates" \( -name out -o -path "$crates/engine" \) -prune -o -path '*/src/*.rt' -print) \
        part=requests "$crates/$requests" part=header "$scratch/header.i"
}

# copied - makes the copies anew.
copied() {
    rm -rf "$scratch/crates"
    mkdir -p "$scratch/crates/engine" "$scratch/crates/$crate"
    cp -r "$crates/engine/src" "$scratch/crates/engine"
    cp -r "$crates/$crate/src" "$crates/$crate/specs" "$scratch/crates/$crate"
    cp "$header" "$scratch/bbp.h"
}

# told SAYING SYMBOL.. - the comparison of the copies fails, and says so.
told() {
    local saying=$1
    shift
    ends 1 compared "$scratch/crates" "$scratch/bbp.h" "$@"
    case $said in *"$saying"*) said=$saying ;; esac
    same "what is said of a damaged copy" "$said" "$saying"
}

# damaged FILES EDIT SAYING - the same after an edit by sed of these files of the copies.
damaged() {
    copied
    sed -i -E "$2" "$scratch"/$1
    told "$3" "${symbols[@]}"
}

# in_sources EDIT SAYING, in_requests EDIT SAYING, in_header EDIT SAYING
in_sources() { damaged 'crates/engine/src/*.rt' "$@"; }
in_requests() { damaged "crates/$requests" "$@"; }
in_header() { damaged bbp.h "$@"; }

# in_function FUNCTION EDIT SAYING - the edit is of that function, from its name up to its body.
in_function() { in_sources "/fn $1(<'a>)?\(/,/^\{/{ $2 }" "$1: $3"; }

symbols=("$@")
count=$(compared "$crates" "$header" "$@") || exit 1
checks=$count
copied
prints 0 "$count" compared "$scratch/crates" "$scratch/bbp.h" "$@"

# Contracts.
in_function bbp_close "s/$serves $bellard/Otherwise $bellard/" "a contract that does not go by $serves"
in_function bbp_close "s/\{ .* \}/{ ⊤ }/" "a contract that does not go by $serves"
in_sources "/$imported/s/, $serves\}/}/; /$imported/s/\$/\nghost use Rattle.other.specs.Request.{$serves};/" \
    "$serves: of Rattle.other.specs.Request, not of $imported"
in_requests "s/\($call_of F q\)/(other F q)/" "$serves: does not go by $call_of F q"
in_function bbp_close "s/^ *ensures/    requires { ⊤ }\n&/" "a clause other than ensures: requires"
in_function bbp_close "s/^ *ensures/    ensures more { ⊤ }\n&/" "2 ensures, not one"
in_function bbp_close "s/^ *ensures/    decreases p\n&/" "neither a clause nor a body: decreases p"
in_function bbp_close "/ensures/p" "2 ensures, not one"
in_function bbp_close "/ensures/d" "0 ensures, not one"
in_function bbp_close "s/$serves $bellard/$serves $check/" "formula $check, not $bellard"
in_function bbp_check_close "s/$serves $check/$serves $bellard/" "formula $bellard, not $check"
in_function bbp_close "s/($bellard \()[A-Za-z]+/\1request/" "neither formula nor request: $bellard (request"
in_function bbp_close "s/($bellard \()[A-Za-z]+/\1Unknown/" "Unknown is no constructor of $data"
in_sources "/fn bbp_quote/,/^\{/s/($bellard \([A-Za-z]+) [A-Za-z]+/\1/" "bbp_quote_lower: the request of bbp_quote, $bellard "

# Parameters and slices.
in_function bbp_sheet_read "s/list\.new ∷ //" "slices (sums.new ∷ []) (sheet.now ∷ []), not"
in_function bbp_sheet_read "s/list\.new ∷ sums/sums.new ∷ list/" "slices (sums.new ∷ list.new ∷ []) (sheet.now "
in_function bbp_sheet_read "s/sums\.new/sums.old/" "slices (list.new ∷ sums.old ∷ []) (sheet.now "
in_function bbp_sheet_read "s/sheet: &/&mut /" "arguments sheet.now list.old sums.old, not"
in_function bbp_sheet_read "s/sheet: &/&mut /; s/sheet\.now list/sheet.old list/" \
    "slices (list.new ∷ sums.new ∷ []) (sheet.now ∷ []), not"
in_function bbp_sheet_read "s/ \(sheet\.now ∷ \[\]\)/ []/" "slices (list.new ∷ sums.new ∷ []) [], not"
in_function bbp_sheet_read "s/ sums\.old//" "arguments sheet.now list.old, not"
in_function bbp_sheet_read "s/sheet\.now list\.old/list.old sheet.now/" "arguments list.old sheet.now sums.old, not"
in_function bbp_post "s/ row block/ block row/" "arguments ledger.old p c block row "
in_function bbp_post "s/ row block/ row 0/" "arguments ledger.old p c row 0 "
in_function bbp_book_withdraw "s/ledger\.old book\.old/book.old ledger.old/" \
    "arguments book.old ledger.old p c row block, not"
in_function bbp_book_withdraw "s/ ∷ book\.new//" "slices (ledger.new ∷ []) [], not"
in_function bbp_standing_sheet "s/ ∷ book\.now//" "slices (sheet.new ∷ []) (ledger.now ∷ []), not"
in_function bbp_standing_sheet "s/book: &/&mut /" "arguments ledger.now book.now sheet.old, not"
in_function bbp_standing_sheet "s/book: &/&mut /; s/book\.now sheet/book.old sheet/" \
    "slices (sheet.new ∷ []) (ledger.now ∷ book.now ∷ []), not"
in_function bbp_overlap "s/\.now first_p/.now p/" "arguments first.now p second.now second_p, not"
in_function bbp_overlap_part "s/\.now second_p/.now first_p/" "arguments first.now first_p second.now first_p "
in_function bbp_overlap_part "s/ second\.now second_p/ second_p/" "arguments first.now first_p second_p part.old, not"
in_function bbp_overlap_part "s/second: &'a \[u8\]/second: \&'a [u16]/" "the parameter second: &[u16]"
in_function bbp_overlap_part "s/second\.now ∷ //" "slices (part.new ∷ []) (first.now ∷ []), not"
in_function bbp_open "s/p: u64/p: u32/" "the parameter p: u32"
in_function bbp_open "s/-> i64/-> i32/" "not a function that answers an i64"

# Exports.
in_sources "/fn bbp_close\(/s/pub //" "#[unsafe(no_mangle)] without pub extern \"C\" fn: extern \"C\" fn bbp_close"
in_sources "/fn bbp_close\(/s/extern \"C\" //" "#[unsafe(no_mangle)] without pub extern \"C\" fn: pub fn bbp_close"
in_sources "/no_mangle/{ N; /fn bbp_close\(/s/.*\n// }" "extern \"C\" fn bbp_close: without #[unsafe(no_mangle)]"
in_sources "/no_mangle/{ N; /fn bbp_close\(/s/unsafe\(no_mangle\)/no_mangle/ }" \
    "extern \"C\" fn bbp_close: without #[unsafe(no_mangle)]"
damaged crates/engine/src/lib.rt "\$s/\$/\n#[unsafe(no_mangle)]\npub extern \"C\" fn bbp_extra(p: u64) -> i64\n{\n    0\n}/" \
    "bbp_extra: 0 ensures, not one"
damaged "crates/$crate/src/lib.rt" "\$s/\$/\n#[unsafe(no_mangle)]/" \
    "crates/$crate/src/lib.rt: a function is exported outside the engine"

# Requests.
in_requests "s/^(pub )?data $data .*/&\n  Extra : (p : ℕ) → $data/
    \$s/\$/\n$call_of F (Extra p) = p\n$to_write (Extra p) = []\n$to_read (Extra p) = []/" "Extra: no exported function asks it"
in_requests "\$s/\$/\n$call_of F (Extra p) = p/" "$call_of: a line for what is no constructor of $data"
in_requests "\$s/\$/\n$to_write q = []/" "$to_write: a line for what is no constructor of $data"
in_requests "0,/^$call_of F /{ //d }" "$call_of: 0 lines for "
in_requests "0,/^$to_write \(/{ //p }" "$to_write: 2 lines for "
in_requests "0,/^$to_read \(/{ //d }" "$to_read: 0 lines for "

# The header and the list.
in_header "/^int64_t bbp_close\(/d" "bbp_close: exported and not declared"
in_header "s/^int64_t bbp_close\(/int64_t bbp_extra(uint64_t p);\n&/" "bbp_extra: declared and not exported"
in_header "/^int64_t bbp_close\(/p" "bbp_close: declared twice"
in_header "s/^(int64_t bbp_open\()uint64_t p/\1uint32_t p/" "bbp_open: declared as int64_t bbp_open(uint32_t p, "
in_header "s/^int64_t bbp_open\(/int32_t bbp_open(/" "bbp_open: declared as int32_t bbp_open("
in_header "s/^(int64_t bbp_open\(uint64_t )p, uint64_t c/\1c, uint64_t p/" \
    "bbp_open: declared as int64_t bbp_open(uint64_t c, "
in_header "s/^(int64_t bbp_close\()const /\1/" "bbp_close: declared as int64_t bbp_close(uint8_t *ledger, "
in_header "s/^(int64_t bbp_open.*)size_t ledger_len/\1int ledger_len/" "uint8_t *ledger, int ledger_len), not as "
copied
told "$1: exported and not in the list" "${@:2}"
told "bbp_extra: in the list and not exported" "$@" bbp_extra

echo "exports: $checks checks"
