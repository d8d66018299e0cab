#!/usr/bin/env bash
# sources.sh CRATES - what the sources have to be and no contract says (sources.awk). The loops of the power, of one
# term and of a group, have no branch but their own, nor has a function that they come to, in any module, but for loops
# over the lanes. The doubling shifts by the bit, subtracts with wrapping and takes the smaller. The count of squarings
# is made with the square. The recursion cuts at half of the count and calls itself for both parts. Working comes to no
# quote. The part of two strings is returned, and the call that writes its place comes to it. Calls are read by the names
# that they have: of traits there is the one impl whose functions are read at all times, and no type is a function's. Then
# copies that are damaged in one way each have to fail.
set -u
crates=$1
name=sources
. "$(dirname "$0")/checks.sh"

# asked CRATES - prints the number of checks, or on standard error the first that fails.
asked() {
    local files
    mapfile -t files < <(find "$1" -name out -prune -o -path '*/src/*.rt' -print)
    LC_ALL=C awk -f tests/sources.awk "${files[@]}"
}

# copied - makes the copies anew. They are outside the repository, in which every source has to be proved.
copied() {
    rm -rf "$scratch/crates"
    mkdir "$scratch/crates"
    (cd "$crates" && find . -name out -prune -o -path '*/src/*.rt' -exec cp --parents -t "$scratch/crates" {} +)
}

# file_of MODULE - of the copies.
file_of() {
    local path=${1//:://}
    case $path in
    */*) echo "$scratch/crates/${path%%/*}/src/${path#*/}.rt" ;;
    *) echo "$scratch/crates/$path/src/lib.rt" ;;
    esac
}

# in_module MODULE EDIT - an edit by sed of its file, which it changes.
in_module() {
    local file
    file=$(file_of "$1")
    cp "$file" "$scratch/before"
    sed -i -E "$2" "$file" || exit 2
    same "whether $1 is changed by $2" "$(cmp -s "$file" "$scratch/before"; echo $?)" 1
}

# in_function FUNCTION EDIT - the edit is of that function alone, and not of its contract. One of a type ends further in.
in_function() {
    local above=${1%::*} end='^\}'
    case ${above##*::} in [A-Z]*) above=${above%::*} end='^ {4}\}' ;; esac
    in_module "$above" "/fn ${1##*::}(<'a>)?\(/,/$end/{ /^ +(requires|ensures)/,/^ *\{/b
$2 }"
}

# with MODULE CODE - the code is put behind the last line of the module.
with() { printf '%s\n' "$2" >>"$(file_of "$1")"; }

# told SAYING - the copies fail, and it says so. They are made anew.
told() {
    ends 1 asked "$scratch/crates"
    case $said in *"$1"*) said=$1 ;; esac
    same "what is said of a damaged copy" "$said" "$1"
    copied
}

# damaged FUNCTION EDIT SAYING
damaged() {
    in_function "$1" "$2"
    told "$3"
}

count=$(asked "$crates") || exit 1
checks=$count
copied
prints 0 "$count" asked "$scratch/crates"

# Branches in the loop of the power, and in what it comes to.
power=montgomery::power
powers=lanes::powers
in_power="called in the loop of $power, and has"
in_powers="called in the loop of $powers, and has"
damaged $power 's/fn power/fn other/' "$power: no source"
damaged $powers 's/fn powers/fn other/' "$powers: no source"
damaged $power 's/for i in .*\{/while i > 0 \&\& e > 1 {/' "$power: the branches while &&, not one for"
damaged $power 's/for i in .*\{/while i > 0 {/' "$power: the branches while, not one for"
damaged $power 's/x = turn.*/x = if e > 1 { & } else { x };/' "$power: the branches for if else, not one for"
damaged $power 's/top\(e\)/e/' "$power: the loop does not count i down to 0"
damaged $power 's/\(0\.\./(m.n \& 1../' "$power: the loop does not count i down to 0"
damaged $power 's/\.rev\(\)/&.step_by(2)/' "$power: the loop does not count i down to 0"
damaged $power 's/\.rev\(\)//' "$power: the loop does not count i down to 0"
damaged $power 's/x = turn/let i = next(i); &/' "$power: the loop does not count i down to 0"
damaged $power 's/x = turn/next(\&mut i); &/' "$power: the loop does not count i down to 0"
damaged $power 's/x = turn\(/x = other(/' "montgomery::other: $in_power no source"
damaged $power 's/x = turn\(.*/x = crate::counted::square(x, m);/' ": not called in the loop of $power"
damaged $powers 's/x = y;/if i > 1 { x = y; }/' "$powers: the branches for if, not one for"
damaged $powers 's/e\[0\]/e[1]/' "$powers: the loop does not count i down to 0"
damaged $powers 's/turns\(x.*\)/x/' ": not called in the loop of $powers"
damaged montgomery::square 's/hi \+ \(lo != 0\) as u64/if lo != 0 { hi + 1 } else { hi }/' \
    "montgomery::square: $in_power the branches if else"
damaged montgomery::square 's/\(lo != 0\)/(lo != 0 \&\& hi != n)/' "montgomery::square: $in_power the branches &&"
damaged montgomery::smaller 's/z >> 63/(z < y || y == z) as u64/' "montgomery::smaller: $in_power the branches ||"
damaged words::mul_high 's/let w0 = /let mut j = 0; while j < 8 { j += 1; } &/' \
    "words::mul_high: $in_power the branches while"
damaged words::wrapping_mul 's/let w0 = .*/let w0 = match a0 { 0 => 0, _ => a0 * b0 };/' \
    "words::wrapping_mul: $in_power the branches match"
damaged montgomery::counted::square 's/x\.squarings \+ 1/if n > 1 { & } else { 0 }/' \
    "montgomery::counted::square: $in_power the branches if else"
damaged montgomery::square 's/words::wrapping_sub\(/std::num::wrapping_sub_u64(/' \
    "std::num::wrapping_sub_u64: $in_power no source"
damaged montgomery::square 's/words::wrapping_sub\(sum, m\.n\)/sum.wrapping_sub(m.n)/' ".wrapping_sub: $in_power no source"
damaged montgomery::square 's/let q = /assert!(n > 1); &/' "assert!: $in_power no source"
damaged words::wrapping_sub 's/wrapping_sub/wrapping_difference/' "words::wrapping_sub: $in_power no source"
damaged montgomery::square 's/let q = /let two = series::formula::step(lo); &/' \
    "series::formula::formula_of: $in_power the branches match"
chosen='pub fn chosen(x: u64) -> u64
{
    if x > 1 { x } else { 1 }
}'
for path in crate::counted::chosen counted::chosen chosen; do
    with montgomery::counted "$chosen"
    if [ $path = chosen ]; then in_module montgomery 's/^pub mod counted;/&\nuse crate::counted::chosen;/'; fi
    in_function montgomery::square "s/let q = .*/& let s = $path(q);/"
    told "montgomery::counted::chosen: $in_power the branches if else"
done
with montgomery::modulus 'impl Residue {
    pub fn chosen(x: u64) -> u64 {
        if x > 1 { Self::other(x) } else { 1 }
    }

    fn other(x: u64) -> u64 {
        x
    }
}'
in_function montgomery::square "s/let q = .*/& let s = crate::modulus::Residue::chosen(q);/"
told "montgomery::modulus::Residue::chosen: $in_power the branches if else"
unread='not the impl of a type alone'
with montgomery 'impl std::ops::Add for Residue {
    type Output = u64;

    fn add(self, other: Residue) -> u64 {
        if self.0 > other.0 { self.0 } else { other.0 }
    }
}'
in_function montgomery::square 's/let carried = .*/& let more = Residue(hi) + Residue(lo);/'
told "$unread"
with montgomery 'impl std::ops::Neg for Residue {
    type Output = u64;

    fn neg(self) -> u64 {
        if self.0 > 1 { 0 } else { self.0 }
    }
}'
in_function montgomery::square 's/let carried = .*/& let more = -Residue(hi);/'
told "$unread"
damaged words::Wide::from 's/hi: 0/hi: if word > 1 { 1 } else { 0 }/' "words::Wide::from: $in_power the branches if else"
damaged lanes::turns 's/x\[j\] = .*/if i > 1 { & }/' "lanes::turns: $in_powers the branches for if"
damaged lanes::turns 's/0\.\.8/0..many/' "lanes::turns: $in_powers the branches for"
damaged lanes::turns 's/0\.\.8/(e[0] as usize \& 1)..8/' "lanes::turns: $in_powers the branches for"
damaged lanes::turns 's/x\[j\] = /let j = j \& 3; &/' "lanes::turns: $in_powers the branches for"
damaged lanes::turns 's/x\[j\] = /words::mul_high(\&mut j, i); &/' "lanes::turns: $in_powers the branches for"
damaged lanes::turns 's/x\[j\] = /let q = montgomery::divide(i, m[j]); &/' \
    "montgomery::divide: $in_powers the branches if"

# The bit, and the doubling by it.
damaged lanes::turns 's/, e\[j\]/, e[(m[j].n \& 7) as usize]/' "lanes::turns: has a ["
damaged montgomery::turn 's/\(e >> i\) & 1/(e \/ (1 << i)) \& 1/' "montgomery::turn: has a /"
damaged montgomery::turn 's/\(e >> i\) & 1/(e >> i) % 2/' "montgomery::turn: has a %"
damaged montgomery::turn 's/\(e >> i\) & 1/((e >> i) \& 3) >> 1/' "montgomery::turn: the bit is not (e >> i) & 1"
damaged montgomery::turn 's/bit, m\.n\)/1, m.n)/' "montgomery::turn: not the square doubled by the bit"
damaged montgomery::counted::double 's/(crate::double\(x.residue, )bit, n\)/[x.residue, \11, n)][bit as usize]/' \
    "montgomery::counted::double: has a ["
damaged montgomery::counted::double 's/bit, n\),/1, n),/' \
    "montgomery::counted::double: not the residue doubled by the bit"
damaged montgomery::double 's/x\.0 << bit/(&) % n/' "montgomery::double: has a %"
damaged montgomery::double 's/x\.0 << bit/[x.0, x.0 + x.0][bit as usize]/' "montgomery::double: has a ["
damaged montgomery::double 's/x\.0 << bit/x.0 * (1 + bit)/' "montgomery::double: has a *"
damaged montgomery::double 's/x\.0 << bit/x.0 + (x.0 \& words::wrapping_sub(0, bit))/' \
    "montgomery::double: not shifted by the bit"
damaged montgomery::double 's/\(y, n\)/(x.0, n)/' "montgomery::double: not N subtracted with wrapping"
damaged montgomery::double 's/words::wrapping_sub\(y, n\)/y - n/' "montgomery::double: not N subtracted with wrapping"
damaged montgomery::double 's/smaller\(y, z\)/smaller(z, y)/' "montgomery::double: not the smaller of the two"
damaged montgomery::double 's/smaller\(y, z\)/z + (z >> 63) \& n/' "montgomery::double: not the smaller of the two"
cp "$(file_of words)" "$(file_of montgomery::words)"
in_module montgomery 's/^use words::Wide;/use crate::words;\n&/'
told "montgomery::double: calls montgomery::words::wrapping_sub montgomery::smaller"

# The count.
in_module montgomery::counted 's/^    squarings: u64,/    pub squarings: u64,/'
told "montgomery::counted::Counted: the count is not private"
in_module montgomery::counted 's/^    squarings: u64,/    pub squarings: u64,/'
with montgomery::counted 'pub struct Other {
    squarings: u64,
}'
told "montgomery::counted::Counted: the count is not private"
damaged $power 's/crate::counted::start\(m\.n\)/Counted { residue: start(m.n), squarings: 0 }/' \
    "$power: makes a residue with a count"
damaged montgomery::counted::squarings 's/x\.squarings/Counted { residue: x.residue, squarings: 63 }.squarings/' \
    "montgomery::counted::squarings: makes a residue with a count"
with montgomery::counted 'impl Counted {
    pub fn known(residue: MontgomeryResidue, squarings: u64) -> Self {
        Self { residue, squarings }
    }
}'
told "montgomery::counted::Counted::known: makes a residue with a count"
with montgomery::counted 'type Other = Counted;

pub fn known(residue: MontgomeryResidue, squarings: u64) -> Counted
{
    Other { residue, squarings }
}'
told "montgomery::counted::known: could make a residue with a count"
for change in 'x.squarings = squarings' 'std::mem::swap(\&mut x.squarings, \&mut squarings)'; do
    with montgomery::counted 'pub fn known(mut x: Counted, mut squarings: u64) -> Counted
{
    let changed = x;
    x
}'
    in_function montgomery::counted::known "s/let .*/$change;/"
    told "montgomery::counted::known: could make a residue with a count"
done
with montgomery::counted 'pub const KNOWN: Counted = Counted {
    residue: MontgomeryResidue(1),
    squarings: 63,
};'
told "a constant beside the count"
damaged montgomery::counted::start 's/squarings: 0/squarings: 63/' "montgomery::counted::start: not "
damaged montgomery::counted::square 's/x\.squarings \+ 1/x.squarings/' "montgomery::counted::square: not "
damaged montgomery::counted::square 's/crate::square\(.*\)/x.residue/' ": not called in the loop of $power"
damaged montgomery::counted::double 's/squarings: x\.squarings/& + 1/' "montgomery::counted::double: not "

# The recursion.
halves=series::halves::by_halves
damaged $halves 's/fn by_halves/fn other/' "$halves: no source"
damaged $halves 's/count \/ 2;/count \/ 3;/' "$halves: half is not count / 2"
damaged $halves 's/count \/ 2;/& let half = half + 1;/' "$halves: half is not count / 2"
damaged $halves 's/count - half;/count - 1;/' "$halves: rest is not count - half"
damaged $halves 's/first \+ half;/first + 1;/' "$halves: cut is not first + half"
damaged $halves 's/let half = /let first = first + 1; &/' "$halves: changes its range"
for range in 'first, half' 'cut, rest'; do
    saying="$halves: the part of ${range#*, } terms from ${range%,*} is not by itself"
    damaged $halves "s/by_halves\((.*$range.*)\)/one_or_none(\1)/" "$saying"
    damaged $halves "s/by_halves\((.*$range.*)\)/crate::terms::range_sum(\1)/" "$saying"
    damaged $halves "s/if ${range#*, } < 2/if ${range#*, } < 9/" "$saying"
    damaged $halves "s/(by_halves\(.*)$range/\1${range%,*}, 1/" "$saying"
done
damaged $halves 's/let cut = .*/& let more = by_halves(first, half);/' "$halves: calls itself 3 times, not twice"
damaged $halves 's/let cut = .*/& while half > 9 { }/' \
    "$halves: the branches while if else if else, not two of if and else"

# Working, and quotes.
work=engine::work::bbp
damaged ticket::work 's/worked\.squarings/squarings(f, part, p, c, row, block)/' ": comes to the quote "
damaged series::terms::range_sum 's/Worked \{.*\}/crate::squarings::range_squarings(f, p, row, first, end)/' \
    "${work}_work: comes to the quote series::squarings::"
in_module series::terms 's/^use crate::Series;/&\nuse crate::squarings::reaching;/'
damaged series::terms::size 's/let e = /let c = reaching(numbers, 128); &/' \
    "${work}_work: comes to the quote series::squarings::reaching"
with words 'impl Wide {
    pub fn bill(self) -> u64 {
        Self::quoted(self)
    }

    fn quoted(x: Wide) -> u64 {
        ticket::quote(x)
    }
}'
in_function ticket::sum 's/let range = /let bill = first.bill(); &/'
told "${work}_work: comes to the quote "
damaged series::store::Store::fill 's/crate::terms::size\(.*\);/& let c = crate::squarings::reaching(terms.numbers, 128);/' \
    "${work}_work: comes to the quote series::squarings::reaching"
for call in work work_lower work_upper check_work check_work_lower check_work_upper; do
    damaged ${work}_$call 's/ticket::work\(/ticket::quote(/' "${work}_$call: comes to the quote "
done
damaged series::terms::size 's/montgomery::quotient_of_power\(e, n\)/Quotient::ZERO/' "${work}_work: does not come to $power"
damaged series::groups::sizes 's/lanes::quotients_of_powers\(f, n\)/[Quotient::ZERO; 8]/' \
    "${work}_work: does not come to $powers"
damaged ticket::sum 's/series::halves::range_sum/series::terms::range_sum/' "${work}_work: does not come to $halves"
damaged ticket::sum 's/let range = /let known = ticket::counts::of(p); &/' \
    "${work}_work: comes to ticket::counts::of, which has no source"
in_module engine::quotes 's/ticket::quote/ticket::bill/'
told "engine::quotes::bbp_quote: does not come to the ticket's quote"
damaged ticket::squarings 's/series::squarings::/series::bills::/' \
    "engine::quotes::bbp_quote: does not come to series::squarings"

# A function that is handed on, or held, and none of its calls in sight.
quoting='pub fn billed(k: u64) -> u64
{
    crate::squarings::reaching(NUMBERS, k)
}'
for way in 'Some(k).map(billed)' 'std::array::from_fn(billed)' 'std::array::from_fn(crate::terms::billed)' \
    'std::array::from_fn(crate :: terms :: billed)' 'Bill { by: billed }'; do
    for made in "$quoting" "${quoting/billed/billed<T>}"; do
        with series::terms "$made"
        in_function series::terms::size "s/let fall = /let bill = $way; &/"
        told "${work}_work: comes to the quote series::squarings::reaching"
    done
done
with series::terms 'impl Numbers {
    pub fn billed(self) -> u64 {
        crate::squarings::reaching(self, 128)
    }
}'
in_function series::terms::size 's/let fall = /let bill = Some(numbers).map(Numbers::billed); &/'
told "${work}_work: comes to the quote series::squarings::reaching"
damaged series::terms::size 's/let fall = /use crate::squarings::reaching; &/' "not the use of names"
for held in 'fn(Numbers, u64)' '\&dyn Fn(Numbers, u64)'; do
    with series::terms 'const BILLED: HELD -> u64 = crate::squarings::reaching;'
    in_module series::terms "s/HELD/$held/"
    told "the type of a function"
done
with ticket 'pub fn handed(
    squarings: &mut [u8],
)
{
    words::put(squarings, 0, 8, 1);
}'
in_function ticket::work 's/let worked = /handed(squarings); &/'
in_function ticket::sum 's/let range = /let none = Worked { sum: Wide::ZERO, squarings: Wide::ZERO }; &/'
same "the status of parameters and fields with a quote's name" "$(asked "$scratch/crates" >"$scratch/out"; echo $?)" 0
copied

# unlisted EXPRESSION CALLEE - in a body that working comes to. Of the kit it calls some names alone.
unlisted() {
    damaged series::terms::size "s/let fall = /let bill = $1; &/" "${work}_work: comes to $2, which has no source"
}
unlisted 'Some(k).map(|x| x)' .map
unlisted 'k.into()' .into
unlisted 'std::array::repeat(k)' std::array::repeat
unlisted 'u64::from_be(k)' u64::from_be
unlisted 'std::array::from_fn(<Numbers>::billed)' ::billed
unlisted 'std::array::from_fn(Other::billed)' Other::billed
unlisted 'billed![k]' billed!

# What is called without a name: a conversion, also by `?`, and an operator.
for way in 'k.into()' 'Err(k)?'; do
    with series::terms 'impl From<u64> for Numbers {
    fn from(least: u64) -> Numbers {
        crate::squarings::reaching(NUMBERS, least)
    }
}'
    in_function series::terms::size "s/let fall = /let bill: Numbers = $way; &/"
    told "$unread"
done
with series::terms 'impl std::ops::Add for Worked {
    fn add(self, other: Worked) -> Worked {
        crate::squarings::reaching(NUMBERS, 128)
    }
}'
in_function series::terms::range_sum 's/Worked \{.*\}/& + &/'
told "$unread"
with series::squarings 'pub fn whole(word: u64) -> u64
{
    word
}'
cp "$(file_of words)" "$(file_of calls::words)"
in_function calls::words::Wide::from 's/lo: word/lo: series::squarings::whole(word)/'
told "${work}_work: comes to the quote series::squarings::whole"

# The part of two strings.
part=overlap::part
damaged $part "s/fn part<'a>/fn other<'a>/" "$part: no source"
damaged $part "s/-> &'a \[u8\]/-> [u8; 30]/" "$part: does not return a part"
damaged $part "s/second: &Laid<'a>/second: \&Laid<'b>/" "$part: does not return a part"
in_module overlap "s/^    pub digits: &'a \[u8\],/    pub digits: [u8; 30],/"
told "$part: the digits are not lent"
in_module overlap "s/^    pub digits: &'a \[u8\],/    pub digits: [u8; 30],/"
with overlap "pub struct Other<'a> {
    pub digits: &'a [u8],
}"
told "$part: the digits are not lent"
damaged overlap::overlap_part 's/= part\(/= copied(/' "engine::overlaps::bbp_overlap_part: does not come to $part"
damaged engine::overlaps::bbp_overlap_part 's/overlap::overlap_part\(/overlap::place_of(/' \
    "engine::overlaps::bbp_overlap_part: does not come to $part"

# What is not read.
in_module words 's/^pub fn add/    &/'
told "a function that does not start its line"
in_module words 's/^    fn from/    &/'
told "a function that does not start its line"
in_module words 's/^    fn from.*/& Wide { hi: 0, lo: word } }/'
told "words::Wide::from: a body in the line of its name"
in_function montgomery::smaller 's/let wrapped/if z > y {\n}\n&/'
told "montgomery::smaller: braces that do not match"
with montgomery::counted "$chosen"
with montgomery::counted "$chosen"
told "montgomery::counted::chosen: written twice"
for names in 'words::{Wide, divide::{self}}' 'words::*' 'words::Wide as Words'; do
    in_module montgomery "s/^use words::Wide;/use $names;/"
    told "not the use of names"
done

echo "sources: $checks checks"
