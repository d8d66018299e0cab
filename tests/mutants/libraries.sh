#!/usr/bin/env bash
# libraries.sh DIRECTORY STANDIN SYMBOL.. - shows that symbols.sh, state.sh and branches.sh can fail: libraries that are
# wrong in one way each are made in DIRECTORY, the ones for symbols.sh from the stand-in.
set -euo pipefail
directory=$1
standin=$2
shift 2
checks=0

# library NAME BASE CODE FLAG.. - BASE, which may be empty, with the code as one more object.
library() {
    local name=$1 base=$2 code=$3
    shift 3
    rm -f "$directory/$name.a"
    if [ -n "$base" ]; then cp "$base" "$directory/$name.a"; fi
    ${CC:-gcc} "$@" -x c -fcommon -c - -o "$directory/$name.o" <<<"$code"
    ar qcs "$directory/$name.a" "$directory/$name.o"
}

# try STATUS SCRIPT ARGUMENT.. - the script ends with that status, 0 or 1.
try() {
    local wanted=$1 status=0
    shift
    bash "$@" >"$directory/libraries.log" 2>&1 || status=$?
    if [ "$status" -ne "$wanted" ]; then
        echo "libraries: status $status, not $wanted: $*" >&2
        cat "$directory/libraries.log" >&2
        exit 1
    fi
    checks=$((checks + 1))
}

# symbols CODE SYMBOL.. - symbols.sh fails on the stand-in with that code added.
symbols() {
    library symbols "$standin" "$1"
    shift
    try 1 tests/symbols.sh "$directory/symbols.a" "$@"
}

# state STATUS CODE - state.sh on a library of that code.
state() {
    library state '' "$2"
    try "$1" tests/state.sh "$directory/state.a"
}

# power NAME STEP RESULT - C of a function with a loop of 64 turns that has three multiplications and that step.
power() {
    printf '%s\n' "word $1(word x, word n, word m, word e) { for (int i = 63; i >= 0; i--) { wide t = (wide)x * x;" \
        "x = (word)(t >> 64) - (word)((wide)((word)t * m) * n >> 64); $2 } return $3; }"
}
shifts=$(power shifts 'x <<= e >> i & 1;' x)

# branches SAYING NUMBERS CODE FLAG.. - branches.sh with these numbers fails on a library of that code, behind `base`,
# and says so; with an empty saying it passes.
types='typedef unsigned long word; __extension__ typedef unsigned __int128 wide; word g(word);'
base=
branches() {
    local saying=$1 numbers=$2 code=$3 status=1
    shift 3
    if [ -z "$saying" ]; then status=0; fi
    library branches "$base" "$types $code" "$@"
    # shellcheck disable=SC2086 # each number is an argument
    try "$status" tests/branches.sh "$directory/branches.a" $numbers
    if ! grep -qF -- "$saying" "$directory/libraries.log"; then
        echo "libraries: not '$saying', but: $(cat "$directory/libraries.log")" >&2
        exit 1
    fi
}

try 0 tests/symbols.sh "$standin" "$@"
symbols 'int helper(void) { return 0; }' "$@"
symbols '__attribute__((weak)) int helper(void) { return 0; }' "$@"
symbols 'int helper;' "$@"
symbols 'int bbp_helper(void) { return 0; }' "$@"
symbols 'int bbp_check_helper(void) { return 0; }' "$@"
try 1 tests/symbols.sh "$standin" "$@" bbp_helper
try 1 tests/symbols.sh "$standin" "${@:2}"
state 0 'static const int table[] = {1, 2}; int f(int i) { return table[i & 1]; }'
state 1 'int f(void) { static int calls; return ++calls; }'
state 1 'int f(void) { static int calls = 1; return ++calls; }'
state 1 'int f(void) { static __thread int calls; return ++calls; }'
state 1 'int f(void) { static __thread int calls = 1; return ++calls; }'
state 1 'int calls; int f(void) { return ++calls; }'
state 1 'void *malloc(unsigned long); void *f(void) { return malloc(16); }'
state 1 'void *memcpy(void *, const void *, unsigned long); void *f(void *x, void *y, int i) { return memcpy(x, y, i); }'
state 0 'void *memset(void *, int, unsigned long); void *f(void *x, int y, int i) { return memset(x, y, i); }'
try 1 tests/state.sh "$standin"
try 0 tests/branches.sh "$standin"
${CC:-gcc} -std=c99 -D_GNU_SOURCE -Iinclude -O2 -DBRANCH -c tests/mutants/engine.c -o "$directory/engine.o"
rm -f "$directory/branch.a"
ar qcs "$directory/branch.a" "$directory/engine.o"
try 1 tests/branches.sh "$directory/branch.a"

# The loop of one term.
jumps='2 conditional jumps, 0 calls'
call='1 conditional jumps, 1 calls'
branches '' '' "$shifts"
branches 'no loop' '' "$(power f 'return x;' x)"
branches "$jumps" '' "$shifts $(power f 'if (e >> i & 1) x <<= 1;' x)"
branches "$jumps" '' "$shifts $(power f 'if (x == n) break;' x)"
branches "$call" '' "$shifts $(power f 'x = g(x);' x)"
branches "$call" '' "$shifts word h(word x) { return x + 1; } $(power f 'x = h(x);' x)"
branches 'conditional jumps' '' \
    "$shifts $(power f 'if (__builtin_expect(e >> i & 1, 0)) { __asm__ volatile(""); x <<= 1; }' 'g(x)')" -O2
branches '1 calls or jumps' '' \
    "$shifts $(power f 'static void *const to[] = {&&even, &&odd}; goto *to[e >> i & 1]; odd: x <<= 1; even:;' x)"
branches '1 calls or jumps' '' "$shifts"' __asm__("f: mov $63, %ecx\n1: mul %rax\nimul %r8, %rax\nmul %rdi\njmp 4f\n"
    "2: add %rax, %rax\n3: dec %ecx\njne 1b\nret\n"
    ".section .text.unlikely, \"ax\"\n4: bt %rcx, %r9\njc 2b\njmp 3b\n.text\n");'

# Loops around it, where the compiler did not put the power in the place of its call: they may branch, and call others
# too. A call names the function, its section, a place in a section or nothing; what is called may call the power.
# terms NAME CALL - C of a function with a loop that multiplies, branches and calls.
terms() {
    printf '%s\n' "word $1(word a, word b, word c) { word s = 1; for (word k = 0; k < c; k++) {" \
        "s = $2(a * s, b * s, c * s, k); if (s & 1) s += g(s); } return s; }"
}
apart=(-O1 -fno-inline)
passes='word passes(word x, word n, word m, word e) { return shifts(x, n, m, e + 1); }'
for kind in '' static; do
    for flag in -fno-function-sections -ffunction-sections -foptimize-sibling-calls; do
        branches '' 3 "$kind $shifts $(terms sum shifts)" "${apart[@]}" $flag
        branches '' 3 "$kind $shifts $kind $passes $(terms sum passes)" "${apart[@]}" $flag
    done
    branches '' 3 "$kind $shifts $kind $(power other 'x >>= e >> i & 1;' x) word both(word x) { return shifts(x, x, x,
        other(x, x, x, x)); } __attribute__((section(\".text.sum\"))) $(terms sum other)" "${apart[@]}"
done
# Where functions call each other, no loop is taken for one around itself.
branches "$call" 3 "$shifts $(power f 'x = f(x, n, m, e);' x)" "${apart[@]}"
branches "$call" 3 "$shifts word h(word x); $(power f 'x = h(x);' x)
    word h(word x) { return x & 1 ? f(x, x, x, x) : x; }" "${apart[@]}"
branches "$jumps" 3 "$shifts"' __asm__(".globl again\nagain: mul %rax\nimul %r8, %rax\nmul %rdi\nbt %rcx, %r9\njc 1f\n"
    "add %rax, %rax\n1: dec %ecx\nje 2f\njmp again@PLT\n2: ret\n");' "${apart[@]}"
# The function of one object is not taken for that of another.
library power '' "$types $(power h 'x <<= e >> i & 1;' x)"
base=$directory/power.a
branches "$call" '' "static word h(word x) { return x + 1; } $(power f 'x = h(x);' x)" "${apart[@]}" -ffunction-sections
base=

# The loop of a group: its multiplications, one lane after the other.
# group NAME STEP - C of a function with a loop of 64 turns of eight lanes, and that step.
group() {
    printf '%s\n' "word $1(word *x, word *n, word *m, word *e) { for (int i = 63; i >= 0; i--) {"
    printf "{ const int j = %d; wide t = (wide)x[j] * x[j]; $2 \
        x[j] = ((word)(t >> 64) - (word)((wide)((word)t * m[j]) * n[j] >> 64)) << (e[j] >> i & 1); }\n" {0..7}
    echo "} return x[0]; }"
}
lanes=$(group lanes '')
branches '' '3 24' "$shifts $lanes" "${apart[@]}"
branches '' '3 24' "$shifts $lanes $(terms sum shifts)" "${apart[@]}"
branches 'no loop with 24 multiplications' '3 24' "$shifts" "${apart[@]}"
branches 'no loop with 3 multiplications' '3 24' "$lanes" "${apart[@]}"
branches '32 multiplications, not one of: 3 24' '3 24' "$shifts $lanes $(group f 'e[j] *= n[j];')" "${apart[@]}"
branches '24 multiplications: 9 conditional jumps' '3 24' \
    "$shifts $lanes $(group f 'if (t & 1) x[j] = g(t);')" "${apart[@]}"
branches '8 more by vector' '3 24' \
    "$shifts $lanes $(group f '__asm__ volatile("pmuludq %%%%xmm1, %%%%xmm0" ::: "xmm0");')" "${apart[@]}"
for product in 'pmuludq %xmm1, %xmm0' 'vpmuludq %ymm2, %ymm1, %ymm0' 'vpmullq %zmm2, %zmm1, %zmm0' \
    'mulpd %xmm1, %xmm0' 'vpmadd52luq %zmm2, %zmm1, %zmm0' 'vfmadd231pd %ymm2, %ymm1, %ymm0' \
    'pclmulqdq $0, %xmm1, %xmm0'; do
    branches '3 more by vector' '3 24' \
        "$shifts $lanes __asm__(\"f: $product\n $product\n $product\n dec %ecx\n jne f\n ret\n\");" "${apart[@]}"
done
echo "libraries: $checks checks"
