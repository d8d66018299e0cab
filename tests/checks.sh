# checks.sh - sourced by tests, which set `name` before and print `checks` at their end.
checks=0
scratch=$(mktemp -d) || exit 2
trap 'rm -rf "$scratch"' EXIT

# same WHAT FOUND WANTED
same() {
    if [ "$2" != "$3" ]; then
        printf '%s: %s: %s, not %s\n' "$name" "$1" "$2" "$3" >&2
        exit 1
    fi
    checks=$((checks + 1))
}

# prints STATUS TEXT PROGRAM.. - with that status, and the text on standard output; what standard error got is left in
# `said`, but for lines of looks, which are left in `looked`, and of quotes and squarings, which are left in `billed`.
prints() {
    local wanted=$1 text=$2 status bill='^(check )?(quote|squarings): [0-9]'
    shift 2
    "$@" >"$scratch/out" 2>"$scratch/err"
    status=$?
    looked=$(grep -a '^look at ' "$scratch/err")
    billed=$(grep -a -E "$bill" "$scratch/err")
    said=$(grep -a -v -E "^look at |$bill" "$scratch/err")
    same "the status of $*" "$status" "$wanted"
    same "what $* prints" "$(cat "$scratch/out")" "$text"
}

# ends STATUS PROGRAM.. - with that status, and nothing on standard output; `said` as above.
ends() {
    local wanted=$1
    shift
    prints "$wanted" "" "$@"
}

# unwritable PROGRAM.. - ends with status 1 where standard output is a full device, and where it is closed.
unwritable() {
    "$@" >/dev/full 2>/dev/null
    same "the status of $* on a full device" $? 1
    "$@" >&- 2>/dev/null
    same "the status of $* without standard output" $? 1
}

# parameters CALL - as the header declares them.
parameters() { tr -s '\n ' ' ' <include/bbp.h | sed -n "s/.* int64_t $1(\([^)]*\));.*/\1/p"; }

# call CALL - C of the call with the names that the header has for its arguments.
call() { echo "$1($(parameters "$1" | sed 's/[^,]*[ *]\([a-z_]*\)/\1/g; s/,/, /g'))"; }

# instead CALL EXPRESSION - C after which CALL gives the expression, also where its address is taken. In it the arguments
# have the names that the header has for them, and a call of CALL goes to the engine.
instead() {
    printf 'static int64_t instead_of_%s(%s)\n{ return %s; }\n#define %s instead_of_%s\n' \
        "$1" "$(parameters "$1")" "$2" "$1" "$1"
}

# wrapped PROGRAM SOURCE LINE.. - builds the source with these lines of C behind the header.
wrapped() {
    local program=$1 source=$2
    shift 2
    printf '%s\n' '#include <bbp.h>' "$@" >"$scratch/wrapped.h"
    ${CC:-gcc} -std=c99 -D_XOPEN_SOURCE=700 -Iinclude -Iexamples -include "$scratch/wrapped.h" "$source" \
        "$ENGINE" ${LDFLAGS:-} -o "$scratch/$program" || exit 2
}

# refusing SOURCE CALL ARGUMENT.. - built so that the call is refused with 7, the program ends with status 1 and no digits.
refusing() {
    local source=$1 call=$2
    shift 2
    wrapped refusing "$source" "$(instead "$call" -7)"
    ends 1 "$scratch/refusing" "$@"
}

# flip FILE OFFSET - turns over the lowest bit of a byte.
flip() {
    local byte
    byte=$(od -An -tu1 -j "$2" -N 1 "$1")
    printf "\\$(printf %o $((byte ^ 1)))" | dd of="$1" bs=1 seek="$2" conv=notrunc status=none
}

# Whether the process is there and not only waiting to be taken notice of.
works() {
    local state
    read -r _ _ state _ 2>/dev/null <"/proc/$1/stat" && [ "$state" != Z ]
}

# until_true COMMAND.. - tried for ten seconds.
until_true() {
    for _ in $(seq 200); do
        if "$@"; then return 0; fi
        sleep 0.05
    done
    return 1
}

# has_children PARENT COUNT - leaves them in `children`.
has_children() {
    children=$(cat "/proc/$1/task/$1/children" 2>/dev/null)
    [ "$(wc -w <<<"$children")" -eq "$2" ]
}

none_works() {
    for child in $children; do
        if works "$child"; then return 1; fi
    done
}

ended() { ! works "$1"; }

# stopped SIGNAL STATUS COUNT PROGRAM.. - a program at work with so many processes of its own ends by that signal, and they
# with it. A signal that is ignored here, as below nohup, is not ignored by the program.
stopped() {
    local signal=$1 status=$2 count=$3 parent left=0
    shift 3
    set -m
    env --default-signal=HUP,INT,TERM "$@" >/dev/null 2>&1 &
    parent=$!
    set +m
    until_true has_children "$parent" "$count" || { kill -KILL "$parent"; same "processes of $*" "$children" "$count"; }
    kill "-$signal" "$parent"
    until_true ended "$parent" 2>/dev/null || kill -KILL "$parent"
    wait "$parent" 2>/dev/null
    same "the status after $signal" $? "$status"
    until_true none_works || { left=1; kill -KILL $children; }
    same "processes that go on after $signal" "$left" 0
}
