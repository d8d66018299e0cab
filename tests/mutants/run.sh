#!/usr/bin/env bash
# run.sh DIRECTORY TEST.. - shows that the tests can fail. DIRECTORY has each TEST as test_TEST, linked
# with the stand-in engine. Each passes on the right engine, and for each line of list.txt the test that
# it names fails on that wrong engine. ALL=1: also prints every test that fails on it.
set -u
here=$(dirname "$0")
directory=$1
shift
caught=0

# Whether the test finds the engine of that number wrong. Status 2 is trouble of the test's own.
fails() {
    MUTANT=$1 timeout 600 "$directory/test_$2" 1 300 >/dev/null 2>&1
    local status=$?
    if [ "$status" -eq 2 ]; then
        echo "mutants: test_$2 cannot run" >&2
        exit 2
    fi
    [ "$status" -ne 0 ]
}

# must_fail NUMBER TEST WHAT - the test, which is one of the tests, fails on the engine of that number.
must_fail() {
    case " $tests " in *" $2 "*) ;; *) echo "mutants: list.txt names no test: $2" >&2; exit 1 ;; esac
    if ! fails "$1" "$2"; then
        echo "mutants: test_$2 passes on the wrong engine $1: $3" >&2
        exit 1
    fi
    caught=$((caught + 1))
}

tests=$*
for test in $tests; do
    if fails 0 "$test"; then
        echo "mutants: test_$test fails on the right engine" >&2
        exit 1
    fi
done

# The ways that engine.c marks are those of list.txt.
marked=$(grep -oE '(WRONG(_IN_[A-Z]+)?|output_length|unaligned|runs)\([0-9]+' "$here/engine.c" | grep -oE '[0-9]+' | sort -u)
listed=$(grep -v '^#' "$here/list.txt" | cut -d' ' -f1 | sort -u)
if [ "$marked" != "$listed" ]; then
    echo "mutants: engine.c and list.txt have not the same numbers" >&2
    exit 1
fi
while read -r number test what; do
    case $number in '' | '#'*) continue ;; esac
    case $test in
    '[check_]'*)
        must_fail "$number" "${test#'[check_]'}" "$what"
        must_fail "$number" "check_${test#'[check_]'}" "$what" ;;
    *)
        must_fail "$number" "$test" "$what" ;;
    esac
    if [ -n "${ALL:-}" ]; then
        by=
        for other in $tests; do if fails "$number" "$other"; then by="$by $other"; fi; done
        echo "$number ($what):$by"
    fi
done <"$here/list.txt"
echo "mutants: $caught checks"
[ "$caught" -gt 0 ]
