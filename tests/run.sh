#!/usr/bin/env bash
# run.sh COMMAND.. - runs each command, a test, as many at a time as there are processors (JOBS= for another number), and
# counts. What they print stays in order. One that takes ten minutes has failed. Last line: 'N passed, M failed'.
set -u
limit=${JOBS:-$(nproc)}
scratch=$(mktemp -d) || exit 2
trap 'rm -rf "$scratch"' EXIT
trap 'kill $(jobs -p) 2>/dev/null; wait; exit 1' INT TERM
commands=("$@")
shown=0
failed=0

# tried NUMBER - leaves what the command of that number prints, and then its status. Where this is ended, so is the command.
tried() {
    timeout -k 10 600 bash -c "${commands[$1]}" >"$scratch/$1.out" 2>&1 &
    trap "kill $!" TERM
    wait $!
    echo $? >"$scratch/$1.ended"
    mv "$scratch/$1.ended" "$scratch/$1.status"
}

# Shows those that have ended, up to the first that has not.
show() {
    while [ -e "$scratch/$shown.status" ]; do
        cat "$scratch/$shown.out"
        if [ "$(cat "$scratch/$shown.status")" -ne 0 ]; then
            failed=$((failed + 1))
            echo "FAILED: ${commands[$shown]}"
        fi
        shown=$((shown + 1))
    done
}

for number in "${!commands[@]}"; do
    while [ "$(jobs -rp | wc -l)" -ge "$limit" ]; do
        wait -n
        show
    done
    tried "$number" &
done
wait
show
echo "$((shown - failed)) passed, $((${#commands[@]} - shown + failed)) failed"
[ "$shown" -eq "${#commands[@]}" ] && [ "$failed" -eq 0 ]
