#!/usr/bin/env bash
# symbols.sh LIBRARY SYMBOL.. - the library exports the calls named and nothing else.
set -euo pipefail
library=$1
shift
wanted=$(printf '%s\n' "$@" | sort)
exported=$(nm -g --defined-only "$library" | awk 'NF == 3 { print $3 }' | sort)
if [ "$exported" != "$wanted" ]; then
    printf 'symbols: %s exports:\n%s\nnot:\n%s\n' "$library" "$exported" "$wanted" >&2
    exit 1
fi
echo "symbols: $# checks"
