#!/usr/bin/env bash
# install.sh DIRECTORY - `make help` names every target. `make install` refuses a stand-in, and with `make uninstall` a
# PREFIX that is not absolute; the proved library goes into DIRECTORY, programs are built and run against what is there,
# versions agree, and `make uninstall` removes it all again. The same in folders whose names the shell would take apart.
set -u
plain=$1
prefix=$plain
standin=build/standin/libengine.a
name=install
. "$(dirname "$0")/checks.sh"
digits=349F1C09B075372C980991B7B25D4
installed="./include/bbp.h ./lib/libbbp.a ./lib/pkgconfig/bbp.pc ./share/doc/bbp/CHANGELOG.md ./share/doc/bbp/FORMATS.md "

files() { (cd "$prefix" 2>/dev/null && find . ! -type d | sort | tr '\n' ' '); }

# made GOAL PREFIX [DESTDIR] - with a $ written twice, as make takes one for its own.
made() {
    local destination=${3-}
    make -s "$1" PREFIX="${2//\$/\$\$}" DESTDIR="${destination//\$/\$\$}" ENGINE="$ENGINE"
}

# flags - what it takes to build against what is installed. pkg-config writes words for the shell to read.
flags() {
    if command -v pkg-config >/dev/null 2>&1; then
        export PKG_CONFIG_PATH="$prefix/lib/pkgconfig"
        eval "compile=($(pkg-config --cflags bbp)) link=($(pkg-config --libs bbp))"
        version=$(pkg-config --modversion bbp)
    else
        compile=("-I$prefix/include") link=("-L$prefix/lib" -lbbp)
        version=$(sed -n 's/^Version: //p' "$prefix/lib/pkgconfig/bbp.pc")
    fi
}

# built PROGRAM COMPILER.. - a program of the files named, against what is installed.
built() {
    local program=$1
    shift
    "$@" -x none "${link[@]}" ${LDFLAGS:-} -o "$scratch/$program" || exit 1
}

# A folder of the name would be meant from where make was called; an empty PREFIX would be the root folder.
refused_places() {
    local goal place relative=${plain#"$PWD"/}
    mkdir -p "$plain/include"
    touch "$plain/include/bbp.h"
    for goal in install uninstall; do
        for place in "$relative" "./$relative" "x $plain" '~/x' ''; do
            ends 2 made "$goal" "$place"
            same "what make $goal says of PREFIX=$place" "${said#*\*\*\* }" "PREFIX is not an absolute path: $place.  Stop."
            ends 2 made "$goal" "$place" "$plain"
        done
        ends 2 made "$goal" "$plain"$'\n'
        same "what make $goal says of a newline" "${said#*\*\*\* }" "a newline in PREFIX or DESTDIR.  Stop."
        same "what a refused $goal leaves" "$(files)" "./include/bbp.h "
    done
    rm -rf "$plain"
}

# Part of the name would be the name of another file.
name_of_another() {
    echo other >"$plain"
    made uninstall "$plain and more" || exit 1
    made uninstall /there "$plain and more" || exit 1
    same "a file whose name is the part before the space" "$(cat "$plain")" other
    rm "$plain"
}

# in_folder NAME ESCAPED - installed there and removed again; then below it by a relative DESTDIR. ESCAPED is the name as
# pkg-config reads it.
in_folder() {
    prefix=$plain$1
    rm -rf "$prefix"
    made install "$prefix" || exit 1
    same "what is installed in $prefix" "$(files)" "$installed"
    same "the prefix of $prefix" "$(sed -n 's/^prefix=//p' "$prefix/lib/pkgconfig/bbp.pc")" "$plain$2"
    made uninstall "$prefix" || exit 1
    same "what uninstall leaves in $prefix" "$(files)" ""
    made install "/there$1" "${prefix#"$PWD"/}" || exit 1
    same "the prefix below DESTDIR" "$(sed -n 's/^prefix=//p' "$prefix/there$1/lib/pkgconfig/bbp.pc")" "/there$2"
    made uninstall "/there$1" "${prefix#"$PWD"/}" || exit 1
    same "what uninstall leaves below $prefix" "$(files)" ""
    rm -rf "$prefix"
}

# A program is built against a folder with a space in its name, while a file has the name before the space. pkg-config does
# not quote a $ or a parenthesis, so folders with these have files alone.
odd_folders() {
    local pieces=' a'\''b"c;d&e,f\g#h|i*j' escaped='\ a\'\''b\"c;d&e,f\\g\#h|i*j'
    in_folder "$pieces" "$escaped"
    in_folder "$pieces \$HOME (k) \`l\`" "$escaped\\ \$HOME\\ (k)\\ \`l\`"
    echo other >"$plain"
    prefix=$plain$pieces
    made install "$prefix" || exit 1
    flags
    built minimal ${CC:-gcc} -std=c99 -Wall -Wextra -Werror -O2 "${compile[@]}" examples/minimal.c
    same "minimal by a folder with a space" "$("$scratch/minimal")" "$digits"
    made uninstall "$prefix" || exit 1
    same "what uninstall leaves of a folder with a space" "$(files)" ""
    same "the file whose name is the part before the space" "$(cat "$plain")" other
    rm -rf "$plain" "$prefix"
    prefix=$plain
}

make -s help >"$scratch/help" || exit 1
for target in $(sed -n 's/^\.PHONY: //p' Makefile); do
    same "lines of make help for $target" "$(grep -c "^make $target " "$scratch/help")" 1
done

rm -rf "$prefix"
ends 2 make -s install PREFIX="$prefix" ENGINE=$standin
ends 2 make -s install PREFIX="$prefix" ENGINE="$PWD/$standin"
same "what a refused installation leaves" "$(files)" ""
refused_places
name_of_another
if [ "$ENGINE" = $standin ]; then
    echo "install: $checks checks"
    exit 0
fi

made install "$prefix" || exit 1
flags
strict=(-Wall -Wextra -Werror -O2 "${compile[@]}")
built minimal ${CC:-gcc} -std=c99 "${strict[@]}" examples/minimal.c
built minimal_cc ${CXX:-g++} "${strict[@]}" -x c++ examples/minimal.c
built acceptance ${CC:-gcc} -std=c99 "${strict[@]}" examples/acceptance.c
same "minimal" "$("$scratch/minimal")" "$digits"
same "minimal in C++" "$("$scratch/minimal_cc")" "$digits"
prints 0 "1000 29 $digits" "$scratch/acceptance" 1000
prints 0 "1000 29 $digits" "$scratch/acceptance" --halves 1000

cat >"$scratch/version.c" <<'END'
#include <bbp.h>
#include <stdio.h>
#if BBP_VERSION < 4000000
#error "older than the quotes"
#endif
int main(void) { printf("%s %ld\n", BBP_VERSION_STRING, (long)BBP_VERSION); return 0; }
END
built version ${CC:-gcc} -std=c99 "${strict[@]}" "$scratch/version.c"
IFS=. read -r major minor patch <<<"$version"
same "the header's version" "$("$scratch/version")" "$version $((1000000 * major + 1000 * minor + patch))"
same "the last version of CHANGELOG.md" "$(sed -n 's/^## //p' CHANGELOG.md | head -n 1)" "$version"
cmp -s docs/FORMATS.md "$prefix/share/doc/bbp/FORMATS.md"
same "docs/FORMATS.md beside the installed header" $? 0

touch "$prefix/lib/other"
made uninstall "$prefix" || exit 1
same "what uninstall leaves" "$(files)" "./lib/other "
same "the folder of its documents" "$(ls -d "$prefix/share/doc/bbp" 2>/dev/null)" ""
rm -rf "$prefix"
in_folder '' ''
odd_folders
echo "install: $checks checks"
