#!/usr/bin/env bash
# host/test_install.sh: make install into a temporary folder, with and without DESTDIR, and the use of what lies there:
# the command runs, a small C program is compiled by the flags of the pkg-config file alone and solves J2.
# The flags are taken by sed, so pkg-config itself need not be there.
set -u

cd "$(dirname "$(readlink -f "${BASH_SOURCE[0]}")")/.." || exit 2
folder=$(mktemp -d) || exit 2
trap 'rm -rf "$folder"' EXIT
. host/checks.sh

install_to() { # PREFIX DESTDIR
    MAKEFLAGS='' make --no-print-directory -s install PREFIX="$1" DESTDIR="$2" >"$folder/log" 2>&1
    expect "make install" "$? $(cat "$folder/log")" "0 "
}

# Each file with its mode, and nothing else.
lists() { # NAME FOLDER
    expect "$1" "$(cd "$2" && find . -type f -printf '%P %m\n' | LC_ALL=C sort)" 'bin/ormsvelg 755
include/ormsvelg.h 644
lib/libormsvelg.a 644
lib/pkgconfig/ormsvelg.pc 644
share/man/man1/ormsvelg.1 644'
}

# A line of the pkg-config file, with its variables put in.
flags() { # NAME
    local file=$prefix/lib/pkgconfig/ormsvelg.pc at
    at=$(sed -n 's/^prefix=//p' "$file")
    sed -n "s/^$1: //p" "$file" | sed "s|\${libdir}|$at/lib|; s|\${includedir}|$at/include|"
}

prefix=$folder/prefix
install_to "$prefix" ''
lists 'installed' "$prefix"
expect 'the command' "$(tools/x86 run "$prefix/bin/ormsvelg" solve examples/J2.job | tr '\n' ' ')" 'tables fit A 00 B 11 '
expect 'the version' "ormsvelg $(flags Version)" "$(tools/x86 run "$prefix/bin/ormsvelg" --version)"

cat >"$folder/use.c" <<'END'
#include <ormsvelg.h>
#include <stdio.h>

int main(void)
{
    static const uint8_t job[] = {1, 4, 1, 0, 1, 0, 2, 0, 2, 2, 4, 2, 3, 5};
    static uint8_t answer[ORMSVELG_LONGEST_ANSWER];
    uint64_t outcome = ormsvelg_solve(job, sizeof job, answer, sizeof answer);
    printf("code %u, %u bytes\n", (unsigned)ormsvelg_code(outcome), (unsigned)ormsvelg_written(outcome));
    return 0;
}
END
# shellcheck disable=SC2046
tools/x86 cc -std=c11 -Wall -Wextra -Wpedantic -Werror $(flags Cflags) -o "$folder/use" "$folder/use.c" $(flags Libs)
expect 'the compiler' $? 0
expect 'the program' "$(tools/x86 run "$folder/use")" 'code 20, 10 bytes'

install_to /usr/ormsvelg "$folder/stage"
lists 'staged' "$folder/stage/usr/ormsvelg"
expect 'the staged prefix' "$(sed -n 's/^prefix=//p' "$folder/stage/usr/ormsvelg/lib/pkgconfig/ormsvelg.pc")" /usr/ormsvelg
expect 'installed twice' "$(install_to "$prefix" ''; lists again "$prefix")" ''

finish install
