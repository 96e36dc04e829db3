#!/bin/sh
# Each header compiles alone and twice included, as C and as C++, without a warning under the flags that careful houses use; all
# of them in one program, whichever comes first; and a C++ program over both archives runs (headers.cc). Needs gcc, clang and their C++.
#
#   tests/c/headers.sh      after tools/build solver store
set -eu
root=$(cd "$(dirname "$0")/../.." && pwd)
strict='-pedantic -Wall -Wextra -Wconversion -Wsign-conversion -Wshadow -Wundef -Wcast-qual -Wcast-align -Werror'
work=$(mktemp -d)
trap 'rm -rf "$work"' EXIT
count=0
fail() { echo "headers: $*" >&2; exit 1; }

# compiles COMPILER LANGUAGE STANDARD HEADER..: these headers, in this order, one after the other
compiles() {
    with="$1 -x $2 -std=$3"
    shift 3
    printf '#include "%s"\n' "$@" >"$work/source"
    $with $strict -I"$root/include" -fsyntax-only "$work/source" || fail "not with '$with': $*"
    count=$((count + 1))
}

# every COMPILER LANGUAGE STANDARD..
every() {
    compiler=$1 language=$2
    shift 2
    command -v "$compiler" >/dev/null || fail "there is no $compiler here"
    for standard in "$@"; do
        for header in sievelast.h sievelast_records.h sievelast_store.h; do
            compiles "$compiler" "$language" "$standard" $header $header
        done
        compiles "$compiler" "$language" "$standard" sievelast.h sievelast_store.h sievelast_records.h
        compiles "$compiler" "$language" "$standard" sievelast_store.h sievelast_records.h sievelast.h
    done
}

for compiler in gcc clang; do every $compiler c c99 c11 c17 gnu17; done
for compiler in g++ clang++; do every $compiler c++ c++11 c++17 c++20; done
[ "$(ls "$root"/include | wc -l)" -eq 3 ] || fail 'include/ has other headers than this test'

# another machine is refused by name
echo '#include "sievelast.h"' >"$work/source"
! ${CC:-cc} -x c -U__LP64__ -I"$root/include" -fsyntax-only "$work/source" 2>"$work/said" || fail 'another machine is not refused'
grep -q '#error.*x86-64' "$work/said" || fail "another machine is refused by: $(cat "$work/said")"

${CXX:-c++} -std=c++11 -pedantic -Wall -Wextra -Werror -I"$root/include" "$root/tests/c/headers.cc" \
    "$root/target/staticlib/libsolver.a" "$root/target/staticlib/libstore.a" -o "$work/headers"
"$work/headers"
echo "headers: compiled $count times without a warning"
