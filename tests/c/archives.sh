#!/bin/sh
# What the archives hand to a program: the functions that the headers declare and no other global name; of the program they want
# no more than memcpy and memset; no byte of data that could be written, so that no call keeps anything; and both link into one
# shared object.
#
#   tests/c/archives.sh      after tools/build solver store
set -eu
root=$(cd "$(dirname "$0")/../.." && pwd)
solver=$root/target/staticlib/libsolver.a
store=$root/target/staticlib/libstore.a
work=$(mktemp -d)
trap 'rm -rf "$work"' EXIT

# declared HEADER: the functions that it and the headers which it includes declare, those with a body left out
declared() {
    ${CC:-cc} -E -P "$root/include/$1" | tr '\n' ' ' | sed -e ':body' -e 's/{[^{}]*}/;/' -e 't body' | tr ';' '\n' |
        sed -n -e '/static/d' -e 's/.*[ *]\(sievelast_[a-z_]*\)(.*/\1/p' | sort -u
}

# names FLAG ARCHIVE: its global names, defined or not
names() { nm -g "$1" "$2" | awk 'NF > 1 { print $NF }' | sort -u; }

# same WHAT: are the lists expected and found the same?
same() {
    if ! diff -U0 "$work/expected" "$work/found" >"$work/differ"; then
        echo "archives: $1 (- expected, + found):" >&2
        cat "$work/differ" >&2
        exit 1
    fi
}

# keeps_nothing ARCHIVE: no byte of data or bss
keeps_nothing() {
    bytes=$(size -t "$1" | awk 'END { print $2 + $3 }')
    [ "$bytes" -eq 0 ] || { echo "archives: $1 has $bytes bytes that can be written" >&2; exit 1; }
}

declared sievelast.h >"$work/expected"
names --defined-only "$solver" >"$work/found"
same "what $solver exports"
count=$(wc -l <"$work/found")
declared sievelast_records.h >"$work/records"
declared sievelast_store.h | comm -13 "$work/records" - >"$work/expected"
names --defined-only "$store" >"$work/found"
same "what $store exports"
count=$((count + $(wc -l <"$work/found")))

: >"$work/expected"
for archive in "$solver" "$store"; do
    names --undefined-only "$archive" | sed -e '/^memcpy$/d' -e '/^memset$/d' >"$work/found"
    same "what $archive needs beside memcpy and memset"
    keeps_nothing "$archive"
done
${CC:-cc} -shared -Wl,--fatal-warnings -Wl,--whole-archive "$solver" "$store" -Wl,--no-whole-archive -o "$work/both.so"
echo "archives: $count functions, as the headers declare them, and no other name; no data; both in one shared object"
