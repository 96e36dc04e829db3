#!/bin/sh
# tools/install, and what a house does with an installed copy: every example and the C tests are built through pkg-config, in
# another directory and with nothing of the source tree but their own sources, and the tests run.
#
#   tests/c/installed.sh      after tools/build solver store
set -eu
root=$(cd "$(dirname "$0")/../.." && pwd)
work=$(mktemp -d)
trap 'rm -rf "$work"' EXIT
cd "$work"
fail() { echo "installed: $*" >&2; exit 1; }

# ---- the files
cat >expected <<EOT
include/sievelast.h
include/sievelast_records.h
include/sievelast_store.h
lib/libsievelast.a
lib/libsievelast_store.a
lib/pkgconfig/sievelast.pc
EOT

# holds DIR PREFIX: the files and no other, each readable by all, and a sievelast.pc for PREFIX
holds() {
    (cd "$1" && find . -type f | sed 's|^\./||' | sort) | cmp -s - expected || fail "in $1 are $(cd "$1" && find . -type f)"
    for file in $(cat expected); do
        [ "$(ls -l "$1/$file" | cut -c1-10)" = -rw-r--r-- ] || fail "the mode: $(ls -l "$1/$file")"
    done
    [ "$(ls -ld "$1/lib/pkgconfig" | cut -c1-10)" = drwxr-xr-x ] || fail "the mode: $(ls -ld "$1/lib/pkgconfig")"
    for header in "$root"/include/*.h; do cmp "$header" "$1/include/$(basename "$header")"; done
    cmp "$root/target/staticlib/libsolver.a" "$1/lib/libsievelast.a"
    cmp "$root/target/staticlib/libstore.a" "$1/lib/libsievelast_store.a"
    grep -qxF "prefix=$2" "$1/lib/pkgconfig/sievelast.pc" || fail "sievelast.pc has no line prefix=$2"
    ! grep '@' "$1/lib/pkgconfig/sievelast.pc" || fail 'sievelast.pc has a place that was not filled'
}

"$root/tools/install" "$work/prefix" >said
holds prefix "$work/prefix"
sed "s|^|installed $work/prefix/|" expected | cmp - said || fail "it said: $(cat said)"
"$root/tools/install" "$work/prefix" >said
holds prefix "$work/prefix"
(umask 077 && "$root/tools/install" relative/ >said)
holds relative "$work/relative"
DESTDIR=$work/package "$root/tools/install" "$work/later" >said
holds "package$work/later" "$work/later"
[ ! -e later ] || fail "with DESTDIR it wrote to $work/later too"
status=0
"$root/tools/install" 2>said || status=$?
[ "$status" -eq 2 ] || fail "without PREFIX the status is $status"

# ---- an archive that is missing or older than the code is built by rt, here one that copies it into the crate's out/; where that
# fails nothing is installed
mkdir -p tree/crates/solver_c tree/crates/store_c bin
cp -r "$root/include" "$root/tools" "$root/crates.txt" tree
cat >bin/rt <<EOT
#!/bin/sh
made=\$(basename "\$PWD")
[ "\$1" = lib ] && mkdir -p out && cp "$root/target/staticlib/lib\${made%_c}.a" "out/lib\$made.a"
EOT
chmod +x bin/rt
PATH=$work/bin:$PATH tree/tools/install made >said
holds made "$work/made"
echo old >tree/target/staticlib/libsolver.a
touch -d '1 hour ago' tree/target/staticlib/libsolver.a
touch tree/crates/solver_c/lib.rt
PATH=$work/bin:$PATH tree/tools/install again >said
holds again "$work/again"
rm tree/target/staticlib/libstore.a
echo 'exit 1' >bin/rt
! PATH=$work/bin:$PATH tree/tools/install refused >said || fail 'it goes on where rt fails'
[ ! -e refused ] || fail "rt failed, and there is $(find refused)"

# ---- flags
command -v pkg-config >/dev/null || fail 'there is no pkg-config here'
flags=$(PKG_CONFIG_PATH=$work/prefix/lib/pkgconfig pkg-config --cflags --libs sievelast)
version=$(PKG_CONFIG_PATH=$work/prefix/lib/pkgconfig pkg-config --modversion sievelast)

# build SOURCE: to a program of its name, from its own folder, the installed copy and the system
build() {
    name=$(basename "$1" .c)
    files=$(${CC:-cc} -E "$1" $flags | sed -n 's/^# [0-9]* "\([^"]*\)".*/\1/p' | sort -u)
    ${CC:-cc} -O2 -Wall -Wextra -Werror "$1" $flags -Wl,--trace -o "$name" >linked || fail "$1 does not build"
    for file in $files $(cat linked); do
        case $file in
        "$root"/*/../*) fail "$name uses $file" ;;
        "$(dirname "$1")"/*) ;;
        "$root"/*) fail "$name uses $file" ;;
        esac
    done
    grep -q "$work/prefix/lib" linked || fail "$name is linked with nothing installed"
}

count=0
for source in "$root"/examples/*.c; do
    build "$source"
    count=$((count + 1))
done
for test in solver records stack; do
    build "$root/tests/c/${test}_test.c"
    ./${test}_test >said || { cat said; fail "${test}_test"; }
done

cat >version.c <<EOT
#include <sievelast.h>
#include <stdio.h>
int main(void) { return sievelast_row_text(0) == 0 || puts(SIEVELAST_VERSION) < 0; }
EOT
${CC:-cc} version.c $flags -o version
[ "$(./version)" = "$version" ] || fail "pkg-config says $version, the header $(./version)"
echo "installed: version $(./version); $count examples built, and three tests built and passed, with the installed copy alone"
