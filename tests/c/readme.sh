#!/bin/sh
# Plays the six commands of README.md, and behind them those for a stack of logs, as they stand there, in a directory that has of a fresh
# clone what they use, and compares what they print with what stands below them there. The first, which makes the archives, is the gate's
# own and was run before. Then the stack's credential must be refused, as README.md says.
set -eu
root=$(cd "$(dirname "$0")/../.." && pwd)
out=$(mktemp -d)
finish() {
    [ ! -f "$out/server" ] || kill "$(cat "$out/server")" 2>/dev/null || true
    rm -rf "$out"
}
trap finish EXIT
trap 'exit 1' INT TERM
# block SECTION N: the Nth indented block of a section
block() {
    awk -v section="## $1" -v want="$2" '
        /^## / { on = $0 == section; n = 0; inside = 0 }
        on && /^    / { n += !inside; inside = 1; if (n == want) print substr($0, 5) }
        !/^    / { inside = 0 }' "$root/README.md"
}
block 'A store in six commands' 1 >"$out/commands"
block 'A store in six commands' 2 >"$out/expected"
block 'One credential for a stack of logs' 1 >"$out/stack"
block 'One credential for a stack of logs' 2 >"$out/stack-expected"
first='tools/build solver store'
commands=$(grep -c '^[^ ]' "$out/commands") || true
if [ "$(head -n 1 "$out/commands")" != "$first" ] || [ "$commands" -ne 6 ] || [ ! -s "$out/expected" ]; then
    echo "readme: expected six commands, '$first' first, and what they print; README.md has $commands"
    exit 1
fi
if [ ! -s "$out/stack" ] || [ ! -s "$out/stack-expected" ]; then
    echo 'readme: expected commands for a stack of logs, and what they print; README.md has none'
    exit 1
fi
mkdir "$out/clone" "$out/clone/target"
ln -s "$root/include" "$root/examples" "$out/clone/"
ln -s "$root/target/staticlib" "$out/clone/target/staticlib"
cd "$out/clone"
# the server's number is noted where it is put into the background; at the end it is ended as a shell's `kill %1` ends it
refused="no shape: row 15, the credential's version is not the present one"
{
    sed "1d; s| &\$| \& echo \$! >$out/server|" "$out/commands"
    cat "$out/stack"
    echo '! ../solver shape socket stack-credential stack-key 4711'
    echo "kill \$!; wait \$!; rm $out/server"
} >"$out/play"
{
    cat "$out/stack-expected"
    echo "$refused"
    echo stopped
} >>"$out/expected"
grep -qF "\`$refused\`" "$root/README.md" || { echo "readme: README.md does not say '$refused'"; exit 1; }
status=0
sh -eu "$out/play" >"$out/came" 2>&1 || status=$?
if [ $status -ne 0 ] || ! cmp -s "$out/expected" "$out/came"; then
    echo "readme: status $status; expected (<) and came (>):"
    diff "$out/expected" "$out/came" || true
    exit 1
fi
echo 'readme: the six commands, and those for a stack of logs, print what README.md says'
