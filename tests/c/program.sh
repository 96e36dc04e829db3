#!/bin/sh
# The programs `gate` and `report` where the system does not do as asked: reads that a signal interrupts, reads that fail, output that
# is closed, full, or read no further (docs/DECISIONS.md, 32). tests/c/program.sh [GATE [REPORT]]
set -u
cd "$(dirname "$0")/../.." || exit 2
gate=${1:-target/bin/gate}
report=${2:-target/bin/report}
input=crates/gate/stdin
work=$(mktemp -d) || exit 2
trap 'rm -rf "$work"' EXIT
bad=0
fail() { echo "program: $name: $1"; bad=1; }
said() { printf "$1" | cmp -s - "$work/out" || { fail "$2 prints"; cat "$work/out"; }; }

# lines that INTERRUPTED and FAILS (tests/c/interrupted.c) make of the example, seven bytes a read
cc -O2 -Wall -Wextra -Werror -shared -fPIC tests/c/interrupted.c -o "$work/interrupted.so" || exit 2
played() { env "$@" LD_PRELOAD="$work/interrupted.so" timeout 20 "$program" <"$input" >"$work/out" || fail "no end: $*"; }
# reads PROGRAM WHOLE FIRST NONE: what it prints of the example, of a break after its first record, and of one before
reads() {
    program=$1
    played INTERRUPTED=0
    said "$2" 'seven bytes a read'
    played INTERRUPTED=1
    said "$2" 'each read interrupted once'
    played INTERRUPTED=1000
    said "$2" 'each read interrupted a thousand times'
    played FAILS=0
    said "$4" 'a first read that fails'
    played FAILS=2
    said "$3" 'a read that fails between two records'
    played FAILS=3 INTERRUPTED=2
    said "$3" 'a read that fails within a record'
    timeout 20 "$program" </ >"$work/out" || fail 'no end: a directory'
    said "$4" 'a directory'
}
name=gate
reads "$gate" '1 2 0\n2 3 0\nend 2\n' '1 2 0\ncut 1\n' 'cut 0\n'
name=report
reads "$report" 'none 2 1\nnone 3 1\ncalls 2\n' 'none 2 1\ncalls 1\n' 'calls 0\n'

# where a program cannot write it must end by itself, in silence: gate, which prints as it reads, on an input without end; report,
# which prints when its input has ended, on a long one
endless() { while cat "$input" "$input" "$input" "$input"; do :; done 2>/dev/null; }
long() { i=0; while [ "$i" -lt 250 ] && cat "$input" "$input" "$input" "$input"; do i=$((i + 1)); done 2>/dev/null; }
# ends WHAT STATUS
ends() {
    [ ! -s "$work/err" ] || { fail "$1: says something"; cat "$work/err"; }
    [ "$2" -eq 0 ] || fail "$1: status $2"
}
# fed SOURCE: the source writes into a pipe of its own, so that one whose reader has gone finds no other
pipes=0
fed() {
    pipes=$((pipes + 1))
    pipe=$work/pipe$pipes
    mkfifo "$pipe" || exit 2
    "$1" >"$pipe" &
}
# writes PROGRAM SOURCE
writes() {
    fed "$2"
    timeout 20 "$1" <"$pipe" >/dev/full 2>"$work/err"
    ends 'a full output' $?
    fed "$2"
    timeout 20 "$1" <"$pipe" >&- 2>"$work/err"
    ends 'a closed output' $?
}
name=gate
writes "$gate" endless
fed endless
(
    trap '' PIPE
    timeout 20 "$gate" <"$pipe" 2>"$work/err"
    echo $? >"$work/status"
) | head -n 1 >"$work/out"
said '1 2 0\n' 'an output read no further'
ends 'an output read no further' "$(cat "$work/status")"
name=report
writes "$report" long
# its input comes when nobody reads its output any more
late() { while [ ! -e "$work/gone" ]; do sleep 0.01; done; long; }
fed late
(
    trap '' PIPE
    timeout 20 "$report" <"$pipe" 2>"$work/err"
    echo $? >"$work/status"
) | { exec <&-; : >"$work/gone"; }
ends 'an output that nobody reads' "$(cat "$work/status")"
# the input that report was given above is one that it prints the counts of
fed long
timeout 20 "$report" <"$pipe" >"$work/out" || fail 'no end: a long input'
said 'none 2 1000\nnone 3 1000\ncalls 2000\n' 'a long input'
[ "$bad" -eq 0 ] && echo 'program: reads interrupted and failed, output full, closed and left: as decided'
exit "$bad"
