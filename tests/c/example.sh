#!/bin/sh
# The example solver through files: a frame out, a shape in, and a damaged reply refused. The files of tests/c/example/ were made by
# Python's hmac, which shares nothing with the code under test: a credential with every right on object 5, a key of bytes 0 to 31,
# the frame of read number 41 at time 1000, the reply to it with a shape of 64 bytes, that shape, and the reply with its last byte
# of the shape changed; and of a group, object 6, a credential with read and look, the frame of the same read for member 4711, and the
# reply to it with the same shape.
set -eu
in=tests/c/example
out=$(mktemp -d)
trap 'rm -rf "$out"' EXIT
credential=$in/credential
solver() {
    command=$1
    shift
    target/solver_example "$command" $credential $in/key "$@"
}
solver frame 1000 41 64 >"$out/frame"
cmp "$out/frame" $in/frame
solver check 1000 41 64 <$in/reply >"$out/shape"
cmp "$out/shape" $in/shape
# refused WHAT TIME COUNT LENGTH REPLY [MEMBER]: no byte of a shape, the row and its meaning, and status 1
said='no shape: row 30, the reply is not the one that the request calls for'
refused() {
    status=0
    solver check "$2" "$3" "$4" ${6:-} <"$5" >"$out/shape" 2>"$out/why" || status=$?
    expected="$said; 0 bytes, status 1"
    came="$(cat "$out/why"); $(wc -c <"$out/shape") bytes, status $status"
    if [ "$came" != "$expected" ]; then
        echo "example: $1: expected '$expected', came '$came'"
        exit 1
    fi
}
refused 'a damaged reply' 1000 41 64 $in/damaged
refused 'the reply to another count' 1000 42 64 $in/reply
refused 'the reply to another time' 1001 41 64 $in/reply
refused 'the reply to another length' 1000 41 63 $in/reply
refused 'no reply' 1000 41 64 /dev/null

credential=$in/group-credential
solver frame 1000 41 64 4711 >"$out/frame"
cmp "$out/frame" $in/group-frame
solver check 1000 41 64 4711 <$in/group-reply >"$out/shape"
cmp "$out/shape" $in/shape
refused 'the reply for another member' 1000 41 64 $in/group-reply 4712
refused 'the reply to a frame without a group' 1000 41 64 $in/reply 4711
said='no frame: row 28, a record is wrong: its length, its mark, a field, or the length of data or result that it calls for'
refused "a group's credential without a member" 1000 41 64 $in/group-reply
credential=$in/credential
refused "a log's own credential with a member" 1000 41 64 $in/reply 4711
echo 'example: frames, shapes and refusals as they must be, through a group too'
