#!/bin/sh
# The example programs, end to end: a store in a file behind a socket, its file manager, its solver, and clients that misbehave.
#
#   tests/c/store.sh [FLAG..]      builds them with FLAGs added (-fsanitize=address,undefined ..) and plays them; some seconds
#
# Each step prints a line. The first answer that is not as it must be is printed beside the one expected, and the status is 1.
# EXAMPLES=directory plays the programs of another directory than examples/ (tests/c/wrong-stores), SEED=number other junk.
set -eu
cd "$(dirname "$0")/../.."
examples=${EXAMPLES:-examples}
archives='target/staticlib/libsolver.a target/staticlib/libstore.a'
major=$(awk '$2 == "SIEVELAST_VERSION_MAJOR" { print $3 }' include/sievelast_records.h)
out=$(mktemp -d)
server=
flood=
finish() {
    for process in $server $flood; do
        kill -KILL "$process" 2>/dev/null || true
    done
    rm -rf "$out"
}
trap finish EXIT
trap 'exit 1' INT TERM

build() { ${CC:-cc} -O2 -Wall -Wextra -Werror $flags -Iinclude -I"$examples" "$@" $archives; }
flags=$*
for program in store manager solver; do
    build "$examples/$program.c" -o "$out/$program"
done
build tests/c/clients.c -o "$out/clients"
# a store whose every first call is stopped in the middle
build "$examples/store.c" tests/c/stopped.c -Wl,--wrap=sievelast_gate_parts -o "$out/stopped"
cd "$out"
timeout=500
places=32
mebibyte=1048576

say() { echo "store: $*"; }
fail() {
    echo "store: FAILED: $*"
    [ ! -s said ] || sed 's/^/store: the server said: /' said
    exit 1
}
# is WHAT EXPECTED CAME
is() { [ "$2" = "$3" ] || fail "$1: expected '$2', came '$3'"; }
# same WHAT EXPECTED-FILE CAME-FILE
same() { cmp "$2" "$3" >differs 2>&1 || fail "$1: expected the bytes of $2, came those of $3: $(cat differs)"; }
# granted WHAT COMMAND..: the command must be granted what it asks for
granted() {
    granted_what=$1
    shift
    "$@" >printed 2>errors || fail "$granted_what: expected a grant, came '$(cat errors printed)'"
}
# row N WHAT COMMAND..: the command must be refused by row N
row() {
    row_number=$1 row_what=$2 row_status=0
    shift 2
    "$@" >printed 2>errors || row_status=$?
    is "$row_what" "row $row_number, status 1" "$(sed -n 's/.*: \(row [0-9]*\),.*/\1/p' errors), status $row_status"
}
# wrong TEXT WHAT COMMAND..: the command must end with status 2 and say TEXT
wrong() {
    wrong_text=$1 wrong_what=$2 wrong_status=0
    shift 2
    "$@" >printed 2>errors || wrong_status=$?
    is "$wrong_what" "status 2" "status $wrong_status"
    grep -q "$wrong_text" errors || fail "$wrong_what: expected '$wrong_text', came '$(cat errors)'"
}
# play WHAT ARGUMENT..: a play of the program clients
play() {
    play_what=$1
    shift
    ./clients "$@" >printed 2>errors || fail "$play_what: $(cat printed errors)"
}
house=mill
serve() {
    ./"${1:-store}" serve -t $timeout $house/drive $house/socket 2>>said &
    server=$!
}
# ended STATUS: the server has ended, or ends now, with this status
ended() {
    ended_status=0
    wait "$server" 2>/dev/null || ended_status=$?
    server=
    is 'status of the server' "$1" "$ended_status"
}
stop() {
    kill -TERM "$server"
    ended 0
}
m() {
    m_command=$1
    shift
    ./manager "$m_command" $house "$@"
}
# shape NAME [MEMBER]: the shape by the credential of that name
shape() {
    shape_name=$1
    shift
    ./solver shape $house/socket "$shape_name.credential" "$shape_name.key" "$@"
}
# a time for a frame that is put twice: as late as the window of 5000 lets it be, but a second, so that a slow machine is in time too
milliseconds() { echo $(($(date +%s%3N) + 4000)); }
# put_bytes FILE OFFSET BYTES: other bytes there
put_bytes() { printf "$3" | dd of="$1" bs=1 seek="$2" conv=notrunc 2>dd.errors; }
# a server that must not come up; one that does is ended
no_server() { timeout 5 ./store serve "$@"; }

# ---- a house
granted 'a new directory' ./manager new mill
row 24 'a medium of 16,777,217 bytes' ./store format mill/drive 16777217 mill/master mill/drive-key
printf short >short
row 26 'a key of 5 bytes' ./store format mill/drive 8388608 mill/master short
granted format ./store format mill/drive 8388608 mill/master mill/drive-key
wrong 'File exists' 'format of a drive that is there' ./store format mill/drive 8388608 mill/master mill/drive-key
is 'modes of files with keys' 600 "$(stat -c %a mill/drive mill/master mill/drive-key | sort -u)"
serve
granted keys m keys
granted create m create 4711 21
echo 'log 4711, 312 mm top' >log
granted write m write 4711 <log
granted issue m issue 4711 7 read 10 first.credential first.key
is 'modes of what was issued' 600 "$(stat -c %a first.credential first.key mill/working-key | sort -u)"
granted read shape first
same 'the shape' log printed
say 'formatted, keys set, an object made, a shape written and read back'

time=$(milliseconds)
./solver frame first.credential first.key "$time" 1 21 >frame
granted 'a frame' ./store send mill/socket <frame
./solver check first.credential first.key "$time" 1 21 <printed >checked
same 'the shape that its reply shows' log checked
cp printed damaged
printf '\377' | dd of=damaged bs=1 seek=28 conv=notrunc 2>dd.errors # 8 bytes of head, 21 of shape
row 30 'its reply with the last byte of the shape changed' ./solver check first.credential first.key "$time" 1 21 <damaged
row 12 'the same frame again' ./store send mill/socket <frame
say 'the same frame again: row 12'

granted 'create a second log' m create 4712 21
echo 'log 4712, 298 mm top' >log-4712
granted 'write it' m write 4712 <log-4712
granted 'issue it to the same holder' m issue 4712 7 read 10 4712.credential 4712.key
./solver frame 4712.credential 4712.key "$time" 1 21 >4712.frame
granted 'its frame of the same time and count' ./store send mill/socket <4712.frame
./solver check 4712.credential 4712.key "$time" 1 21 <printed >checked
same 'the shape of the second log' log-4712 checked
row 12 'that frame again' ./store send mill/socket <4712.frame
say "a second log's frame of the same holder, time and count: granted, and again row 12"

# partition 0 has 2,097,152 bytes: the logs are bytes 0 to 20 and 32 to 52, and what comes next starts at 64
rest=$((8388608 / 4 - 64))
row 20 'create a log of one byte more than there is from 64 on' m create 4713 $((rest + 1))
granted 'create one of all that there is from 64 on' m create 4713 $rest
row 20 'create one of a byte, with 11 free between the logs' m create 4714 1
granted 'delete it' m delete 4713
say 'a log that would fit behind the second, and not from a multiple of 16 on: row 20'

# may_read WHAT: holder 7, by the credential named first, reads the first log
may_read() {
    granted "$1" shape first
    same "the shape: $1" log printed
}
may_read 'read by the first table'
granted 'a table by which reads need look too' m table read read,look 0
is 'the table' 'partition 0: its operation table is 000500 000200 000400 000800 001000 002000 004001' "$(cat printed)"
row 13 'a credential with the read right alone' shape first
granted 'issue by that table' m issue 4711 7 read 10 both.credential both.key
granted 'read with both rights' shape both
same 'the shape with both rights' log printed
row 31 'a table with a level of 3' m table read read 3
row 31 'a table without a right' m table read '' 0
row 31 'a table by which a key is set at level 0' m table key key 0
wrong 'none of read, write' 'a right of no name' m table read reed 0
row 13 'the credential with the read right alone, after these' shape first
say 'a table by which reads need look too: the old credential is row 13, a new one reads; tables that are not good are row 31'

stop
[ ! -e mill/socket ] || fail 'the socket is there after the end'
put_bytes mill/drive 16 "$major.9.1\0"
serve
granted 'read after a restart' shape both
same 'the shape after a restart' log printed
row 12 'the old frame after a restart' ./store send mill/socket <frame
row 13 'the credential with the read right alone, after a restart' shape first
say 'a restart, on a file as another version of the same first number left it: shape and table are there, the old frame is still row 12'

granted 'a table by which writes need level 2' m table write write 2
is 'the table' 'partition 0: its operation table is 000100 000202 000400 000800 001000 002000 004001' "$(cat printed)"
granted 'write at level 2' m write 4711 <log
may_read 'read where reads need no look'
granted 'a table that asks for other rights than their own' m table create look,raise 2 write delete 1 raise look 0 delete read,key 2
granted 'create by it' m create 4713 16
granted 'write by it' m write 4713 <short
granted 'raise by it' m raise 4713
granted 'delete by it' m delete 4713
granted 'the first table again' m table
is 'the first table' 'partition 0: its operation table is 000100 000200 000400 000800 001000 002000 004001' "$(cat printed)"
may_read 'read by the first table again'
say "a table by which writes need level 2, one that asks for other rights of the manager's own frames, and the first one again"

wrong 'another server has it' 'a second server of the drive' no_server mill/drive other
granted 'a second drive' ./store format second 4096 mill/master mill/drive-key
wrong 'another server listens' "a second drive at a live server's socket" no_server second mill/socket
touch precious
wrong 'no socket' 'a server where a file is' no_server second precious
[ -f precious ] || fail 'a file was taken for a socket, and is gone'
granted 'read beside all these' shape first
say 'no second server for the drive, none at the socket, none over a file'

# spoilt OFFSET BYTES TEXT WHAT: a drive's file with other bytes at OFFSET is refused
spoilt() {
    cp second other
    put_bytes other "$1" "$2"
    wrong "$3" "a file of another $4" no_server other other-socket
}
spoilt 0 '\377' "not a drive's file" mark
spoilt 16 '\377' 'another version' version
spoilt 16 "$((major - 1)).1.0" 'another version' 'first number of the version'
spoilt 16 "${major}0.1.0" 'another version' 'first number of the version'
spoilt 32 '\377' 'do not fit' 'record size'
cp second other
put_bytes other 16 '2.1.0\0'
put_bytes other 32 '\70\44' # 9,272: what a record had in version 2
wrong 'another version than [0-9.]*: its records have another form' 'a file as version 2.1.0 left it' no_server other other-socket
head -c 100 second >other
wrong "not a drive's file" 'a file cut off' no_server other other-socket
say 'a file of another mark, version or record size, one of version 2.1.0 and one cut off: refused'

before=$(cut -d ' ' -f 1 mill/count)
granted raise m raise 4711
is "the manager's count after a frame" $((before + 1)) "$(cut -d ' ' -f 1 mill/count)"
row 15 'the old credential after a raise' shape first
granted 'issue after a raise' m issue 4711 7 read 10 next.credential next.key
granted 'read under the new credential' shape next
same 'the shape after a raise' log printed
say 'a raise: the old credential is row 15, a new one reads the shape'

# ---- clients that misbehave
granted 'create an object of 1 MiB' m create 5 $mebibyte
granted 'issue to a head' m issue 5 8 write 10 head.credential head.key
granted 'issue to a solver' m issue 5 9 read 10 reader.credential reader.key
play 'messages' messages mill/socket
say "answers are row, length and reply to the byte; an empty frame is row 2"
play 'junk' junk mill/socket "${SEED:-1}"
say '200 clients sent junk and broke off; others are answered'
play 'frames over the bound' overlong mill/socket reader.credential reader.key
say 'frames over the bound: row 5, and the connection ends'
head -c $mebibyte /dev/urandom >large
./clients parts mill/socket head.credential head.key reader.credential reader.key <large >printed 2>errors ||
    fail "a shape in parts: $(tail -n 1 printed) $(cat errors)"
same 'a shape of 1 MiB in parts' large printed
granted 'read 1 MiB' shape reader
same 'a shape of 1 MiB' large printed
say '1 MiB written and read back in parts'
play 'slow clients' stall mill/socket reader.credential reader.key $timeout
say 'five slow clients were dropped in time, others answered meanwhile'
# the server's processor time, in ticks of 10 ms
ticks() { sed 's/.*) //' "/proc/$server/stat" | cut -d ' ' -f 12,13 | tr ' ' '+'; }
before=$(ticks)
play 'a crowd' crowd mill/socket reader.credential reader.key $places $timeout
used=$(($(ticks) - ($before)))
[ $used -lt 15 ] || fail "processor time while all places are taken: expected under 15 ticks, came $used"
say "$places clients at once, and more than there are places: all answered, $used ticks of processor time"

./clients flood mill/socket head.credential head.key 3000 >flooded 2>&1 &
flood=$!
sleep 0.2
play 'messages beside a flood' messages mill/socket
granted 'read beside a flood' shape reader
stop
wait $flood || fail "a flood: $(cat flooded)"
flood=
serve
granted 'read after a flood' shape next
same 'the shape after a flood' log printed
say 'a client that floods: others are answered, and the server ends when asked to'

# ---- stops
kill -KILL "$server"
ended 137
[ -S mill/socket ] || fail 'a killed server leaves its socket'
serve
granted 'read after a kill' shape next
same 'the shape after a kill' log printed
stop
say "a killed server's socket is replaced; its drive is whole"

# broken_off WHAT COMMAND..: the command's call is stopped in the middle, and done again by the next server after a pause
pause=0
broken_off() {
    broken_what=$1
    shift
    serve stopped
    wrong 'Connection reset' "$broken_what, broken off" "$@"
    ended 137
    : >said
    sleep $pause
    serve
    row 2 "an empty frame after $broken_what" ./store send $house/socket </dev/null
    is "calls done again after $broken_what" 1 "$(grep -c 'done again' said)"
}
head -c $mebibyte /dev/urandom >large
broken_off 'a write' m write 5 <large
granted 'read' shape reader
same 'the shape of a write broken off' large printed
stop
# the window is 5000: when the next server starts, the frame is no longer timely, but the call had been made in time
head -c $mebibyte /dev/urandom >large
pause=0.7
broken_off 'a late write' ./clients old mill/socket head.credential head.key 4500 <large
pause=0
granted 'read' shape reader
same 'the shape of a late write broken off' large printed
stop
broken_off 'a raise' m raise 5
granted 'find after a raise' m find 5
granted 'issue' m issue 5 9 read 10 reader.credential reader.key
granted 'read' shape reader
same 'the shape after a raise broken off' large printed
time=$(milliseconds)
./solver frame reader.credential reader.key "$time" 2 $mebibyte >frame
stop
broken_off 'a read' ./store send mill/socket <frame
row 12 'the frame of a read broken off' ./store send mill/socket <frame
stop
broken_off 'a delete' m delete 5
row 14 'read of an object deleted' shape reader
granted 'a delete once more' m delete 5
stop
broken_off 'a create' m create 6 $mebibyte
granted 'find after a create' m find 6
granted 'issue' m issue 6 9 read 10 reader.credential reader.key
granted 'read' shape reader
head -c $mebibyte /dev/zero >zeros
same 'the bytes of a create broken off' zeros printed
stop
broken_off 'a table' m table read read,look 0 key look 2
row 13 'read with the read right alone after a table' shape reader
granted 'a table once more' m table read read,look 0 key look 2
granted 'issue' m issue 6 9 read 10 reader.credential reader.key
granted 'read' shape reader
same 'the bytes after a table broken off' zeros printed
stop
broken_off 'new keys' m keys
granted 'new keys once more' m keys
granted 'the first table again' m table
row 9 'a credential under the old working key' shape next
granted 'issue under the new' m issue 4711 7 read 10 next.credential next.key
granted 'read under the new' shape next
same 'the shape under new keys' log printed
granted 'issue to a head' m issue 6 8 write 10 head.credential head.key
granted 'issue to a solver' m issue 6 9 read 10 reader.credential reader.key
stop
say 'a write, raise, read, delete, create, new table and new key, each stopped in the middle: done again whole'

: >said
play 'kills' kills ./store mill/drive mill/socket head.credential head.key reader.credential reader.key 8 said
say "8 kills while writes streamed in, $(cat printed): $(grep -c 'done again' said) calls done again, each shape whole"

# the replay memory may be full of these frames: clients' say that they are 3 seconds old, so they are outlived in 2
sleep 2.1
./store serve -s mill/drive mill/socket 2>>said &
server=$!
granted 'write with -s' m write 4711 <log
granted 'read with -s' shape next
same 'the shape with -s' log printed
stop
say 'the same with every step on the disk'

# ---- one credential for a stack of logs
# found NAME: a house of its own, so that no replay memory fills; the drive's file is as version 3.0.0 left it
found() {
    house=$1
    granted 'another directory' ./manager new "$house"
    granted 'format in it' ./store format "$house/drive" 8388608 "$house/master" "$house/drive-key"
    put_bytes "$house/drive" 16 "$major.0.0\0"
    serve
    granted keys m keys
}
# number FILE OFFSET: eight bytes there as a number, the lowest first
number() { od -An -t u8 -j "$2" -N 8 "$1" | tr -d ' '; }
# says WHAT LINE..: what the command printed whose output was kept
says() {
    says_what=$1
    shift
    printf '%s\n' "$@" >expected
    same "what $says_what says" expected kept
}
found stack
granted 'create a log' m create 4711 21
granted 'create another' m create 4712 26
granted 'write it' m write 4711 <log
echo 'log 4712, 298 mm top, bent' >log-4712
head -c 26 log-4712 >bent
granted 'write the other' m write 4712 <bent
granted 'a group of both, named in any order' m group 9000 4712 4711
cat printed >kept
granted 'issue for the group' m issue 9000 7 read 10 stack.credential stack.key
cat printed >>kept
granted 'read the first log' shape stack 4711
same 'the first log of the stack' log printed
granted 'read the second log, which is longer' shape stack 4712
same 'the second log of the stack' bent printed
says 'group and issue' 'object 9000: 8 bytes, version 4' 'group 9000: logs 4711 4712' \
    'holder 7 may read the logs of group 9000, version 4, for 10 minutes'
row 33 'a log that is not of the stack' shape stack 4713
row 33 'log 0' shape stack 0
row 28 "a group's credential without a log's number" shape stack
granted 'issue a log' m issue 4711 7 read 10 own.credential own.key
row 28 "a log's own credential with a number" shape own 4711
say 'a stack of two logs, on a file of version 3.0.0: each read by one credential, as long as it is; another number is row 33'

time=$(milliseconds)
./solver frame stack.credential stack.key "$time" 1 21 4711 >frame
is 'bytes of the frame' 100 $(($(wc -c <frame)))
granted 'the frame' ./store send stack/socket <frame
./solver check stack.credential stack.key "$time" 1 21 4711 <printed >checked
same 'the shape that its reply shows' log checked
cp printed reply
row 30 'the reply for another log' ./solver check stack.credential stack.key "$time" 1 21 4712 <reply
row 12 'the frame again' ./store send stack/socket <frame
./solver frame stack.credential stack.key "$time" 1 21 4712 >frame
row 12 'the other log under the same time and count' ./store send stack/socket <frame
head -c 99 frame >short-frame
row 5 'a frame of 99 bytes' ./store send stack/socket <short-frame
say 'frame and reply in two halves; the other log under the same time and count: row 12'

granted 'issue for writes' m issue 9000 8 write 10 head.credential head.key
echo 'log 4712, 305 mm top, 4.9 m' | head -c 26 >bent
granted 'a write through the group' ./clients member stack/socket head.credential head.key 4712 <bent
cp printed frame
row 12 'its frame again' ./store send stack/socket <frame
granted 'issue the log' m issue 4712 7 read 10 own.credential own.key
granted 'read it by its own credential' shape own
same 'what was written through the group' bent printed
row 13 'a write by the credential for reads' ./clients member stack/socket stack.credential stack.key 4712 <bent
row 17 'a write past the log' ./clients member stack/socket head.credential head.key 4712 <large
say "a shape written through the group, read by the log's own credential"

granted 'raise a log of the stack' m raise 4712
cp printed kept
row 15 "the group's credential, for the log" shape stack 4712
row 15 "the group's credential, for the other log" shape stack 4711
row 15 "the group's credential for writes" ./clients member stack/socket head.credential head.key 4711 <log
says 'raise' 'object 9000: 8 bytes, version 5' 'object 4712: 26 bytes, version 6'
granted 'issue anew' m issue 9000 7 read 10 stack.credential stack.key
granted 'read by it' shape stack 4712
same 'the log after the raise' bent printed
granted 'the next stack' m group 9000 4711 4799
cp printed kept
row 15 "the credential of the stack before" shape stack 4711
says 'group' 'object 9000: 8 bytes, version 7' 'group 9000: logs 4711 4799'
granted 'issue for the next stack' m issue 9000 7 read 10 stack.credential stack.key
granted 'read by it' shape stack 4711
same 'the log of both stacks' log printed
row 33 'a log of the stack before' shape stack 4712
row 34 'a log that is not there' shape stack 4799
granted 'create it' m create 4799 5
cp printed kept
row 15 'the credential from before there was the log' shape stack 4799
says 'create' 'object 9000: 8 bytes, version 8' 'object 4799: 5 bytes, version 9'
granted 'issue for it' m issue 9000 7 read 10 stack.credential stack.key
granted 'read it' shape stack 4799
granted 'delete it' m delete 4799
cat printed >kept
row 15 'the credential from when there was the log' shape stack 4711
granted 'create it anew' m create 4799 5
cat printed >>kept
says 'delete and create' 'object 9000: 8 bytes, version 10' 'object 4799: deleted' 'object 9000: 8 bytes, version 11' \
    'object 4799: 5 bytes, version 12'
say 'a log raised, a new list, a log created and deleted: each time the group is raised too, and the old credential is row 15'

# a list of another length is a new object
granted 'a longer list' m group 9000 4799 4712 4711
cp printed kept
says 'group' 'object 9000: deleted' 'object 9000: 12 bytes, version 13' 'group 9000: logs 4711 4712 4799'
row 15 'the credential of the shorter list' shape stack 4711
wrong 'written by' "a group's list written as a shape" m write 9000 <log
wrong 'a group, and no log' 'the group itself in its list' m group 9000 4711 9000
wrong 'a group, and no log' 'the group in the list of another' m group 9001 4711 9000
granted 'a list with a log that is not there' m group 9000 4711 4799 9001
wrong 'a log, or in the list' 'a log made a group' m group 4712 4713
wrong 'a log, or in the list' 'what is in a list made a group' m group 9001 4711
wrong 'from 1, and comes once' 'a member twice' m group 9000 4711 4711
wrong 'from 1, and comes once' 'member 0' m group 9000 4711 0
say "no list has a group, and no group's list is written but by the manager's word for it"

# list NUMBER..: a list of the group as this manager would not write it, with the group itself
list() {
    for list_number; do printf "\\0\\0\\$(printf %o $((list_number / 256)))\\$(printf %o $((list_number % 256)))"; done >list
}
write_list() {
    mv stack/group-9000 away
    granted 'a list that the manager would not write' m write 9000 <list
    mv away stack/group-9000
}
list 4711 4799 9000
write_list
granted 'issue' m issue 9000 7 read 10 stack.credential stack.key
granted 'issue for writes' m issue 9000 8 write 10 head.credential head.key
granted 'read the list' shape stack 9000
same 'the list' list printed
list 4711 4712 9000
granted 'a list written through itself' ./clients member stack/socket head.credential head.key 9000 <list
cp printed frame
row 12 'its frame again' ./store send stack/socket <frame
granted 'read a log of the new list' shape stack 4712
same 'the log of the new list' bent printed
row 33 'read a log of the list before' shape stack 4799
head -c 12 log >none
granted 'what is no list written through it' ./clients member stack/socket head.credential head.key 9000 <none
row 32 'read a log' shape stack 4711
row 32 'write a list' ./clients member stack/socket head.credential head.key 9000 <list
say 'a group that lists itself, written through itself: the next frame is judged by what was written, by row 32 where that is no list'

# stopped within the gate, such a write has not touched the list, and is not made; half written it would be 4711, 6, 9000
list 5 6 9000
write_list
list 4711 4712 9000
stop
serve stopped
wrong 'Connection reset' 'a list written through itself, broken off' ./clients member stack/socket head.credential head.key 9000 <list
ended 137
: >said
serve
row 34 'read by the old list' shape stack 5
row 33 'read by the new list' shape stack 4711
is 'calls done again after that' 0 "$(grep -c 'done again' said)"
granted 'the list written through itself' ./clients member stack/socket head.credential head.key 9000 <list
cp printed frame
stop
# stopped behind the gate it is made, but for bytes of the list: as the file would then be, with 5, 4712, 9000
state=$(number stack/drive 40) at=$(number stack/drive 48) medium=$(($(wc -c <stack/drive) - 8388608))
is 'bytes that the write changed' 6 "$(number stack/drive 56)"
put_bytes stack/drive $((medium + at)) '\0\5'
put_bytes stack/drive 40 "\\$(((state ^ 1) | 4))"
cp stack/drive other
put_bytes other 51 '\1'
wrong 'do not fit' 'a file with bytes for a place behind the medium' no_server other other-socket
: >said
serve
granted 'read a log of the new list' shape stack 4712
same 'the log of the new list' bent printed
granted 'read the other log of the new list' shape stack 4711
is 'calls done again' 1 "$(grep -c 'done again' said)"
row 33 'read by the old list' shape stack 5
row 12 'the frame of that write' ./store send stack/socket <frame
stop
say 'such a write stopped within the gate is not made, and stopped behind it done to its end'

found pile
granted 'create a log' m create 4711 21
granted 'write it' m write 4711 <log
granted 'create a log of 1 MiB' m create 5 $mebibyte
granted 'a group of it' m group 9001 5
granted 'issue' m issue 9001 7 read 10 stack.credential stack.key
granted 'issue for writes' m issue 9001 8 write 10 head.credential head.key
granted 'the longest frame there is' ./clients member pile/socket head.credential head.key 5 <large
granted 'read 1 MiB through a group' shape stack 5
same 'a shape of 1 MiB through a group' large printed
play "a group's frames over the bound" overlong pile/socket stack.credential stack.key 5
stop
head -c $mebibyte /dev/urandom >large
broken_off 'a write through a group' ./clients member pile/socket head.credential head.key 5 <large
granted 'read' shape stack 5
same 'the shape of a write through a group broken off' large printed
stop
broken_off 'a list of another length' m group 9001 4711 5
granted 'the list once more' m group 9001 4711 5
granted 'issue for it' m issue 9001 7 read 10 stack.credential stack.key
cp pile/group-9001 list
: >pile/group-9001
wrong 'not written' 'issue for a list that was not written' m issue 9001 7 read 10 none.credential none.key
cp list pile/group-9001
stop
broken_off 'a new list' m group 9001 4712 5
row 15 'the list once more, under the version that was known' m group 9001 4712 5
row 15 'the credential for the list that was there' shape stack 5
granted 'find after it' m find 9001
granted 'issue for the old list' m issue 9001 7 read 10 stack.credential stack.key
granted 'read a log of it' shape stack 4711
same 'a log of the old list' log printed
granted 'the list once more' m group 9001 4712 5
row 15 'the credential for the old list' shape stack 5
granted 'issue' m issue 9001 7 read 10 stack.credential stack.key
granted 'read' shape stack 5
same 'the shape after a new list broken off' large printed
stop
say '1 MiB through a group; a write through one, and a new list, each stopped in the middle: done again whole'
