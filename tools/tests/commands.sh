#!/usr/bin/env bash
# The commands as a new user tries them: help, files, misuse, exit statuses. A line for each that is not so; the last line
# is `commands: N passed, M failed`. Exit status 0 if all passed.
set -u
cd "$(dirname "$0")/../.." || exit 2
. tools/kit.sh
build runner
build panel
build rigcheck
build wiring
make -s -C second all tools
room=$(mktemp -d)
trap 'rm -rf "$room"' EXIT
passed=0
failed=0
tab=$'\t'

count() { # count PASSED(0/1) WHAT
    if [ "$1" -eq 0 ]; then
        passed=$((passed + 1))
    else
        failed=$((failed + 1))
        echo "FAIL $2"
    fi
}

# expect STATUS PATTERN COMMAND...: the status, and a line of its output or of standard error that matches
expect() {
    local status=$1 pattern=$2 got=0
    shift 2
    timeout 60 "$@" >"$room/out" 2>&1 || got=$?
    [ "$got" -eq "$status" ] && grep -q -- "$pattern" "$room/out"
    count $? "$*: status $got, not $status, or no line like '$pattern' in: $(head -3 "$room/out")"
}

# expect_in STATUS PATTERN LINE: the same of a line for the shell
expect_in() {
    expect "$1" "$2" bash -c "$3"
}

helps() {
    local command
    for command in ./bench ./rigcheck ./wiring ./compare ./perf; do
        expect 0 "^usage: $command" "$command" --help
        expect 0 '^Exit status\|^Every number' "$command" --help
        expect 0 "^usage: $command" "$command" -h
    done
    expect 0 'running task (0 for none), woken, activated,' ./bench --help
    expect 0 'After F and Z, once all flags are served, the task that ended is tested again' ./bench --help
    expect 0 '^Panel:   V ' ./bench --panel --help
    expect 0 '^Panel:   V ' ./bench --help --panel
    expect 0 '^         O task ' ./bench --panel --help
    expect 0 '^         Y task d ' ./bench --panel --help
    expect_in 0 '^0$' './bench --help | grep -c "^Panel:" || true'
    expect 0 '^Table:   KIND  *NUMBER  *TIMES  *0  1  2' ./wiring --help
    expect 0 '^          4  a rule over the whole rig is broken' ./wiring --help
    for command in second/build/compare second/build/gen second/build/runner; do
        expect 0 "^usage: ${command##*/}" "$command" --help
    done
}

runs() {
    expect 0 "^K${tab}0${tab}6${tab}3${tab}0${tab}0${tab}14400$" ./bench rigs/morning.rig
    expect_in 0 "^K${tab}0${tab}6${tab}3${tab}0${tab}0${tab}14400$" './bench < rigs/morning.rig'
    expect_in 0 "^START${tab}0${tab}0${tab}1${tab}0${tab}0$" 'cat rigs/morning.rig | ./bench | cat'
    expect_in 0 "^START${tab}0" './bench <(cat rigs/morning.rig)'
    expect_in 0 "^START${tab}0" 'cd rigs && ../bench morning.rig'
    expect 0 "^K${tab}0${tab}6${tab}3${tab}0${tab}0${tab}14400$" "$room/link to bench" "$room/a morning.rig"
    expect 0 "^S${tab}8${tab}0${tab}1${tab}0${tab}0$" ./bench rigs/refusals.rig
    expect 0 "^G${tab}0${tab}0${tab}3${tab}1${tab}3$" ./bench rigs/heard.rig
    expect 0 "^G${tab}7${tab}0${tab}3${tab}0${tab}0$" ./bench rigs/heard.rig
    expect 0 'signal 2=1  *accepted  *0  *3  *1  *3$' ./bench --table rigs/heard.rig
    expect 0 "^F${tab}0${tab}0${tab}3${tab}2${tab}0$" ./bench rigs/again.rig
    expect 0 "^F${tab}0${tab}2${tab}2${tab}0${tab}0$" ./bench rigs/again.rig
    expect 0 'terminate 2  *accepted  *4  *2  *0  *0$' ./bench --table rigs/again.rig
    expect 1 "^START${tab}3${tab}6$" ./bench rigs/broken/order.rig
    expect_in 1 "^START${tab}1${tab}1$" './bench < /dev/null'
    expect 0 "^V${tab}0${tab}0${tab}0${tab}0${tab}0${tab}3$" ./bench --panel rigs/panel/waking.rig
    expect_in 0 "^V${tab}0${tab}5${tab}2${tab}0${tab}0$" './bench --panel < rigs/panel/waking.rig'
    expect_in 0 '^0$' './bench rigs/panel/waking.rig | grep -c "^V" || true'
    expect_in 0 '^same$' 'cmp <(./bench --panel rigs/morning.rig) rigs/morning.out && echo same'
    expect 0 'next waking  *accepted  *0  *none  *0  *0  *3$' ./bench --table --panel rigs/panel/waking.rig
    expect 0 "^O${tab}0${tab}4${tab}0${tab}0${tab}0${tab}1$" ./bench --panel rigs/panel/overruns.rig
    expect 0 "^O${tab}6${tab}8${tab}2${tab}0${tab}0$" ./bench --panel rigs/panel/overruns.rig
    expect_in 0 '^0$' './bench rigs/panel/overruns.rig | grep -c "^O" || true'
    expect 0 'overruns of 2  *accepted  *5  *1  *0  *0  *4$' ./bench --table --panel rigs/panel/overruns.rig
    expect 0 'overruns of 0  *6: no such task  *8  *2  *0  *0$' ./bench --table --panel rigs/panel/overruns.rig
    expect 0 "^Y${tab}0${tab}0${tab}0${tab}0${tab}0$" ./bench --panel rigs/panel/start.rig
    expect_in 0 "^Y${tab}0${tab}0${tab}1${tab}0${tab}0${tab}1$" './bench --panel < rigs/panel/start.rig'
    expect 0 "^Y${tab}11${tab}2${tab}6${tab}0${tab}0$" ./bench --panel rigs/panel/start.rig
    expect_in 0 '^0$' './bench rigs/panel/start.rig | grep -c "^Y" || true'
    expect 0 'why not 3, 1  *accepted  *0  *1  *0  *0  *condition 1$' ./bench --table --panel rigs/panel/start.rig
    expect 0 'why not 3, 1  *accepted  *0  *1  *0  *0  *can start$' ./bench --table --panel rigs/panel/start.rig
    expect 0 'why not 7, 4  *11: more than 3 links  *2  *6  *0  *0$' ./bench --table --panel rigs/panel/start.rig
    expect 1 "^START${tab}3${tab}6$" ./bench --panel rigs/broken/order.rig
    expect 0 '^right' ./rigcheck rigs/morning-rig.rig
    expect_in 0 '^right' './rigcheck < rigs/morning-rig.rig'
    expect 1 '^refused' ./rigcheck rigs/broken/order.rig
    expect_in 1 '^refused' './rigcheck < rigs/broken/order.rig'
}

# The wiring sheet. A refused rig is an answer, and so is no line at all.
sheets() {
    local no_rows=rigs/family.rig
    expect 0 "^TERMINAL${tab}7${tab}32$" ./wiring rigs/morning.rig
    expect_in 0 "^ROW${tab}1${tab}32${tab}0${tab}2$" './wiring < rigs/morning.rig'
    expect_in 0 "^ROW${tab}1${tab}32${tab}0${tab}2$" 'cd rigs && cat morning.rig | ../wiring | cat'
    expect_in 0 '^same$' 'cmp <(./wiring rigs/wiring/sheet.rig) rigs/wiring/sheet.out && echo same'
    expect_in 0 '^same$' 'cmp <(./wiring --table rigs/wiring/sheet.rig) rigs/wiring/sheet.table && echo same'
    expect_in 0 '^same$' 'cmp <(./wiring --table < rigs/wiring/sheet.rig) rigs/wiring/sheet.table && echo same'
    expect 0 "^RIG${tab}3${tab}6$" ./wiring rigs/broken/order.rig
    expect 0 "^RIG${tab}3${tab}6$" ./wiring --table rigs/broken/order.rig
    expect_in 0 "^RIG${tab}1${tab}1$" './wiring < /dev/null'
    expect_in 0 '^0$' "set -o pipefail; ./wiring $no_rows | wc -c"
    expect_in 0 '^1$' "set -o pipefail; ./wiring --table $no_rows | wc -l"
    expect 2 'there is no option --none' ./wiring --table --none
    expect 2 'one file is taken, not 2' ./wiring rigs/morning.rig --table
    expect 2 'there is no file rigs/none.rig' ./wiring --table rigs/none.rig
    expect 2 'rigs is a directory' ./wiring --table rigs
    expect_in 1 'No space left on device' './wiring --table rigs/morning-rig.rig >/dev/full'
    expect_in 1 'standard output is closed' "./wiring $no_rows >&-"
}

# misused COMMAND: what any command over a file refuses
misused() {
    expect 2 "^usage: $1 FILE" "$1" --no-such-option
    expect 2 "^usage: $1 FILE" "$1" rigs/morning.rig rigs/family.rig
    expect 2 'there is no file rigs/none.rig' "$1" rigs/none.rig
    expect 2 'rigs is a directory' "$1" rigs
    expect_in 2 'standard input is a directory' "$1 < rigs"
    expect_in 2 'standard input is closed' "$1 <&-"
    expect_in 1 'No space left on device' "$1 rigs/morning-rig.rig >/dev/full"
    expect_in 1 'standard output is closed' "$1 rigs/morning-rig.rig >&-"
    [ -r "$room/locked" ] || expect 2 'cannot be read' "$1" "$room/locked"
}

numbers() {
    local words
    for words in 'x' 'x y' '1 2,5' '1 0' '1 -2' '01 5' '1 5x' '1 ""' '"" 5' '1 2 3' '1.5 2' '99999999999999999999 2'; do
        expect_in 2 '^usage: ./compare \[SEED' "./compare $words"
        expect_in 2 '^usage: compare' "second/build/compare second/build/runner $words"
    done
    for words in '' '1' 'x 1' '1 x' '1 1 none' '1 1x ticks' '1 5 growth 1 0 0' '1 5 growth 2 1025 0' '1 5 growth 2 0 x'; do
        expect_in 2 '^usage: gen' "second/build/gen $words"
    done
    expect 2 '^usage: compare' second/build/compare --most 0 second/build/runner
    expect 2 '^usage: compare' second/build/compare --only none second/build/runner
    expect 2 '^usage: compare' second/build/compare --only entries second/build/runner
    expect 2 '^usage: compare' second/build/compare --only panel second/build/runner
    expect 2 '^usage: compare' second/build/compare --only wiring second/build/runner
    expect 2 '^usage: compare' second/build/compare --only inputs -
    expect 2 '^usage: runner' second/build/runner --none
    expect 0 '5 inputs, 0 different' second/build/compare second/build/runner 7 1
    expect 0 '1 inputs, 0 different' second/build/compare --only panel --panel 'second/build/runner --panel' - 7 1
    expect_in 1 '1 inputs, 1 different' 'second/build/compare --keep '"'$room'"' --only panel --panel second/build/runner - 7 1'
    expect 0 '1 inputs, 0 different' second/build/compare --only wiring --wiring 'second/build/runner --wiring' - 7 1
    expect_in 1 '1 inputs, 2 different' 'second/build/compare --keep '"'$room'"' --only wiring --wiring second/build/runner - 7 1'
    expect 2 '^usage: ./perf' ./perf none
    expect 2 '^usage: ./perf' ./perf growth 5
}

# A reader that goes away ends the run without a word.
quiet_end() {
    { cat rigs/morning.rig && yes K; } 2>/dev/null | timeout 60 ./bench 2>"$room/err" | head -3 >"$room/out"
    local status=${PIPESTATUS[1]}
    [ "$status" -eq 1 ] && [ ! -s "$room/err" ] && head -3 rigs/morning.out | cmp -s - "$room/out"
    count $? "a reader that goes away: status $status, $(cat "$room/err")"
}

ln -s "$PWD/bench" "$room/link to bench"
cp rigs/morning.rig "$room/a morning.rig"
: >"$room/locked"
chmod 000 "$room/locked"
helps
runs
misused ./bench
misused ./rigcheck
sheets
misused ./wiring
expect 2 'there is no file rigs/none.rig' ./bench --panel rigs/none.rig
expect 2 'there is no option --none' ./bench --panel --none
expect 2 'one file is taken, not 2' ./bench --panel rigs/morning.rig --table
expect 2 'one of --table and --picture is taken' ./bench --table --panel --picture rigs/morning.rig
expect_in 1 'No space left on device' './bench --panel rigs/morning-rig.rig >/dev/full'
expect 2 '^usage: ./bench FILE' ./bench --table rigs/none.rig
expect 2 '^usage: ./bench FILE' ./bench --picture rigs/morning.rig rigs/family.rig
numbers
quiet_end
echo "commands: $passed passed, $failed failed"
[ "$failed" -eq 0 ]
