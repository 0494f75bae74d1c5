#!/usr/bin/env bash
# Tables and pictures of the examples, against those that are kept in tools/tests/kept. The last line is
# `views: N passed, M failed`; exit status 0 if all passed. With --keep the kept files are written anew: look at them.
set -u
cd "$(dirname "$0")/../.." || exit 2
kept=tools/tests/kept
room=$(mktemp -d)
trap 'rm -rf "$room"' EXIT
passed=0
failed=0

# view STATUS NAME FILE OPTION...: what ./bench shows of the file, against the kept NAME, and its exit status
view() {
    local right=$1 name=$2 file=$3 status=0
    shift 3
    ./bench "$@" "$file" >"$room/$name" 2>"$room/err" || status=$?
    if [ "${keep:-}" = yes ]; then
        cp "$room/$name" "$kept/$name"
    fi
    if [ "$status" -eq "$right" ] && [ ! -s "$room/err" ] && cmp -s "$room/$name" "$kept/$name"; then
        passed=$((passed + 1))
    else
        failed=$((failed + 1))
        echo "FAIL ./bench $* $file: status $status; $(cat "$room/err")"
        diff "$kept/$name" "$room/$name" | head -5
    fi
}

[ "${1:-}" != --keep ] || keep=yes
for name in morning family frame restart refusals heard again; do
    view 0 "$name.txt" "rigs/$name.rig" --table
    view 0 "$name.svg" "rigs/$name.rig" --picture
done
for name in order too-long same-address; do
    view 1 "$name.txt" "rigs/broken/$name.rig" --table
    view 1 "$name.svg" "rigs/broken/$name.rig" --picture
done
# The panel: its verbs are shown; what has none of them is shown as before; without --panel they are no lines.
view 0 waking.txt rigs/panel/waking.rig --panel --table
view 0 waking.svg rigs/panel/waking.rig --picture --panel
view 0 waking-off.txt rigs/panel/waking.rig --table
view 0 overruns.txt rigs/panel/overruns.rig --panel --table
view 0 overruns.svg rigs/panel/overruns.rig --picture --panel
view 0 start.txt rigs/panel/start.rig --panel --table
view 0 start.svg rigs/panel/start.rig --picture --panel
view 0 morning.txt rigs/morning.rig --table --panel
view 1 order.txt rigs/broken/order.rig --panel --table
echo "views: $passed passed, $failed failed"
[ "$failed" -eq 0 ]
