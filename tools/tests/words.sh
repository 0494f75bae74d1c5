#!/usr/bin/env bash
# Bus words beside the second program's. What the proved programs word_list and word_sums print is kept beside them, and `rt ci` runs both
# and compares: so their kept lines are taken here, and nothing is run a second time. The examples in C over the proved libraries, terminal
# and monitor, are asked the same questions, the image of every word, and everything (--all). A line of result for each; exit status 0 if all
# are the same.
set -euo pipefail
cd "$(dirname "$0")/../.." || exit 2
. tools/kit.sh
build_words
make -s -C second all
second=second/build/runner
list=crates/word_list/stdout
sums=crates/word_sums/stdout
terminal=$(command_of_c host/build/terminal)
monitor=$(command_of_c host/build/monitor)
room=$(mktemp -d)
trap 'rm -rf "$room"' EXIT

fail() {
    echo "words: FAIL, $1" >&2
    exit 1
}

# ask COMMAND VERBS...: the lines of word_list with these verbs are questions that the program must answer by the same lines; tells how many
ask() {
    local command=$1 verb
    shift
    : >"$room/asked"
    for verb; do
        grep "^$verb"$'\t' $list >>"$room/asked" || fail "word_list has no line $verb"
    done
    # shellcheck disable=SC2094 # both read the file
    $command <"$room/asked" | cmp - "$room/asked" >&2 || fail "word_list and $command differ"
    wc -l <"$room/asked"
}

# met FILE KIND NAMES...: how often each answer was met, as FILE tells at its end; each at least 50 times, clean once at each of 32 addresses
met() {
    local file=$1 kind=$2 numbers name number told=
    shift 2
    read -r -a numbers < <(sed -n "s/^answers\t$kind\t//p" "$file") || fail "the $kind answers are not counted"
    [ ${#numbers[@]} -eq $# ] || fail "the $kind answers are counted as ${numbers[*]}, not by $*"
    for name; do
        number=${numbers[0]}
        numbers=("${numbers[@]:1}")
        case $name in
            clean) [ "$number" -eq 32 ] || fail "$number images are clean, not one at each of the 32 addresses" ;;
            *) [ "$number" -ge 50 ] || fail "$kind was $name $number times only" ;;
        esac
        told="$told $number $name,"
    done
    echo "$kind${told%,}"
}

# manners COMMAND: what a new user meets: help, misuse, an output that cannot be written
manners() {
    local status=0
    $1 --help | grep -q '^usage:' || fail "$1 --help says no usage"
    $1 --none 2>"$room/said" >/dev/null || status=$?
    { [ "$status" -eq 2 ] && grep -q '^usage:' "$room/said"; } || fail "$1 --none: status $status, or no usage"
    status=0
    $1 --all 2>/dev/null >/dev/full || status=$?
    [ "$status" -eq 1 ] || fail "$1 --all into a full device: status $status"
}

questions=$(wc -l <$list)
[ "$questions" -ge 39 ] || fail "word_list prints $questions lines only"
# shellcheck disable=SC2094 # both read the file
$second --words <$list | cmp - $list || fail "word_list and the second program differ"
$second --sums | cmp - $sums || fail "word_sums and the second program differ"
echo "words: $questions answers of word_list, and the sums over all 65,536 words and all images at every address, are the same"

sent=$(ask "$terminal" command status)
heard=$(ask "$monitor" fields bits judge)
seq 0 65535 | sed 's/^/image\t/' >"$room/images"
$second --words <"$room/images" >"$room/answers"
$terminal <"$room/images" | cmp - "$room/answers" || fail "images of the terminal and of the second program differ"
echo "words: $sent of these answers from the terminal and $heard from the monitor, and the terminal's image of each of the 65,536 words, are the same"

$terminal --all >"$room/terminal"
$second --terminal-all | cmp - "$room/terminal" || fail "terminal --all and the second program differ"
commands=$(met "$room/terminal" command accepted refused)
statuses=$(met "$room/terminal" status accepted refused)
images=$(met "$room/terminal" image made)
echo "words: everything that the terminal answers is the same: $commands; $statuses; $images"

$monitor --all >"$room/monitor"
$second --monitor-all | cmp - "$room/monitor" || fail "monitor --all and the second program differ"
judged=$(met "$room/monitor" judge clean exception error refused)
echo "words: everything that the monitor answers is the same: all words taken apart; $judged"

manners "$terminal"
manners "$monitor"
echo "words: terminal and monitor tell how they are used, refuse misuse by status 2, and tell an output that fails by status 1"
