#!/bin/sh
# The comparison, the tests of streams and the outputs of all words are checked themselves: each wrong version of the
# second program (mutant.h) must be told from the right one by what its letter there names.  Prints a line for each.
# One build carries them all; which one a run has is in its environment.
#   mutants.sh COMPILE...      the compiler's command line, sources last; run in second/
set -u
build=build/mutants
mkdir -p "$build"
runner=$build/runner
passed=0
failed=0

"$@" -DMUTANTS -o "$runner" || exit 1

# all_words RUNNER: status 1 if RUNNER prints other answers on words and images than build/runner, with the first line
# that differs; 2 if it could not print them
all_words() {
    for mode in --terminal-all --monitor-all; do
        build/runner "$mode" >"$build/right" && "$1" "$mode" >"$build/wrong" || return 2
        line=$(cmp "$build/right" "$build/wrong" 2>&1 | sed 's/.*line \([0-9]*\).*/\1/')
        [ -n "$line" ] || continue
        echo "LINE: $line of $mode, $(sed -n "${line}p" "$build/right" | cut -c1-32 | tr '\t' ' ')"
        return 1
    done
}

# told_apart LETTER RUNNER: status 1 if RUNNER is told from the right program
told_apart() {
    case $1 in
        M) build/compare --most 1 --keep "$build" --only inputs "$2" ;;
        P) build/compare --most 1 --keep "$build" --only streams "$2" ;;
        E) build/compare --most 1 --keep "$build" --only entries --entries "$2 --entries" - ;;
        V) build/compare --most 1 --keep "$build" --only panel --panel "$2 --panel" - ;;
        B) build/compare --most 1 --keep "$build" --only wiring --wiring "$2 --wiring" - ;;
        S) ../tools/tests/streams.py --patience 5 "$2" ;;
        W) all_words "$2" ;;
    esac
}

# where LOG: the input, the test, or the line of all words, that told it
where() {
    sed -n 's/^DIFFERENT: failing-\(.*\)/input \1/p; s/^FAIL \([^:]*\):.*/test "\1"/p; s/^LINE: \(.*\), \(.*\)/line \1 "\2"/p' "$1" | head -1
}

list=$(sed -n 's/^ *\([BMEPSVW]\)(\([0-9]*\), [A-Z0-9_]*, "\(.*\)").*/\1 \2 \3/p' mutant.h)
while read -r letter number text; do
    log=$build/log-$number
    export MUTANT="$number"
    told_apart "$letter" "$runner" >"$log" 2>&1
    status=$?
    if [ "$status" -eq 1 ]; then
        echo "mutant $number told apart by $(where "$log"): $text"
        passed=$((passed + 1))
    else
        echo "mutant $number NOT told apart (status $status): $text"
        failed=$((failed + 1))
    fi
done <<LIST
$list
LIST
echo "$passed passed, $failed failed"
[ "$failed" -eq 0 ]
