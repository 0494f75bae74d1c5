# shellcheck shell=bash
# What the commands at the top of the repository share: words of a command line, finding the kit, building a program
# once, running it. The kit proves and builds on x86-64 alone; on other processors what is built already runs under
# qemu-x86_64, and C is cross-compiled.

missing() {
    echo "${0##*/}: $1 is missing. $2" >&2
    exit 2
}

# misuse MESSAGE: tells what is wrong, and the right command; the command itself says `usage`
misuse() {
    echo "${0##*/}: $1" >&2
    usage >&2
    exit 2
}

# is_number WORD: decimal digits without spare zeros, within 64 bits
is_number() {
    [[ $1 =~ ^(0|[1-9][0-9]{0,18})$ ]]
}

# open_input [FILE]: standard input is FILE, or stays what it is
open_input() {
    if [ $# -eq 0 ]; then
        check_input
        return
    fi
    [ -e "$1" ] || misuse "there is no file $1"
    [ ! -d "$1" ] || misuse "$1 is a directory"
    { exec <"$1"; } 2>/dev/null || misuse "$1 cannot be read"
}

check_input() {
    { : 3<&0; } 2>/dev/null || misuse "standard input is closed"
    [ ! -d /dev/stdin ] || misuse "standard input is a directory"
    [ ! -t 0 ] || echo "${0##*/}: reading from the terminal (a file: ./${0##*/} FILE; help: ./${0##*/} --help)" >&2
}

check_output() {
    { : 3>&1; } 2>/dev/null && return
    echo "${0##*/}: standard output is closed" >&2
    exit 1
}

# pass_on PATTERN: the first line, then the rest as it comes; 1 if the first line does not match. An empty PATTERN is for a
# program that may print anything, or nothing.
pass_on() {
    local first verdict=0
    if [ -z "$1" ]; then
        LC_ALL=C cat
        return
    fi
    if ! IFS= read -r first; then
        printf '%s' "$first"
        return 1
    fi
    # shellcheck disable=SC2053
    [[ $first == $1 ]] || verdict=1
    LC_ALL=C cat - /dev/fd/5 5<&0 <<<"$first" || return 1
    return $verdict
}

# run_passing PATTERN COMMAND...: the command on descriptor 4, its output to descriptor 3 through pass_on. Where that
# ends early (nothing can be written any more) the command is ended too, though it may be waiting for input.
run_passing() {
    local pattern=$1 status=0 program
    shift
    pass_on "$pattern" < <(exec "$@" <&4 3>&- 4<&-) >&3 || status=1
    program=$!
    [ $status -eq 0 ] || kill "$program" 2>/dev/null || true
    wait "$program" || status=1
    return $status
}

# run_telling PATTERN COMMAND...: runs a program that has no exit status of its own. Its output passes through at once.
# Status 1 if its first line does not match PATTERN (unless that is empty), or if it, or what it wrote to, told a failure on
# standard error.
run_telling() {
    local status=0 said
    check_output
    exec 3>&1 4<&0
    if [ -p /dev/fd/3 ] || [ -t 3 ]; then
        { exec 3>/dev/fd/3; } 2>/dev/null || true # opened anew it blocks, whatever its other users want
    fi
    said=$(run_passing "$@" 2>&1) || status=1
    [ -n "$said" ] || return $status
    printf '%s\n' "$said" | sed "s/^cat: /standard output: /; s/^/${0##*/}: /" >&2
    return 1
}

is_x86_64() {
    [ "$(uname -m)" = x86_64 ]
}

need_kit() {
    command -v rt >/dev/null || missing "rt" "It comes with the Rattle kit: put the kit's bin folder on PATH."
    need_python # rt runs on it
}

need_c() {
    command -v cc >/dev/null || missing "a C compiler" "On Debian: apt-get install gcc"
    command -v make >/dev/null || missing "make" "On Debian: apt-get install make"
}

need_python() {
    command -v python3 >/dev/null || missing "Python 3" "On Debian: apt-get install python3"
}

# need_x86_c: a C compiler for x86-64, whatever the processor here
need_x86_c() {
    need_c
    is_x86_64 || command -v x86_64-linux-gnu-gcc >/dev/null ||
        missing "a C compiler for x86-64" "On Debian: apt-get install gcc-x86-64-linux-gnu libc6-dev-amd64-cross"
}

# make_x86 WORDS...: make with the compiler for x86-64; on other processors programs are linked whole, so that the
# emulator needs no libraries for them
make_x86() {
    if is_x86_64; then
        make -s "$@"
    else
        make -s CC=x86_64-linux-gnu-gcc LDFLAGS=-static "$@"
    fi
}

# is_new FILE: it is there and newer than every source
is_new() {
    [ -e "$1" ] && [ -z "$(find crates.txt crates/*/src crates/*/specs crates/*/proofs -newer "$1" 2>/dev/null | head -1)" ]
}

# make_new FILE NAME COMMAND...: unless FILE is new, the command writes it under the name that it is given last. FILE is then as new as the
# moment when that began, so that what was changed meanwhile is newer.
make_new() {
    local file=$1 name=$2 part=$1.$$
    shift 2
    is_new "$file" && return 0
    need_kit
    mkdir -p target "${file%/*}"
    : >"$part.begun"
    if ! "$@" "$PWD/$part"; then
        rm -f "$part" "$part.begun"
        echo "${0##*/}: $name could not be built; target/build.log says why" >&2
        exit 2
    fi
    touch -r "$part.begun" "$part"
    rm "$part.begun"
    mv "$part" "$file"
}

# program_of NAME: where `rt ci` leaves the program, proved
program_of() {
    echo "crates/$1/out/$1"
}

# build NAME: the program, it and all that it needs proved. After a passed `rt ci` here nothing is left to do.
build() {
    make_new "$(program_of "$1")" "$1" program_into "$1"
}

program_into() {
    in_copy "$1" cp "crates/$1/out/$1" "$2"
}

# archive_of NAME: where the library for C of crate NAME is written. Its exports are crate NAME_c, a static library, of which `rt ci` leaves nothing.
archive_of() {
    echo "target/staticlib/lib$1.a"
}

# build_archive NAME: the archive, it and all that it needs proved. After a passed `rt ci` here only crate NAME_c is proved, once more.
build_archive() {
    make_new "$(archive_of "$1")" "lib$1.a" archive_into "$1_c"
}

archive_into() {
    if is_proved_below "$1"; then
        echo "${0##*/}: proving $1, over the libraries that rt ci proved here" >&2
        archive_over_libraries "$1" "$2" >target/build.log 2>&1
    else
        in_copy "$1" archive_over_libraries "$1" "$2"
    fi
}

# needs_of CRATE: the libraries that crates.txt lists for it
needs_of() {
    awk -v crate="$1" -F: '{ sub(/#.*/, "") } split($1, words, " ") && words[1] == crate { print $2; found = 1 } END { exit !found }' crates.txt
}

# built_on CRATE: it, and every crate that crates.txt leads to from it; some are the kit's
built_on() {
    awk -v first="$1" -F: '{ sub(/#.*/, "") } NF > 1 { split($1, words, " "); needs[words[1]] = $2 }
        END {
            if (!(first in needs)) exit 1
            list[1] = first; seen[first] = 1; last = 1
            for (i = 1; i <= last; i++) {
                print list[i]
                many = split(needs[list[i]], need, " ")
                for (j = 1; j <= many; j++) if (!(need[j] in seen)) { seen[need[j]] = 1; list[++last] = need[j] }
            }
        }' crates.txt
}

# crates_of CRATE: those of them that are this repository's
crates_of() {
    local name
    for name in $(built_on "$1"); do
        [ ! -d "crates/$name" ] || echo "$name"
    done
}

# in_copy CRATE COMMAND...: proves the crate and what it is built on by `rt ci`, in a copy of these crates, and runs the command at the copy's top.
# So the libraries are proved side by side, what was proved on this machine is taken up, and what is proved now is kept for the gate; `rt run` and
# `rt lib` do neither. The copy has no must-fail edits: they are the gate's, which ./check runs.
in_copy() (
    set -o pipefail
    copy=$(mktemp -d) || exit
    trap 'rm -rf "$copy"' EXIT
    trap 'exit 130' INT TERM
    mkdir "$copy/.git" || exit # rt ci takes the folder above its crates for the whole repository
    [ ! -f HANDLES ] || cp HANDLES "$copy"
    many=0
    for name in $(crates_of "$1"); do
        grep -E "^${name}[ :]" crates.txt >>"$copy/crates.txt" && mkdir -p "$copy/crates/$name" || exit
        for part in "crates/$name"/*; do
            case ${part##*/} in
                out | must-fail) ;;
                *) cp -R "$part" "$copy/crates/$name/" || exit ;;
            esac
        done
        many=$((many + 1))
    done
    echo "${0##*/}: proving $1 and what it is built on, $many crates; what rt ci proved on this machine is taken up, the rest takes some minutes" >&2
    (cd "$copy" && rt ci </dev/null 2>&1) | sed -u "s#$copy/##g" | tee target/build.log | tell_proved "$many" >&2 || exit
    shift
    cd "$copy" && "$@" >>"$OLDPWD/target/build.log" 2>&1
)

# tell_proved MANY: of what `rt ci` says a line for each crate that it proves, or does not; how many were proved already
tell_proved() {
    awk -v many="$1" '/^rt: [a-z_0-9]+ is kept:/ { done++; kept++ }
        /^rt: [a-z_0-9]+ (proved$|NOT PROVED)/ { print ++done " of " many ": " substr($0, 5); fflush() }
        END { if (kept) print kept " of " many " were proved already" }'
}

# is_proved_below CRATE: every library that it is built on lies here as `rt ci` proved it: it has no stamp, as those of other commands do
is_proved_below() {
    local name
    for name in $(crates_of "$1"); do
        [ "$name" = "$1" ] && continue
        [ ! -e "crates/$name/out/rlib/stamp" ] && is_new "crates/$name/out/rlib/$name.rlib" || return 1
    done
}

# archive_over_libraries CRATE FILE: proves the static library from nothing and writes its archive, over the libraries below it as they lie there. The
# words are those of `rt lib`, which takes no library of `rt ci`'s: it would prove each once more; and plain x86-64, as the archives are for any such
# processor, while the kit's default needs SSE4.2 and POPCNT, and an archive does not look for them.
archive_over_libraries() (
    kit=$(kit_home)
    words=(--crate-name "$1" src/lib.rt --extern "std=$kit/rlibs/std.rlib" -L "dependency=$kit/rlibs")
    for name in $(needs_of "$1"); do
        if [ -d "crates/$name" ]; then words+=(--extern "$name=../$name/out/rlib/$name.rlib"); else words+=(--extern "$name=$kit/rlibs/$name.rlib"); fi
    done
    for name in $(crates_of "$1"); do
        [ "$name" = "$1" ] || words+=(-L "dependency=../$name/out/rlib")
    done
    words+=(--antt-project "$kit/rattle/logic/antt-project.json" --logic-built "$kit/logic_built" --jobs 1 --links "$1=" --crate-type staticlib --cpu x86-64)
    cd "crates/$1" && "$kit/bin/rattle" build "${words[@]}" --toolchain "$kit/toolchain" --backend llvm -o "$2"
)

# build_host: host/build/host, the example in C, linked with the proved library
build_host() {
    need_x86_c
    build_archive host
    make_x86 -C host
}

# build_words: host/build/terminal and host/build/monitor, the examples on bus words, each linked with its proved library
build_words() {
    need_x86_c
    build_archive terminal
    build_archive host
    make_x86 -C host words
}

# x86_tool NAME: the binary tool of that name that knows x86-64: nm, readelf, objdump
x86_tool() {
    if is_x86_64; then echo "$1"; else echo "x86_64-linux-gnu-$1"; fi
}

# entries_of_archive ARCHIVE, entries_of_header HEADER: what a library shows, and what its header declares
entries_of_archive() {
    $(x86_tool nm) -g --defined-only "$1" | awk 'NF == 3 { print $3 }' | sort
}

entries_of_header() {
    sed -n 's/^[a-z0-9_]* \(algolmallet_[a-z_]*\)(.*/\1/p' "$1" | sort
}

# needed_by_archive ARCHIVE: what it needs of others
needed_by_archive() {
    $(x86_tool nm) -u "$1" | awk '$1 == "U" { print $2 }' | sort -u
}

# kit_home: the kit's folder
kit_home() {
    need_kit
    (cd "$(dirname "$(readlink -f "$(command -v rt)")")/.." && pwd -P)
}

# command_of NAME: the words that run the program here, from the top of the repository
command_of() {
    local libraries
    if is_x86_64; then
        program_of "$1"
        return
    fi
    libraries=$(kit_home)/toolchain/lib
    echo "qemu-x86_64 $libraries/ld-linux-x86-64.so.2 --library-path $libraries $(program_of "$1")"
}

# command_of_c FILE: the words that run a program of make_x86 here
command_of_c() {
    if is_x86_64; then echo "$1"; else echo "qemu-x86_64 $1"; fi
}
