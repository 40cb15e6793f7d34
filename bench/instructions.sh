#!/usr/bin/env bash
# How many instructions the built program takes, as whole processes, in millions: run by hand, never part of the gate. The same
# in every run, whatever else the machine does. Needs valgrind.
#
#     bash bench/instructions.sh [PROGRAM]
#
# The first table is of each command on small and on large work, the others say how the cost grows. PROGRAM, the built one if
# left out, reads the words and the input as `sg` does; a call that it refuses is left out.
set -eu
cd "$(dirname "${BASH_SOURCE[0]}")/.."
sg=${1:-$PWD/crates/sg/out/sg}
made=$(mktemp -d)
trap 'rm -rf "$made"' EXIT

# count INPUT WORDS.. : the instructions of one call
count() {
    local input=$1
    shift
    "$sg" "$@" <"$input" >/dev/null 2>&1 || return 0
    valgrind --tool=callgrind --callgrind-out-file=/dev/null "$sg" "$@" 2>&1 >/dev/null <"$input" |
        sed -n 's/.*Collected : //p' | awk '{ printf "%.2f", $1 / 1e6 }'
}

# data NAME NUMBER PROGRAM WORDS.. : a line for this command over the group of examples/ and so many data lines of the awk program
data() {
    local name=$1 number=$2 program=$3
    shift 3
    { cat "examples/$name.txt" && echo %% && awk -v number="$number" "$program"; } >"$made/data"
    printf '| `%s`, %s, %s data lines | %s |\n' "$*" "$name" "$number" "$(count "$made/data" "$@")"
}

heading() { printf '\n| %s | Instructions |\n|---|---|\n' "$1"; }

# call NAME WORDS.. : a line for this command and this group of examples/
call() {
    local name=$1 counted
    shift
    counted=$(count "examples/$name.txt" "$@")
    if [ -n "$counted" ]; then printf '| `%s`, %s | %s |\n' "$*" "$name" "$counted"; fi
}

# lines NUMBER : so many equal lines
lines() {
    yes x,y,z | head -n "$1" >"$made/lines"
    printf "| \`ops\`, %s equal lines | %s |\n" "$1" "$(count "$made/lines" ops)"
}

heading 'Call, group'
for name in p21c fm-3m; do
    for words in ops types 'site 0 0 0' 'site 0.11 0.22 0.35' wyckoff params report 'fit 0.1 0.1 0.5' 'index 1 2 3' 'refl 9 9 9' 'table 9 9 9' \
        'grid 16 16 16' 'basis y,z,x' 'recell 1 -x+y+z,x-y+z,x+y-z'; do
        # shellcheck disable=SC2086
        call "$name" $words
    done
done
call p-1 sample 5
call p-1 sample 7

heading 'Operators'
for name in p-1 p21c p6mmm fm-3m; do
    for words in ops wyckoff params report; do call "$name" "$words"; done
done

heading 'Indices of a box'
for side in 8 16 32 63; do
    for name in p21c fm-3m; do call "$name" refl "$side" "$side" "$side"; done
done

heading 'Points of a grid'
for side in 16 32 64 128; do
    for name in p-1 fm-3m; do call "$name" grid "$side" "$side" "$side"; done
done

heading 'Lines'
for number in 100 1000 10000 100000 174762; do lines "$number"; done

# Pseudorandom numbers, below 2^31, by the rule of a linear congruence.
draw='function draw(most) { seed = (seed * 1103515245 + 12345) % 2147483648; return int(seed / 65536) % most }'

heading 'Sites'
for number in 1000 4096; do
    for name in p21c fm-3m; do
        data "$name" "$number" "$draw BEGIN { while (number--) printf \"A 0.%06d 0.%06d 0.%06d\n\", draw(32768), draw(32768), draw(32768) }" atoms
    done
done

heading 'Measured reflections'
for number in 10000 100000; do
    for name in p21c fm-3m; do
        lines="$draw BEGIN { while (number--) print draw(19) - 9, draw(19) - 9, draw(19) - 9, draw(10) }"
        data "$name" "$number" "$lines" merge
        data "$name" "$number" "$lines" merge anomalous
    done
done

heading 'Values of a map'
for side in 16 32 64; do
    for name in p-1 fm-3m; do
        data "$name" "$((side * side * side))" "$draw BEGIN { while (number--) print draw(10) }" map "$side" "$side" "$side"
    done
done
