#!/usr/bin/env bash
# Lets each allocation of a call fail in turn: the status is 9, the fault text is told, and nothing is printed. Where no
# allocation is left to fail, the status is 0. By hand, never part of the gate. A C compiler makes what stands before the allocator.
#
#     bash checks/memory.sh
set -u
cd "$(dirname "${BASH_SOURCE[0]}")/.." || exit 1
program=crates/sg/out/sg
made=$(mktemp -d) || exit 1
trap 'rm -rf "$made"' EXIT
passed=0
failed=0

cc -O2 -shared -fPIC -o "$made/fail_malloc.so" checks/fail_malloc.c -ldl || exit 1
bin/sg ops </dev/null >/dev/null || exit 1

# fail_each INPUT WORD.. : the input is an example, or one that was made here.
fail_each() {
    local input=examples/$1 n=0 status
    [ -e "$input" ] || input=$made/$1
    shift
    while n=$((n + 1)); do
        rm -f "$made/failed"
        FAIL_ALLOCATION=$n FAILED=$made/failed LD_PRELOAD=$made/fail_malloc.so \
            "$program" "$@" <"$input" >"$made/printed" 2>"$made/told"
        status=$?
        [ -e "$made/failed" ] || break
        if [ "$status" -eq 9 ] && [ ! -s "$made/printed" ] && grep -qx 'sg: no memory' "$made/told"; then
            passed=$((passed + 1))
        else
            failed=$((failed + 1))
            echo "$*, $input: allocation $n: status $status"
        fi
    done
    if [ "$status" -eq 0 ] && [ -s "$made/printed" ]; then
        echo "$*, $input: $((n - 1)) allocations, each of which failed in turn"
    else
        failed=$((failed + 1))
        echo "$*, $input: status $status where no allocation fails"
    fi
}

# An example with data behind it: with_data NAME EXAMPLE LINE..
with_data() {
    local name=$1 example=$2
    shift 2
    { cat "examples/$example" && printf '%%%%\n' && printf '%s\n' "$@"; } >"$made/$name"
}

with_data sites.txt fm-3m.txt 'Na 0 0 0' 'Cl 1/2 1/2 1/2' 'Na2 1/2 1/2 0' 'C 0.1 0.2 0.3'
with_data measured.txt p21c.txt '0 1 0 7' '0 -1 0 -2' '0 2 0 40' '1 0 1 0' '1 1 1 5' '-1 1 -1 6'
with_data values.txt p-1.txt 5 6 7

fail_each p21c.txt ops
fail_each fm-3m.txt ops
fail_each p21c.txt types
fail_each p-1.txt site 1/2 0 0
fail_each p6mmm.txt site 1/3 2/3 0
fail_each p21c.txt wyckoff
fail_each fm-3m.txt wyckoff
fail_each p21c.txt params
fail_each p6mmm.txt params
fail_each p21c.txt report
fail_each fm-3m.txt report
fail_each p21c.txt fit 0 0 0
fail_each p21c.txt table 1 1 1
fail_each p21c.txt index 1 0 0
fail_each p21c.txt refl 1 1 1
fail_each p31.txt refl 0 0 6
fail_each p-1.txt grid 3 2 1
fail_each p41.txt grid 2 2 4
fail_each p21c.txt basis x-z,y,z
fail_each p-1.txt sample 1
fail_each sites.txt atoms
fail_each measured.txt merge
fail_each measured.txt merge anomalous
fail_each values.txt map 3 1 1
fail_each fm-3m.txt recell 1 -x+y+z,x-y+z,x+y-z
echo "memory: $passed passed, $failed failed"
[ "$failed" -eq 0 ]
