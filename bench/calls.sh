#!/usr/bin/env bash
# How long the built program takes, as whole processes: run by hand, never part of the gate.
#
#     bash bench/calls.sh [RUNS]
#
# Each line is a mean over RUNS runs, in milliseconds. The first is what a process costs that does nothing. To compare
# another program, run it in the same way, on the same machine, in the same minute.
set -eu
cd "$(dirname "${BASH_SOURCE[0]}")/.."
runs=${1:-200}
sg=$PWD/crates/sg/out/sg
bin/sg ops </dev/null >/dev/null
most=$(mktemp)
trap 'rm -f "$most"' EXIT
yes x,y,z | head -n 174762 >"$most"

# mean NAME RUNS INPUT COMMAND..
mean() {
    local name=$1 times=$2 input=$3 began ended
    shift 3
    began=$(date +%s%N)
    for _ in $(seq "$times"); do "$@" <"$input" >/dev/null; done
    ended=$(date +%s%N)
    printf '%-42s %8.2f\n' "$name" "$(((ended - began) / times / 10000))e-2"
}

mean 'a process that does nothing' "$runs" /dev/null /bin/true
mean 'ops, P2_1/c (4 operators)' "$runs" examples/p21c.txt "$sg" ops
mean 'ops, Fm-3m (192 operators)' "$runs" examples/fm-3m.txt "$sg" ops
mean 'types, Fm-3m (192 operators)' "$runs" examples/fm-3m.txt "$sg" types
mean 'site 0 0 0, Fm-3m (192 operators)' "$runs" examples/fm-3m.txt "$sg" site 0 0 0
mean 'site 0.11 0.22 0.35, Fm-3m' "$runs" examples/fm-3m.txt "$sg" site 0.11 0.22 0.35
mean 'refl 63 63 63, Fm-3m' "$((runs / 10 + 1))" examples/fm-3m.txt "$sg" refl 63 63 63
mean 'refl 63 63 63, P2_1/c' "$((runs / 10 + 1))" examples/p21c.txt "$sg" refl 63 63 63
mean 'grid 128 128 128, Fm-3m' "$((runs / 10 + 1))" examples/fm-3m.txt "$sg" grid 128 128 128
mean 'grid 128 128 128, P-1' "$((runs / 10 + 1))" examples/p-1.txt "$sg" grid 128 128 128
mean 'basis x+1/8,y,z, Fm-3m' "$runs" examples/fm-3m.txt "$sg" basis x+1/8,y,z
mean 'recell to the primitive cell, Fm-3m' "$runs" examples/fm-3m.txt "$sg" recell 1 -x+y+z,x-y+z,x+y-z
mean 'ops, 174,762 equal lines' "$((runs / 10 + 1))" "$most" "$sg" ops
