#!/usr/bin/env bash
# How many lines that are not blank each crate has, as a table for docs/measures.md: run by hand, never part of the gate.
#
#     bash bench/lines.sh
set -eu
cd "$(dirname "${BASH_SOURCE[0]}")/.."

# lines FILES..
lines() {
    local count
    count=$(cat /dev/null "$@" | grep -c '[^[:space:]]' || true)
    if [ "$count" -gt 0 ]; then printf '%s' "$count"; fi
}

# row CRATE: code, tests, definitions, proofs, wrong bodies
row() {
    local at=crates/$1 tests='/tests\.rt$' code test specs proofs wrong
    if [ "$1" = library_examples ]; then tests='/src/'; fi
    mapfile -t code < <(git ls-files "$at/src" | grep -Ev "$tests" || true)
    mapfile -t test < <(git ls-files "$at/src" | grep -E "$tests" || true)
    mapfile -t specs < <(git ls-files "$at/specs" | grep -v '/Lib\.antt$' || true)
    mapfile -t proofs < <(git ls-files "$at/proofs" | grep -v '/Lib\.antt$' || true)
    mapfile -t wrong < <(git ls-files "$at/must-fail")
    printf '| %s | %s | %s | %s | %s | %s |\n' "$1" "$(lines "${code[@]}")" "$(lines "${test[@]}")" \
        "$(lines "${specs[@]}")" "$(lines "${proofs[@]}")" "$(if [ "${#wrong[@]}" -gt 0 ]; then printf '%s' "${#wrong[@]}"; fi)"
}

printf '| Crate | Code | Tests | Definitions | Proofs | Wrong bodies |\n|---|---|---|---|---|---|\n'
grep -o '^[a-z_]*' crates.txt | while read -r crate; do row "$crate"; done
