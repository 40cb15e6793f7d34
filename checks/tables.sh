#!/usr/bin/env bash
# The built program against other programs: each space-group setting of tables/settings.txt, with its operators, its classes of
# reflections, its orbits of grid points and its Wyckoff positions. tables/README.md says how that file is read, and where it
# comes from.
#
#     bash checks/tables.sh [PROGRAM]
#
# Each failure prints one line. The last line is `tables: N passed, M failed`; the status is 0 only where M is 0.
set -uf -o pipefail
cd "$(dirname "${BASH_SOURCE[0]}")/.." || exit 1
exec </dev/null
sg=${1:-crates/sg/out/sg}
[ $# -gt 0 ] || bin/sg ops >/dev/null || exit 1
made=$(mktemp -d) || exit 1
trap 'rm -rf "$made"' EXIT

# Each line of the plan behind a mark, and behind a line that asks the program something, what it prints.
ask() {
    local word rest point
    while read -r word rest; do
        echo "@ $word $rest"
        case $word in
            setting)
                read -r point
                # shellcheck disable=SC2086
                printf '%s\n' $point >"$made/input"
                "$sg" table 6 6 6 <"$made/input" || echo "@ status $?"
                echo '@ grid'
                "$sg" grid 12 12 12 <"$made/input" || echo "@ status $?"
                ;;
            position)
                read -r _ _ point <<<"$rest"
                # shellcheck disable=SC2086
                "$sg" fit $point <"$made/input" || echo "@ status $?"
                ;;
        esac
    done
}

awk -f checks/tables/plan.awk checks/tables/settings.txt | ask | awk -f checks/tables/judge.awk
