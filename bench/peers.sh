#!/usr/bin/env bash
# How long the built program takes beside cctbx and gemmi on the same work, as whole processes: run by hand, never part of the
# gate. Needs g++ and Debian's libcctbx-dev and gemmi-dev; where one of the two is missing, it is left out.
#
#     bash bench/peers.sh [RUNS [PROGRAM]]
#
# From peers/*.cpp it makes two small programs over these libraries. In each of RUNS runs, 5 if left out, the programs take turns,
# so that what else the machine does hits all of them. It prints medians in milliseconds a process, of time by the clock and of
# processor time, and how often the time of `sg` goes into that of the other. Before, the answers of each program are compared with
# those of `sg`: operators, their types and orbits as lines, Wyckoff positions by their multiplicities, and classes of reflections
# by size, number of operators and mark without the phase, since the representatives are each program's own. The last column names
# the programs that agree.
set -eu
cd "$(dirname "${BASH_SOURCE[0]}")/.."
export LC_ALL=C
runs=${1:-5}
sg=${2:-$PWD/crates/sg/out/sg}
[ $# -gt 1 ] || bin/sg ops </dev/null >/dev/null
made=$(mktemp -d)
trap 'rm -rf "$made"' EXIT
ln -s "$(realpath "$sg")" "$made/sg"

# ---- the programs

# version PACKAGE : nothing where it is not installed
version() { dpkg-query -W -f '${Version}' "$1" 2>/dev/null || true; }

programs=(sg)
# build NAME PACKAGE OPTIONS..
build() {
    local name=$1 package=$2
    shift 2
    if [ -z "$(version "$package")" ]; then
        echo "$name is left out: $package is not installed"
    elif g++ -O2 -w -o "$made/$name" "bench/peers/$name.cpp" "$@"; then
        programs+=("$name")
        echo "$name: $package $(version "$package")"
    fi
}

echo "$(nproc) processors, $(awk -F': ' '/^model name/ { print $2; exit }' /proc/cpuinfo); load $(cut -d' ' -f1-3 /proc/loadavg)"
build cctbx libcctbx-dev -lcctbx
build gemmi gemmi-dev

# ---- the inputs: a file of triplets for each setting of checks/tables, and links by name to some of them

mkdir "$made/settings"
awk -v folder="$made/settings" '
    $1 == "=" { file = folder "/" sprintf("%03d", ++count) }
    $1 == "<" { gsub(/^< ?/, ""); gsub(/ /, "\n"); print >file; close(file) }
' checks/tables/settings.txt
# setting NAME : the file of a setting
setting() {
    awk -v name="= $1" -v folder="$made/settings" '/^= / { count++ } $0 == name { printf "%s/%03d", folder, count }' \
        checks/tables/settings.txt
}

# ---- a race

# What two programs have to agree in.
essence() {
    case $1 in
        wyckoff) awk '{ print $2 }' ;;
        refl) awk '{ print $4, $5, $6 }' ;;
        atoms) grep -c '^at ' ;;
        merge) awk 'NF == 6 { print $4, $5, $6 }' ;;
        map) grep -v '^total ' ;;
        *) cat ;;
    esac | sort
}

# answers PROGRAM WORDS.. : a line for each different input, a sum over its essence
answers() {
    local program=$1 input
    shift
    printf '%s\n' "${inputs[@]}" | uniq | while read -r input; do
        "$made/$program" "$@" <"$input" 2>&1 | essence "$1" | cksum
    done
}

# agreement PROGRAM WORDS.. : its name and, where some answers are other than those of `sg`, how many are the same
agreement() {
    answers "$@" | paste - "$made/answers" | awk -v program="$1" '
        { if ($1 == $3 && $2 == $4) same++ }
        END { if (same) print program (same == NR ? "" : " in " same) }
    '
}

# turn PROGRAM WORDS.. : the time of all inputs, by the clock, of the user and of the system
turn() {
    local program=$1 TIMEFORMAT='%R %U %S' input
    shift
    time for input in "${inputs[@]}"; do "$made/$program" "$@" <"$input" >/dev/null 2>&1; done
}

# medians FILE PROCESSES : the median time by the clock and that of a processor, in milliseconds a process
medians() {
    awk -v processes="$2" '
        function median(times, count, i, j, moved) {
            for (i = 2; i <= count; i++) {
                moved = times[i]
                for (j = i - 1; j > 0 && times[j] > moved; j--) times[j + 1] = times[j]
                times[j + 1] = moved
            }
            return (times[int((count + 1) / 2)] + times[int(count / 2) + 1]) / 2 * 1000 / processes
        }
        { clock[NR] = $1; processor[NR] = $2 + $3 }
        END { print median(clock, NR), median(processor, NR) }
    ' "$1"
}

# race NAME WORDS.. : a line for each table. A program that does not know the command is left out.
race() {
    local name=$1 program racers=() agreed=()
    shift
    answers sg "$@" >"$made/answers"
    for program in "${programs[@]}"; do
        "$made/$program" "$@" <"${inputs[0]}" >/dev/null 2>&1 || continue
        racers+=("$program")
        : >"$made/$program.times"
        [ "$program" = sg ] || agreed+=("$(agreement "$program" "$@")")
    done
    for _ in $(seq "$runs"); do
        for program in "${racers[@]}"; do turn "$program" "$@" 2>>"$made/$program.times"; done
    done
    for program in "${racers[@]}"; do
        echo "$program $(medians "$made/$program.times" "${#inputs[@]}")"
    done | awk -v name="$name" -v agreed="${agreed[*]}" -v clock="$made/clock" -v processor="$made/processor" '
        { by_clock[$1] = $2; by_processor[$1] = $3 }
        function row(times, i, program, text) {
            text = sprintf("| %s | %.2f |", name, times["sg"])
            for (i = 1; i <= 2; i++) {
                program = i == 1 ? "cctbx" : "gemmi"
                if (program in times) text = text sprintf(" %.2f | %.1f |", times[program], times[program] / times["sg"])
                else text = text " | |"
            }
            return text " " agreed " |"
        }
        END { print row(by_clock) >>clock; print row(by_processor) >>processor }
    '
    tail -n 1 "$made/clock" >&2
}

# many FILE : twenty processes a turn, for work of a few milliseconds
many() { mapfile -t inputs < <(yes "$1" | head -n 20); }

for name in '1 P 1' '14 P 1 21/c 1' '225 F m -3 m'; do
    many "$(setting "$name")"
    race "\`ops\`, $name" ops
done
for name in '2 P -1' '14 P 1 21/c 1' '191 P 6/m m m' '225 F m -3 m' '230 I a -3 d'; do
    many "$(setting "$name")"
    race "\`wyckoff\`, $name" wyckoff
done
for name in '2 P -1' '14 P 1 21/c 1' '225 F m -3 m'; do
    inputs=("$(setting "$name")")
    race "\`refl 63 63 63\`, $name" refl 63 63 63
    race "\`grid 128 128 128\`, $name" grid 128 128 128
done
inputs=("$made"/settings/*)
for words in ops types wyckoff 'refl 6 6 6' 'grid 12 12 12'; do
    # shellcheck disable=SC2086
    race "\`$words\`, each of ${#inputs[@]} settings" $words
done

# with_data NAME KIND COUNT : the file of a setting with so many pseudorandom data lines behind it
with_data() {
    local file=$made/$2.${1%% *}
    {
        cat "$(setting "$1")"
        echo %%
        awk -v kind="$2" -v count="$3" '
            function number(size) { return int((2 * size + 1) * rand()) - size }
            BEGIN {
                srand(1)
                for (i = 1; i <= count; i++)
                    if (kind == "atoms") printf "A%d %.6f %.6f %.6f\n", i, rand(), rand(), rand()
                    else if (kind == "merge") print number(9), number(9), number(9), number(1000)
                    else print int(10 * rand())
            }'
    } >"$file"
    echo "$file"
}

for name in '14 P 1 21/c 1' '225 F m -3 m'; do
    inputs=("$(with_data "$name" atoms 1000)")
    race "\`atoms\`, 1,000 sites, $name" atoms
    inputs=("$(with_data "$name" merge 80000)")
    race "\`merge\`, 80,000 lines, $name" merge
    inputs=("$(with_data "$name" map 262144)")
    race "\`map 64 64 64\`, $name" map 64 64 64
done

# table TITLE FILE
table() {
    printf '\n| %s | sg | cctbx | cctbx : sg | gemmi | gemmi : sg | as sg |\n|---|---|---|---|---|---|---|\n' "$1"
    cat "$2"
}

table 'Time by the clock' "$made/clock"
table 'Processor time' "$made/processor"
