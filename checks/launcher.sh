#!/usr/bin/env bash
# When bin/sg builds, what it says while it does, and what it leaves untouched: over a made repository of three crates, with
# an `rt` that proves nothing but says, reads and leaves what the real one does.
#
# Each failure prints one line. The last line is `launcher: N passed, M failed`; the status is 0 only where M is 0.
set -u
cd "$(dirname "${BASH_SOURCE[0]}")/.." || exit 1
exec </dev/null
passed=0
failed=0

made=$(mktemp -d) || exit 1
trap 'rm -rf "$made"' EXIT
top=$made/repository
program=$top/crates/sg/out/sg

mkdir -p "$made/tools" "$made/proved" "$top/bin" "$top"/crates/{sg,exact_ops,low,above}/{src,specs,proofs}
cp bin/sg "$top/bin/"
touch "$top"/crates/{sg,exact_ops,low,above}/{src/a.rt,specs/a.antt,proofs/a.antt}
cat >"$top/crates.txt" <<'CRATES'
# name: the crates that it stands on
low:
exact_ops: low of_the_kit
sg: exact_ops low
above: sg
CRATES

# The real one works in a crate only while no other does. `rt run` ends with the status of the program.
cat >"$made/tools/rt" <<'RT'
#!/bin/sh
echo "$*" >>"$MADE/calls"
until mkdir "$MADE/lock" 2>/dev/null; do echo 'rt: waiting for another rt to finish in a folder'; "$REAL_SLEEP" 0.1; done
trap 'rmdir "$MADE/lock"' EXIT
prove() {
    [ -e "$MADE/proved/$1" ] && return
    [ -z "$2" ] || echo "$2"
    echo "rt: $1: begins with what a check kept"
    grep -qsx "$1" "$MADE/taken" && return
    echo 'words of the prover'
    if grep -qsx "$1" "$MADE/broken"; then echo 'error: no proof was found'; exit 1; fi
    echo 'logic=proved functions=1'
    : >"$MADE/proved/$1"
}
case $1 in
    lib) for crate in low exact_ops; do prove "$crate" "rt: chose --jobs 4 for $crate"; done ;;
    all)
        echo 'a quick pass over the sources'
        for crate in low exact_ops sg; do
            echo "== $crate"
            [ -n "${failed:-}" ] || (prove "$crate" '') || failed=yes
        done
        echo '== summary'
        ;;
    run)
        for crate in low exact_ops sg; do prove "$crate" "rt: chose --jobs 4 for $crate"; done
        cat
        if [ -e "$MADE/edits" ]; then "$REAL_SLEEP" 0.05; touch ../low/src/a.rt; fi
        if [ -e "$MADE/proved/linked" ] && [ -e out/sg.stamp ]; then exit; fi
        mkdir -p out
        rm -f out/sg.stamp
        printf '#!/bin/sh\nprintf "<%%s>" "$@"; cat; exit 7\n' >out/sg
        chmod +x out/sg
        if [ -e "$MADE/hangs" ]; then echo "$$" >"$MADE/hangs"; exec "$REAL_SLEEP" 60; fi
        : >out/sg.stamp
        : >"$MADE/proved/linked"
        ;;
esac
RT
# bin/sg looks once a second; here it need not wait so long.
printf '#!/bin/sh\nexec "$REAL_SLEEP" 0.05\n' >"$made/tools/sleep"
chmod +x "$made"/tools/*
REAL_SLEEP=$(command -v sleep)
export REAL_SLEEP MADE=$made PATH=$made/tools:$PATH

# report NAME WRONG: nothing wrong is a pass.
report() {
    if [ -z "$2" ]; then
        passed=$((passed + 1))
    else
        failed=$((failed + 1))
        echo "failed: $1: $2"
    fi
}

# has TEXT..: what the last call told has each of these lines, where the digits of times and process numbers do not count.
has() {
    local text
    for text in "$@"; do
        sed -E 's/[0-9]+:[0-9]{2} min/M/; s/build-[0-9]+/build-N/' "$made/told" | grep -qxF "$text" ||
            printf '; it does not say %s' "$text"
    done
}

# expect NAME BUILDS STATUS PRINTED: what one call does.
expect() {
    local name=$1 builds=$2 wanted=$3 printed=$4 status calls wrong=''
    : >"$made/calls"
    [ "$builds" -eq 0 ] || rm -f "$made"/proved/*
    printf 'input' | "$top/bin/sg" one '' 'two words' >"$made/printed" 2>"$made/told"
    status=$?
    calls=$(grep -c '^run' "$made/calls")
    [ "$calls" -eq "$builds" ] || wrong="; $calls builds, not $builds"
    [ "$status" -eq "$wanted" ] || wrong="$wrong; status $status, not $wanted"
    printf '%b' "$printed" | cmp -s - "$made/printed" || wrong="$wrong; standard output differs"
    [ "$wanted" -ne 1 ] || ! [ -e "$program" ] || wrong="$wrong; an old program is left"
    if [ "$builds" -eq 0 ]; then
        [ ! -s "$made/told" ] || wrong="$wrong; standard error is not empty"
    elif [ "$wanted" -eq 1 ]; then
        wrong=$wrong$(has 'bin/sg: proved exact_ops, crate 2 of 3, M' 'error: no proof was found' \
            "bin/sg: the build failed; the end of $top/out/build-N.log:")
        ! grep -q 'proved sg' "$made/told" || wrong="$wrong; it says that sg is proved"
    else
        wrong=$wrong$(has 'bin/sg: proved low, crate 1 of 3, M' 'bin/sg: proved exact_ops, crate 2 of 3, M' \
            'bin/sg: proved sg, crate 3 of 3, M' 'bin/sg: built in M' \
            "bin/sg: what the prover says goes to $top/out/build-N.log")
        ! grep -q 'words of the prover' "$made/told" || wrong="$wrong; the prover's words are on standard error"
        grep -q 'words of the prover' "$top"/out/build-*.log || wrong="$wrong; the prover's words are in no log"
        [ "$(find "$top/out" -type f | wc -l)" -eq 1 ] || wrong="$wrong; more than one log is left"
        [ "$(grep -c ': proved ' "$made/told")" -eq 3 ] || wrong="$wrong; a crate is told twice"
    fi
    report "$name" "${wrong#; }"
}

age() {
    find "$top" -exec touch -d 2001-01-01 {} +
    touch -d 2002-01-01 "$program"
}

# A call that is ended while the program is linked ends `rt` too, and leaves nothing that passes for built.
interrupted() {
    local call status wrong=''
    : >"$made/hangs"
    touch "$top/crates.txt"
    rm -f "$made/proved/linked"
    "$top/bin/sg" ops >"$made/printed" 2>"$made/told" &
    call=$!
    for _ in {1..1200}; do [ -s "$made/hangs" ] || "$REAL_SLEEP" 0.05; done
    kill "$call"
    wait "$call"
    status=$?
    [ "$status" -eq 143 ] || wrong="; status $status, not 143"
    ! kill -0 "$(cat "$made/hangs")" 2>/dev/null || wrong="$wrong; rt goes on"
    [ ! -s "$made/printed" ] || wrong="$wrong; standard output is not empty"
    wrong=$wrong$(has 'bin/sg: the build was interrupted; the next call goes on with what is proved so far')
    rm -rf "$made/hangs" "$made/lock"
    report 'a build that is interrupted' "${wrong#; }"
}

# Both wait for one another's proofs and then run the program.
two_at_once() {
    local first wrong=''
    touch "$top/crates.txt"
    rm -f "$made"/proved/*
    printf 1 | "$top/bin/sg" a >"$made/first" 2>/dev/null &
    first=$!
    printf 2 | "$top/bin/sg" b >"$made/second" 2>/dev/null
    [ $? -eq 7 ] || wrong="; the second call has another status"
    wait "$first"
    [ $? -eq 7 ] || wrong="$wrong; the first call has another status"
    [ "$(cat "$made/first" "$made/second")" = '<a>1<b>2' ] || wrong="$wrong; standard output differs"
    report 'two calls at once' "${wrong#; }"
}

# Crates that were proved before, here or in another checkout, count and are not told.
proved_before() {
    local wrong
    touch "$top/crates.txt"
    echo low >"$made/taken"
    rm -f "$made"/proved/{low,sg,linked}
    "$top/bin/sg" ops >/dev/null 2>"$made/told"
    rm "$made/taken"
    wrong=$(has 'bin/sg: proved sg, crate 3 of 3, M')
    [ "$(grep -c ': proved ' "$made/told")" -eq 1 ] || wrong="$wrong; other crates are told"
    report 'crates that were proved before' "${wrong#; }"
}

edited_meanwhile() {
    local wrong=''
    touch "$top/crates.txt" "$made/edits"
    rm -f "$made/proved/linked"
    "$top/bin/sg" ops >/dev/null 2>&1
    rm "$made/edits"
    : >"$made/calls"
    "$top/bin/sg" ops >/dev/null 2>&1
    grep -q '^run' "$made/calls" || wrong='; it is not built again'
    : >"$made/calls"
    "$top/bin/sg" ops >/dev/null 2>&1
    ! grep -q '^run' "$made/calls" || wrong="$wrong; it is built once more, though rt found nothing new"
    report 'a file that changes during a build' "${wrong#; }"
}

# on_a_terminal NAME TEXT: the line that is rewritten says this last, and no crate has a line of its own. Crates above one
# that fails do not count.
on_a_terminal() {
    local name=$1 text=$2 wrong=''
    if ! command -v script >/dev/null; then
        echo "$name: skipped, for script is missing"
        return
    fi
    touch "$top/crates.txt"
    rm -f "$made"/proved/*
    TERM=vt100 script -qec "$top/bin/sg ops" /dev/null >"$made/told"
    tr '\r' '\n' <"$made/told" | grep -F ' of 3 crates ' | tail -n 1 | grep -qF $'\033[Kbin/sg: '"$text" ||
        wrong="; the line does not say $text"
    ! grep -q ', crate ' "$made/told" || wrong="$wrong; there is a line for each crate"
    report "$name" "${wrong#; }"
}

expect 'the first call' 1 7 '<one><><two words>input'
expect 'the second call' 0 7 '<one><><two words>input'
for file in crates.txt crates/low/src/a.rt crates/low/specs/a.antt crates/low/proofs/a.antt; do
    age
    expect "a call while nothing is newer" 0 7 '<one><><two words>input'
    touch "$top/$file"
    expect "a newer $file" 1 7 '<one><><two words>input'
done
age
rm "$top/crates/low/proofs/a.antt"
expect 'a file that is gone' 1 7 '<one><><two words>input'
rm "$program.stamp"
expect 'a program without its stamp' 1 7 '<one><><two words>input'
echo sg >"$made/broken"
age
touch "$top/crates/sg/src/a.rt"
expect 'a build that fails' 1 1 ''
expect 'a build that fails again' 1 1 ''
rm "$made/broken"
expect 'the next build' 1 7 '<one><><two words>input'
interrupted
expect 'the build after one that was interrupted' 1 7 '<one><><two words>input'
two_at_once
proved_before
edited_meanwhile
on_a_terminal 'a build on a terminal' '3 of 3 crates proved, the last was sg, '
echo exact_ops >"$made/broken"
on_a_terminal 'a build on a terminal that fails' '1 of 3 crates proved, the last was low, '

echo "launcher: $passed passed, $failed failed"
[ "$failed" -eq 0 ]
