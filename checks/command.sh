#!/usr/bin/env bash
# The built program as a process, through bin/sg: the worked examples (crates/worked_examples/data/README.md says how they are
# written), and what no call in memory can do.
#
# Each failure prints one line. The last line is `command: N passed, M failed`; the status is 0 only where M is 0.
set -uf
cd "$(dirname "${BASH_SOURCE[0]}")/.." || exit 1
exec </dev/null
sg=$PWD/bin/sg
folder=$PWD/crates/worked_examples/data
refused='sg: words are not a command in range\n'
passed=0
failed=0

made=$(mktemp -d) || exit 1
trap 'rm -rf "$made"' EXIT

pass() {
    passed=$((passed + 1))
}

# failure CALL WHAT..
failure() {
    local call=$1
    shift
    failed=$((failed + 1))
    echo "failed: $call: $*"
}

finish() {
    echo "command: $passed passed, $failed failed"
    [ "$failed" -eq 0 ] && [ "$passed" -gt 0 ]
    exit
}

# ---- calls

# call INPUT WORD..: what it prints and tells goes into files, and its status into a variable.
call() {
    local input=$1
    shift
    timeout 60 "$sg" "$@" <"$input" >"$made/printed" 2>"$made/told"
    status=$?
}

# expect CALL STATUS: the last call ended so, and wrote what the files `output` and `fault` have.
expect() {
    local call=$1 wanted=$2 wrong=''
    [ "$status" = "$wanted" ] || wrong="status $status, not $wanted"
    cmp -s "$made/output" "$made/printed" || wrong="${wrong:+$wrong; }standard output differs"
    cmp -s "$made/fault" "$made/told" || wrong="${wrong:+$wrong; }standard error differs"
    if [ -z "$wrong" ]; then pass; else failure "$call" "$wrong"; fi
}

# expect_texts CALL STATUS PRINTED TOLD
expect_texts() {
    printf '%b' "$3" >"$made/output"
    printf '%b' "$4" >"$made/fault"
    expect "$1" "$2"
}

# ---- worked examples

# line_of TEXT: the line that a text stands for.
line_of() {
    case $1 in
        *\\) printf '%b' "${1%\\}" ;;
        *) printf '%b\n' "$1" ;;
    esac
}

# lines_of COUNT TEXT
lines_of() {
    local line
    printf -v line '%b' "${2%\\}"
    case $2 in
        *\\) yes -- "$line" | head -n "$1" | tr -d '\n' ;;
        *) yes -- "$line" | head -n "$1" ;;
    esac
}

# bytes_of LINE: what a line gives behind its mark: a line, so many equal lines, or behind a second mark those of a file.
bytes_of() {
    local mark=${1:0:1} rest=${1:1} count text=''
    case $rest in
        "$mark"*) cat "$folder/${rest#"$mark"}" ;;
        '' | ' '*) line_of "${rest# }" ;;
        *)
            count=${rest%% *}
            [ "$count" = "$rest" ] || text=${rest#* }
            lines_of "$count" "$text"
            ;;
    esac
}

# The words of a call: what stands between blanks, or between apostrophes.
read_words() {
    local rest=$1 word
    words=()
    while rest=${rest#"${rest%%[! ]*}"} && [ -n "$rest" ]; do
        case $rest in
            \'*)
                rest=${rest#\'}
                word=${rest%%\'*}
                rest=${rest#"$word"\'}
                ;;
            *)
                word=${rest%% *}
                rest=${rest#"$word"}
                ;;
        esac
        printf -v word '%b' "$word"
        words+=("$word")
    done
}

begin_example() {
    name=$1
    calls=()
    inputs=0
    output=()
    wanted=0
    : >"$made/input-0"
    : >"$made/fault"
}

# The output that is expected. Lines that may be any are taken from what was printed.
write_output() {
    local line lines=0
    : >"$made/output"
    for line in ${output[@]+"${output[@]}"}; do
        case $line in
            '..'*)
                lines=$(wc -l <"$made/output")
                tail -n +"$((lines + 1))" "$made/printed" | head -n "${line#.. }" >>"$made/output"
                [ "$(wc -l <"$made/output")" -eq "$((lines + ${line#.. }))" ] || echo 'lines are missing' >>"$made/output"
                ;;
            *) bytes_of "$line" >>"$made/output" ;;
        esac
    done
}

# Each call of the example over each of its inputs.
ask_example() {
    local call input words=()
    for call in ${calls[@]+"${calls[@]}"}; do
        read_words "$call"
        for input in $(seq 0 "$inputs"); do
            call "$made/input-$input" ${words[@]+"${words[@]}"}
            write_output
            expect "$file: $name: sg$call, input $((input + 1))" "$wanted"
        done
    done
}

ask_examples() {
    local file=$1 line name calls inputs output wanted
    begin_example ''
    if ! [ -r "$folder/$file" ]; then
        failure "$file" 'cannot be read'
        return
    fi
    while IFS= read -r line || [ -n "$line" ]; do
        case $line in
            '' | '#'*) ;;
            '= '*)
                ask_example
                begin_example "${line#= }"
                ;;
            '$ sg'*) calls+=("${line#\$ sg}") ;;
            '<'*) bytes_of "$line" >>"$made/input-$inputs" ;;
            '|'*)
                inputs=$((inputs + 1))
                bytes_of "$line" >"$made/input-$inputs"
                ;;
            '>'* | '.. '*) output+=("$line") ;;
            '! '*)
                line=${line#! }
                wanted=${line%% *}
                line_of "${line#* }" >"$made/fault"
                ;;
            *) failure "$file" "no line of an example: $line" ;;
        esac
    done <"$folder/$file"
    ask_example
}

# ---- what no call in memory can do

directory_as_input() {
    call "$made" ops
    expect_texts 'a directory as input' 3 '' 'sg: reading failed\n'
    call "$made" help
    expect_texts 'refused words over a directory' 2 '' "$refused"
}

# Nothing is said of what is written then.
words_that_are_no_text() {
    local words
    for words in $'\377' $'ops \377' $'\300\200 ops'; do
        # shellcheck disable=SC2086
        call "$made/empty" $words
        if [ "$status" -eq 1 ]; then pass; else failure "words that are no text" "status $status, not 1"; fi
    done
}

full_device() {
    if ! [ -c /dev/full ]; then
        echo 'a full device: skipped, for /dev/full is missing'
        return
    fi
    : >"$made/printed"
    "$sg" ops </dev/null >/dev/full 2>"$made/told"
    status=$?
    expect_texts 'a full device as standard output' 4 '' 'sg: writing failed\n'
    : >"$made/told"
    "$sg" help </dev/null >"$made/printed" 2>/dev/full
    status=$?
    expect_texts 'a full device as standard error' 2 '' ''
}

closed_standard_error() {
    : >"$made/told"
    "$sg" ops </dev/null >"$made/printed" 2>&-
    status=$?
    expect_texts 'ops with a closed standard error' 0 'x,y,z\n' ''
    "$sg" help </dev/null >"$made/printed" 2>&-
    status=$?
    expect_texts 'help with a closed standard error' 2 '' ''
}

# Where the words are no command, or read nothing, the next reader finds the whole input.
unread_input() {
    local left='status 2\nx,y,z\n-x,-y,-z\n'
    printf 'x,y,z\n-x,-y,-z\n' >"$made/input"
    { "$sg" help 2>"$made/told"; echo "status $?"; cat; } <"$made/input" >"$made/printed"
    status=0
    expect_texts 'a file stays unread' 0 "$left" "$refused"
    { "$sg" help 2>"$made/told"; echo "status $?"; cat; } < <(cat "$made/input") >"$made/printed"
    expect_texts 'a pipe stays unread' 0 "$left" "$refused"
    { "$sg" sample 0 2>"$made/told"; echo "status $?"; cat; } <"$made/input" >"$made/printed"
    expect_texts 'a file stays unread by sample' 0 'group 1 operators 1\n1 1 x,y,z 1000\nstatus 0\nx,y,z\n-x,-y,-z\n' ''
}

other_ways_to_call() {
    (cd "$made" && exec "$sg" ops <empty >printed 2>told)
    status=$?
    expect_texts 'from another folder' 0 'x,y,z\n' ''
    mkdir "$made/a folder" && ln -s "$sg" "$made/a folder/link" && ln -s 'a folder/link' "$made/second link"
    "$made/second link" ops </dev/null >"$made/printed" 2>"$made/told"
    status=$?
    expect_texts 'through symbolic links' 0 'x,y,z\n' ''
}

# What the examples of long outputs leave open: how many classes are absent, and that the orbits fill the cell.
numbers_of_long_outputs() {
    call "$folder/groups/fm-3m.txt" refl 63 63 63
    grep -c ' absent$' "$made/printed" >"$made/counted"
    mv "$made/counted" "$made/printed"
    expect_texts 'absent classes of Fm-3m' 0 '33792\n' ''
    call "$folder/groups/fm-3m.txt" grid 128 128 128
    awk '{ points += $4 } END { print points }' "$made/printed" >"$made/counted"
    mv "$made/counted" "$made/printed"
    expect_texts 'points of a grid of Fm-3m' 0 '2097152\n' ''
}

# ---- all of it

"$sg" ops </dev/null >/dev/null
if ! [ -x crates/sg/out/sg ]; then
    failure bin/sg 'there is no program'
    finish
fi

: >"$made/empty"
while IFS= read -r file; do
    ask_examples "$file"
done <crates/worked_examples/args
directory_as_input
words_that_are_no_text
full_device
closed_standard_error
unread_input
other_ways_to_call
numbers_of_long_outputs
finish
