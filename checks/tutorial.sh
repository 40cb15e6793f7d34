#!/usr/bin/env bash
# The transcripts of docs/tutorial.md, README.md and the manual page, run with the built program. A transcript stands between two
# lines of three backquotes: behind `$ ` a command, which lines with `> ` go on; then what it prints, standard error too. The
# commands of a page run one after the other in a folder of their own, so one may read what another wrote there. Each has to end
# with status 0. Then whether README.md, the manual page and the completion of bash know the commands of docs/formats.md, and the
# manual page the faults.
#
#     bash checks/tutorial.sh [PROGRAM]
#
# Each failure prints one line. The last line is `tutorial: N passed, M failed`; the status is 0 only where M is 0.
set -uf
cd "$(dirname "${BASH_SOURCE[0]}")/.." || exit 1
exec </dev/null
export LC_ALL=C
top=$PWD
sg=$(realpath "${1:-bin/sg}") || exit 1
passed=0
failed=0

made=$(mktemp -d) || exit 1
trap 'rm -rf "$made"' EXIT
mkdir "$made/bin" && ln -s "$sg" "$made/bin/sg" && export PATH="$made/bin:$PATH" || exit 1

# A folder with `bin/sg` and `examples`, as the top of the repository has them, and nothing else.
begin_page() {
    page=$1
    folder=$(mktemp -d "$made/page.XXXXXX") && ln -s "$made/bin" "$top/examples" "$folder" || exit 1
    line=0
    begun=0
    command=''
    skipped=0
    steps=0
}

# The step that was read last. Commands that build, install or need gemmi are not run, nor those that need python3 where it is
# missing.
end_step() {
    case $command in
        '' | 'rt '* | 'bin/install'* | 'gemmi '*) ;;
        *python3*) if command -v python3 >/dev/null; then run_step; else skipped=$((skipped + 1)); fi ;;
        *) run_step ;;
    esac
    command=''
}

run_step() {
    local wrong='' status
    steps=$((steps + 1))
    (cd "$folder" && exec timeout 60 bash -c "$command") >"$made/printed" 2>&1
    status=$?
    [ "$status" -eq 0 ] || wrong="status $status"
    cmp -s "$made/output" "$made/printed" || wrong="${wrong:+$wrong; }it prints something else"
    if [ -z "$wrong" ]; then
        passed=$((passed + 1))
    else
        failed=$((failed + 1))
        echo "failed: $page, line $begun: $wrong: ${command%%$'\n'*}"
    fi
}

# ask_page PAGE [FILE]: the transcripts of a page, which are read from a file that has them in this form.
ask_page() {
    local text within=no
    begin_page "$1"
    while IFS= read -r text || [ -n "$text" ]; do
        line=$((line + 1))
        case $within$text in
            'no```'*) within=yes ;;
            'yes```'*)
                end_step
                within=no
                ;;
            'yes$ '*)
                end_step
                command=${text#\$ }
                begun=$line
                : >"$made/output"
                ;;
            'yes> '*) if [ -s "$made/output" ]; then echo "$text" >>"$made/output"; else command+=$'\n'${text#> }; fi ;;
            yes*) printf '%s\n' "$text" >>"$made/output" ;;
        esac
    done <"${2:-$page}"
    if [ "$within" = yes ] || [ "$steps" -eq 0 ]; then
        failed=$((failed + 1))
        echo "failed: $page: no transcript, or one without an end"
    fi
    [ "$skipped" -eq 0 ] || echo "$page: $skipped steps skipped, for python3 is missing"
}

# ---- the manual page and the completion

manual=share/man/man1/sg.1
completion=share/bash-completion/completions/sg

# The examples of the manual page as transcripts, what is escaped there as it is shown.
manual_as_text() {
    sed -e 's/^\.[BE]d.*/```/' -e 's/\\-/-/g' -e "s/\\\\(aq/'/g" -e 's/\\e/\\/g' "$manual"
}

# The words of a command in the table of docs/formats.md, one call a line.
calls_of_formats() {
    sed -n '/^## Words/,/^## Coordinates/ s/^| \(`.*`\) | .*/\1/p' docs/formats.md | sed 's/, /\n/g' | tr -d '`'
}

faults_of_formats() {
    sed -n 's/^| [0-9]* | .* | `\(sg: .*\)` |$/\1/p' docs/formats.md
}

# completed WORD..: what the completion offers for the last word.
completed() {
    bash -c '. "$0"; COMP_WORDS=(sg "$@"); COMP_CWORD=$#; _sg; printf "%s\n" "${COMPREPLY[@]}"' "$completion" "$@"
}

# holds WHAT COMMAND..: the command ends with 0.
holds() {
    local what=$1
    shift
    if "$@" >/dev/null; then
        passed=$((passed + 1))
    else
        failed=$((failed + 1))
        echo "failed: $what"
    fi
}

ask_names() {
    local words shown wanted fault
    calls_of_formats >"$made/calls"
    completed '' | sort >"$made/completed"
    cut -d ' ' -f 1 "$made/calls" | sort -u >"$made/names"
    holds "$completion: the commands" cmp "$made/names" "$made/completed"
    while read -ra words; do
        shown=${words[*]}
        holds "README.md: $shown" grep -qF "| \`${shown% anomalous}\` |" README.md
        holds "$manual: ${words[0]}" grep -qx "\\.It Cm ${words[0]}\\( .*\\)\\?" "$manual"
        wanted=$(grep -qx "${words[*]} anomalous" "$made/calls" && echo anomalous)
        holds "$completion: behind ${words[*]}" test "$(completed "${words[@]}" '')" = "$wanted"
    done <"$made/calls"
    faults_of_formats >"$made/faults"
    holds 'docs/formats.md: faults' test -s "$made/faults"
    while IFS= read -r fault; do
        holds "$manual: $fault" grep -q "^\.Ql $fault" "$manual"
    done <"$made/faults"
}

# ---- all of it

sg ops >"$made/printed"
ask_page docs/tutorial.md
ask_page README.md
manual_as_text >"$made/manual"
ask_page "$manual" "$made/manual"
ask_names
echo "tutorial: $passed passed, $failed failed"
[ "$failed" -eq 0 ] && [ "$passed" -gt 0 ]
