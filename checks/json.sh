#!/usr/bin/env bash
# What `report` prints, read by Python's json: the shape that docs/formats.md promises, and the texts that `ops`, `wyckoff` and
# `params` print of the same group.
#
#     bash checks/json.sh [PROGRAM]
#
# Each failure prints one line. The last line is `json: N passed, M failed`; the status is 0 only where M is 0.
set -uf
cd "$(dirname "${BASH_SOURCE[0]}")/.." || exit 1
exec </dev/null
sg=${1:-bin/sg}
if ! command -v python3 >/dev/null; then
    echo 'json: skipped, for python3 is missing'
    exit
fi
made=$(mktemp -d) || exit 1
trap 'rm -rf "$made"' EXIT

# Each group in a file of its own: six, two of them in other settings.
begin_groups() {
    printf 'x,y,z\n' >"$made/P1.group" &&
        cp examples/p21c.txt "$made/P2_1c.group" &&
        cp examples/p6mmm.txt "$made/P6mmm.group" &&
        cp examples/fm-3m.txt "$made/Fm-3m.group" &&
        "$sg" basis x+y,y,z <examples/p21c.txt >"$made/P2_1c-sheared.group" &&
        "$sg" recell 1 -x+y+z,x-y+z,x+y-z <examples/fm-3m.txt >"$made/Fm-3m-primitive.group"
}

# Where a call fails, its text is empty, and that is judged.
ask() {
    local group word
    for group in P1 P2_1c P6mmm Fm-3m P2_1c-sheared Fm-3m-primitive; do
        for word in report ops wyckoff params; do
            "$sg" "$word" <"$made/$group.group" >"$made/$group.$word" || : >"$made/$group.$word"
        done
        echo "$made/$group"
    done
}

judge='
import json, sys

passed = failed = 0

def expect(what, holds):
    global passed, failed
    passed += bool(holds)
    failed += not holds
    if not holds:
        print("failed:", what)

def keys(value):
    return [key for key, _ in value]

for group in sys.stdin.read().splitlines():
    name = group.split("/")[-1]
    report, ops, wyckoff, params = (open(group + "." + word).read() for word in ("report", "ops", "wyckoff", "params"))
    try:
        ordered = json.loads(report, object_pairs_hook=list)
        value = json.loads(report)
        rows = [(row["mult"], row["text"], row["param"]) for row in value["rows"]]
        expect(name + ": the keys of the report", keys(ordered) == ["operators", "rows"])
        expect(name + ": the keys of a row", all(keys(row) == ["mult", "param", "text"] for row in dict(ordered)["rows"]))
        expect(name + ": the operators", value["operators"] and value["operators"] == ops.splitlines())
    except (ValueError, KeyError, TypeError) as error:
        expect(name + ": " + repr(error), False)
        continue
    shown = [(line.split(" "), form.split(" ")) for line, form in zip(wyckoff.splitlines(), params.splitlines())]
    expect(name + ": the rows", rows == [(int(line[1]), line[2], form[2]) for line, form in shown])
    expect(name + ": how many rows", len(rows) == len(wyckoff.splitlines()) == len(params.splitlines()) > 0)
    expect(name + ": a number that is no text", all(type(mult) is int for mult, _, _ in rows))
    expect(name + ": no blank, and one line feed", report == json.dumps(value, separators=(",", ":")) + "\n")

print(f"json: {passed} passed, {failed} failed")
sys.exit(failed > 0 or passed == 0)
'

begin_groups || exit 1
ask | python3 -c "$judge"
