#!/usr/bin/env bash
# The package python/sg over the library for C: its tests, and the examples of its texts and of docs/library.md.
#
#     bash checks/python.sh [FOLDER]
#
# The library is that of a folder which bin/sg-library was given, or, where none is told, of out/library, if it is there and is that of
# the sources as they stand. The status is 0 only where all is as it should be.
set -u
cd "$(dirname "${BASH_SOURCE[0]}")/.." || exit 1
exec </dev/null
if ! python3 -c 'import sys; sys.exit(sys.version_info < (3, 9))' 2>/dev/null; then
    echo 'python: skipped, for python3 is missing or older than 3.9'
    exit
fi
library=${1:-out/library}/lib/libsg.so
if [ $# -eq 0 ]; then
    if ! [ -e "$library" ]; then
        echo 'python: skipped, for bin/sg-library has not built the library'
        exit
    fi
    newer=$(find crates.txt crates/*/src crates/*/specs crates/*/proofs include/sg.h -newer "$library" | head -n 1)
    if [ -n "$newer" ]; then
        echo "python: skipped, for the library is older than $newer"
        exit
    fi
fi
SG_LIBRARY=$(realpath "$library") || exit 1
made=$(mktemp -d) || exit 1
trap 'rm -rf "$made"' EXIT
export SG_LIBRARY PYTHONPATH=$PWD/python PYTHONDONTWRITEBYTECODE=1

(cd python/tests && python3 -m unittest test_command test_coordinates test_group test_numpy) || exit 1
awk '/^```python$/ { shown = 1; next } /^```$/ { shown = 0; print "" } shown' docs/library.md >"$made/shown.txt"
grep -q '^>>> import sg' "$made/shown.txt" || exit 1
python3 -m doctest "$made/shown.txt" || exit 1
python3 - <<'TEXTS'
import doctest
import sys

import sg
import sg.coordinates

results = [doctest.testmod(module) for module in (sg, sg.coordinates)]
sys.exit(any(result.failed or not result.attempted for result in results))
TEXTS
