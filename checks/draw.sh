#!/usr/bin/env bash
# The diagrams of python/sg/draw over the built program: the tests of python/tests, and the page of each group of examples/.
#
#     bash checks/draw.sh [PROGRAM]
#
# The status is 0 only where all is as it should be.
set -u
cd "$(dirname "${BASH_SOURCE[0]}")/.." || exit 1
exec </dev/null
if ! python3 -c 'import sys; sys.exit(sys.version_info < (3, 9))' 2>/dev/null; then
    echo 'draw: skipped, for python3 is missing or older than 3.9'
    exit
fi
SG=$(realpath "${1:-bin/sg}") || exit 1
"$SG" ops >/dev/null || exit 1
made=$(mktemp) || exit 1
trap 'rm -f "$made"' EXIT
export SG PYTHONPATH=$PWD/python PYTHONDONTWRITEBYTECODE=1

python3 -m unittest discover -s python/tests || exit 1
for file in examples/*.txt; do
    if ! python3 -m sg.draw --axes abc "$file" >"$made" || [ "$(tail -c 8 "$made")" != '</html>' ]; then
        echo "draw: no page of $file"
        exit 1
    fi
done
