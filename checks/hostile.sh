#!/usr/bin/env bash
# Input with data that is cut off, changed or too much, as checks/hostile.py makes it, for the built program.
#
#     bash checks/hostile.sh [PROGRAM]
#
# Each failure prints one line. The last line is `hostile: N passed, M failed`; the status is 0 only where M is 0.
set -uf
cd "$(dirname "${BASH_SOURCE[0]}")/.." || exit 1
exec </dev/null
if ! command -v python3 >/dev/null; then
    echo 'hostile: skipped, for python3 is missing'
    exit
fi
python3 checks/hostile.py "${1:-bin/sg}"
