#!/usr/bin/env bash
# The library for C, as bin/sg-library makes it, from C and from Python: the worked examples, and questions about groups.
# By hand: `bash checks/library.sh`, or with a folder where it is made already. The status is 0 only where all is as it should be.
set -eu
cd "$(dirname "${BASH_SOURCE[0]}")/.."

made=$(mktemp -d)
trap 'rm -rf "$made"' EXIT
folder=${1:-$made}
[ $# -gt 0 ] || bin/sg-library "$folder"

# The header in each language, and the library in both forms.
warnings='-Wall -Wextra -Wpedantic -Werror'
printf '#include <sg.h>\n' >"$made/header.c"
export PKG_CONFIG_PATH=$folder/lib/pkgconfig
cc -std=c99 $warnings -fsyntax-only $(pkg-config --cflags sg) "$made/header.c"
c++ -x c++ -std=c++11 $warnings -fsyntax-only $(pkg-config --cflags sg) "$made/header.c"
cc -std=c99 $warnings -O1 -o "$made/shared" $(pkg-config --cflags sg) checks/library.c $(pkg-config --libs sg) -Wl,-rpath,"$folder/lib"
cc -std=c99 $warnings -O1 -fsanitize=address,undefined -o "$made/static" $(pkg-config --cflags sg) checks/library.c "$folder/lib/libsg.a"
"$made/shared"
"$made/static"

# Random calls, between guards.
cc -std=c99 $warnings -O1 -fsanitize=address,undefined -o "$made/random" $(pkg-config --cflags sg) checks/library_random.c "$folder/lib/libsg.a"
"$made/random" 1 20000

# The program that the document shows.
awk '/^```c$/ { shown = 1; next } /^```$/ { shown = 0 } shown' docs/library.md >"$made/shown.c"
cc -std=c99 $warnings -o "$made/shown" $(pkg-config --cflags sg) "$made/shown.c" "$folder/lib/libsg.a"
[ "$("$made/shown")" = "$(printf '2 equivalent, absent\n2 equivalent, present\n4 equivalent, present')" ]

SG_PROGRAM=$made/static SG_LIBRARY=$folder/lib/libsg.so PYTHONPATH=$folder/python python3 checks/library.py
bash checks/python.sh "$folder"
