#!/usr/bin/env bash
# bin/install and packaging/archive.sh: what they put works from where it is, what is taken away leaves nothing, and no file of
# others is touched. From C and from Python the examples of README.md are run, where the library is built and a C compiler or
# Python is there.
#
#     bash checks/install.sh
#
# Each failure prints one line. The last line is `install: N passed, M failed`; the status is 0 only where M is 0.
set -uf
cd "$(dirname "${BASH_SOURCE[0]}")/.." || exit 1
exec </dev/null
export LC_ALL=C
unset DESTDIR PYTHON_FOLDER PYTHONPATH SG_LIBRARY LD_LIBRARY_PATH PKG_CONFIG_PATH SOURCE_DATE_EPOCH
export PYTHONDONTWRITEBYTECODE=1
passed=0
failed=0

made=$(mktemp -d) || exit 1
trap 'rm -rf "$made"' EXIT

# holds WHAT COMMAND..: the command ends with 0.
holds() {
    local what=$1
    shift
    if "$@" >"$made/said" 2>&1; then
        passed=$((passed + 1))
    else
        failed=$((failed + 1))
        echo "failed: $what"
        head -n 5 "$made/said"
    fi
}

fails() { ! "$@"; }

# prints TEXT COMMAND..: the command ends with 0, and prints this on both streams.
prints() {
    local text=$1
    shift
    "$@" >"$made/printed" 2>&1 && printf '%b' "$text" | cmp - "$made/printed"
}

# tells TEXT COMMAND..: whether it ends with 0 or not, the command prints a line that has the text.
tells() {
    local text=$1
    shift
    "$@" >"$made/printed" 2>&1
    grep -F -e "$text" "$made/printed"
}

# block LANGUAGE: the example of README.md in this language.
block() { sed -n "/^\`\`\`$1\$/,/^\`\`\`\$/{//!p}" README.md; }

from_c() {
    local folder=$1
    { printf '#include <sg.h>\n#include <stdio.h>\n#include <string.h>\nint main(void)\n{\n'; block c; echo 'return 0; }'; } >"$made/ask.c"
    # shellcheck disable=SC2046
    PKG_CONFIG_PATH=$folder/lib/pkgconfig gcc -std=c99 -Wall -Wextra -Wpedantic -Werror -o "$made/ask" "$made/ask.c" \
        $(PKG_CONFIG_PATH=$folder/lib/pkgconfig pkg-config --cflags --libs sg) -Wl,-rpath,"$folder/lib" &&
        prints 'absent\n' "$made/ask"
}

# from_python FOLDER: python3, told where the modules are.
from_python() {
    block python >"$made/ask.txt"
    grep -q '^>>> import sg' "$made/ask.txt" && PYTHONPATH=$1 python3 -m doctest "$made/ask.txt"
}

# works WHERE FOLDER MODULES: what stands in a folder that was installed or unpacked, its Python modules in another.
works() {
    local where=$1 folder=$2 modules=$3
    holds "$where: the program" prints 'x,y,z\nx,-y+1/2,z+1/2\n-x,y+1/2,-z+1/2\n-x,-y,-z\n' "$folder/bin/sg" ops <examples/p21c.txt
    holds "$where: the manual page" cmp share/man/man1/sg.1 "$folder/share/man/man1/sg.1"
    holds "$where: the completion" bash -c '. "$0" && complete -p sg' "$folder/share/bash-completion/completions/sg"
    if ! [ -e "$folder/lib/libsg.so" ]; then
        echo "$where: C and Python are skipped, for the library is not built"
        return
    fi
    if command -v gcc >/dev/null && command -v pkg-config >/dev/null; then
        holds "$where: from C" from_c "$folder"
    else
        echo "$where: C is skipped, for gcc or pkg-config is missing"
    fi
    if command -v python3 >/dev/null; then
        holds "$where: from Python" from_python "$modules"
    else
        echo "$where: Python is skipped, for python3 is missing"
    fi
}

# ---- below DESTDIR, and taken away again

installed_and_removed() {
    local folder=$made/packaged/usr/local file modules=''
    holds 'installing below DESTDIR' env DESTDIR="$made/packaged" bin/install /usr/local
    cp "$made/said" "$made/told"
    while IFS= read -r file; do
        holds "$file is there" test -f "$made/packaged$file"
        case $file in *.py) modules=${modules:-$made/packaged${file%/sg*}} ;; esac
    done < <(sed -n 's/^installed //p' "$made/told")
    find "$made/packaged" -type f | sed "s|^$made/packaged|installed |" | grep -v '/share/sg/installed$' | sort >"$made/found"
    holds 'each file is told' cmp "$made/found" <(grep '^installed ' "$made/told" | sort)
    works 'below DESTDIR' "$folder" "$modules"
    holds 'installing once more' env DESTDIR="$made/packaged" bin/install /usr/local
    holds 'removing' env DESTDIR="$made/packaged" bin/install --remove /usr/local
    holds 'nothing is left' prints '' find "$made/packaged/usr/local" -mindepth 1
    holds 'nothing to remove' fails env DESTDIR="$made/packaged" bin/install --remove /usr/local
}

# ---- into a folder of its own, beside what others have there

beside_others() {
    local folder=$made/home/.local bin=$made/bin
    mkdir -p "$folder/bin" "$folder/share/man/man1" "$bin"
    echo theirs >"$folder/bin/other"
    printf '#!/bin/sh\n' >"$bin/sg" && chmod +x "$bin/sg"
    holds 'another sg comes first' tells "put $folder/bin first in PATH: a shell that is told sg finds $bin/sg now" env PATH="$bin:$PATH" HOME="$made/home" bin/install
    holds 'this one comes first' fails tells 'first in PATH' env PATH="$folder/bin:$PATH" HOME="$made/home" bin/install
    holds 'removing beside others' env HOME="$made/home" bin/install --remove
    holds 'files of others are left' prints "$folder/bin/other\n" find "$folder" -type f
    echo theirs >"$folder/bin/sg"
    holds 'a file of others is in the way' fails bin/install "$folder"
    holds 'it is as it was' prints 'theirs\n' cat "$folder/bin/sg"
    holds 'nothing is installed then' prints "$folder/bin/other\n$folder/bin/sg\n" sh -c 'find "$0" -type f | sort' "$folder"
    holds '/usr is refused' fails env DESTDIR="$made/system" bin/install /usr
    holds 'nothing is in /usr then' fails test -e "$made/system"
    holds 'other words are refused' fails bin/install --help
}

# ---- the archive

archived() {
    local archive folder
    mkdir "$made/first" "$made/second" "$made/a folder"
    holds 'making the archive' bash packaging/archive.sh "$made/first"
    (umask 077 && sleep 1 && exec bash packaging/archive.sh "$made/second") >/dev/null 2>&1
    archive=$(cd "$made/first" && find . -name '*.tar.gz')
    holds 'the same bytes' cmp "$made/first/$archive" "$made/second/$archive"
    holds 'the checksum' sh -c 'cd "$0" && sha256sum -c "$1.sha256"' "$made/first" "$archive"
    holds 'unpacking' tar -xzf "$made/first/$archive" -C "$made/a folder"
    folder="$made/a folder/$(basename "$archive" .tar.gz)"
    mv "$folder" "$made/moved"
    works 'unpacked and moved' "$made/moved" "$made/moved/python"
}

# ---- all of it

installed_and_removed
beside_others
archived
echo "install: $passed passed, $failed failed"
[ "$failed" -eq 0 ] && [ "$passed" -gt 0 ]
