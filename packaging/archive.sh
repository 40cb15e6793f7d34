#!/usr/bin/env bash
# Makes one archive of what bin/install puts, for machines without the toolchain, and its checksum beside it:
#
#     bash packaging/archive.sh [FOLDER]
#
# FOLDER is `out` of the repository if left out. The archive can be unpacked anywhere: in its folder are bin/sg, the manual page and
# the completion in share, and, where bin/install has it, the library in lib and include, and its Python module in python.
#
# The same files give the same bytes: sorted names, no owner, and one time, that of SOURCE_DATE_EPOCH in seconds, or 0.
set -eu
export LC_ALL=C
top=$(cd "$(dirname "${BASH_SOURCE[0]}")/.." && pwd -P)
folder=${1:-$top/out}
mkdir -p "$folder"

name=sg-$(cat "$top/VERSION")-$(uname -s)-$(uname -m)
made=$(mktemp -d)
trap 'rm -rf "$made"' EXIT
DESTDIR=$made PYTHON_FOLDER=python "$top/bin/install" "/$name" >/dev/null
tar --create --format=ustar --sort=name --owner=0 --group=0 --numeric-owner --mode=u=rwX,go=rX \
    --mtime="@${SOURCE_DATE_EPOCH:-0}" --directory="$made" "$name" | gzip -9n >"$folder/$name.tar.gz"
(cd "$folder" && sha256sum "$name.tar.gz" | tee "$name.tar.gz.sha256")
