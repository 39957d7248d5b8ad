#!/usr/bin/env bash
# Builds the package for Python: a wheel for Linux on x86-64, with the library libamqp1.so.1 in it, and an sdist, which has none.
# bindings/python/packing.py writes both, by the standard library of Python 3.9 or later and by readelf (Debian's binutils). The wheel's name says
# which C library it needs at least: that which has each symbol the library asks for. The same files give the same bytes.
#
#     tools/build_wheel.sh OUT                  builds the library first, by tools/build_c.sh; OUT is made if need be
#     tools/build_wheel.sh OUT --from PREFIX    takes that which build_c.sh put there
set -euo pipefail
case "${1-}" in -h | --help | "") sed -n '2,/^set/{/^set/d;s/^# \{0,1\}//;p}' "$0" && exit 0 ;; esac
case "$# ${2-}" in "1 " | "3 --from") ;; *) echo "build_wheel: OUT, or OUT --from PREFIX" >&2 && exit 2 ;; esac
mkdir -p "$1"
out=$(cd "$1" && pwd) prefix=${3:+$(cd "$3" && pwd)}
cd "$(dirname "$0")/.."
folder=$(mktemp -d)
trap 'rm -rf "$folder"' EXIT
command -v readelf >/dev/null || { echo "build_wheel: install Debian's binutils, for readelf" >&2; exit 1; }

[ -n "$prefix" ] || { prefix=$folder/built && tools/build_c.sh "$prefix"; }
python3 bindings/python/packing.py "$out" "$prefix/lib/libamqp1.so" | while read -r name; do
    echo "$(wc -c <"$out/$name") $name"
done
