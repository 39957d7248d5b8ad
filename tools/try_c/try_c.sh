#!/usr/bin/env bash
# Tries the library for C: its tests in C, by tools/try_c/amqp1_try.sh; what engines hold as frames come; the crate for Rust, by tools/try_c/rust_try.sh.
# And over the shared library tools/try_c/try_c.py, the hostile peers of
# tools/hostile, and tools/try_c/try_c_captures.py and try_c_links_recorded.py with every recorded connection; and the wheel with that library, by
# tools/try_c/try_c_wheel.py. What is not tried here for want of a program is named, a line each. The last line is 'N passed, M failed'.
#
#     tools/try_c/try_c.sh            builds the library first, by tools/build_c.sh
#     tools/try_c/try_c.sh PREFIX     tries what build_c.sh put there
set -euo pipefail
case "${1-}" in -h | --help) sed -n '2,/^set/{/^set/d;s/^# \{0,1\}//;p}' "$0" && exit 0 ;; esac
prefix=${1:+$(cd "$1" && pwd)}
cd "$(dirname "$0")/../.."
folder=$(mktemp -d)
trap 'rm -rf "$folder"' EXIT
passed=0 failed=0
. tools/try_c/counting.sh

[ -n "$prefix" ] || { prefix=$folder/built && tools/build_c.sh "$prefix"; }
include=$prefix/include library=$prefix/lib
strict=(-std=c99 -Wall -Wextra -Wpedantic -Wconversion -Wshadow -Werror -I"$include" -Itools/try_c)

counts "libamqp1 from C" tools/try_c/amqp1_try.sh "$prefix" "${FUZZ_SECONDS:-60}"
cc -g -O1 "${strict[@]}" tools/try_c/amqp1_{resident,bytes}.c "$library/libamqp1.a" -o "$folder/resident"
counts "what engines hold" timeout 120 "$folder/resident"
counts "the crate for Rust" timeout 900 tools/try_c/rust_try.sh "$prefix"
counts "over Python" timeout 1200 python3 tools/try_c/try_c.py "$library/libamqp1.so"
counts "hostile peers, over Python" timeout 900 python3 tools/hostile/hostile.py "$library/libamqp1.so"
counts "what is refused of recorded connections" timeout 600 python3 tools/try_c/try_c_captures.py "$library/libamqp1.so"
counts "links of recorded connections" timeout 120 python3 tools/try_c/try_c_links_recorded.py "$library/libamqp1.so"
counts "the wheel and the sdist" timeout 1200 python3 tools/try_c/try_c_wheel.py "$prefix"
echo "$passed passed, $failed failed"
[ "$failed" = 0 ]
