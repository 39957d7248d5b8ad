#!/usr/bin/env bash
# Builds the library for C and puts it, its headers, its files for pkg-config and CMake and its man pages under a folder: lib/libamqp1.a, lib/libamqp1.so.1,
# include/amqp1.h, include/amqp1.hpp, include/amqp1/, lib/pkgconfig/amqp1.pc, lib/cmake/amqp1/, share/man/man3/ (man -M OUT/share/man amqp1_take).
# It has `rt lib` prove and compile crates/amqp1, and joins that with the few C functions of the kit by which the library asks for memory, and with the
# functions of its headers, by include/amqp1/library.c. The files work where the folder is moved to. What was linked is printed.
#
# Where there is no compiler for C or C++, it installs Debian's (as root). The man pages are written by python3; where there is none a line says so.
#
#     tools/build_c.sh OUT              OUT is made if need be
#     tools/build_c.sh OUT --from FILE  of an archive libamqp1.a that was built before
#     tools/build_c.sh OUT --cpu NAME   for a newer processor than x86-64-v2: x86-64-v3 has AVX2 and BMI2. The library does not look whether it is there
set -euo pipefail
case "${1-}" in -h | --help | "") sed -n '2,/^set/{/^set/d;s/^# \{0,1\}//;p}' "$0" && exit 0 ;; esac
mkdir -p "$1"
out=$(cd "$1" && pwd) archive="" cpu=""
case "${2-}" in
    "") ;;
    --from) archive=$(realpath "${3:?}") ;;
    --cpu) cpu=${3:?} ;;
    *) echo "build_c: no $2" >&2 && exit 2 ;;
esac
cd "$(dirname "$0")/.."
command -v rt >/dev/null || { echo "build_c: no rt on the path" >&2; exit 1; }
kit_c=$(dirname "$(rt doc)")/c
folder=$(mktemp -d)
trap 'rm -rf "$folder"' EXIT
command -v cc >/dev/null && command -v c++ >/dev/null && command -v objcopy >/dev/null ||
    { apt-get update -q && DEBIAN_FRONTEND=noninteractive apt-get install -q -y --no-install-recommends gcc g++ libc6-dev binutils; } >"$folder/apt" 2>&1 ||
    { echo "build_c: install Debian's gcc, g++, libc6-dev and binutils: $(tail -n 1 "$folder/apt")" >&2; exit 1; }

if [ -z "$archive" ]; then
    (cd crates/amqp1 && rt lib --jobs 1 ${cpu:+--cpu "$cpu"}) >"$folder/log" 2>&1 || { cat "$folder/log" >&2; exit 1; }
    grep -E '^(axioms|logic=)' "$folder/log" || true
    archive=$PWD/crates/amqp1/out/libamqp1.a
fi

# One object of an archive and of the kit's functions, NAME.o, with these exports as its only names.
object_of() {
    local name=$1 wanted=() kept=()
    shift
    for it in "$@"; do wanted+=(-u "$it") kept+=("--keep-global-symbol=$it"); done
    ld -r --gc-sections "${wanted[@]}" -o "$folder/all.o" --whole-archive "$archive" --no-whole-archive "$kit_c"/lib*_c.a
    objcopy "${kept[@]}" "$folder/all.o" "$folder/$name.o"
}

# The static and the shared library of these objects, with the headers and the file for pkg-config; the version is the header's.
library_of() {
    local name=$1 soname=$2 version
    shift 2
    version=$(sed -n "s/^#define ${name^^}_VERSION \"\(.*\)\"$/\1/p" "include/$name.h")
    mkdir -p "$out/lib/pkgconfig" "$out/include/$name"
    rm -f "$out/lib/lib$name.a"
    ar rcs "$out/lib/lib$name.a" "$@"
    cc -shared -o "$out/lib/lib$name.so.$version" -Wl,-soname,"$soname" -Wl,--gc-sections -Wl,-z,defs "$@"
    ln -sf "lib$name.so.$version" "$out/lib/$soname"
    ln -sf "$soname" "$out/lib/lib$name.so"
    cp "include/$name".{h,hpp} "$out/include/"
    cp "include/$name"/*.{h,hpp} "$out/include/$name/"
    cat >"$out/lib/pkgconfig/$name.pc" <<END_OF_FILE
prefix=\${pcfiledir}/../..
libdir=\${prefix}/lib
includedir=\${prefix}/include

Name: $name
Description: AMQP 1.0's frame, connection and session layer, without I/O
Version: $version
Cflags: -I\${includedir}
Libs: -L\${libdir} -l$name
END_OF_FILE
    echo "linked: $(basename "$archive") ($(sha256sum <"$archive" | cut -c1-16)), and of the kit $(ls "$kit_c"/lib*_c.a | xargs -n1 basename | xargs)"
    echo "asks of the C library: $(nm -D --undefined-only "$out/lib/lib$name.so" | awk '$1 == "U" { sub(/@.*/, "", $2); print $2 }' | sort -u | xargs)"
}

# What find_package(amqp1) reads: the targets amqp1::amqp1 and amqp1::static, and the version.
cmake_of() {
    local version=$1
    mkdir -p "$out/lib/cmake/amqp1"
    cat >"$out/lib/cmake/amqp1/amqp1-config.cmake" <<'END_OF_FILE'
get_filename_component(amqp1_prefix "${CMAKE_CURRENT_LIST_DIR}/../../.." ABSOLUTE)
if(NOT TARGET amqp1::amqp1)
  add_library(amqp1::amqp1 SHARED IMPORTED)
  set_target_properties(amqp1::amqp1 PROPERTIES
    IMPORTED_LOCATION "${amqp1_prefix}/lib/libamqp1.so" INTERFACE_INCLUDE_DIRECTORIES "${amqp1_prefix}/include")
  add_library(amqp1::static STATIC IMPORTED)
  set_target_properties(amqp1::static PROPERTIES
    IMPORTED_LOCATION "${amqp1_prefix}/lib/libamqp1.a" INTERFACE_INCLUDE_DIRECTORIES "${amqp1_prefix}/include")
endif()
END_OF_FILE
    cat >"$out/lib/cmake/amqp1/amqp1-config-version.cmake" <<END_OF_FILE
set(PACKAGE_VERSION "$version")
if(PACKAGE_VERSION VERSION_GREATER_EQUAL PACKAGE_FIND_VERSION)
  set(PACKAGE_VERSION_COMPATIBLE TRUE)
  if(PACKAGE_VERSION VERSION_EQUAL PACKAGE_FIND_VERSION)
    set(PACKAGE_VERSION_EXACT TRUE)
  endif()
endif()
END_OF_FILE
}

# A page for each function of the headers.
manual() {
    command -v python3 >/dev/null || { echo "no man pages, since there is no python3"; return; }
    rm -f "$out/share/man/man3"/amqp1_*.3
    python3 tools/api.py --man "$out/share/man"
}

mkdir -p "$out/lib"
object_of amqp1 amqp1_{new,call,take,answer,heard,tick,send,cut,free,version} \
    amqp1_link_{attach,wanted,event,due,respond,flow,detach,send,settle,dispose,settled,left,left_of,remove,forget,credit}
cc -std=c99 -O2 -fPIC ${cpu:+-march="$cpu"} -ffunction-sections -Wall -Wextra -Wpedantic -Werror -c include/amqp1/library.c -o "$folder/amqp1_header.o"
library_of amqp1 libamqp1.so.1 "$folder/amqp1.o" "$folder/amqp1_header.o"
cmake_of "$(sed -n 's/^#define AMQP1_VERSION "\(.*\)"$/\1/p' include/amqp1.h)"
manual
ls -l "$out/lib" | awk 'NF > 5 && !/^d/ { print $5, $9 }'
