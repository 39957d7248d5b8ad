#!/usr/bin/env bash
# Tries libamqp1: the tests tools/try_c/amqp1_*.c as C99, C11, C17 and C++17, by gcc and by clang where that is there, over the archive and over the
# shared library, with every recorded connection; amqp1.hpp, with exceptions and without; under the sanitizers of addresses and of undefined behaviour, and under valgrind; any bytes, by
# libFuzzer; the library opened from Python; pkg-config, CMake and the man pages; and the examples with one another, and with qpid-proton. What is not tried here for
# want of a program is named, a line each. The last line is 'N passed, M failed'.
#
#     tools/try_c/amqp1_try.sh PREFIX [SECONDS]    tries what build_c.sh put there; libFuzzer has so many seconds, 60 where that is left out
set -euo pipefail
case "${1-}" in -h | --help | "") sed -n '2,/^set/{/^set/d;s/^# \{0,1\}//;p}' "$0" && exit 0 ;; esac
prefix=$(cd "$1" && pwd) seconds=${2:-60}
cd "$(dirname "$0")/../.."
folder=$(mktemp -d)
trap 'rm -rf "$folder"' EXIT
passed=0 failed=0
. tools/try_c/counting.sh
include=$prefix/include library=$prefix/lib
tests=(tools/try_c/amqp1_{try,bytes,places,inputs,operations,takes,links,sends,cuts,writers,peers,sessions,pairs,streams,faces,credit,endings,waiting,faults,many,apart,recorded}.c)
strict=(-Wall -Wextra -Wpedantic -Wconversion -Wshadow -Werror -I"$include" -Itools/try_c)
sanitized=(-g -O1 -fsanitize=address,undefined -fno-sanitize-recover=undefined)
recorded=("$folder/exchanges" "$folder/recorded")
port=$((20000 + RANDOM % 10000)) cuts=

# Builds the tests by a compiler, with what comes after it, and runs them with the recordings; where `cuts` is set, what was recorded from the first byte
# on is also cut at each place.
built_and_run() {
    local compiler=$1
    shift
    $compiler "${strict[@]}" "$@" -o "$folder/tests" && timeout 600 "$folder/tests" "${recorded[@]}" ${cuts:+"$cuts"}
}

# The tests of amqp1.hpp by a compiler, with what comes after it.
cpp_built_and_run() {
    local compiler=$1
    shift
    $compiler "${strict[@]}" "$@" tools/try_c/cpp_{try,views,links}.cpp "$library/libamqp1.a" -o "$folder/cpp_tests" && timeout 120 "$folder/cpp_tests"
}

# A program with a warning for each cast of the old form, and with each standard of C++: the headers warn of nothing.
as_cpp() {
    printf '#include <amqp1.h>\nint main() { amqp1 place = AMQP1_EMPTY; amqp1_free(&place); return 0; }\n' >"$folder/as.cpp"
    for standard in c++98 c++11 c++20; do
        c++ -std=$standard "${strict[@]}" -Wold-style-cast "$folder/as.cpp" "$library/libamqp1.a" -o "$folder/as_cpp" && "$folder/as_cpp" || return 1
    done
}

by_pkg_config() {
    printf '#include <amqp1.h>\nint main(void) { return amqp1_version() != AMQP1_VERSION_NUMBER; }\n' >"$folder/as.c"
    cc "$folder/as.c" $(PKG_CONFIG_PATH=$library/pkgconfig pkg-config --cflags --libs amqp1) -Wl,-rpath,"$library" -o "$folder/as_c" && "$folder/as_c" &&
        printf '#include <amqp1.hpp>\nint main() { return amqp::nothrow::engine::version() != AMQP1_VERSION_NUMBER; }\n' >"$folder/as.cpp" &&
        c++ -std=c++17 "$folder/as.cpp" $(PKG_CONFIG_PATH=$library/pkgconfig pkg-config --cflags --libs amqp1) -Wl,-rpath,"$library" -o "$folder/as_cpp" && "$folder/as_cpp"
}

by_cmake() {
    mkdir -p "$folder/cmake" && cp "$folder/as.c" "$folder/cmake/as.c"
    cat >"$folder/cmake/CMakeLists.txt" <<'END_OF_FILE'
cmake_minimum_required(VERSION 3.13)
project(as C)
find_package(amqp1 0.1 REQUIRED)
foreach(how amqp1 static)
  add_executable(as_${how} as.c)
  target_link_libraries(as_${how} amqp1::${how})
endforeach()
END_OF_FILE
    cmake -S "$folder/cmake" -B "$folder/cmake/out" -DCMAKE_PREFIX_PATH="$prefix" && cmake --build "$folder/cmake/out" &&
        "$folder/cmake/out/as_amqp1" && "$folder/cmake/out/as_static"
}

# The man pages are those of the headers.
manual() {
    python3 tools/api.py --man "$folder/man" && diff -r "$folder/man" "$prefix/share/man"
}

# Any bytes, from what amqp1_corpus.py writes on.
fuzzed() {
    clang -std=c99 "${strict[@]}" "${sanitized[@]}" -fsanitize=fuzzer tools/try_c/amqp1_fuzz.c "$library/libamqp1.a" -o "$folder/fuzz" &&
        mkdir -p "$folder/found" &&
        (cd "$folder" && timeout $((seconds + 60)) ./fuzz -max_total_time="$seconds" -max_len=6000 -verbosity=0 found corpus)
}

# The same inputs alone, by a program.
replayed() {
    cc -std=c99 "${strict[@]}" "${sanitized[@]}" -DAMQP1_FUZZ_ALONE tools/try_c/amqp1_fuzz.c "$library/libamqp1.a" -o "$folder/alone" &&
        "$folder/alone" "$folder"/corpus/*
}

# Runs the connection of a file, as amqp1_refused.c, with the N-th request for memory refused, for N = 1 and up, until a run makes fewer requests.
each_refused() {
    local file=$1 n seen=0 bad=0
    cc -O2 -shared -fPIC tools/gate/refuse_nth.c -o "$folder/refuse.so" -ldl
    cc -g -O1 -std=c99 "${strict[@]}" tools/try_c/amqp1_{"$file",bytes}.c "$library/libamqp1.a" -o "$folder/refused"
    "$folder/refused" >"$folder/wanted"
    for n in $(seq 2000); do
        if ! timeout 20 env REFUSE_NTH="$n" REFUSE_LOG="$folder/log" LD_PRELOAD="$folder/refuse.so" "$folder/refused" >"$folder/told" ||
            ! diff <(grep -v '^~' "$folder/wanted") <(grep -v '^~' "$folder/told"); then
            echo "where request $n is refused"
            bad=$((bad + 1))
        fi
        [ "$(tail -n 1 "$folder/log" | cut -d ' ' -f 2)" != 0 ] || break
        seen=$n
    done
    echo "$((seen - bad)) passed, $bad failed"
}

# Builds the examples.
examples() {
    cc -std=c99 "${strict[@]}" "${sanitized[@]}" examples/c/amqp1_epoll.c examples/c/amqp1_epoll_io.c "$library/libamqp1.a" -o "$folder/epoll" &&
        cc -std=c99 "${strict[@]}" "${sanitized[@]}" examples/c/amqp1_idle.c "$library/libamqp1.a" -o "$folder/idle" &&
        for it in send sender receiver requester replier browser server; do
            cc -std=c99 "${strict[@]}" "${sanitized[@]}" "examples/c/amqp1_$it.c" examples/c/amqp1_{message,socket,serving}.c "$library/libamqp1.a" \
                -o "$folder/$it" || return 1
        done
}

# The examples in C++.
cpp_examples() {
    local it
    for it in client serving; do
        c++ -std=c++17 "${strict[@]}" "${sanitized[@]}" -c "examples/cpp/$it.cpp" -o "$folder/$it.o" || return 1
    done
    for it in send receive request reply browse resend server; do
        c++ -std=c++17 "${strict[@]}" "${sanitized[@]}" "examples/cpp/$it.cpp" "$folder"/{client,serving}.o "$library/libamqp1.a" \
            -o "$folder/cpp_$it" || return 1
        [ "$(grep -v -e '^//' -e '^#include' "examples/cpp/$it.cpp" | grep -c .)" -le 40 ] || { echo "$it.cpp" && return 1; }
    done
}

# The server with epoll serves them: messages there and back, then requests and replies. The look whether it listens is a client too.
cpp_served() {
    local port=$1 server replies
    timeout 60 "$folder/epoll" "$port" 5 >"$folder/epoll.log" 2>&1 &
    server=$!
    for _ in $(seq 50); do
        ! (: <"/dev/tcp/127.0.0.1/$port") 2>"$folder/none" || break
        sleep 0.1
    done
    timeout 60 "$folder/cpp_send" 127.0.0.1 "$port" q 500 && timeout 60 "$folder/cpp_receive" 127.0.0.1 "$port" q 500 || return 1
    timeout 60 "$folder/cpp_reply" 127.0.0.1 "$port" r 500 &
    replies=$!
    timeout 60 "$folder/cpp_request" 127.0.0.1 "$port" r 500 && wait "$replies" && wait "$server" && [ ! -s "$folder/epoll.log" ]
}

# The server in C++: what one client sends is shown to the next one, and the third one receives it. Whether it listens is looked up.
served_by_cpp() {
    local port=$1 server
    timeout 60 "$folder/cpp_server" "$port" 4 &
    server=$!
    for _ in $(seq 50); do
        ! grep -qi ":$(printf %04X "$port") 00000000:0000 0A" /proc/net/tcp || break
        sleep 0.1
    done
    timeout 60 "$folder/cpp_resend" 127.0.0.1 "$port" q 500 && timeout 60 "$folder/cpp_browse" 127.0.0.1 "$port" q 500 >"$folder/shown" &&
        timeout 60 "$folder/browser" 127.0.0.1 "$port" q 500 | diff "$folder/shown" - && seq -f 'message %.0f' 0 499 | diff - "$folder/shown" &&
        timeout 60 "$folder/receiver" 127.0.0.1 "$port" q 500 | tail -n 1 && wait "$server"
}

# Requests and replies in C, by the server with epoll.
asked_in_c() {
    local port=$1 server replies
    timeout 60 "$folder/epoll" "$port" 3 >"$folder/epoll.log" 2>&1 &
    server=$!
    for _ in $(seq 50); do
        ! (: <"/dev/tcp/127.0.0.1/$port") 2>"$folder/none" || break
        sleep 0.1
    done
    timeout 60 "$folder/replier" 127.0.0.1 "$port" r 500 &
    replies=$!
    timeout 60 "$folder/requester" 127.0.0.1 "$port" r 500 && wait "$replies" && wait "$server" && [ ! -s "$folder/epoll.log" ]
}

# The smallest examples have at most 25 lines of code, and the others 40: without what stands before the first line of it, and empty lines.
are_short() {
    local it
    for it in sender:25 receiver:25 requester:40 replier:40 browser:40 server:40; do
        [ "$(sed '1,/\*\/$/d' "examples/c/amqp1_${it%:*}.c" | grep -v '^#include' | grep -c .)" -le "${it#*:}" ] || { echo "amqp1_${it%:*}.c" && return 1; }
    done
}

# The server lets one client in by PLAIN, and one by ANONYMOUS. Whether it listens is looked up, since each that connects is a client.
logged_in() {
    local port=$1 send=$2 receive=$3 wait
    timeout 60 "$folder/server" "$port" 2 me secret >"$folder/listened" &
    wait=$!
    for _ in $(seq 50); do
        ! grep -qi ":$(printf %04X "$port") 00000000:0000 0A" /proc/net/tcp || break
        sleep 0.1
    done
    timeout 60 "$folder/$send" 127.0.0.1 "$port" q 50 me secret && timeout 60 "$folder/$receive" 127.0.0.1 "$port" q 50 && wait "$wait" &&
        [ "$(cat "$folder/listened")" = $'let in by PLAIN\nlet in by ANONYMOUS' ]
}

# An idle hour of 1000 connections is 120 empty frames each, and one that was due when it began.
idled() {
    "$folder/idle" 1000 10 | grep -qx 'an idle hour: 121000 empty frames, 121000 ticks, .*'
}

# Starts a server in the background, and has a client be served by it, once it listens.
served() {
    local port=$1 server client wait
    read -ra server <<<"$2"
    read -ra client <<<"$3"
    timeout 60 "${server[@]}" >"$folder/server.log" 2>&1 &
    wait=$!
    for _ in $(seq 50); do
        ! (: <"/dev/tcp/127.0.0.1/$port") 2>"$folder/none" || break
        sleep 0.1
    done
    timeout 60 "${client[@]}" && wait "$wait" && [ ! -s "$folder/server.log" ]
}

python3 tools/try_c/try_c_recorded.py >"${recorded[0]}"
python3 tools/try_c/amqp1_recorded.py >"${recorded[1]}"
python3 tools/try_c/amqp1_corpus.py "$folder/corpus" >"$folder/said"
for compiler in gcc clang; do
    if has $compiler "the tests by it"; then
        for standard in c99 c11 c17 c2x; do
            counts "$compiler, $standard" built_and_run $compiler -std=$standard "${tests[@]}" "$library/libamqp1.a"
        done
        counts "$compiler, C++17" built_and_run $compiler -x c++ -std=c++17 "${tests[@]}" -x none "$library/libamqp1.a"
        counts "$compiler, optimized" built_and_run $compiler -std=c99 -O2 "${tests[@]}" "$library/libamqp1.a"
        cuts=each counts "$compiler, sanitized" built_and_run $compiler -std=c99 "${sanitized[@]}" "${tests[@]}" "$library/libamqp1.a"
    fi
done
for compiler in g++ clang++; do
    if has $compiler "amqp1.hpp by it"; then
        for standard in c++17 c++20; do
            counts "$compiler, amqp1.hpp as $standard" cpp_built_and_run $compiler -std=$standard
            counts "$compiler, amqp1.hpp as $standard without exceptions" cpp_built_and_run $compiler -std=$standard -fno-exceptions
        done
        counts "$compiler, amqp1.hpp sanitized" cpp_built_and_run $compiler -std=c++17 "${sanitized[@]}"
    fi
done
counts "over libamqp1.so" built_and_run cc -std=c99 "${tests[@]}" -L"$library" -lamqp1 -Wl,-rpath,"$library"
holds "the headers in C++ of each standard" as_cpp
if has valgrind "all tests in C but the recordings, under valgrind"; then
    valgrind=(valgrind -q --error-exitcode=9 --leak-check=full --errors-for-leak-kinds=all)
    holds "under valgrind, and nothing is left" timeout 1200 "${valgrind[@]}" "$folder/tests"
fi
counts "each request for memory refused" each_refused refused
counts "each request for memory of a server's answers refused" each_refused answers
counts "each request for memory of links refused" each_refused refused_links
counts "over Python" python3 tools/try_c/amqp1_library.py "$library/libamqp1.so"
has pkg-config "the file for it" && holds "by pkg-config" by_pkg_config
has cmake "the file for it" && holds "by CMake" by_cmake
holds "the man pages" manual
holds "the inputs of libFuzzer" replayed
if has clang "libFuzzer, for $seconds seconds" && [ -e "$(clang -print-file-name=libclang_rt.fuzzer-x86_64.a)" ]; then
    holds "any bytes, for $seconds seconds" fuzzed
fi
holds "the examples" examples
holds "25 lines of code of each of the smallest, and 40 of the others" are_short
holds "an hour of idle connections" idled
holds "500 messages each way, between the examples" served $port "$folder/epoll $port 2" "$folder/send 127.0.0.1 $port q 500"
holds "50 messages each way by PLAIN and by ANONYMOUS, between the small examples" logged_in $((port += 1)) sender receiver
holds "the examples in C++, of at most 40 lines of code each" cpp_examples
holds "500 messages and 500 requests, between the examples in C++" cpp_served $((port += 1))
holds "500 requests, between the examples in C" asked_in_c $((port += 1))
holds "500 messages are shown twice and received, by the server in C++" served_by_cpp $((port += 1))
holds "50 messages each way by PLAIN and by ANONYMOUS, of the examples in C++" logged_in $((port += 1)) cpp_send cpp_receive
proton=(/usr/bin/python3 tools/try_c/amqp1_proton.py)
if "${proton[0]}" -c 'import proton' 2>"$folder/said"; then
    holds "500 messages each way, of a client of qpid-proton" served $((port += 1)) "$folder/epoll $port 2" "${proton[*]} client $port 500"
    holds "500 messages each way, with a server of qpid-proton" served $((port += 1)) "${proton[*]} server $port" "$folder/send 127.0.0.1 $port q 500"
else
    echo "not tried, since there is no python3-qpid-proton: the examples with it"
fi
echo "$passed passed, $failed failed"
[ "$failed" = 0 ]
