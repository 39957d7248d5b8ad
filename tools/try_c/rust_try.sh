#!/usr/bin/env bash
# Tries the crate for Rust, bindings/rust: its tests in the editions 2021 and 2024, without `std`, its page, its layout and what clippy says of it, where
# these are; and its examples with the servers in C, by PLAIN and by ANONYMOUS with the small one. It asks for no network. What is not tried here for want
# of a program is named, a line each. The last line is 'N passed, M failed'.
#
#     tools/try_c/rust_try.sh PREFIX    tries it over what build_c.sh put there
set -euo pipefail
case "${1-}" in -h | --help | "") sed -n '2,/^set/{/^set/d;s/^# \{0,1\}//;p}' "$0" && exit 0 ;; esac
prefix=$(cd "$1" && pwd)
cd "$(dirname "$0")/../.."
folder=$(mktemp -d)
trap 'rm -rf "$folder"' EXIT
passed=0 failed=0
. tools/try_c/counting.sh
export AMQP1_LIB_DIR=$prefix/lib CARGO_TARGET_DIR=$folder/target CARGO_NET_OFFLINE=true RUSTFLAGS="-D warnings" RUSTDOCFLAGS="-D warnings"
port=$((30000 + RANDOM % 10000)) built=$folder/target/debug/examples

# A copy of the crate in an edition, in which cargo leaves what it makes.
crate() {
    rm -rf "$folder/crate" && cp -r bindings/rust "$folder/crate"
    sed -i "s/^edition = .*/edition = \"$1\"/; /^rust-version/d" "$folder/crate/Cargo.toml"
}

of_crate() { (cd "$folder/crate" && "$@"); }

# The folder of the library by pkg-config.
by_pkg_config() {
    env -u AMQP1_LIB_DIR PKG_CONFIG_PATH="$prefix/lib/pkgconfig" CARGO_TARGET_DIR="$folder/by_pkg_config" bash -c "cd '$folder/crate' && cargo test -q --test engine"
}

# Each example has at most 40 lines of code, without comments at its front, and without what several share.
are_short() {
    local it
    for it in $(grep -l '^fn main' bindings/rust/examples/*.rs); do
        [ "$(grep -v '^//' "$it" | grep -c .)" -le 40 ] || { echo "$it" && return 1; }
    done
}

listens() {
    for _ in $(seq 50); do
        ! grep -qi ":$(printf %04X "$1") 00000000:0000 0A" /proc/net/tcp || return 0
        sleep 0.1
    done
    return 1
}

# Messages there and back, and then requests and replies, by the server with epoll in C.
served() {
    local server replies at=127.0.0.1:$port
    cc -std=c99 -O1 -I"$prefix/include" examples/c/amqp1_epoll.c examples/c/amqp1_epoll_io.c "$prefix/lib/libamqp1.a" -o "$folder/epoll" || return 1
    timeout 60 "$folder/epoll" "$port" 4 >"$folder/epoll.log" 2>&1 &
    server=$!
    listens "$port" && timeout 60 "$built/send" "$at" q 500 && timeout 60 "$built/receive" "$at" q 500 || return 1
    timeout 60 "$built/reply" "$at" r 500 &
    replies=$!
    timeout 60 "$built/request" "$at" r 500 && wait "$replies" && wait "$server" && [ ! -s "$folder/epoll.log" ]
}

# The same by the server in Rust.
served_by_rust() {
    local server replies at=127.0.0.1:$((port += 1))
    timeout 60 "$built/server" "$port" 4 &
    server=$!
    listens "$port" && timeout 60 "$built/send" "$at" q 500 && timeout 60 "$built/receive" "$at" q 500 || return 1
    timeout 60 "$built/reply" "$at" r 500 &
    replies=$!
    timeout 60 "$built/request" "$at" r 500 && wait "$replies" && wait "$server"
}

# The small server in C lets the one in by PLAIN, and the other by ANONYMOUS.
logged_in() {
    local server at=127.0.0.1:$((port += 1))
    cc -std=c99 -O1 -I"$prefix/include" examples/c/amqp1_{server,socket,serving}.c "$prefix/lib/libamqp1.a" -o "$folder/server" || return 1
    timeout 60 "$folder/server" "$port" 2 me secret >"$folder/listened" &
    server=$!
    listens "$port" && timeout 60 "$built/send" "$at" q 50 me secret && timeout 60 "$built/receive" "$at" q 50 && wait "$server" &&
        [ "$(cat "$folder/listened")" = $'let in by PLAIN\nlet in by ANONYMOUS' ]
}

if has cargo "the crate for Rust"; then
    for edition in 2024 2021; do
        crate $edition
        holds "the crate for Rust, edition $edition" of_crate cargo test -q
    done
    holds "without std" of_crate cargo test -q --no-default-features --tests
    holds "its page" of_crate cargo doc -q --no-deps
    holds "by pkg-config" by_pkg_config
    if cargo clippy --version >"$folder/said" 2>&1; then
        holds "what clippy says of it" of_crate cargo clippy -q --all-targets -- -D warnings
    else
        echo "not tried, since there is no cargo clippy: what it says of the crate"
    fi
    if cargo fmt --version >"$folder/said" 2>&1; then
        holds "its layout" of_crate cargo fmt --check
    else
        echo "not tried, since there is no cargo fmt: the layout of the crate"
    fi
    holds "40 lines of code of each example" are_short
    holds "500 messages and 500 requests, between its examples" served
    holds "500 messages and 500 requests, by the server in Rust" served_by_rust
    holds "50 messages each way by PLAIN and by ANONYMOUS" logged_in
fi
echo "$passed passed, $failed failed"
[ "$failed" = 0 ]
