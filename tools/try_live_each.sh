# What tools/try_brokers.sh tries in the same way in C, C++, Rust and Python: to send, to receive, requests and replies,
# a server, TLS, and to browse a queue. Each is a program of at most 40 lines of code, beside what the programs of a
# language share. This is sourced behind tools/try_live.sh.

# The lines of code of a program: without its comments, what it includes, and empty lines; in Python all lines.
code_of() {
    case $1 in
        *.py) cat "$1" ;;
        *.c) sed '1,/\*\/$/d' "$1" | grep -v '^#include' | grep . ;;
        *) grep -v -e '^ *//' -e '^#include' "$1" | grep . ;;
    esac
}

# Says how many each has.
are_short() {
    local it lines long=0
    for it in examples/c/amqp1_{sender,receiver,requester,replier,server,browser}.c \
        examples/cpp/{send,receive,request,reply,server,browse,resend}.cpp \
        bindings/rust/examples/{send,receive,request,reply,server,tls,browse}.rs \
        examples/python/{send,receive,request_reply,server,tls,browse}.py; do
        lines=$(code_of "$it" | wc -l)
        echo "$it: $lines lines"
        [ "$lines" -le 40 ] || long=1
    done
    return "$long"
}

# Messages there and back, and then requests and replies, of these examples: where they are, NAME, the words that name
# the server and an address there, how many these are, and the login.
four_of() {
    local at=$1 count=$3 replies
    local server=("${@:4:count}") login=("${@:4+count}")
    echo "the examples in $at with $2:"
    at=$folder/$at
    timeout 60 "$at/send" "${server[@]}" "$many" "${login[@]}" &&
        timeout 60 "$at/receive" "${server[@]}" "$many" "${login[@]}" | tail -n 1 || return 1
    timeout 60 "$at/reply" "${server[@]}" "$many" "${login[@]}" &
    replies=$!
    timeout 60 "$at/request" "${server[@]}" "$many" "${login[@]}" && wait "$replies"
}

# Three messages are shown twice, stay where they are, and are taken: as `four_of`.
shown_by() {
    local at=$folder/$1 count=$3
    local server=("${@:4:count}") login=("${@:4+count}")
    echo "browse in $1 with $2:"
    timeout 60 "$at/send" "${server[@]}" 3 "${login[@]}" || return 1
    for _ in 1 2; do
        timeout 60 "$at/browse" "${server[@]}" 3 "${login[@]}" | sort | tee "$folder/shown" &&
            printf 'message %s\n' 0 1 2 | diff - "$folder/shown" || return 1
    done
    timeout 60 "$at/receive" "${server[@]}" 3 "${login[@]}" | tail -n 1
}

# The same in each language: NAME HOST PORT ADDRESS, and the login.
try_live_browsers() {
    tried shown_by c "$1" 3 "$2" "$3" "$4-shown-c" "${@:5}"
    tried shown_by cpp "$1" 3 "$2" "$3" "$4-shown-cpp" "${@:5}"
    [ ! -d "$folder/cargo" ] || tried shown_by cargo/release/examples "$1" 2 "$2:$3" "$4-shown-rust" "${@:5}"
}

# Messages there and back over TLS: where the examples are, NAME PORT ADDRESS, and the authority's file, and for
# EXTERNAL a certificate and its key.
over_tls() {
    local at=$folder/$1 words=(localhost "$3" "$4" "$many" "${@:5}")
    echo "the examples in $1 with $2, over TLS:"
    timeout 60 "$at/send" "${words[@]}" && timeout 60 "$at/receive" "${words[@]}" | tail -n 1
}

# The same, but what the example in Rust sends is received in C.
over_tls_in_rust() {
    echo "tls in Rust with $1:"
    timeout 60 "$folder/cargo/release/examples/tls" "localhost:$2" "$3" "$many" "${@:4}" &&
        timeout 60 "$folder/c/receive" localhost "$2" "$3" "$many" "${@:4}" | tail -n 1
}

# The same in each language: NAME PORT ADDRESS, and the files.
try_live_tls() {
    tried over_tls c "$1" "$2" "$3-c" "${@:4}"
    tried over_tls cpp "$1" "$2" "$3-cpp" "${@:4}"
    [ ! -d "$folder/cargo" ] || tried over_tls_in_rust "$1" "$2" "$3-rust" "${@:4}"
    tried tls_in_python "amqps://localhost:$2/" "$3-python" "${@:4}"
}

# The server of these examples, with qpid-proton's in C++ and in Python: where it is.
served_in() {
    local at=$1 port serves
    port=$(free_port)
    timeout 120 "$folder/$at/server" "$port" 4 &
    serves=$!
    await_listening "$port" || return 1
    echo "the server in $at with qpid-proton's examples:"
    timeout 60 "$folder/cpp_simple_send" -m "$many" -a "127.0.0.1:$port/examples" &&
        timeout 60 "$folder/cpp_simple_recv" -m "$many" -a "127.0.0.1:$port/examples" | tail -n 1 &&
        timeout 60 /usr/bin/python3 "$proton_python/simple_send.py" -m "$many" -a "127.0.0.1:$port/examples" &&
        timeout 60 /usr/bin/python3 "$proton_python/simple_recv.py" -m "$many" -a "127.0.0.1:$port/examples" |
        tail -n 1 && wait "$serves"
}

# The examples in each language: NAME HOST PORT ADDRESS, and the login.
try_live_examples() {
    tried four_of c "$1" 3 "$2" "$3" "$4-c" "${@:5}"
    tried four_of cpp "$1" 3 "$2" "$3" "$4-cpp" "${@:5}"
    [ ! -d "$folder/cargo" ] || tried four_of cargo/release/examples "$1" 2 "$2:$3" "$4-rust" "${@:5}"
}

# That of Python keeps nothing: it prints what comes, and gives who receives three messages.
served_in_python() {
    local port serves status=0
    port=$(free_port)
    python3 examples/python/server.py "$port" >"$folder/greeted" &
    serves=$!
    running+=("$serves")
    await_listening "$port" || return 1
    echo "server.py with qpid-proton's examples:"
    timeout 60 "$folder/cpp_simple_send" -m "$many" -a "127.0.0.1:$port/examples" &&
        timeout 60 "$folder/cpp_simple_recv" -m 3 -a "127.0.0.1:$port/examples" | tail -n 1 &&
        timeout 60 /usr/bin/python3 "$proton_python/simple_send.py" -m "$many" -a "127.0.0.1:$port/examples" &&
        timeout 60 /usr/bin/python3 "$proton_python/simple_recv.py" -m 3 -a "127.0.0.1:$port/examples" |
        tail -n 1 || status=1
    kill "$serves"
    wait "$serves" || true
    [ "$status" = 0 ] && [ "$(wc -l <"$folder/greeted")" = $((2 * many + 1)) ]
}

# The servers, but that of C, which `listened` tries.
try_live_each_served() {
    tried served_in cpp
    [ ! -d "$folder/cargo" ] || tried served_in cargo/release/examples
    tried served_in_python
}
