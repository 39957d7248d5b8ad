# What tools/try_brokers.sh tries of durable targets (AMQP 1.0 part 3, sections 3.5.4 and 3.5.5) with the brokers that
# it starts: messages go by tools/try_c/amqp1_durable.c to a target of each durability, are accepted, and compared is
# what the server's Attach says of its target. That messages at a durable target outlast a broker is tried by
# `outlasted`. This is sourced behind tools/try_live.sh.

build_live_durable() {
    cc -std=c99 -O2 -DAMQP1_TLS -I"$prefix/include" -Iexamples/c tools/try_c/amqp1_durable.c examples/c/amqp1_socket.c \
        "$prefix/lib/libamqp1.a" -o "$folder/durable" -lssl -lcrypto
}

# NAME, what the server answers to the durabilities 0, 1 and 2, HOST PORT ADDRESS, and the login.
durable() {
    local name=$1 answers asked wanted
    read -ra answers <<<"$2"
    shift 2
    echo "amqp1_durable with $name:"
    for asked in 0 1 2; do
        wanted="durable $asked is answered by ${answers[asked]}, and $many messages are accepted"
        AMQP1_DURABLE=$asked timeout 60 "$folder/durable" "${@:1:3}-$asked" "$many" "${@:4}" |
            tee "$folder/durable.out" && grep -qx "$wanted" "$folder/durable.out" || return 1
    done
}
