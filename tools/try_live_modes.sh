# What tools/try_brokers.sh tries of settle modes (AMQP 1.0 part 2, sections 2.8.2 and 2.8.3) with real peers: each
# mode of a sender with each of a receiver. Compared are the modes by which the peer answers, how many messages are
# told as settled, who settled the others, and that nothing is left of them. tools/try_c/amqp1_modes.c goes to
# servers, and clients come to tools/try_c/amqp1_modes_served.c. This is sourced behind tools/try_live.sh.
snd_names=(unsettled settled mixed) rcv_names=(first second)

build_modes() {
    cc -std=c99 -O2 -DAMQP1_TLS -I"$prefix/include" -Iexamples/c "tools/try_c/amqp1_$1.c" \
        examples/c/amqp1_{socket,serving}.c "$prefix/lib/libamqp1.a" -o "$folder/$1" -lssl -lcrypto
}
build_live_modes() { build_modes modes && build_modes modes_served; }

# How many of COUNT messages a sender of this mode sends settled: COUNT SND
sent_settled() { echo $(($2 == 1 ? $1 : $2 == 2 ? $1 / 2 : 0)); }

# COUNT messages of which so many are settled, and the others by the peer or by this side: COUNT SETTLED peer|us
settled_as() {
    local rest=$(($1 - $2)) peer=0
    [ "$3" != peer ] || peer=$rest
    echo "$2 settled, $rest unsettled, of them $peer settled by the peer and $((rest - peer)) by this side"
}

# A sender's deliveries are settled by the peer in the mode first, and by this side in the mode second, once the peer
# has told its outcome; and a receiver's the other way round: MODES IN_FIRST IN_SECOND
who_settles() { [[ $1 = *first ]] && echo "$2" || echo "$3"; }

# Messages there and back by these modes. THERE and BACK are the modes by which the server's Attaches answer, `=` for
# the same. COMES says whether it sends `settled`, as it was `asked`, or `unsettled`: NAME SND RCV THERE BACK COMES
# COUNT HOST PORT ADDRESS, and the login.
moded() {
    local name=$1 snd=$2 rcv=$3 there=$4 back=$5 comes=$6 count=$7 asked="${snd_names[$2]} ${rcv_names[$3]}" came=0
    shift 7
    [ "$there" != = ] || there=$asked
    [ "$back" != = ] || back=$asked
    [[ $comes != settled && $comes$snd != asked1 ]] || came=$count
    there+=": $(settled_as "$count" "$(sent_settled "$count" "$snd")" "$(who_settles "$there" peer us)")"
    back+=": $(settled_as "$count" "$came" "$([ "$rcv" = 0 ] && echo us || who_settles "$back" us peer)")"
    printf '%s\n' "there, $asked answered by $there" "back, $asked answered by $back" >"$folder/wanted"
    echo "amqp1_modes with $name, $asked:"
    AMQP1_MODES="$snd $rcv" timeout 300 "$folder/modes" "${@:1:3}" "$count" "${@:4}" | tee "$folder/moded" &&
        diff "$folder/wanted" "$folder/moded"
}

# Each pair of modes: NAME THERE BACK COMES COUNT HOST PORT ADDRESS, and the login.
try_live_modes() {
    local snd rcv
    for snd in 0 1 2; do
        for rcv in 0 1; do
            tried moded "$1" "$snd" "$rcv" "${@:2:6}" "$8-$snd$rcv" "${@:9}"
        done
    done
}

# RabbitMQ 3.10 ends a session for a sender of the mode second that sends anything unsettled, and says why.
refused_second() {
    echo "amqp1_modes with rmq, ${snd_names[$1]} second:"
    ! AMQP1_MODES="$1 1" timeout 60 "$folder/modes" "${@:2}" >"$folder/said" 2>&1 && cat "$folder/said" &&
        grep -qx "what came: Ended amqp:not-implemented" "$folder/said"
}

try_live_modes_rabbitmq() {
    local to=(localhost "$rabbitmq")
    tried moded rmq 0 0 = = asked 10000 "${to[@]}" /queue/modes00 guest guest
    tried moded rmq 1 0 = = asked 10000 "${to[@]}" /queue/modes10 guest guest
    tried moded rmq 1 1 = = asked 10000 "${to[@]}" /queue/modes11 guest guest
    tried moded rmq 2 0 = "unsettled first" asked 10000 "${to[@]}" /queue/modes20 guest guest
    for it in 0 2; do tried refused_second "$it" "${to[@]}" "/queue/modes${it}1" 1 guest guest; done
}

# A client comes: NAME, the line that is wanted of amqp1_modes_served, the statuses that it may have, how many
# messages, `tls` or `plain`, and the client's words, where PORT stands for the port.
moded_client() {
    local name=$1 wanted=$2 status=$3 port got=0 client=0 waits words=("$4")
    [ "$5" != tls ] || words+=("$keys/localhost.pem" "$keys/localhost.key")
    shift 5
    port=$(free_port)
    timeout 60 "$folder/modes_served" "$port" "${words[@]}" >"$folder/moded" 2>"$folder/moded.err" &
    waits=$!
    await_listening "$port" || return 1
    timeout 60 "${@//PORT/$port}" >"$folder/client" 2>&1 || client=$?
    wait "$waits" || got=$?
    echo "amqp1_modes_served, $name: $(cat "$folder/moded")"
    [[ " $status " = *" $got "* && $client = 0 && "$(cat "$folder/moded")" = "$wanted" ]] && return
    echo "wanted: $wanted; the client's status: $client" && cat "$folder/client" "$folder/moded.err"
    return 1
}

# qpid-proton's client by tools/try_modes.py: each pair of modes each way.
try_live_modes_clients() {
    local snd rcv modes here there client=(/usr/bin/python3 tools/try_modes.py)
    for snd in 0 1 2; do
        for rcv in 0 1; do
            modes="${snd_names[snd]} ${rcv_names[rcv]}"
            here=$(settled_as "$many" "$(sent_settled "$many" "$snd")" "$(who_settles "$modes" us peer)")
            there=$(settled_as "$many" "$(sent_settled "$many" "$snd")" "$(who_settles "$modes" peer us)")
            tried moded_client "qpid-proton sends, $modes" "receives, $modes: $here" 0 "$many" plain \
                "${client[@]}" send 127.0.0.1:PORT/examples "$many" $modes
            tried moded_client "qpid-proton receives, $modes" "sends, $modes: $there" 0 "$many" plain \
                "${client[@]}" receive 127.0.0.1:PORT/examples "$many" $modes
        done
    done
}

# A pair of modes that uAMQP can: send|receive SND RCV peer|us, where that settles what it sends unsettled.
moded_uamqp() {
    local modes="${snd_names[$2]} ${rcv_names[$3]}" way=receives settled
    [ "$1" = send ] || way=sends
    settled=$(settled_as "$many" "$(sent_settled "$many" "$2")" "$4")
    tried moded_client "uAMQP, $1, $modes" "$way, $modes: $settled" "0 1" "$many" tls \
        /usr/bin/python3 tools/try_uamqp.py --modes "$2" "$3" "$1" PORT "$many" "$keys/ca.pem"
}

# As a sender uAMQP 1.5 does not settle in the mode second, and never ends in the mode mixed; as a receiver it settles
# in the mode second at once, and in the mode first nothing: such pairs are not tried.
try_live_modes_uamqp() {
    moded_uamqp send 0 0 us
    moded_uamqp send 1 0 us
    moded_uamqp send 1 1 us
    moded_uamqp receive 0 1 peer
    moded_uamqp receive 1 0 peer
    moded_uamqp receive 1 1 peer
    moded_uamqp receive 2 1 peer
}
