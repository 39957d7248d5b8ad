/* Tests of libamqp1: what a peer's own Begin, Attach, End and Close look like to a program, and how it serves them. */
#include "amqp1_try.h"

#define BEGIN_OF_PEER "[02000005 005311 c0(04 40 43 5264 5264)]"

/* A Begin of the peer's own is refused by name. The server begins a session of its own, and turns the two Begins. */
static void try_begin(amqp1 *engine)
{
    uint8_t text[64], begin[64], out[64], turned[64];
    amqp1_record record;
    amqp1_took took;
    amqp1_bytes peers;
    size_t written = 0, length;
    CHECK(hears_refused(engine, BEGIN_OF_PEER, AMQP1_WHY_BEGIN_WANTED) && heard[0].kind == AMQP1_KIND_BEGIN_WANTED);
    CHECK(heard[0].channel == 5 && heard[0].session == AMQP1_NONE && sends(engine, ""));
    peers = amqp1_bytes_at(begin, bytes_of(BEGIN_OF_PEER, begin, sizeof begin));
    CHECK(heard[0].at == 8 && amqp1_frame_code(peers) == AMQP1_BEGIN_CODE);
    CHECK(amqp1_write_begin(text, sizeof text, &length, 0, 2048, 2048, 255) == AMQP1_DONE);
    CHECK(amqp1_begin(engine, 0, text, length) == AMQP1_DONE);
    CHECK(amqp1_output(engine, out, sizeof out, &written) == AMQP1_DONE);
    CHECK(are(out, written, "[02000000 005311 c0(05 40 43 7000000800 7000000800 52ff)]"));
    length = amqp1_turn_begin(turned, sizeof turned, amqp1_bytes_at(out, written), heard[0].channel);
    CHECK(are(turned, length, "[02000000 005311 d0 00000014 00000005 600005 43 7000000800 7000000800 52ff]"));
    length = amqp1_turn_begin(turned, sizeof turned, peers, 0);
    CHECK(amqp1_take(engine, 0, turned, length, &record, 1, &took) == AMQP1_DONE && took.taken == length && took.written == 1);
    CHECK(record.kind == AMQP1_KIND_BEGUN && record.session == 0 && record.channel == 5 && session_state_of(engine, 0) == AMQP1_SESSION_MAPPED);
}

/* An Attach of a name that was not linked is refused, and the link is taken on its handle then. A transfer needs no credit to be told. */
static void try_attach(amqp1 *engine)
{
    uint32_t handle = 99;
    CHECK(hears_refused(engine, "[02000005 005312 c0(03 a1(746f) 43 42)]", AMQP1_WHY_SESSION_LINK_NAME_NOT_FOUND));
    CHECK(heard[0].kind == AMQP1_KIND_ATTACH_WANTED && heard[0].input == 0);
    CHECK(is(amqp1_bytes_field(amqp1_performative(heard_bytes, heard), AMQP1_ATTACH_NAME), "746f"));
    CHECK(amqp1_link_on(engine, 0, 0, AMQP1_RECEIVER, AMQP1_FIRST, "to", &handle) == AMQP1_DONE && handle == 0);
    CHECK(hears_one(engine, "[02000005 005314 c0(05 43 43 a0(61) 43 42)]", AMQP1_KIND_TRANSFER) && heard[0].input == 0 && heard[0].output == 0);
    CHECK(hears_refused(engine, "[02000005 005314 c0(05 5209 5201 a0(61) 43 42)]", AMQP1_WHY_SESSION_UNATTACHED_HANDLE));
    CHECK(hears_refused(engine, "[02000005 005312 c0(03 a1(6f6e) 43 42)]", AMQP1_WHY_SESSION_LINK_NAME_NOT_FOUND) ||
          heard[0].refusal == AMQP1_WHY_SESSION_HANDLE_IN_USE);
}

/* An End and a Close are records; the program answers them. */
static void try_end(amqp1 *engine)
{
    amqp1_took took;
    size_t length;
    CHECK(hears_one(engine, "[02000005 00531745]", AMQP1_KIND_ENDED) && heard[0].session == 0 && heard[0].refusal == 0 && sends(engine, ""));
    CHECK(session_state_of(engine, 0) == AMQP1_SESSION_END_RECEIVED);
    CHECK(amqp1_end(engine, 0, NULL, 0) == AMQP1_DONE && sends(engine, "[02000000 00531745]"));
    CHECK(hears_one(engine, "[02000000 00531845]", AMQP1_KIND_CLOSED) && heard[0].session == AMQP1_NONE && sends(engine, ""));
    CHECK(state_of(engine) == AMQP1_STATE_CLOSE_RECEIVED);
    CHECK(amqp1_close(engine, NULL, 0) == AMQP1_DONE && sends(engine, "[02000000 00531845]"));
    length = bytes_of("[02000000 " PEERS_OPEN "]", heard_bytes, sizeof heard_bytes);
    CHECK(amqp1_take(engine, 0, heard_bytes, length, heard, 1, &took) == AMQP1_OVER && took.taken == 0 && took.written == 0);
}

void try_peers(void)
{
    amqp1 engine = opened();
    try_begin(&engine);
    try_attach(&engine);
    try_end(&engine);
    amqp1_free(&engine);
    CHECK(amqp1_open(&engine) == AMQP1_NO_ENGINE);
}
