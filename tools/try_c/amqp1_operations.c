/* Tests of libamqp1: the operations on connections and sessions, with the bytes that go out. */
#include "amqp1_try.h"

static void try_open(void)
{
    amqp1 engine = made();
    uint8_t text[64];
    size_t written;
    CHECK(state_of(&engine) == AMQP1_STATE_HEADER_EXCHANGE);
    CHECK(amqp1_remote_open(&engine, text, sizeof text, &written) == AMQP1_DONE && written == 0);
    CHECK(amqp1_refusal(&engine, text, sizeof text, &written) == AMQP1_DONE && written == 0);
    CHECK(amqp1_open(&engine) == AMQP1_DONE && state_of(&engine) == AMQP1_STATE_OPEN_SENT);
    CHECK(amqp1_open(&engine) == AMQP1_REFUSED && refused_as(&engine, "IllegalState", "amqp:illegal-state"));
    CHECK(sends(&engine, OPEN_OUT) && sends(&engine, ""));
    CHECK(hears_one(&engine, "[02000000 " PEERS_OPEN "]", AMQP1_KIND_OPENED) && state_of(&engine) == AMQP1_STATE_OPENED);
    CHECK(heard[0].session == AMQP1_NONE && heard[0].output == AMQP1_NONE && heard[0].input == AMQP1_NONE && heard[0].channel == 0);
    CHECK(is(amqp1_performative(heard_bytes, heard), PEERS_OPEN) && amqp1_payload(heard_bytes, heard).length == 0 && heard[0].payload_at == 26);
    amqp1_free(&engine);
}

/* A session that ends with an error, and is let go. */
static void try_end(amqp1 *engine)
{
    uint8_t text[64];
    size_t length;
    CHECK(amqp1_write_error(text, sizeof text, &length, "amqp:internal-error", "why") == AMQP1_DONE);
    CHECK(session_state_of(engine, 7) == AMQP1_SESSION_MAPPED && session_state_of(engine, 8) == 99);
    CHECK(amqp1_forget(engine, 7) == AMQP1_REFUSED);
    CHECK(amqp1_end(engine, 7, text, length) == AMQP1_DONE && session_state_of(engine, 7) == AMQP1_SESSION_DISCARDING);
    CHECK(sends(engine, "[02000000 005317 c0(01 00531d c0(02 a3(616d71703a696e7465726e616c2d6572726f72) a1(776879)))]"));
    CHECK(hears_one(engine, "[02000003 00531745]", AMQP1_KIND_ENDED) && heard[0].session == 7 && heard[0].refusal == 0 && heard[0].flags == 0);
    CHECK(session_state_of(engine, 7) == AMQP1_SESSION_UNMAPPED);
    CHECK(amqp1_forget(engine, 7) == AMQP1_REFUSED && refused_as(engine, "SessionInUse", ""));
    CHECK(amqp1_release(engine, 7) == AMQP1_DONE && amqp1_forget(engine, 7) == AMQP1_DONE);
    CHECK(session_state_of(engine, 7) == 99);
    CHECK(amqp1_release(engine, 7) == AMQP1_REFUSED && refused_as(engine, "NoSession", ""));
    CHECK(amqp1_write_begin(text, sizeof text, &length, 0, 64, 64, 255) == AMQP1_DONE);
    CHECK(amqp1_begin(engine, 7, text, length) == AMQP1_REFUSED && refused_as(engine, "SessionInUse", ""));
}

static void try_close(amqp1 *engine)
{
    CHECK(amqp1_close(engine, NULL, 0) == AMQP1_DONE && state_of(engine) == AMQP1_STATE_CLOSE_SENT);
    CHECK(sends(engine, "[02000000 00531845]"));
    CHECK(hears_one(engine, "[02000000 00531845]", AMQP1_KIND_CLOSED) && state_of(engine) == AMQP1_STATE_ENDED);
}

/* The peer closes with an error, which stands in the performative. */
static void try_closed(void)
{
    amqp1 engine = opened();
    amqp1_bytes error;
    CHECK(hears_one(&engine, "[02000000 005318 c0(01 00531d c0(02 a3(666f6f) a1(626172)))]", AMQP1_KIND_CLOSED));
    CHECK(heard[0].flags == AMQP1_FLAG_ERROR && heard[0].refusal == 0);
    CHECK(amqp1_field(amqp1_performative(heard_bytes, heard), AMQP1_CLOSE_ERROR, &error));
    CHECK(is(amqp1_bytes_field(error, AMQP1_ERROR_CONDITION), "666f6f") && is(amqp1_bytes_field(error, AMQP1_ERROR_DESCRIPTION), "626172"));
    CHECK(state_of(&engine) == AMQP1_STATE_CLOSE_RECEIVED);
    CHECK(amqp1_close(&engine, NULL, 0) == AMQP1_DONE && sends(&engine, "[02000000 00531845]"));
    CHECK(state_of(&engine) == AMQP1_STATE_ENDED);
    amqp1_free(&engine);
}

void try_connection(void)
{
    amqp1 engine = begun();
    try_open();
    try_end(&engine);
    try_close(&engine);
    amqp1_free(&engine);
    try_closed();
}

/* The text of a refusal by its number. */
static void try_refusal_text(amqp1 *engine, uint32_t refusal, const char *wanted)
{
    uint8_t text[128];
    size_t written = 0;
    int is_so = amqp1_refusal_text(engine, refusal, text, sizeof text, &written) == AMQP1_DONE && written == strlen(wanted) &&
                !memcmp(text, wanted, written);
    if (!is_so)
        printf("  refusal %u: %.*s\n", (unsigned)refusal, (int)written, (const char *)text);
    CHECK(is_so);
}

/* Each number of a refusal has a name, which is that of no number besides. */
static void try_refusal_texts(amqp1 *engine)
{
    static const uint32_t groups[][2] = { { 1, 4 }, { 11, 15 }, { 21, 25 }, { 31, 37 }, { 41, 44 }, { 51, 55 }, { 61, 70 }, { 81, 85 }, { 91, 92 }, { 101, 108 }, { 111, 116 } };
    uint8_t text[128];
    size_t written = 0, group = 0;
    uint32_t refusal;
    for (refusal = 0; refusal < 200; refusal++) {
        int is_one;
        if (group < 10 && refusal > groups[group][1])
            group++;
        is_one = refusal >= groups[group][0] && refusal <= groups[group][1];
        CHECK(amqp1_refusal_text(engine, refusal, text, sizeof text, &written) == AMQP1_DONE && (written > 0) == is_one);
        CHECK(!written || (written > 2 && memchr(text, '\n', written) != NULL && text[0] >= 'A' && text[0] <= 'Z'));
    }
    CHECK(amqp1_refusal_text(engine, UINT32_MAX, text, sizeof text, &written) == AMQP1_DONE && written == 0);
    try_refusal_text(engine, AMQP1_WHY_FRAME_DECODE_ERROR, "DecodeError\namqp:decode-error\nclose");
    try_refusal_text(engine, AMQP1_WHY_SESSION_UNATTACHED_HANDLE, "UnattachedHandle\namqp:session:unattached-handle\nend");
    try_refusal_text(engine, AMQP1_WHY_NO_SESSION, "NoSession\n\n");
    try_refusal_text(engine, AMQP1_WHY_LINK_NO_SENDER, "NoSender\n\n");
    try_refusal_text(engine, AMQP1_WHY_LINK_NOT_ATTACHED, "NotAttached\n\n");
    try_refusal_text(engine, AMQP1_WHY_LINK_TOO_LARGE, "TooLarge\n\n");
    try_refusal_text(engine, AMQP1_WHY_LINK_NONE_UNDER_WAY, "NoneUnderWay\n\n");
    try_refusal_text(engine, AMQP1_WHY_LINK_NO_CREDIT, "NoCredit\n\n");
    try_refusal_text(engine, AMQP1_WHY_LINK_NOT_NEXT, "NotNext\n\n");
}

/* What is a number of the engine's, or of a session's. */
void try_numbers(void)
{
    amqp1 engine = begun();
    uint8_t transfer[64];
    uint32_t number = 99;
    int is_there = 9;
    size_t length;
    CHECK(amqp1_write_transfer(transfer, sizeof transfer, &length, 0, "t", 1, 0, 0, 0) == AMQP1_DONE);
    CHECK(amqp1_session_of(&engine, 3, &number, &is_there) == AMQP1_DONE && is_there && number == 7);
    CHECK(amqp1_session_of(&engine, 4, &number, &is_there) == AMQP1_DONE && !is_there);
    CHECK(amqp1_max_piece_len(&engine, &number) == AMQP1_DONE && number == 1020);
    CHECK(amqp1_payload_room(&engine, transfer, length, &number, &is_there) == AMQP1_DONE && is_there);
    /* beside the header (4), the descriptor (3), the list's head (3), handle (1), the widest number (5), tag (3), format (1) and settled (1) */
    CHECK(number == 1020 - 4 - 3 - 3 - 1 - 5 - 3 - 1 - 1);
    CHECK(amqp1_payload_room(&engine, transfer, 3, &number, &is_there) == AMQP1_BAD_ARGUMENT);
    number = 99;
    CHECK(amqp1_unfit(&engine, &number) == AMQP1_DONE && number == 0);
    try_refusal_texts(&engine);
    amqp1_free(&engine);
}
