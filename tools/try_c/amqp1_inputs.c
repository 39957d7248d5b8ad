/* Tests of libamqp1: inputs that are none of an operation's, and outputs that are too small. Nothing changes. */
#include "amqp1_try.h"

/* Opens of which no engine is made. */
static void try_bad_opens(void)
{
    amqp1 place = AMQP1_EMPTY;
    uint8_t open[64] = { 1 };
    size_t length, all = bytes_of("005310 c0(02 a1(6d65) a1", open, 32);
    for (length = 0; length <= all; length++)
        CHECK(amqp1_start(&place, key, open, length) == AMQP1_BAD_ARGUMENT && place.full == 0);
    length = bytes_of("005311 c0(04 600000 43 520a 520a)", open, 32);
    CHECK(amqp1_start(&place, key, open, length) == AMQP1_BAD_ARGUMENT && place.full == 0);
    length = bytes_of("005310 c0(01 a1(6d65)) 40", open, 32);
    CHECK(amqp1_start(&place, key, open, length) == AMQP1_BAD_ARGUMENT && place.full == 0);
    CHECK(amqp1_start(&place, key, open, length - 1) == AMQP1_DONE && place.full == 1);
    amqp1_free(&place);
}

/* What is said of the opening, and whether an engine is made of it: the side, the host's size, heads, and bytes. */
static void try_openings(void)
{
    static const struct opening {
        uint32_t side, host;
        size_t heads;
        amqp1_login_head logins[3];
        const char *bytes;
        int32_t status;
    } openings[] = {
        { 0, AMQP1_NONE, 0, { { 0, 0 }, { 0, 0 }, { 0, 0 } }, "", AMQP1_DONE },
        { 0, AMQP1_NONE, 0, { { 0, 0 }, { 0, 0 }, { 0, 0 } }, "00", AMQP1_BAD_ARGUMENT },
        { 0, 0, 0, { { 0, 0 }, { 0, 0 }, { 0, 0 } }, "", AMQP1_BAD_ARGUMENT },
        { 0, AMQP1_NONE, 1, { { 0, AMQP1_NONE }, { 0, 0 }, { 0, 0 } }, "", AMQP1_BAD_ARGUMENT },
        { 1, AMQP1_NONE, 0, { { 0, 0 }, { 0, 0 }, { 0, 0 } }, "", AMQP1_DONE },
        { 1, 0, 0, { { 0, 0 }, { 0, 0 }, { 0, 0 } }, "", AMQP1_DONE },
        { 1, 2, 0, { { 0, 0 }, { 0, 0 }, { 0, 0 } }, "c3a9", AMQP1_DONE },
        { 1, 2, 0, { { 0, 0 }, { 0, 0 }, { 0, 0 } }, "c3c3", AMQP1_BAD_ARGUMENT },
        { 1, 3, 0, { { 0, 0 }, { 0, 0 }, { 0, 0 } }, "6161", AMQP1_BAD_ARGUMENT },
        { 1, 1, 0, { { 0, 0 }, { 0, 0 }, { 0, 0 } }, "6161", AMQP1_BAD_ARGUMENT },
        { 1, 0xfffffffe, 0, { { 0, 0 }, { 0, 0 }, { 0, 0 } }, "6161", AMQP1_BAD_ARGUMENT },
        { 1, 1, 2, { { 1, AMQP1_NONE }, { 2, 3 }, { 0, 0 } }, "68 41 4242 000102", AMQP1_DONE },
        { 1, 1, 2, { { 1, AMQP1_NONE }, { 2, 3 }, { 0, 0 } }, "68 41 4242 0001", AMQP1_BAD_ARGUMENT },
        { 1, 1, 2, { { 1, AMQP1_NONE }, { 2, 3 }, { 0, 0 } }, "68 41 4242 00010203", AMQP1_BAD_ARGUMENT },
        { 1, 1, 2, { { 1, AMQP1_NONE }, { 2, 3 }, { 0, 0 } }, "68 c1 4242 000102", AMQP1_BAD_ARGUMENT },
        { 1, AMQP1_NONE, 1, { { 1, 0 }, { 0, 0 }, { 0, 0 } }, "41", AMQP1_DONE },
        { 1, AMQP1_NONE, 1, { { 0xffffffff, 0 }, { 0, 0 }, { 0, 0 } }, "41", AMQP1_BAD_ARGUMENT },
        { 1, AMQP1_NONE, 1, { { 1, 0xfffffffe }, { 0, 0 }, { 0, 0 } }, "41", AMQP1_BAD_ARGUMENT },
        { 1, AMQP1_NONE, 2, { { 1, 0xfffffffe }, { 0xffffffff, 2 }, { 0, 0 } }, "41", AMQP1_BAD_ARGUMENT },
        { 2, AMQP1_NONE, 1, { { 1, AMQP1_NONE }, { 0, 0 }, { 0, 0 } }, "41", AMQP1_DONE },
        { 2, AMQP1_NONE, 3, { { 1, AMQP1_NONE }, { 0, AMQP1_NONE }, { 1, AMQP1_NONE } }, "4142", AMQP1_DONE },
        { 2, AMQP1_NONE, 0, { { 0, 0 }, { 0, 0 }, { 0, 0 } }, "", AMQP1_BAD_ARGUMENT },
        { 2, AMQP1_NONE, 1, { { 1, 0 }, { 0, 0 }, { 0, 0 } }, "41", AMQP1_BAD_ARGUMENT },
        { 2, AMQP1_NONE, 1, { { 1, AMQP1_NONE }, { 0, 0 }, { 0, 0 } }, "80", AMQP1_BAD_ARGUMENT },
        { 2, 0, 1, { { 1, AMQP1_NONE }, { 0, 0 }, { 0, 0 } }, "41", AMQP1_BAD_ARGUMENT },
        { 3, AMQP1_NONE, 0, { { 0, 0 }, { 0, 0 }, { 0, 0 } }, "", AMQP1_BAD_ARGUMENT },
        { UINT32_MAX, AMQP1_NONE, 0, { { 0, 0 }, { 0, 0 }, { 0, 0 } }, "", AMQP1_BAD_ARGUMENT },
    };
    uint8_t open[64], bytes[64] = { 0 };
    size_t at, length = bytes_of("005310 c0(01 a1(6d65))", open, sizeof open);
    for (at = 0; at < sizeof openings / sizeof *openings; at++) {
        amqp1 place = AMQP1_EMPTY;
        amqp1_how how = amqp1_how_of(key, 5, 6, AMQP1_WITHOUT_SASL);
        int32_t status;
        how.side = openings[at].side;
        how.host = openings[at].host;
        status = amqp1_new(&place, &how, open, length, openings[at].logins, openings[at].heads, bytes, bytes_of(openings[at].bytes, bytes, sizeof bytes));
        if (status != openings[at].status)
            printf("  opening %u: status %d\n", (unsigned)at, (int)status);
        CHECK(status == openings[at].status && place.full == (status == AMQP1_DONE));
        amqp1_free(&place);
    }
}

/* An operation that does not exist, and no input or a very long one for each that does. */
static void try_any_input(amqp1 *engine)
{
    static const uint32_t none_such[] = { 0, 1, 17, 22, 26, 37, 38, 255, UINT32_MAX };
    size_t many = 10 << 20, written, at;
    uint8_t *input = (uint8_t *)malloc(many), none[1] = { 0 }, out[64];
    uint32_t operation;
    CHECK(input != NULL);
    if (!input)
        return;
    memset(input, 0xff, many);
    for (operation = 0; operation < 40; operation++) {
        /* any bytes are a challenge, and a response, which nothing asks for */
        int is_any = operation == AMQP1_CHALLENGE || operation == AMQP1_RESPOND;
        CHECK(amqp1_call(engine, operation, input, many, out, sizeof out, &written) == (is_any ? AMQP1_REFUSED : AMQP1_BAD_ARGUMENT));
        CHECK(!is_any || refused_as(engine, "WrongTime", ""));
    }
    for (operation = 3; operation < 16; operation++)
        CHECK(amqp1_call(engine, operation, none, 0, out, sizeof out, &written) == AMQP1_BAD_ARGUMENT);
    for (at = 0; at < sizeof none_such / sizeof *none_such; at++)
        CHECK(amqp1_call(engine, none_such[at], none, 0, out, sizeof out, &written) == AMQP1_BAD_ARGUMENT);
    free(input);
    CHECK(sends(engine, ""));
}

/* What this operation answers to an input; nothing goes out. */
static int32_t asked(amqp1 *engine, uint32_t operation, const char *digits)
{
    uint8_t input[256], out[16];
    size_t written = 0, length = bytes_of(digits, input, sizeof input);
    int32_t status = amqp1_call(engine, operation, input, length, out, sizeof out, &written);
    CHECK(written == 0 && sends(engine, ""));
    return status;
}

/* Inputs that are nearly an operation's: another performative, bytes after it, a role or a mode that is none, a name that is no UTF-8. */
static void try_other_forms(void)
{
    static const struct form {
        uint32_t operation;
        const char *digits;
    } forms[] = {
        { AMQP1_OPEN, "00" },
        { AMQP1_CLOSE, "01" },
        { AMQP1_CLOSE, "0000" },
        { AMQP1_CLOSE, "02" },
        { AMQP1_CLOSE, "00531d c0(01 a3(666f6f))" },
        { AMQP1_CLOSE, "01 00531745" },
        { AMQP1_CLOSE, "00 00531d c0(01 a3(666f6f))" },
        { AMQP1_CLOSE, "01 00531d c0(01 a3(666f6f)) 00" },
        { AMQP1_BEGIN, "00000009 005312 c0(03 a1(6f7574) 43 41)" },
        { AMQP1_BEGIN, "00000009 005311 c0(04 600000 43 520a 520a)" },
        { AMQP1_BEGIN, "00000009 005311 c0(04 40 43 520a 520a) 00" },
        { AMQP1_BEGIN, "000009 005311 c0(04 40 43 520a 520a)" },
        { AMQP1_END, "00000007" },
        { AMQP1_END, "00000007 01" },
        { AMQP1_END, "00000007 01 00531845" },
        { AMQP1_END, "00000007 00531d c0(01 a3(666f6f))" },
        { AMQP1_RELEASE, "0000000700" },
        { AMQP1_FORGET, "000007" },
        { AMQP1_LINK, "00000007 02 00 6e" },
        { AMQP1_LINK, "00000007 00 02 6e" },
        { AMQP1_LINK, "00000007 00 00 ff" },
        { AMQP1_LINK_ON, "00000007 00000005 00" },
        { AMQP1_ATTACH, "00000007 005312 c0(03 a1(6f7574) 43 41) 40" },
        { AMQP1_ATTACH, "00000007 005312 c0(02 a1(6f7574) 43)" },
        { AMQP1_DETACH, "00000007 02 005316 c0(01 43)" },
        { AMQP1_FLOW, "00000007 005313 c0(04 40 43 43 43)" },
        { AMQP1_TRANSFER, "00000007 02 00000007 005314 c0(01 43)" },
        { AMQP1_TRANSFER, "00000007 01 00000008 005315 c0(02 41 43)" },
        { AMQP1_TRANSFER, "00000007 01 005314 c0(01 43)" },
        { AMQP1_TRANSFER, "00000007 01 00000000 005314 c0(01 43)" },
        { AMQP1_TRANSFER, "00000007 01 00000006 005314 c0(01 43)" },
        { AMQP1_TRANSFER, "00000007 01 00000008 005314 c0(01 43)" },
        { AMQP1_TRANSFER, "00000007 01 ffffffff 005314 c0(01 43)" },
        { AMQP1_TRANSFER, "00000007 00000000 01 00000007 005314 c0(01 43)" },
        { AMQP1_TRANSFER, "00000007 00000005 01 00000007 005314 c0(01 43)" },
        { AMQP1_DISPOSITION, "00000007 005314 c0(01 43)" },
        { AMQP1_SETTLE, "00000007 02 00000000 00000000" },
        { AMQP1_SETTLE, "00000007 01 00000000 000000" },
        { AMQP1_SETTLE, "00000007 01 00000000 00000000 00" },
        { AMQP1_OUTPUT, "00" },
        { AMQP1_REFUSAL, "00" },
        { AMQP1_REMOTE_OPEN, "00" },
        { AMQP1_MAX_PIECE_LEN, "00" },
        { AMQP1_PAYLOAD_ROOM, "005315 c0(02 41 43)" },
        { AMQP1_PAYLOAD_ROOM, "005314 c0(01 43) 00" },
        { AMQP1_SESSION_OF, "03" },
        { AMQP1_SESSION_OF, "000003" },
        { AMQP1_STATE, "00" },
        { AMQP1_SESSION_STATE, "000007" },
        { AMQP1_SESSION_STATE, "0000000700" },
        { AMQP1_UNFIT, "00" },
        { AMQP1_REFUSAL_TEXT, "" },
        { AMQP1_REFUSAL_TEXT, "00003d" },
        { AMQP1_REFUSAL_TEXT, "0000003d00" },
        { AMQP1_DISPOSE, "00000007 01 00000000 00000000 01" },
        { AMQP1_DISPOSE, "00000007 01 00000000 00000000 01 01 00" },
        { AMQP1_DISPOSE, "00000007 02 00000000 00000000 01 01" },
        { AMQP1_DISPOSE, "00000007 01 00000000 00000000 02 01" },
        { AMQP1_DISPOSE, "00000007 01 00000000 00000000 01 02" },
        { AMQP1_DISPOSE, "00000007 01 00000000 00000000 01 05" },
        { AMQP1_DISPOSE, "00000007 01 00000000 00000000 01 06" },
        { AMQP1_DISPOSE, "00000007 01 00000000 00000000 01 24" },
        { AMQP1_LOGIN, "" },
        { AMQP1_LOGIN, "00" },
        { AMQP1_LOGIN, "05 00" },
        { AMQP1_LOGIN, "ff 00" },
        { AMQP1_LOGIN, "00 02" },
        { AMQP1_LOGIN, "00 02 01" },
        { AMQP1_LOGIN, "00 00 01" },
        { AMQP1_IS_OVER, "00" },
    };
    amqp1 engine = begun();
    size_t at;
    for (at = 0; at < sizeof forms / sizeof *forms; at++) {
        int32_t status = asked(&engine, forms[at].operation, forms[at].digits);
        if (status != AMQP1_BAD_ARGUMENT)
            printf("  operation %u, %s: status %d\n", (unsigned)forms[at].operation, forms[at].digits, (int)status);
        CHECK(status == AMQP1_BAD_ARGUMENT);
    }
    amqp1_free(&engine);
}

/* Where the output is too small for the answer of an operation: for each room that is, what is needed is told, and no byte is written. */
static void try_room_of(amqp1 *engine, uint32_t operation, const char *digits, size_t needed)
{
    uint8_t input[16], out[64];
    size_t room, at, written, length = bytes_of(digits, input, sizeof input);
    for (room = 0; room < needed; room++) {
        int is_left = 1;
        memset(out, 0xee, sizeof out);
        CHECK(amqp1_call(engine, operation, input, length, out, room, &written) == AMQP1_TOO_SMALL && written == needed);
        for (at = 0; at < sizeof out; at++)
            is_left = is_left && out[at] == 0xee;
        CHECK(is_left);
    }
    CHECK(amqp1_call(engine, operation, input, length, out, needed, &written) == AMQP1_DONE && written == needed);
}

static void try_no_room(void)
{
    amqp1 engine = begun();
    uint8_t out[32];
    size_t written = 0, all = 0;
    try_room_of(&engine, AMQP1_REMOTE_OPEN, "", 18);
    try_room_of(&engine, AMQP1_MAX_PIECE_LEN, "", 4);
    try_room_of(&engine, AMQP1_PAYLOAD_ROOM, "005314 c0(01 43)", 4);
    try_room_of(&engine, AMQP1_SESSION_OF, "0003", 4);
    try_room_of(&engine, AMQP1_STATE, "", 1);
    try_room_of(&engine, AMQP1_SESSION_STATE, "00000007", 1);
    try_room_of(&engine, AMQP1_UNFIT, "", 4);
    try_room_of(&engine, AMQP1_IS_OVER, "", 1);
    CHECK(amqp1_begin(&engine, 7, NULL, 5) == AMQP1_BAD_ARGUMENT);
    CHECK(amqp1_begin(&engine, 7, NULL, 0) == AMQP1_BAD_ARGUMENT && amqp1_release(&engine, 9) == AMQP1_REFUSED);
    CHECK(amqp1_refusal(&engine, out, 0, &written) == AMQP1_TOO_SMALL && written > strlen("NoSession") && written < sizeof out);
    try_room_of(&engine, AMQP1_REFUSAL, "", written);
    CHECK(amqp1_refusal_text(&engine, AMQP1_WHY_NO_SESSION, out, 0, &written) == AMQP1_TOO_SMALL && written > strlen("NoSession"));
    try_room_of(&engine, AMQP1_REFUSAL_TEXT, "00000002", written);
    /* a link is not allotted where its handle cannot be written */
    try_room_of(&engine, AMQP1_LINK, "00000007 00 00 6e", 4);
    try_room_of(&engine, AMQP1_LINK_ON, "00000007 00000003 00 00 6d", 4);
    /* what waits is taken in any parts */
    CHECK(amqp1_end(&engine, 7, NULL, 0) == AMQP1_DONE && amqp1_close(&engine, NULL, 0) == AMQP1_DONE);
    CHECK(amqp1_output(&engine, out, 0, &written) == AMQP1_DONE && written == 0);
    while (amqp1_output(&engine, out + all, all < 5 ? 1 : 5, &written) == AMQP1_DONE && written)
        all += written;
    CHECK(are(out, all, "[02000000 00531745] [02000000 00531845]"));
    amqp1_free(&engine);
}

void try_inputs(void)
{
    amqp1 engine = made();
    try_bad_opens();
    try_openings();
    try_any_input(&engine);
    amqp1_free(&engine);
    try_other_forms();
    try_no_room();
}
