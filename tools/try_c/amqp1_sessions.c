/* Tests of libamqp1: the answers to a peer's Begin, End and Close and to frames that were refused, by amqp1_answer, amqp1_answer_begin,
   amqp1_answer_end and amqp1_let_go: what goes out, which sessions there are then, and each refusal. */
#include "amqp1_try.h"

/* The peer begins a session on its channel 5, and ends it; this side's Begin on channel 0 as the answer, and its End there. And another session. */
#define BEGIN_5 "[02000005 005311 c0(04 40 43 5264 5264)]"
#define END_5 "[02000005 00531745]"
#define ANSWER_0 "[02000000 005311 c0(04 600005 43 7000001388 7000001388)]"
#define END_0 "[02000000 00531745]"
#define BEGIN_6 "[02000006 005311 c0(04 40 43 5264 5264)]"
#define ANSWER_1 "[02000001 005311 c0(04 600006 43 7000001388 7000001388)]"
#define CLOSE "[02000000 00531845]"

/* A Flow of a link that is not attached, on channel 5, and one on a channel that leads to no session. */
#define FLOW_5 "[02000005 005313 c0(05 43 5210 43 5210 5209)]"
#define FLOW_9 "[02000009 005313 c0(04 43 5210 43 5210)]"

/* An End and a Close with the conditions amqp:session:unattached-handle and amqp:not-found. */
#define END_FOR_FLOW "[02000000 005317 c0(01 00531d c0(01 a3(616d71703a73657373696f6e3a756e61747461636865642d68616e646c65)))]"
#define CLOSE_FOR_FLOW "[02000000 005318 c0(01 00531d c0(01 a3(616d71703a6e6f742d666f756e64)))]"

/* Hands over one frame, whose record is of this kind, and answers it, as far as the flags say. */
static int32_t gives(amqp1 *engine, const char *digits, enum amqp1_kind kind, unsigned flags)
{
    CHECK(hears_one(engine, digits, kind));
    return amqp1_answer(engine, heard, heard_bytes, sizeof heard_bytes, (uint16_t)flags, heard->channel);
}

/* The same record once more. */
static int32_t again(amqp1 *engine, unsigned flags)
{
    return amqp1_answer(engine, heard, heard_bytes, sizeof heard_bytes, (uint16_t)flags, heard->channel);
}

/* An engine whose session 5 answers the peer's on channel 5. */
static amqp1 served(void)
{
    amqp1 engine = opened();
    CHECK(gives(&engine, BEGIN_5, AMQP1_KIND_BEGIN_WANTED, AMQP1_ANSWER_ALL) == AMQP1_DONE && sends(&engine, ANSWER_0));
    return engine;
}

/* Whether a number is a session's, in this state, to which this channel of the peer's leads. */
static int is_session(amqp1 *engine, uint32_t number, uint32_t state, uint16_t channel)
{
    uint32_t session = 99;
    int leads = 0;
    CHECK(amqp1_session_of(engine, channel, &session, &leads) == AMQP1_DONE);
    return leads && session == number && session_state_of(engine, number) == state;
}

static void try_begin(void)
{
    amqp1 engine = opened();
    amqp1_record begin;
    CHECK(gives(&engine, BEGIN_5, AMQP1_KIND_BEGIN_WANTED, AMQP1_ANSWER_ALL & ~AMQP1_ANSWER_BEGINS) == AMQP1_NOTHING);
    begin = heard[0];
    CHECK(amqp1_answer(&engine, &begin, heard_bytes, 0, AMQP1_ANSWER_ALL, begin.channel) == AMQP1_BAD_ARGUMENT);
    CHECK(amqp1_answer(&engine, &begin, heard_bytes, begin.at + begin.size - 1, AMQP1_ANSWER_ALL, begin.channel) == AMQP1_BAD_ARGUMENT);
    CHECK(sends(&engine, "") && session_state_of(&engine, 5) == 99);
    CHECK(amqp1_answer(&engine, &begin, heard_bytes, begin.at + begin.size, AMQP1_ANSWER_BEGINS, begin.channel) == AMQP1_DONE);
    CHECK(sends(&engine, ANSWER_0) && is_session(&engine, 5, AMQP1_SESSION_MAPPED, 5));
    CHECK(again(&engine, AMQP1_ANSWER_ALL) == AMQP1_REFUSED && refused_as(&engine, "ChannelInUse", "") && sends(&engine, ""));
    CHECK(gives(&engine, BEGIN_6, AMQP1_KIND_BEGIN_WANTED, AMQP1_ANSWER_ALL) == AMQP1_DONE);
    CHECK(sends(&engine, ANSWER_1) && is_session(&engine, 6, AMQP1_SESSION_MAPPED, 6));
    CHECK(gives(&engine, "[02000006 005312 c0(03 a1(746f) 43 42)]", AMQP1_KIND_ATTACH_WANTED, AMQP1_ANSWER_ALL) == AMQP1_NOTHING);
    CHECK(heard[0].session == 6 && sends(&engine, ""));
    amqp1_free(&engine);
    CHECK(amqp1_answer(&engine, &begin, heard_bytes, sizeof heard_bytes, AMQP1_ANSWER_ALL, begin.channel) == AMQP1_NO_ENGINE);
}

/* No session begins before both Opens, once this side has closed, and without a channel. */
static void try_no_begin(void)
{
    static uint8_t out[1 << 15];
    amqp1 engine = opened();
    amqp1_record begin;
    uint8_t text[64];
    size_t length, written;
    uint32_t number;
    CHECK(hears_one(&engine, BEGIN_5, AMQP1_KIND_BEGIN_WANTED));
    begin = heard[0];
    CHECK(amqp1_write_begin(text, sizeof text, &length, 0, 2048, 2048, 255) == AMQP1_DONE);
    for (number = 1000; number < 1256; number++)
        EACH(amqp1_begin(&engine, number, text, length) == AMQP1_DONE);
    CHECK(amqp1_output(&engine, out, sizeof out, &written) == AMQP1_DONE && written > 0 && written < sizeof out);
    CHECK(again(&engine, AMQP1_ANSWER_ALL) == AMQP1_REFUSED && refused_as(&engine, "ChannelMaxReached", ""));
    CHECK(sends(&engine, "") && session_state_of(&engine, 5) == 99);
    CHECK(amqp1_close(&engine, NULL, 0) == AMQP1_DONE && sends(&engine, CLOSE));
    CHECK(again(&engine, AMQP1_ANSWER_ALL) == AMQP1_REFUSED && refused_as(&engine, "NotOpened", "") && sends(&engine, ""));
    amqp1_free(&engine);
    engine = made();
    CHECK(amqp1_answer(&engine, &begin, heard_bytes, sizeof heard_bytes, AMQP1_ANSWER_ALL, begin.channel) == AMQP1_REFUSED);
    CHECK(refused_as(&engine, "NotOpened", "") && sends(&engine, ""));
    amqp1_free(&engine);
}

/* A session ends; on its channel another one may begin, under another number. */
static void try_end(void)
{
    amqp1 engine = served();
    uint8_t text[64];
    size_t length;
    CHECK(gives(&engine, END_5, AMQP1_KIND_ENDED, AMQP1_ANSWER_ALL & ~AMQP1_ANSWER_ENDS) == AMQP1_NOTHING && sends(&engine, ""));
    CHECK(session_state_of(&engine, 5) == AMQP1_SESSION_END_RECEIVED);
    CHECK(again(&engine, AMQP1_ANSWER_ENDS) == AMQP1_DONE && sends(&engine, END_0) && session_state_of(&engine, 5) == 99);
    CHECK(again(&engine, AMQP1_ANSWER_ENDS) == AMQP1_REFUSED && refused_as(&engine, "NotEnded", "") && sends(&engine, ""));
    CHECK(gives(&engine, BEGIN_5, AMQP1_KIND_BEGIN_WANTED, AMQP1_ANSWER_ALL) == AMQP1_REFUSED && refused_as(&engine, "SessionInUse", ""));
    CHECK(amqp1_write_begin(text, sizeof text, &length, 0, 5000, 5000, UINT32_MAX) == AMQP1_DONE && sends(&engine, ""));
    CHECK(amqp1_answer_begin(&engine, heard, heard_bytes, 65536, text, length) == AMQP1_DONE);
    CHECK(is_session(&engine, 65536, AMQP1_SESSION_MAPPED, 5) && sends(&engine, ANSWER_0));
    amqp1_free(&engine);
}

/* This side ends a session, and then the peer does: no End goes out once more. */
static void try_own_end(void)
{
    amqp1 engine = served();
    CHECK(amqp1_end(&engine, 5, NULL, 0) == AMQP1_DONE && sends(&engine, END_0));
    CHECK(gives(&engine, END_5, AMQP1_KIND_ENDED, AMQP1_ANSWER_ALL) == AMQP1_DONE && sends(&engine, "") && session_state_of(&engine, 5) == 99);
    amqp1_free(&engine);
}

static void try_close(void)
{
    amqp1 engine = served();
    int is_over = 0;
    CHECK(gives(&engine, CLOSE, AMQP1_KIND_CLOSED, AMQP1_ANSWER_ALL & ~AMQP1_ANSWER_CLOSES) == AMQP1_NOTHING && sends(&engine, ""));
    CHECK(again(&engine, AMQP1_ANSWER_CLOSES) == AMQP1_DONE && sends(&engine, CLOSE));
    CHECK(amqp1_is_over(&engine, &is_over) == AMQP1_DONE && is_over);
    CHECK(again(&engine, AMQP1_ANSWER_CLOSES) == AMQP1_REFUSED && refused_as(&engine, "Over", ""));
    CHECK(amqp1_answer_end(&engine, 5, NULL, 0) == AMQP1_REFUSED && refused_as(&engine, "Over", ""));
    CHECK(amqp1_let_go(&engine, 5) == AMQP1_REFUSED && refused_as(&engine, "NotEnded", "") && sends(&engine, ""));
    amqp1_free(&engine);
}

/* A frame that is refused is answered by an End or a Close with its condition; once this side has closed none is due. */
static void try_refusals(void)
{
    amqp1 engine = served();
    CHECK(gives(&engine, FLOW_5, AMQP1_KIND_REFUSED, AMQP1_ANSWER_ALL & ~AMQP1_ANSWER_REFUSALS) == AMQP1_NOTHING && sends(&engine, ""));
    CHECK(heard[0].refusal == AMQP1_WHY_SESSION_UNATTACHED_HANDLE && session_state_of(&engine, 5) == AMQP1_SESSION_MAPPED);
    CHECK(again(&engine, AMQP1_ANSWER_REFUSALS) == AMQP1_DONE && sends(&engine, END_FOR_FLOW));
    CHECK(again(&engine, AMQP1_ANSWER_REFUSALS) == AMQP1_REFUSED && refused_as(&engine, "IllegalState", "amqp:illegal-state"));
    CHECK(gives(&engine, END_5, AMQP1_KIND_ENDED, AMQP1_ANSWER_ALL) == AMQP1_DONE && sends(&engine, "") && session_state_of(&engine, 5) == 99);
    CHECK(gives(&engine, FLOW_9, AMQP1_KIND_REFUSED, AMQP1_ANSWER_ALL) == AMQP1_DONE && sends(&engine, CLOSE_FOR_FLOW));
    CHECK(heard[0].refusal == AMQP1_WHY_CONNECTION_NOT_FOUND && state_of(&engine) != AMQP1_STATE_OPENED);
    CHECK(again(&engine, AMQP1_ANSWER_REFUSALS) == AMQP1_NOTHING && sends(&engine, ""));
    amqp1_free(&engine);
}

/* A Begin with the settings that the program names. */
static void try_answer_begin(void)
{
    amqp1 engine = opened();
    uint8_t text[64];
    size_t length;
    CHECK(hears_one(&engine, BEGIN_5, AMQP1_KIND_BEGIN_WANTED));
    CHECK(amqp1_write_begin(text, sizeof text, &length, 3, 7, 8, 9) == AMQP1_DONE);
    CHECK(amqp1_answer_begin(&engine, heard, heard_bytes, 70000, text, length) == AMQP1_DONE);
    CHECK(sends(&engine, "[02000000 005311 c0(05 600005 5203 5207 5208 5209)]") && is_session(&engine, 70000, AMQP1_SESSION_MAPPED, 5));
    CHECK(amqp1_answer_begin(&engine, heard, heard_bytes, 70001, text, length) == AMQP1_REFUSED && refused_as(&engine, "ChannelInUse", ""));
    CHECK(hears_one(&engine, BEGIN_6, AMQP1_KIND_BEGIN_WANTED));
    CHECK(amqp1_answer_begin(&engine, heard, heard_bytes, 70000, text, length) == AMQP1_REFUSED && refused_as(&engine, "SessionInUse", ""));
    CHECK(sends(&engine, "") && session_state_of(&engine, 70001) == 99);
    amqp1_free(&engine);
    CHECK(amqp1_answer_begin(&engine, heard, heard_bytes, 70000, text, length) == AMQP1_NO_ENGINE);
}

/* A Begin that is longer than the peer takes is not sent, and nothing else changes. */
static void try_too_large(void)
{
    amqp1 engine = opened();
    static uint8_t text[1200];
    size_t length = bytes_of("005311 d0 0000045a 00000006 40 43 43 43 40 b3 0000044c", text, sizeof text);
    memset(text + length, 'a', 1100);
    CHECK(hears_one(&engine, BEGIN_5, AMQP1_KIND_BEGIN_WANTED));
    CHECK(amqp1_answer_begin(&engine, heard, heard_bytes, 5, text, length + 1100) == AMQP1_REFUSED && refused_as(&engine, "TooLarge", ""));
    CHECK(sends(&engine, "") && session_state_of(&engine, 5) == 99);
    CHECK(again(&engine, AMQP1_ANSWER_ALL) == AMQP1_DONE && sends(&engine, ANSWER_0));
    amqp1_free(&engine);
}

/* Inputs that are none of a Begin's answer: nothing changes. */
static void try_no_answer_begin(void)
{
    amqp1 engine = opened();
    amqp1_record begin, none;
    uint8_t text[64], other[64];
    size_t length, other_length = bytes_of("005311 c0(04 600000 43 5264 5264)", other, sizeof other);
    CHECK(amqp1_write_begin(text, sizeof text, &length, 0, 7, 8, 9) == AMQP1_DONE);
    CHECK(hears_one(&engine, BEGIN_5, AMQP1_KIND_BEGIN_WANTED));
    begin = none = heard[0];
    none.at = 3;
    CHECK(amqp1_answer_begin(&engine, &none, heard_bytes, 5, text, length) == AMQP1_BAD_ARGUMENT);
    none.at = begin.at + 1;
    CHECK(amqp1_answer_begin(&engine, &none, heard_bytes, 5, text, length) == AMQP1_BAD_ARGUMENT);
    CHECK(amqp1_answer_begin(&engine, &begin, heard_bytes, 5, other, other_length) == AMQP1_BAD_ARGUMENT);
    CHECK(amqp1_answer_begin(&engine, &begin, heard_bytes, 5, text, length - 1) == AMQP1_BAD_ARGUMENT);
    CHECK(amqp1_answer_begin(&engine, &begin, heard_bytes, 5, text, length + 1) == AMQP1_BAD_ARGUMENT);
    CHECK(amqp1_answer_begin(&engine, &begin, heard_bytes, 5, text, 0) == AMQP1_BAD_ARGUMENT);
    CHECK(hears_one(&engine, "[02000000 00531745]", AMQP1_KIND_REFUSED));
    CHECK(amqp1_answer_begin(&engine, heard, heard_bytes, 5, text, length) == AMQP1_BAD_ARGUMENT);
    CHECK(sends(&engine, "") && session_state_of(&engine, 5) == 99);
    amqp1_free(&engine);
}

/* An End with an error; and what is no End to be answered. */
static void try_answer_end(void)
{
    amqp1 engine = served();
    uint8_t text[64];
    size_t length;
    CHECK(amqp1_write_error(text, sizeof text, &length, "amqp:internal-error", NULL) == AMQP1_DONE);
    CHECK(amqp1_answer_end(&engine, 5, NULL, 0) == AMQP1_REFUSED && refused_as(&engine, "NotEnded", ""));
    CHECK(amqp1_answer_end(&engine, 6, NULL, 0) == AMQP1_REFUSED && refused_as(&engine, "NotEnded", ""));
    CHECK(hears_one(&engine, END_5, AMQP1_KIND_ENDED));
    CHECK(amqp1_answer_end(&engine, 5, text, 0) == AMQP1_BAD_ARGUMENT && amqp1_answer_end(&engine, 5, text, length - 1) == AMQP1_BAD_ARGUMENT);
    CHECK(sends(&engine, "") && session_state_of(&engine, 5) == AMQP1_SESSION_END_RECEIVED);
    CHECK(amqp1_answer_end(&engine, 5, text, length) == AMQP1_DONE && session_state_of(&engine, 5) == 99);
    CHECK(sends(&engine, "[02000000 005317 c0(01 00531d c0(01 a3(616d71703a696e7465726e616c2d6572726f72)))]"));
    CHECK(amqp1_answer_end(&engine, 5, NULL, 0) == AMQP1_REFUSED && refused_as(&engine, "NotEnded", "") && sends(&engine, ""));
    amqp1_free(&engine);
    CHECK(amqp1_answer_end(&engine, 5, NULL, 0) == AMQP1_NO_ENGINE);
}

/* A session that both sides have ended is let go, once; any other is refused, and keeps its channel. */
static void try_let_go(void)
{
    amqp1 engine = served();
    CHECK(amqp1_let_go(&engine, 6) == AMQP1_REFUSED && refused_as(&engine, "NotEnded", ""));
    CHECK(amqp1_let_go(&engine, 5) == AMQP1_REFUSED && refused_as(&engine, "NotEnded", "") && is_session(&engine, 5, AMQP1_SESSION_MAPPED, 5));
    CHECK(gives(&engine, BEGIN_6, AMQP1_KIND_BEGIN_WANTED, AMQP1_ANSWER_ALL) == AMQP1_DONE && sends(&engine, ANSWER_1));
    CHECK(amqp1_end(&engine, 5, NULL, 0) == AMQP1_DONE && sends(&engine, END_0));
    CHECK(amqp1_let_go(&engine, 5) == AMQP1_REFUSED && refused_as(&engine, "NotEnded", "") && session_state_of(&engine, 5) == AMQP1_SESSION_END_SENT);
    CHECK(hears_one(&engine, END_5, AMQP1_KIND_ENDED));
    CHECK(amqp1_answer_end(&engine, 5, NULL, 0) == AMQP1_REFUSED && refused_as(&engine, "NotEnded", ""));
    CHECK(amqp1_let_go(&engine, 5) == AMQP1_DONE && session_state_of(&engine, 5) == 99);
    CHECK(amqp1_let_go(&engine, 5) == AMQP1_REFUSED && refused_as(&engine, "NotEnded", "") && sends(&engine, ""));
    amqp1_free(&engine);
    CHECK(amqp1_let_go(&engine, 5) == AMQP1_NO_ENGINE);
}

/* Both sides have ended it; but it gave its channel back before, or the connection is over. */
static void try_no_let_go(void)
{
    amqp1 engine = served();
    CHECK(amqp1_end(&engine, 5, NULL, 0) == AMQP1_DONE && sends(&engine, END_0) && hears_one(&engine, END_5, AMQP1_KIND_ENDED));
    CHECK(amqp1_release(&engine, 5) == AMQP1_DONE);
    CHECK(amqp1_let_go(&engine, 5) == AMQP1_NOT_RELEASED && refused_as(&engine, "NotFound", "amqp:not-found"));
    CHECK(amqp1_forget(&engine, 5) == AMQP1_DONE && session_state_of(&engine, 5) == 99 && sends(&engine, ""));
    amqp1_free(&engine);
    engine = served();
    CHECK(amqp1_end(&engine, 5, NULL, 0) == AMQP1_DONE && sends(&engine, END_0) && hears_one(&engine, END_5, AMQP1_KIND_ENDED));
    CHECK(gives(&engine, CLOSE, AMQP1_KIND_CLOSED, AMQP1_ANSWER_ALL) == AMQP1_DONE && sends(&engine, CLOSE));
    CHECK(amqp1_let_go(&engine, 5) == AMQP1_NOT_RELEASED && refused_as(&engine, "Over", "") && sends(&engine, ""));
    amqp1_free(&engine);
}

static void try_names(void)
{
    CHECK(!strcmp(amqp1_status_name(AMQP1_NOTHING), "NOTHING") && !strcmp(amqp1_status_name(AMQP1_LOST), "LOST"));
    CHECK(!strcmp(amqp1_status_name(AMQP1_BROKEN), "BROKEN") && !strcmp(amqp1_status_name(AMQP1_NOT_RELEASED), "NOT_RELEASED"));
    CHECK(!strcmp(amqp1_status_name(AMQP1_NOT_FORGOTTEN), "NOT_FORGOTTEN"));
}

void try_sessions(void)
{
    try_begin();
    try_no_begin();
    try_end();
    try_own_end();
    try_close();
    try_refusals();
    try_answer_begin();
    try_too_large();
    try_no_answer_begin();
    try_answer_end();
    try_let_go();
    try_no_let_go();
    try_names();
}
