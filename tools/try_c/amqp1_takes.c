/* Tests of libamqp1: whole frames out of received bytes. What is taken, why it stops, and that nothing else is written. */
#include "amqp1_try.h"

#define ATTACH_IN "[02000003 005312 c0(03 a1(696e) 5206 42)]"
#define FIRST "[02000003 005314 c0(06 5206 43 a0(61) 43 42 42) 010203]"
#define SECOND "[02000003 005314 c0(06 5206 5201 a0(62) 43 42 42) 04]"
#define EMPTY "[02000000]"
#define FRAMING_ERROR \
    "[02000000 005318 c0(01 00531d c0(01 a3(616d71703a636f6e6e656374696f6e3a6672616d696e672d6572726f72)))]"

/* An engine with a link on which this side receives, by the peer's handle 6. */
static amqp1 receiving(void)
{
    amqp1 engine = begun();
    CHECK(attaches(&engine, "in", AMQP1_RECEIVER, AMQP1_FIRST) == 0);
    CHECK(hears_one(&engine, ATTACH_IN, AMQP1_KIND_ATTACHED) && heard[0].session == 7 && heard[0].output == 0 && heard[0].input == 6);
    return engine;
}

/* Each front of three frames and an empty one: as many as are whole are taken, and the size of the next one is told. */
static void try_fronts(void)
{
    static const char all[] = EMPTY FIRST SECOND EMPTY;
    uint8_t bytes[256];
    size_t ends[4], length = bytes_of(all, bytes, sizeof bytes), front, frame, at;
    ends[0] = 8;
    ends[1] = ends[0] + amqp1_u32_of(bytes + 8);
    ends[2] = ends[1] + amqp1_u32_of(bytes + ends[1]);
    ends[3] = length;
    CHECK(ends[3] == ends[2] + 8);
    for (front = 0; front <= length; front++) {
        amqp1 engine = receiving();
        amqp1_record records[4];
        amqp1_took took;
        uint8_t *part = (uint8_t *)malloc(front ? front : 1);
        if (!part)
            return;
        memcpy(part, bytes, front);
        memset(records, 0xee, sizeof records);
        CHECK(amqp1_take(&engine, 0, part, front, records, 4, &took) == AMQP1_DONE);
        for (frame = 0, at = 0; frame < 4 && ends[frame] <= front; frame++)
            at = ends[frame];
        CHECK(took.taken == at && took.written == (front >= ends[1] ? 1u : 0u) + (front >= ends[2] ? 1u : 0u));
        CHECK(took.wanted == (front - at < 4 ? 4 : ends[frame] - at));
        CHECK(records[took.written].kind == 0xee && records[took.written].tag[31] == 0xee);
        free(part);
        amqp1_free(&engine);
    }
}

/* What the two transfers say. */
static void try_said(amqp1 *engine)
{
    CHECK(hears(engine, EMPTY FIRST SECOND) == 2);
    CHECK(heard[0].kind == AMQP1_KIND_TRANSFER && heard[0].session == 7 && heard[0].output == 0 && heard[0].input == 6 && heard[0].channel == 3);
    CHECK(heard[0].flags == (AMQP1_FLAG_NUMBERED | AMQP1_FLAG_LINKED | AMQP1_FLAG_FORMATTED | AMQP1_FLAG_TAGGED));
    CHECK(heard[0].first == 0 && heard[0].last == 0 && heard[0].outcome == AMQP1_NO_STATE && heard[0].refusal == 0);
    CHECK(heard[0].tag_size == 1 && heard[0].tag[0] == 'a' && heard[0].tag[1] == 0 && heard[0].at == 16);
    CHECK(is(amqp1_payload(heard_bytes, heard), "010203") && is(amqp1_performative(heard_bytes, heard), "005314 c0(06 5206 43 a0(61) 43 42 42)"));
    CHECK(heard[1].first == 1 && heard[1].tag[0] == 'b' && is(amqp1_payload(heard_bytes, heard + 1), "04"));
    CHECK(amqp1_has(heard, AMQP1_FLAG_TAGGED) && !amqp1_has(heard, AMQP1_FLAG_MORE));
}

/* With room for none, one, or two records; the rest is given again. An empty frame needs no record. */
static void try_full(void)
{
    uint8_t bytes[256];
    size_t length = bytes_of(EMPTY FIRST SECOND EMPTY, bytes, sizeof bytes), room;
    for (room = 0; room < 3; room++) {
        amqp1 engine = receiving();
        amqp1_record records[3];
        amqp1_took took;
        size_t at = 0, count = 0, rounds = 0;
        memset(records, 0xee, sizeof records);
        CHECK(amqp1_take(&engine, 0, bytes, length, records, room, &took) == AMQP1_FULL);
        CHECK(took.written == room && took.wanted == 0 && records[room].kind == 0xee);
        at = took.taken;
        count = took.written;
        while (at < length && rounds++ < 9) {
            int32_t status = amqp1_take(&engine, 0, bytes + at, length - at, records, 1, &took);
            CHECK(status == AMQP1_DONE || status == AMQP1_FULL);
            CHECK(!took.written || (records[0].kind == AMQP1_KIND_TRANSFER && bytes[at + records[0].payload_at] == (count ? 4 : 1)));
            at += took.taken;
            count += took.written;
        }
        CHECK(at == length && count == 2);
        amqp1_free(&engine);
    }
}

/* Sizes that no frame may have, before and behind whole frames. */
static void try_bad_sizes(void)
{
    static const char *const sizes[] = { "00000000", "00000007 02000000", "00010001", "ffffffff", "80000000 0200000000" };
    size_t at;
    for (at = 0; at < sizeof sizes / sizeof *sizes; at++) {
        amqp1 engine = receiving();
        amqp1_record records[3];
        amqp1_took took;
        uint8_t bytes[256];
        size_t front = bytes_of(EMPTY FIRST, bytes, sizeof bytes), length = front + bytes_of(sizes[at], bytes + front, 64);
        CHECK(amqp1_take(&engine, 0, bytes + front, length - front, records, 3, &took) == AMQP1_BAD_SIZE);
        CHECK(!took.taken && !took.written && !took.wanted);
        amqp1_free(&engine);
        engine = receiving();
        CHECK(amqp1_take(&engine, 0, bytes, length, records, 3, &took) == AMQP1_BAD_SIZE && took.taken == front && took.written == 1 && !took.wanted);
        CHECK(records[0].kind == AMQP1_KIND_TRANSFER);
        amqp1_free(&engine);
        engine = receiving();
        /* the size stands there before its frame is whole, and before there is room for a record; it closes, and is over */
        CHECK(amqp1_take(&engine, 0, bytes + front, 4, records, 0, &took) == AMQP1_BAD_SIZE);
        CHECK(sends(&engine, FRAMING_ERROR) && amqp1_close(&engine, NULL, 0) == AMQP1_REFUSED && refused_as(&engine, "Over", ""));
        CHECK(amqp1_take(&engine, 0, bytes, front, records, 3, &took) == AMQP1_OVER && !took.taken && !took.written && sends(&engine, ""));
        amqp1_free(&engine);
    }
}

/* Frames that are none, and whose refusal is told; those that come after them are taken. */
static void try_refused(amqp1 *engine)
{
    CHECK(hears(engine, "[02000003 005399 45] [0200 0003 40] [0200 0003 005314] [01000003 005314 c0(01 43)] [0100 0003] [ff000003 00]") == 6);
    CHECK(heard[0].kind == AMQP1_KIND_REFUSED && heard[0].refusal == AMQP1_WHY_FRAME_DECODE_ERROR && heard[0].session == AMQP1_NONE);
    CHECK(heard[1].refusal == AMQP1_WHY_FRAME_DECODE_ERROR && heard[2].refusal == AMQP1_WHY_FRAME_DECODE_ERROR);
    CHECK(heard[2].at == 12 + 9 + 8 && heard[2].size == 3 && heard[2].payload_at == 12 + 9 + 11 && heard[2].payload == 0);
    CHECK(hears_refused(engine, "[02000009 005314 c0(05 5206 5202 a0(62) 43 42)]", AMQP1_WHY_CONNECTION_NOT_FOUND));
    CHECK(heard[0].channel == 9 && heard[0].session == AMQP1_NONE && heard[0].input == 6);
    CHECK(hears_refused(engine, "[02000003 005314 c0(05 5209 5202 a0(62) 43 42) 0102]", AMQP1_WHY_SESSION_UNATTACHED_HANDLE));
    CHECK(heard[0].session == 7 && heard[0].output == AMQP1_NONE && heard[0].input == 9 && heard[0].payload == 2 && heard[0].first == 2);
    CHECK(hears_one(engine, "[02000003 005314 c0(06 5206 5202 a0(62) 43 42 42) 04]", AMQP1_KIND_TRANSFER));
}

/* A tag of 32 bytes stands in the record, a longer one in the performative alone. */
static void try_tags(amqp1 *engine)
{
    static const char *const tag = "000102030405060708090a0b0c0d0e0f101112131415161718191a1b1c1d1e1f";
    char digits[256];
    snprintf(digits, sizeof digits, "[02000003 005314 c0(06 5206 5203 a0(%s) 43 41 42) 04]", tag);
    CHECK(hears_one(engine, digits, AMQP1_KIND_TRANSFER) && heard[0].tag_size == 32 && heard[0].tag[31] == 0x1f && heard[0].tag[1] == 1);
    CHECK(amqp1_has(heard, AMQP1_FLAG_SETTLED) && is(amqp1_bytes_field(amqp1_performative(heard_bytes, heard), AMQP1_TRANSFER_DELIVERY_TAG), tag));
    snprintf(digits, sizeof digits, "[02000003 005314 c0(06 5206 5204 a0(%s 20) 43 41 42) 04]", tag);
    CHECK(hears(engine, digits) == 1 && heard[0].tag_size == (heard[0].kind == AMQP1_KIND_TRANSFER ? 33 : 0));
    CHECK(heard[0].tag[0] == 0 && heard[0].tag[31] == 0);
}

/* Frames as lines, as far as there is room; what is no whole frame has none. */
static void try_trace(void)
{
    char text[64];
    uint8_t bytes[64];
    size_t length = bytes_of(EMPTY "[02000003 00531745]", bytes, sizeof bytes), room;
    static const char lines[] = "recv 02000000\nrecv 0200000300531745\n";
    CHECK(amqp1_trace("recv", bytes, length - 1, text, sizeof text) == 14 && !memcmp(text, lines, 14));
    CHECK(amqp1_trace("recv", bytes, length, text, sizeof text) == sizeof lines - 1 && !memcmp(text, lines, sizeof lines - 1));
    CHECK(amqp1_trace("out", bytes, 0, text, sizeof text) == 0 && amqp1_trace("out", bytes, 8, text, 13) == 13 && !memcmp(text, "out 02000000\n", 13));
    for (room = 0; room < sizeof lines; room++) {
        memset(text, '#', sizeof text);
        CHECK(amqp1_trace("recv", bytes, length, text, room) == (room < sizeof lines - 1 ? room + 1 : room) && text[room] == '#');
    }
}

void try_takes(void)
{
    amqp1 engine = receiving();
    try_said(&engine);
    try_refused(&engine);
    try_tags(&engine);
    amqp1_free(&engine);
    try_fronts();
    try_full();
    try_bad_sizes();
    try_trace();
}
