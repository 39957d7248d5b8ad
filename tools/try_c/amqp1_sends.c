/* Tests of libamqp1: transfers by heads. Numbers, what is held back, what is refused, and why a call stops. */
#include "amqp1_try.h"

enum { FIRST_OF = AMQP1_FLAG_NUMBERED | AMQP1_FLAG_TAGGED };

/* Sends by one head: what became of it. All bytes are used where it was taken. */
static amqp1_sent send_one(amqp1 *engine, amqp1_head head, const char *bytes)
{
    amqp1_sent sent = { 77, 77 };
    amqp1_went went = { 7, 7 };
    size_t length = strlen(bytes);
    CHECK(amqp1_send(engine, &head, 1, (const uint8_t *)bytes, length, &sent, 1, &went) == AMQP1_DONE && went.taken == 1 && went.used == length);
    return sent;
}

static void try_forms(amqp1 *engine)
{
    amqp1_head head = head_of(7, 0, FIRST_OF, 2, 5);
    CHECK(send_one(engine, head, "t0hello").number == 0 && sends(engine, "[02000000 005314 c0(05 43 43 a0(7430) 40 42) 68656c6c6f]"));
    head = head_of(7, 0, FIRST_OF | AMQP1_FLAG_FORMATTED | AMQP1_FLAG_SETTLED, 1, 0);
    head.format = 3;
    CHECK(send_one(engine, head, "t").number == 1 && sends(engine, "[02000000 005314 c0(05 43 5201 a0(74) 5203 41)]"));
    head = head_of(7, 0, FIRST_OF | AMQP1_FLAG_MORE, 0, 1);
    CHECK(send_one(engine, head, "a").number == 2 && send_one(engine, head_of(7, 0, AMQP1_FLAG_MORE, 0, 1), "b").number == 0);
    CHECK(send_one(engine, head_of(7, 0, 0, 0, 1), "c").refusal == 0);
    CHECK(sends(engine, "[02000000 005314 c0(06 43 5202 a000 40 42 41) 61] [02000000 005314 c0(06 43 40 40 40 40 41) 62]"
                        "[02000000 005314 c0(01 43) 63]"));
    /* flags that a head does not have are passed over */
    head = head_of(7, 0, 0xffff & ~(AMQP1_FLAG_MORE | AMQP1_FLAG_ABORTED | AMQP1_FLAG_FORMATTED | AMQP1_FLAG_SETTLED), 1, 1);
    CHECK(send_one(engine, head, "tx").number == 3 && sends(engine, "[02000000 005314 c0(05 43 5203 a0(74) 40 42) 78]"));
    head = head_of(7, 0, FIRST_OF | AMQP1_FLAG_ABORTED, 1, 0);
    CHECK(send_one(engine, head, "t").number == 4);
    CHECK(sends(engine, "[02000000 005314 c0(0a 43 5204 a0(74) 40 42 40 40 40 40 41)]"));
}

/* A part that is refused takes the later ones of its delivery with it: none goes out without it. What comes behind them goes out. */
static void try_broken(void)
{
    amqp1 engine = sending(PEERS_OPEN);
    amqp1_head heads[6];
    amqp1_sent sent[6];
    amqp1_went went;
    uint8_t bytes[64] = { 0 };
    unsigned at;
    heads[0] = head_of(7, 0, FIRST_OF | AMQP1_FLAG_MORE, 33, 1);
    heads[1] = head_of(7, 0, AMQP1_FLAG_MORE, 0, 1);
    heads[2] = head_of(7, 0, 0, 0, 1);
    heads[3] = head_of(7, 0, FIRST_OF | AMQP1_FLAG_MORE, 1, 1);
    heads[4] = head_of(7, 0, 0, 0, 1);
    heads[5] = head_of(7, 9, AMQP1_FLAG_MORE, 0, 0);
    CHECK(amqp1_send(&engine, heads, 6, bytes, sizeof bytes, sent, 6, &went) == AMQP1_DONE && went.taken == 6);
    for (at = 0; at < 3; at++)
        EACH(sent[at].refusal == AMQP1_WHY_TAG_TOO_LONG && sent[at].number == 0);
    CHECK(sent[3].refusal == 0 && sent[3].number == 0 && sent[4].refusal == 0 && sent[5].refusal);
    CHECK(sends(&engine, "[02000000 005314 c0(06 43 43 a0(00) 40 42 41) 00] [02000000 005314 c0(01 43) 00]"));
    /* so it does where heads of other links stand between */
    heads[0] = head_of(7, 0, FIRST_OF | AMQP1_FLAG_MORE, 1, 1);
    heads[1] = head_of(7, 0, AMQP1_FLAG_MORE, 33, 0);
    heads[2] = head_of(7, 9, 0, 0, 0);
    heads[3] = head_of(7, 0, AMQP1_FLAG_MORE, 0, 1);
    heads[4] = head_of(7, 0, 0, 0, 1);
    heads[5] = head_of(7, 0, 0, 0, 1);
    CHECK(amqp1_send(&engine, heads, 6, bytes, sizeof bytes, sent, 6, &went) == AMQP1_DONE && went.taken == 6);
    CHECK(sent[0].number == 1 && !sent[0].refusal && sent[2].refusal == AMQP1_WHY_SESSION_UNATTACHED_HANDLE && !sent[5].refusal);
    for (at = 1; at < 5; at += at == 1 ? 2 : 1)
        EACH(sent[at].refusal == AMQP1_WHY_TAG_TOO_LONG);
    CHECK(sends(&engine, "[02000000 005314 c0(06 43 5201 a0(00) 40 42 41) 00] [02000000 005314 c0(01 43) 00]"));
    amqp1_free(&engine);
}

/* How many transfers wait to be sent, each of 4 bytes of tag and 2 of payload; they are taken off. Their numbers, tags and payloads go on from
   `next`. */
static uint32_t goes_out(amqp1 *engine, uint32_t next)
{
    static uint8_t out[1 << 16];
    size_t written = 0, at = 0;
    uint32_t count = 0;
    EACH(amqp1_output(engine, out, sizeof out, &written) == AMQP1_DONE);
    for (; at + 8 <= written; at += amqp1_u32_of(out + at), count++) {
        amqp1_bytes frame = amqp1_bytes_at(out + at, amqp1_u32_of(out + at)), perf = amqp1_bytes_at(frame.at + 8, frame.length - 8), tag;
        size_t head = amqp1_value_length(perf);
        EACH(amqp1_frame_code(frame) == AMQP1_TRANSFER_CODE && amqp1_number_field(perf, AMQP1_TRANSFER_DELIVERY_ID, 9999) == next + count);
        tag = amqp1_bytes_field(perf, AMQP1_TRANSFER_DELIVERY_TAG);
        EACH(tag.length == 4 && amqp1_u32_of(tag.at) == next + count && perf.length - head == 2 && perf.at[head + 1] == (uint8_t)(next + count));
    }
    EACH(at == written);
    return count;
}

/* Three times a hundred deliveries in one call: ten go out, and the others are held back until the peer's window opens. All have their numbers. */
static void try_hundreds(void)
{
    static amqp1_head heads[100];
    static amqp1_sent sent[100];
    static uint8_t bytes[600];
    amqp1 engine = sending(PEERS_OPEN);
    amqp1_went went;
    uint32_t round, at;
    for (round = 0; round < 3; round++) {
        for (at = 0; at < 100; at++) {
            heads[at] = head_of(7, 0, FIRST_OF, 4, 2);
            amqp1_u32_at(bytes + 6 * at, 100 * round + at);
            bytes[6 * at + 4] = 'p';
            bytes[6 * at + 5] = (uint8_t)(100 * round + at);
        }
        EACH(amqp1_send(&engine, heads, 100, bytes, sizeof bytes, sent, 100, &went) == AMQP1_DONE && went.taken == 100 && went.used == 600);
        for (at = 0; at < 100; at++)
            EACH(sent[at].refusal == 0 && sent[at].number == 100 * round + at);
        EACH(goes_out(&engine, 0) == (round ? 0 : 10));
    }
    /* a window of 50 from the tenth on, then one for all */
    EACH(hears_one(&engine, "[02000003 005313 c0(04 520a 5232 43 520a)]", AMQP1_KIND_FLOW) && goes_out(&engine, 10) == 50);
    EACH(hears_one(&engine, "[02000003 005313 c0(04 523c 700000ffff 43 520a)]", AMQP1_KIND_FLOW) && goes_out(&engine, 60) == 240);
    /* all are settled at once */
    EACH(hears_one(&engine, "[02000003 005315 c0(05 41 43 700000012b 41 00532445)]", AMQP1_KIND_DISPOSITION));
    EACH(heard[0].first == 0 && heard[0].last == 299 && heard[0].flags == (AMQP1_FLAG_SETTLED | AMQP1_FLAG_RECEIVER | AMQP1_FLAG_STATED));
    EACH(sends(&engine, ""));
    amqp1_free(&engine);
}

/* Places for fewer than there are heads, and fewer bytes than they have: what was taken is told, and nothing behind it is written. */
static void try_stops(void)
{
    size_t room, length;
    for (room = 0; room <= 4; room++) {
        for (length = 0; length <= 9; length++) {
            amqp1 engine = sending(PEERS_OPEN);
            amqp1_head heads[3];
            amqp1_sent sent[4];
            amqp1_went went;
            size_t fit = length / 3, taken = fit < room ? fit : room, at;
            int32_t status;
            for (at = 0; at < 3; at++)
                heads[at] = head_of(7, 0, FIRST_OF, 2, 1);
            memset(sent, 0xee, sizeof sent);
            status = amqp1_send(&engine, heads, 3, (const uint8_t *)"aaabbbccc", length, sent, room, &went);
            CHECK(status == (taken == 3 ? AMQP1_DONE : taken == room ? AMQP1_FULL : AMQP1_SHORT));
            CHECK(went.taken == taken && went.used == 3 * taken && (taken > 3 || sent[taken].number == 0xeeeeeeee));
            CHECK(!taken || (sent[taken - 1].number == taken - 1 && sent[taken - 1].refusal == 0));
            /* the others are given again */
            CHECK(amqp1_send(&engine, heads, 3 - taken, (const uint8_t *)"aaabbbccc" + 3 * taken, 9 - 3 * taken, sent, 3, &went) == AMQP1_DONE);
            CHECK(taken == 3 || sent[2 - taken].number == 2);
            amqp1_free(&engine);
        }
    }
}

void try_sends(void)
{
    amqp1 engine = sending(PEERS_OPEN);
    amqp1_went went = { 7, 7 };
    amqp1_head none = head_of(7, 0, 0, 0, 0);
    amqp1_sent sent = { 77, 77 };
    CHECK(amqp1_send(&engine, &none, 0, (const uint8_t *)"x", 1, &sent, 1, &went) == AMQP1_DONE && !went.taken && !went.used && sent.number == 77);
    CHECK(hears_one(&engine, "[02000003 005313 c0(04 43 5264 43 520a)]", AMQP1_KIND_FLOW));
    try_forms(&engine);
    amqp1_free(&engine);
    try_hundreds();
    try_stops();
}

/* Whether a head is refused by this number, whose bytes are all used, and nothing goes out. */
static int is_refused(amqp1 *engine, amqp1_head head, const char *bytes, enum amqp1_why why)
{
    amqp1_sent sent = send_one(engine, head, bytes);
    if (sent.refusal != (uint32_t)why)
        printf("  refusal %u, and not %u\n", (unsigned)sent.refusal, (unsigned)why);
    return sent.refusal == (uint32_t)why && sent.number == 0 && sends(engine, "");
}

/* As long as a frame takes, and a byte longer. */
static void try_longest(amqp1 *engine)
{
    static uint8_t bytes[2048], transfer[64], out[2048];
    uint32_t room = 0;
    int fits = 0;
    size_t written = 0, length;
    amqp1_head head;
    amqp1_sent sent = { 7, 7 };
    amqp1_went went;
    CHECK(amqp1_write_transfer(transfer, sizeof transfer, &length, 0, "t", 1, 0, 0, 0) == AMQP1_DONE);
    CHECK(amqp1_payload_room(engine, transfer, length, &room, &fits) == AMQP1_DONE && fits && room == 999);
    head = head_of(7, 0, FIRST_OF | AMQP1_FLAG_FORMATTED, 1, room + 1);
    CHECK(amqp1_send(engine, &head, 1, bytes, room + 2, &sent, 1, &went) == AMQP1_DONE && went.taken == 1 && went.used == room + 2);
    CHECK(sent.refusal == AMQP1_WHY_PAYLOAD_TOO_LONG && sent.number == 0 && sends(engine, ""));
    head.payload = room;
    CHECK(amqp1_send(engine, &head, 1, bytes, room + 1, &sent, 1, &went) == AMQP1_DONE && sent.refusal == 0 && sent.number == 0);
    CHECK(amqp1_output(engine, out, sizeof out, &written) == AMQP1_DONE && written <= 1024 && amqp1_u32_of(out) == written);
    head.payload = UINT32_MAX;
    CHECK(amqp1_send(engine, &head, 1, bytes, sizeof bytes, &sent, 1, &went) == AMQP1_SHORT && !went.taken && !went.used);
}

void try_refused_sends(void)
{
    amqp1 engine = sending(PEERS_OPEN);
    amqp1_head heads[3];
    amqp1_sent sent[3];
    amqp1_went went;
    CHECK(is_refused(&engine, head_of(7, 4, FIRST_OF, 1, 1), "tx", AMQP1_WHY_SESSION_UNATTACHED_HANDLE));
    CHECK(is_refused(&engine, head_of(7, AMQP1_NONE, FIRST_OF, 1, 1), "tx", AMQP1_WHY_SESSION_UNATTACHED_HANDLE));
    /* the peer's handle */
    CHECK(is_refused(&engine, head_of(7, 5, FIRST_OF, 1, 1), "tx", AMQP1_WHY_SESSION_UNATTACHED_HANDLE));
    CHECK(is_refused(&engine, head_of(8, 0, FIRST_OF, 1, 1), "tx", AMQP1_WHY_NO_SESSION));
    CHECK(is_refused(&engine, head_of(7, 0, FIRST_OF, 33, 1), "0123456789012345678901234567890123", AMQP1_WHY_TAG_TOO_LONG));
    CHECK(is_refused(&engine, head_of(9, 9, 0, 33, 0), "012345678901234567890123456789012", AMQP1_WHY_TAG_TOO_LONG));
    /* a first transfer has a tag */
    CHECK(is_refused(&engine, head_of(7, 0, AMQP1_FLAG_NUMBERED, 0, 1), "x", AMQP1_WHY_SESSION_ILLEGAL_STATE));
    /* a refused one between two others takes no number */
    heads[0] = heads[2] = head_of(7, 0, FIRST_OF, 1, 1);
    heads[1] = head_of(7, 4, FIRST_OF, 1, 1);
    CHECK(amqp1_send(&engine, heads, 3, (const uint8_t *)"axbycz", 6, sent, 3, &went) == AMQP1_DONE && went.taken == 3 && went.used == 6);
    CHECK(sent[0].number == 0 && sent[1].refusal == AMQP1_WHY_SESSION_UNATTACHED_HANDLE && sent[2].number == 1 && sent[2].refusal == 0);
    CHECK(sends(&engine, "[02000000 005314 c0(05 43 43 a0(61) 40 42) 78] [02000000 005314 c0(05 43 5201 a0(63) 40 42) 7a]"));
    /* a session that is no longer mapped */
    CHECK(amqp1_end(&engine, 7, NULL, 0) == AMQP1_DONE && sends(&engine, "[02000000 00531745]"));
    CHECK(send_one(&engine, head_of(7, 0, FIRST_OF, 1, 1), "tx").refusal != 0 && sends(&engine, ""));
    amqp1_free(&engine);
    engine = sending(PEERS_OPEN);
    try_longest(&engine);
    amqp1_free(&engine);
    try_broken();
}
