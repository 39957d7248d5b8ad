/* Tests of libamqp1: heads that are cut into parts of one frame each, and what goes out by them. */
#include "amqp1_try.h"

enum { LONG = 1000000, TAG = 4, FIRST_OF = AMQP1_FLAG_NUMBERED | AMQP1_FLAG_TAGGED, LATER = AMQP1_FLAG_MORE | AMQP1_FLAG_ABORTED };

/* What a peer opens with that takes frames of 512 bytes, the least that there is; and one that takes any. */
#define OPEN_OF_512 "005310 c0(03 a1(70656572) 40 7000000200)"
#define OPEN_OF_ANY "005310 c0(03 a1(70656572) 40 70ffffffff)"

/* A tag and a payload behind it; and the frames that went out. */
static uint8_t bytes[TAG + LONG], out[LONG + LONG / 4];
static size_t out_length;

static int is_same(amqp1_head one, amqp1_head other)
{
    return !memcmp(&one, &other, sizeof one);
}

/* Cuts a head, whose tag stands first in these bytes. Nothing is written around the answer. */
static amqp1_parts cut_of(amqp1 *engine, amqp1_head head, const uint8_t *from)
{
    struct {
        uint8_t before[16];
        amqp1_parts cut;
        uint8_t after[16];
    } it;
    size_t at;
    memset(&it, 0xee, sizeof it);
    EACH(amqp1_cut(engine, &head, from, head.tag_size, &it.cut) == AMQP1_DONE);
    for (at = 0; at < sizeof it.before; at++)
        EACH(it.before[at] == 0xee && it.after[at] == 0xee);
    if (it.cut.more) {
        EACH(it.cut.more == 1 && it.cut.refusal == 0 && it.cut.part.payload + it.cut.rest.payload == head.payload && it.cut.rest.payload);
        EACH(it.cut.rest.tag_size == 0 && it.cut.rest.flags == (head.flags & LATER));
    } else {
        EACH(is_same(it.cut.part, head) && is_same(it.cut.rest, head));
    }
    return it.cut;
}

/* Sends a part, whose bytes begin here: how many they are. */
static size_t send_part(amqp1 *engine, const amqp1_head *part, const uint8_t *from, size_t length, uint32_t number)
{
    amqp1_sent sent = { 77, 77 };
    amqp1_went went = { 7, 7 };
    EACH(amqp1_send(engine, part, 1, from, length, &sent, 1, &went) == AMQP1_DONE && went.taken == 1);
    EACH(sent.refusal == 0 && sent.number == number && went.used == part->tag_size + (size_t)part->payload);
    return went.used;
}

/* Cuts a head until nothing is left, and sends each part: how many there are. `number` is that of the delivery. */
static uint32_t send_parts(amqp1 *engine, amqp1_head whole, uint32_t number)
{
    amqp1_head head = whole;
    size_t at = 0, length = whole.tag_size + (size_t)whole.payload;
    uint32_t count = 0;
    amqp1_parts cut;
    do {
        int flags = count ? whole.flags & LATER : whole.flags;
        cut = cut_of(engine, head, bytes + at);
        EACH(cut.refusal == 0 && cut.part.flags == (cut.more ? (flags & ~AMQP1_FLAG_ABORTED) | AMQP1_FLAG_MORE : flags));
        EACH(cut.part.session == 7 && cut.part.link == 0 && cut.part.tag_size == (count ? 0 : whole.tag_size));
        at += send_part(engine, &cut.part, bytes + at, length - at, flags & AMQP1_FLAG_NUMBERED ? number : 0);
        head = cut.rest;
        count++;
    } while (cut.more && count < LONG);
    CHECK(at == length);
    return count;
}

/* Puts what goes out behind what went out before. */
static void collect(amqp1 *engine)
{
    size_t written = 0;
    do {
        EACH(amqp1_output(engine, out + out_length, sizeof out - out_length, &written) == AMQP1_DONE);
        out_length += written;
    } while (written);
}

/* Whether a frame is the transfer of a part, the first one or a later one, the last one or not: how many bytes of payload it has, which stand in
   `bytes` from this place on. */
static size_t is_part(amqp1_bytes frame, amqp1_head whole, uint32_t number, int is_first, int is_last, size_t from)
{
    amqp1_bytes perf = amqp1_bytes_at(frame.at + 8, frame.length - 8), tag = amqp1_bytes_field(perf, AMQP1_TRANSFER_DELIVERY_TAG);
    size_t head = amqp1_value_length(perf), payload = perf.length - head;
    unsigned flags = whole.flags, first = is_first ? flags : 0;
    EACH(amqp1_frame_code(frame) == AMQP1_TRANSFER_CODE);
    EACH(amqp1_number_field(perf, AMQP1_TRANSFER_DELIVERY_ID, 9999) == (first & AMQP1_FLAG_NUMBERED ? number : 9999));
    EACH(amqp1_number_field(perf, AMQP1_TRANSFER_MESSAGE_FORMAT, 9999) == (first & AMQP1_FLAG_FORMATTED ? whole.format : 9999));
    EACH(tag.length == (is_first ? whole.tag_size : 0u) && !memcmp(tag.at, bytes, tag.length));
    EACH(amqp1_boolean_field(perf, AMQP1_TRANSFER_SETTLED) == ((first & AMQP1_FLAG_SETTLED) != 0));
    EACH(amqp1_boolean_field(perf, AMQP1_TRANSFER_MORE) == (!is_last || (flags & AMQP1_FLAG_MORE)));
    EACH(amqp1_boolean_field(perf, AMQP1_TRANSFER_ABORTED) == (is_last && (flags & AMQP1_FLAG_ABORTED)));
    EACH(from + payload <= sizeof bytes && !memcmp(perf.at + head, bytes + from, payload));
    return payload;
}

/* How many frames went out, of one delivery and of `most` bytes at most: together they have its tag and its payload. With the widest number, of
   five bytes in the place of one, all but the last are full. */
static uint32_t went_out(amqp1_head whole, uint32_t most, uint32_t number)
{
    size_t at = 0, from = whole.tag_size, size;
    uint32_t count = 0;
    for (; out_length - at >= 8; at += size, count++) {
        int is_last;
        size = amqp1_u32_of(out + at);
        is_last = at + size == out_length;
        EACH(size <= most && (is_last || size + 4 >= most));
        if (size < 8 || size > out_length - at)
            break;
        from += is_part(amqp1_bytes_at(out + at, size), whole, number, !count, is_last, from);
    }
    CHECK(at == out_length && from == whole.tag_size + (size_t)whole.payload);
    out_length = 0;
    return count;
}

/* A million bytes in frames of 512. The peer's window lets ten go out, and then all. */
static void try_long(void)
{
    amqp1 engine = sending(OPEN_OF_512);
    amqp1_head whole = head_of(7, 0, FIRST_OF, TAG, LONG);
    /* 483 bytes beside the first transfer, 488 beside 2,048 others, and 93 that are left */
    CHECK(send_parts(&engine, whole, 0) == 2050);
    collect(&engine);
    CHECK(out_length == 10 * 508);
    CHECK(hears_one(&engine, "[02000003 005313 c0(04 520a 700000ffff 43 520a)]", AMQP1_KIND_FLOW));
    collect(&engine);
    CHECK(went_out(whole, 512, 0) == 2050);
    CHECK(send_parts(&engine, whole, 1) == 2050);
    collect(&engine);
    CHECK(went_out(whole, 512, 1) == 2050);
    amqp1_free(&engine);
}

/* Where the peer takes any frame, a million bytes are one; the longest payload that a head says is two. */
static void try_any(void)
{
    amqp1 engine = sending(OPEN_OF_ANY);
    amqp1_head whole = head_of(7, 0, FIRST_OF, TAG, LONG), longest = head_of(7, 0, FIRST_OF, TAG, UINT32_MAX);
    amqp1_parts cut;
    CHECK(send_parts(&engine, whole, 0) == 1);
    collect(&engine);
    CHECK(went_out(whole, UINT32_MAX, 0) == 1);
    /* the size takes 4 bytes, the header 4, and the first transfer 21 */
    cut = cut_of(&engine, longest, bytes);
    CHECK(cut.more && cut.part.payload == UINT32_MAX - 29 && cut.rest.payload == 29);
    CHECK(!cut_of(&engine, cut.rest, bytes).more && sends(&engine, ""));
    amqp1_free(&engine);
}

/* Each part says what it has to say of the whole: of a delivery, and of a later transfer of one. */
static void try_flags(void)
{
    static const int flags[] = { 0, AMQP1_FLAG_SETTLED, AMQP1_FLAG_FORMATTED | AMQP1_FLAG_SETTLED, AMQP1_FLAG_MORE, AMQP1_FLAG_ABORTED, LATER };
    amqp1 engine = sending(OPEN_OF_512);
    uint32_t at, number = 0;
    CHECK(hears_one(&engine, "[02000003 005313 c0(04 43 52ff 43 520a)]", AMQP1_KIND_FLOW));
    for (at = 0; at < 2 * sizeof flags / sizeof *flags; at++) {
        int is_first = at % 2 == 0;
        amqp1_head whole = head_of(7, 0, (uint16_t)(flags[at / 2] | (is_first ? FIRST_OF : 0)), is_first ? TAG : 0, 2000);
        uint32_t count;
        whole.format = 5;
        count = send_parts(&engine, whole, number);
        collect(&engine);
        CHECK(count == 5 && went_out(whole, 512, number) == count);
        number += is_first ? 1 : 0;
    }
    amqp1_free(&engine);
}

/* What fits a frame is not cut. One byte more is two parts: the first transfer says that more follow, which takes a byte of its payload. */
static void try_exact(void)
{
    amqp1 engine = sending(PEERS_OPEN);
    uint8_t transfer[64];
    uint32_t room = 0;
    int fits = 0;
    size_t length;
    amqp1_head head;
    amqp1_parts cut;
    CHECK(amqp1_write_transfer(transfer, sizeof transfer, &length, 0, bytes, TAG, 0, 0, 0) == AMQP1_DONE);
    CHECK(amqp1_payload_room(&engine, transfer, length, &room, &fits) == AMQP1_DONE && fits);
    head = head_of(7, 0, FIRST_OF, TAG, room);
    CHECK(!cut_of(&engine, head, bytes).more && send_parts(&engine, head, 0) == 1);
    collect(&engine);
    CHECK(went_out(head, 1024, 0) == 1);
    head.payload = room + 1;
    cut = cut_of(&engine, head, bytes);
    CHECK(cut.more && cut.part.payload == room - 1 && cut.rest.payload == 2 && send_parts(&engine, head, 1) == 2);
    collect(&engine);
    CHECK(went_out(head, 1024, 1) == 2);
    head = head_of(7, 0, FIRST_OF | AMQP1_FLAG_MORE, TAG, room - 1);
    CHECK(!cut_of(&engine, head, bytes).more);
    head.payload = room;
    cut = cut_of(&engine, head, bytes);
    CHECK(cut.more && cut.part.payload == room - 1 && cut.rest.payload == 1 && cut.rest.flags == AMQP1_FLAG_MORE);
    CHECK(sends(&engine, ""));
    amqp1_free(&engine);
}

/* Until the peer's Open has come the limit is this side's, which may be too low for any transfer. Of a frame 8 bytes are size and header. With the
   widest number a first transfer with a tag of one byte has 17 bytes, and a later one 12; those that say that more follow have 18 and 16. */
static void try_limits(void)
{
    static const struct {
        uint32_t most, payload, part, refusal;
        uint16_t flags, tag_size;
    } rows[] = {
        { 0, 0, 0, AMQP1_WHY_PAYLOAD_TOO_LONG, FIRST_OF, 1 },  { 8, 0, 0, AMQP1_WHY_PAYLOAD_TOO_LONG, 0, 0 },
        { 24, 0, 0, AMQP1_WHY_PAYLOAD_TOO_LONG, FIRST_OF, 1 }, { 25, 0, 0, 0, FIRST_OF, 1 },
        { 25, 1, 1, AMQP1_WHY_PAYLOAD_TOO_LONG, FIRST_OF, 1 }, { 26, 1, 1, 0, FIRST_OF, 1 },
        { 26, 2, 0, 0, FIRST_OF, 1 },                          { 20, 0, 0, 0, 0, 0 },
        { 24, 4, 4, 0, 0, 0 },                                 { 24, 5, 5, AMQP1_WHY_PAYLOAD_TOO_LONG, 0, 0 },
        { 25, 6, 1, 0, 0, 0 },                                 { 25, 7, 1, 0, 0, 0 },
        { 512, 1, 1, 0, FIRST_OF, 32 },                        { 512, 1, 1, AMQP1_WHY_TAG_TOO_LONG, FIRST_OF, 33 },
        { 512, 0, 0, AMQP1_WHY_TAG_TOO_LONG, 0, 33 },          { 8, 9, 9, AMQP1_WHY_TAG_TOO_LONG, FIRST_OF, 33 },
        { 512, 9, 9, AMQP1_WHY_TAG_TOO_LONG, FIRST_OF, 65535 }
    };
    size_t at, length;
    for (at = 0; at < sizeof rows / sizeof *rows; at++) {
        amqp1 engine = AMQP1_EMPTY;
        uint8_t open[64];
        amqp1_parts cut;
        CHECK(amqp1_write_open(open, sizeof open, &length, "me", NULL, rows[at].most, 255, 0) == AMQP1_DONE);
        CHECK(amqp1_start(&engine, key, open, length) == AMQP1_DONE && exchanges_headers(&engine));
        cut = cut_of(&engine, head_of(9, 0, rows[at].flags, rows[at].tag_size, rows[at].payload), bytes);
        CHECK(cut.refusal == rows[at].refusal && cut.part.payload == rows[at].part && cut.more == (rows[at].part < rows[at].payload));
        CHECK(sends(&engine, ""));
        amqp1_free(&engine);
    }
}

void try_cuts(void)
{
    size_t at;
    for (at = 0; at < sizeof bytes; at++)
        bytes[at] = (uint8_t)(at ^ at >> 8 ^ at >> 16);
    try_long();
    try_any();
    try_flags();
    try_exact();
    try_limits();
}
