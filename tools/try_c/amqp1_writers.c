/* Tests of amqp1/write.h and amqp1/read.h: what each writer writes, into any room, and what it cannot write; that no
   call makes anything of no bytes; and bytes that are no value. */
#include "amqp1_try.h"

/* ---- what each writer answers */

#define OUT out, room, written
#define WRITER(name, call)                                          \
    static int32_t name(uint8_t *out, size_t room, size_t *written) \
    {                                                               \
        return call;                                                \
    }
#define TEN(x) x x x x x x x x x x
#define THREE_HUNDRED(x) TEN(TEN(x x x))

static const uint32_t nine = 9;

/* What four bytes of size can say. No compiler is to know it: it would warn of so long a text. */
static volatile size_t most = UINT32_MAX;

WRITER(write_error, amqp1_write_error(OUT, "foo", "bar"))
WRITER(write_error_alone, amqp1_write_error(OUT, "foo", NULL))
WRITER(write_open_plain, amqp1_write_open(OUT, "me", NULL, 65536, 255, 0))
WRITER(write_open_whole, amqp1_write_open(OUT, "me", "host", 512, 1, 30000))
WRITER(write_open_long, amqp1_write_open(OUT, THREE_HUNDRED("n"), NULL, 512, 1, 0))
WRITER(write_begin, amqp1_write_begin(OUT, 1, 64, 65, 255))
WRITER(write_attach_sender, amqp1_write_attach(OUT, "name", 3, AMQP1_SENDER, 1, AMQP1_SECOND, "from", "to", 9))
WRITER(write_attach_receiver, amqp1_write_attach(OUT, "in", 70000, AMQP1_RECEIVER, 2, AMQP1_FIRST, NULL, NULL, 9))

/* An Attach of a sender or of a receiver between these termini. */
static int32_t write_between(uint8_t *out, size_t room, size_t *written, enum amqp1_role role,
                             const amqp1_terminus *source, const amqp1_terminus *target)
{
    return amqp1_write_attach_of(out, room, written, "n", 3, role, 1, AMQP1_SECOND, source, target, 9);
}

static const amqp1_terminus durable = { "q", 2, 0, NULL, NULL, NULL, 0 };
static const amqp1_terminus durable_3 = { "q", 3, 0, NULL, NULL, NULL, 0 };
static const amqp1_terminus expires = { NULL, 0, 0, "never", NULL, NULL, 0 };
static const amqp1_terminus kept = { "q", 0, 70, NULL, NULL, NULL, 0 };
static const amqp1_terminus dynamic = { NULL, 0, 0, NULL, NULL, NULL, 1 };
static const amqp1_terminus copied = { "q", 0, 0, NULL, "copy", NULL, 0 };
static const amqp1_terminus topic = { "q", 1, 0, NULL, NULL, "topic", 0 };
static const amqp1_terminus all_of_it = { "q", 1, 5, "never", "move", "queue", 1 };

WRITER(write_no_termini, write_between(OUT, AMQP1_RECEIVER, NULL, NULL))
WRITER(write_durable, write_between(OUT, AMQP1_RECEIVER, NULL, &durable))
WRITER(write_expires, write_between(OUT, AMQP1_RECEIVER, &expires, NULL))
WRITER(write_kept, write_between(OUT, AMQP1_RECEIVER, &kept, &dynamic))
WRITER(write_copied, write_between(OUT, AMQP1_RECEIVER, &copied, NULL))
WRITER(write_topics, write_between(OUT, AMQP1_SENDER, &topic, &topic))
WRITER(write_all_of_it, write_between(OUT, AMQP1_RECEIVER, &all_of_it, NULL))
WRITER(write_flow, amqp1_write_flow(OUT, 3, &nine, 100, 1, 0))
WRITER(write_flow_uncounted, amqp1_write_flow(OUT, 3, NULL, 100, 0, 1))
WRITER(write_transfer, amqp1_write_transfer(OUT, 3, "tag", 3, 7, 1, 0))
WRITER(write_transfer_later, amqp1_write_transfer(OUT, 3, NULL, 0, 7, 0, 1))
WRITER(write_no_state, amqp1_write_disposition(OUT, AMQP1_RECEIVER, 2, 3, 0, AMQP1_NO_STATE))
WRITER(write_accepted, amqp1_write_disposition(OUT, AMQP1_SENDER, 2, 3, 1, AMQP1_ACCEPTED))
WRITER(write_rejected, amqp1_write_disposition(OUT, AMQP1_RECEIVER, 2, 3, 0, AMQP1_REJECTED))
WRITER(write_released, amqp1_write_disposition(OUT, AMQP1_SENDER, 2, 3, 1, AMQP1_RELEASED))
WRITER(write_modified, amqp1_write_disposition(OUT, AMQP1_RECEIVER, 2, 3, 0, AMQP1_MODIFIED))
WRITER(write_detach, amqp1_write_detach(OUT, 3, 1, NULL, NULL))
WRITER(write_detach_error, amqp1_write_detach(OUT, 3, 0, "foo", "bar"))
WRITER(write_detach_condition, amqp1_write_detach(OUT, 3, 0, "foo", NULL))
WRITER(write_data, amqp1_write_data(OUT, "hello", 5))
WRITER(write_data_empty, amqp1_write_data(OUT, "", 0))
WRITER(write_data_long, amqp1_write_data(OUT, THREE_HUNDRED("n"), 300))

#define FOO_BAR "00531d d0 0000000e 00000002 a3(666f6f) a1(626172)"
#define FOO "00531d d0 0000000a 00000002 a3(666f6f) 40"

/* Each writer, and what it writes. */
static const struct row {
    int32_t (*write)(uint8_t *out, size_t room, size_t *written);
    const char *wanted;
} rows[] = {
    { write_error, FOO_BAR },
    { write_error_alone, FOO },
    { write_open_plain, "005310 d0 00000011 00000004 a1(6d65) 40 7000010000 6000ff" },
    { write_open_whole, "005310 d0 0000001b 00000005 a1(6d65) a1(686f7374) 7000000200 600001 7000007530" },
    { write_open_long, "005310 d0 0000013e 00000004 b1 0000012c" THREE_HUNDRED("6e") "40 7000000200 600001" },
    { write_begin, "005311 d0 00000019 00000005 40 7000000001 7000000040 7000000041 70000000ff" },
    { write_attach_sender, "005312 d0 0000003d 0000000a a1(6e616d65) 7000000003 42 5001 5001"
                           "005328 d0 0000000a 00000001 a1(66726f6d) 005329 d0 00000008 00000001 a1(746f)"
                           "40 40 7000000009" },
    { write_attach_receiver, "005312 d0 0000002c 00000007 a1(696e) 7000011170 41 5002 5000"
                             "005328 d0 00000005 00000001 40 005329 d0 00000005 00000001 40" },
    { write_no_termini, "005312 d0 00000013 00000007 a1(6e) 7000000003 41 5001 5001 40 40" },
    { write_durable, "005312 d0 00000026 00000007 a1(6e) 7000000003 41 5001 5001 40"
                     "005329 d0 0000000c 00000002 a1(71) 7000000002" },
    { write_expires, "005312 d0 0000002b 00000007 a1(6e) 7000000003 41 5001 5001"
                     "005328 d0 00000011 00000003 40 7000000000 a3(6e65766572) 40" },
    { write_kept, "005312 d0 00000044 00000007 a1(6e) 7000000003 41 5001 5001"
                  "005328 d0 00000012 00000004 a1(71) 7000000000 40 7000000046"
                  "005329 d0 00000011 00000005 40 7000000000 40 7000000000 41" },
    { write_copied, "005312 d0 00000034 00000007 a1(6e) 7000000003 41 5001 5001"
                    "005328 d0 0000001a 00000007 a1(71) 7000000000 40 7000000000 42 40 a3(636f7079) 40" },
    { write_topics, "005312 d0 00000062 0000000a a1(6e) 7000000003 42 5001 5001"
                    "005328 d0 0000001f 0000000b a1(71) 7000000001 40 7000000000 42 40 40 40 40 40 a3(746f706963)"
                    "005329 d0 0000001b 00000007 a1(71) 7000000001 40 7000000000 42 40 a3(746f706963)"
                    "40 40 7000000009" },
    { write_all_of_it, "005312 d0 00000044 00000007 a1(6e) 7000000003 41 5001 5001"
                       "005328 d0 0000002a 0000000b a1(71) 7000000001 a3(6e65766572) 7000000005 41 40 a3(6d6f7665)"
                       "40 40 40 a3(7175657565) 40" },
    { write_flow, "005313 d0 00000026 0000000a 40 7000000000 7000000000 7000000000 7000000003"
                  "7000000009 7000000064 40 41 42" },
    { write_flow_uncounted, "005313 d0 00000022 0000000a 40 7000000000 7000000000 7000000000 7000000003"
                            "40 7000000064 40 42 41" },
    { write_transfer, "005314 d0 00000016 00000006 7000000003 40 a0(746167) 7000000007 41 42" },
    { write_transfer_later, "005314 d0 0000000e 00000006 7000000003 40 40 40 42 41" },
    { write_no_state, "005315 d0 00000011 00000005 41 7000000002 7000000003 42 40" },
    { write_accepted, "005315 d0 00000014 00000005 42 7000000002 7000000003 41 00532445" },
    { write_rejected, "005315 d0 00000014 00000005 41 7000000002 7000000003 42 00532545" },
    { write_released, "005315 d0 00000014 00000005 42 7000000002 7000000003 41 00532645" },
    { write_modified, "005315 d0 00000014 00000005 41 7000000002 7000000003 42 00532745" },
    { write_detach, "005316 d0 0000000a 00000002 7000000003 41" },
    { write_detach_error, "005316 d0 00000020 00000003 7000000003 42" FOO_BAR },
    { write_detach_condition, "005316 d0 0000001c 00000003 7000000003 42" FOO },
    { write_data, "005375 a0(68656c6c6f)" },
    { write_data_empty, "005375 a000" },
    { write_data_long, "005375 b0 0000012c" THREE_HUNDRED("6e") },
};

static uint8_t out_bytes[512];

/* What a writer answers of this room is this, and no byte past the room is touched. */
static int answers(const struct row *row, size_t room, int32_t status, size_t wanted)
{
    size_t at, written = 77;
    int is_so;
    memset(out_bytes, 0xee, sizeof out_bytes);
    is_so = row->write(out_bytes, room, &written) == status && written == wanted;
    for (at = room; at < sizeof out_bytes; at++)
        is_so = is_so && out_bytes[at] == 0xee;
    if (!is_so)
        printf("  %s, in a room of %u\n", row->wanted, (unsigned)room);
    return is_so;
}

/* Each writer: its bytes, where they fit; and of each smaller room how many are needed. */
static void try_rows(void)
{
    uint8_t wanted[512];
    size_t n, room, length;
    for (n = 0; n < sizeof rows / sizeof *rows; n++) {
        length = bytes_of(rows[n].wanted, wanted, sizeof wanted);
        CHECK(answers(&rows[n], sizeof out_bytes, AMQP1_DONE, length) && are(out_bytes, length, rows[n].wanted));
        CHECK(answers(&rows[n], length, AMQP1_DONE, length) && !memcmp(out_bytes, wanted, length));
        for (room = 0; room < length; room++)
            CHECK(answers(&rows[n], room, AMQP1_TOO_SMALL, length));
    }
}

/* What cannot be written in any room. */
WRITER(write_error_none, amqp1_write_error(OUT, NULL, "bar"))
WRITER(write_open_none, amqp1_write_open(OUT, NULL, "host", 512, 1, 0))
WRITER(write_attach_none, amqp1_write_attach(OUT, NULL, 3, AMQP1_SENDER, 1, AMQP1_FIRST, "from", "to", 9))
WRITER(write_attach_mode, amqp1_write_attach(OUT, "name", 3, AMQP1_SENDER, 3, AMQP1_FIRST, "from", "to", 9))
WRITER(write_attach_mode_257, amqp1_write_attach(OUT, "name", 3, AMQP1_SENDER, 257, AMQP1_FIRST, "from", "to", 9))
WRITER(write_durable_3, write_between(OUT, AMQP1_SENDER, &durable, &durable_3))
WRITER(write_target_copied, write_between(OUT, AMQP1_SENDER, &copied, &copied))
WRITER(write_received, amqp1_write_disposition(OUT, AMQP1_RECEIVER, 2, 3, 1, AMQP1_RECEIVED))
WRITER(write_other_state, amqp1_write_disposition(OUT, AMQP1_RECEIVER, 2, 3, 1, AMQP1_OTHER_STATE))
WRITER(write_detach_none, amqp1_write_detach(OUT, 3, 1, NULL, "bar"))
WRITER(write_transfer_past, amqp1_write_transfer(OUT, 3, "tag", most + 1, 7, 1, 0))
WRITER(write_transfer_past_list, amqp1_write_transfer(OUT, 3, "tag", most, 7, 1, 0))
WRITER(write_data_past, amqp1_write_data(OUT, "hello", most + 1))
WRITER(write_data_most, amqp1_write_data(OUT, "hello", SIZE_MAX))
#ifndef __cplusplus
/* numbers that are none of these, and not what is left of them in a byte */
WRITER(write_attach_role, amqp1_write_attach(OUT, "name", 3, (enum amqp1_role)2, 1, AMQP1_FIRST, "from", "to", 9))
WRITER(write_attach_rcv, amqp1_write_attach(OUT, "n", 3, AMQP1_SENDER, 1, (enum amqp1_rcv_settle_mode)257, "f", "t", 9))
WRITER(write_role_257, amqp1_write_disposition(OUT, (enum amqp1_role)257, 2, 3, 1, AMQP1_ACCEPTED))
WRITER(write_state_257, amqp1_write_disposition(OUT, AMQP1_RECEIVER, 2, 3, 1, (enum amqp1_outcome)257))
#endif

static const struct row bad_rows[] = {
    { write_error_none, "an error without a condition" },
    { write_open_none, "an Open without a name" },
    { write_attach_none, "an Attach without a name" },
    { write_attach_mode, "a mode that is none" },
    { write_attach_mode_257, "a mode past a byte" },
    { write_durable_3, "a durability that is none" },
    { write_target_copied, "a target with a distribution-mode" },
    { write_received, "the state RECEIVED" },
    { write_other_state, "another state" },
    { write_detach_none, "a description without a condition" },
    { write_transfer_past, "a tag past four bytes of size" },
    { write_transfer_past_list, "a tag beside which the list is past them" },
    { write_data_past, "data past four bytes of size" },
    { write_data_most, "data of the largest size" },
#ifndef __cplusplus
    { write_attach_role, "a role that is none" },
    { write_attach_rcv, "a receiver's mode that is none" },
    { write_role_257, "a role past a byte" },
    { write_state_257, "a state past a byte" },
#endif
};

static void try_bad_rows(void)
{
    size_t n, room;
    for (n = 0; n < sizeof bad_rows / sizeof *bad_rows; n++)
        for (room = 0; room <= sizeof out_bytes; room += room < 80 ? 1 : 144)
            CHECK(answers(&bad_rows[n], room, AMQP1_BAD_ARGUMENT, 0));
}

/* As long as four bytes of size can say: it is told how much room is needed. */
static void try_longest(void)
{
    uint8_t *out = out_bytes;
    size_t written = 0;
    CHECK(amqp1_write_data(out, 64, &written, "hello", most) == AMQP1_TOO_SMALL && written == 3 + 5 + most);
    /* beside the tag's bytes the list has its count (4), the handle (5), null, the tag's code and size (5), the format
       (5), and two booleans: 22 */
    CHECK(amqp1_write_transfer(out, 64, &written, 3, "tag", most - 22, 7, 1, 0) == AMQP1_TOO_SMALL);
    CHECK(written == 4 + 4 + most);
    CHECK(amqp1_write_transfer(out, 64, &written, 3, "tag", most - 21, 7, 1, 0) == AMQP1_BAD_ARGUMENT && written == 0);
}

/* ---- what calls make of it, and what is read back */

/* A payload that is a whole Transfer of the peer's making, with its own tag. */
static void try_payload(amqp1 *engine)
{
    uint8_t small[16] = { 0 }, evil[128];
    size_t length, rest;
    CHECK(amqp1_write_transfer(evil, sizeof evil, &length, 0, "EVIL", 4, 0, 1, 0) == AMQP1_DONE);
    CHECK(amqp1_transfer(engine, 7, 1, small, 0, evil, length) == AMQP1_BAD_ARGUMENT && sends(engine, ""));
    CHECK(amqp1_transfer(engine, 7, 1, NULL, 0, evil, length) == AMQP1_BAD_ARGUMENT && sends(engine, ""));
    /* wherever it is cut, it is not one Transfer and a payload */
    for (rest = 0; rest < length; rest++)
        CHECK(amqp1_transfer(engine, 7, 1, evil, rest, evil + rest, length - rest) == AMQP1_BAD_ARGUMENT);
    memcpy(evil + length, "\1\2", 2);
    CHECK(amqp1_transfer(engine, 7, 1, evil, length + 1, evil + length + 1, 1) == AMQP1_BAD_ARGUMENT && sends(engine, ""));
    CHECK(amqp1_transfer(engine, 7, 1, evil, length, evil + length, 2) == AMQP1_DONE);
    CHECK(sends(engine, "[02000000 005314 c0(05 43 43 a0(4556494c) 43 41) 0102]"));
}

/* The other performatives, and errors: no bytes are not none; NULL says that there is none. */
static void try_performatives(amqp1 *engine)
{
    uint8_t none[1] = { 0 };
    uint32_t room = 9;
    int fits = 9;
    CHECK(amqp1_begin(engine, 9, none, 0) == AMQP1_BAD_ARGUMENT);
    CHECK(amqp1_attach(engine, 7, none, 0) == AMQP1_BAD_ARGUMENT);
    CHECK(amqp1_detach(engine, 7, 1, none, 0) == AMQP1_BAD_ARGUMENT);
    CHECK(amqp1_flow(engine, 7, none, 0) == AMQP1_BAD_ARGUMENT);
    CHECK(amqp1_disposition(engine, 7, none, 0) == AMQP1_BAD_ARGUMENT);
    CHECK(amqp1_payload_room(engine, none, 0, &room, &fits) == AMQP1_BAD_ARGUMENT && !fits);
    CHECK(amqp1_end(engine, 7, none, 0) == AMQP1_BAD_ARGUMENT && amqp1_close(engine, none, 0) == AMQP1_BAD_ARGUMENT);
    CHECK(sends(engine, ""));
    CHECK(amqp1_end(engine, 7, NULL, 0) == AMQP1_DONE && amqp1_close(engine, NULL, 0) == AMQP1_DONE);
    CHECK(sends(engine, "[02000000 00531745] [02000000 00531845]"));
}

/* What is written is read back. */
static void try_back(void)
{
    uint8_t text[512];
    char name[301];
    amqp1_bytes attach, target;
    size_t length;
    memset(name, 'n', 300);
    name[300] = 0;
    CHECK(amqp1_write_attach(text, sizeof text, &length, name, 70000, AMQP1_RECEIVER, 2, AMQP1_SECOND, NULL, "q", 0) ==
          AMQP1_DONE);
    attach = amqp1_bytes_at(text, length);
    CHECK(length > 300 && amqp1_value_length(attach) == length);
    CHECK(amqp1_bytes_field(attach, AMQP1_ATTACH_NAME).length == 300);
    CHECK(amqp1_number_field(attach, AMQP1_ATTACH_HANDLE, 0) == 70000 && amqp1_boolean_field(attach, AMQP1_ATTACH_ROLE));
    CHECK(amqp1_number_field(attach, AMQP1_ATTACH_RCV_SETTLE_MODE, 9) == 1);
    CHECK(amqp1_field(attach, AMQP1_ATTACH_TARGET, &target) && amqp1_bytes_field(target, AMQP1_TERMINUS_ADDRESS).at[0] == 'q');
    CHECK(amqp1_number_field(attach, AMQP1_ATTACH_INITIAL_DELIVERY_COUNT, 5) == 5);
}

static void try_message(void)
{
    uint8_t text[64];
    size_t cut, length;
    amqp1_bytes found;
    CHECK(amqp1_write_data(text, sizeof text, &length, "hello", 5) == AMQP1_DONE);
    CHECK(amqp1_read_data(amqp1_bytes_at(text, length), &found) && found.length == 5 && !memcmp(found.at, "hello", 5));
    for (cut = 0; cut < length; cut++)
        CHECK(!amqp1_read_data(amqp1_bytes_at(text, cut), &found));
}

/* A Begin is turned: its fields after the remote-channel stay, whatever its spelling. */
static void try_turn(void)
{
    static const struct turn {
        const char *begin, *wanted;
    } turns[] = {
        { "[02000005 005311 c0(04 40 43 5264 5264)]", "[02000005 005311 d0 0000000c 00000004 600007 43 5264 5264]" },
        { "[03000005 deadbeef 00 800000000000000011 d0 0000000b 00000005 40 43 5264 5264 43]",
          "[02000005 005311 d0 0000000d 00000005 600007 43 5264 5264 43]" },
        { "[02000005 005311 c0(04 600001 43 5264 5264)]", "" },
        { "[02000005 005312 c0(04 40 43 5264 5264)]", "" },
        { "[02000005 005311 45]", "" },
        { "[02000005]", "" },
        { "0000000702 0000 05", "" },
    };
    uint8_t bytes[128], out[128];
    size_t at, length, written, room;
    for (at = 0; at < sizeof turns / sizeof *turns; at++) {
        length = bytes_of(turns[at].begin, bytes, sizeof bytes);
        written = amqp1_turn_begin(out, sizeof out, amqp1_bytes_at(bytes, length), 7);
        CHECK(are(out, written, turns[at].wanted));
        for (room = 0; room < written; room++)
            CHECK(amqp1_turn_begin(out, room, amqp1_bytes_at(bytes, length), 7) == 0);
        for (room = 0; room < length; room++)
            CHECK(amqp1_turn_begin(out, sizeof out, amqp1_bytes_at(bytes, room), 7) == 0);
    }
}

/* Which bytes a server hands over at once. */
static void try_up_to_wanted(void)
{
    uint8_t bytes[256];
    size_t first = bytes_of("[02000000] [02000000 005310 c0(01 a100)] [02000001 005311 c0(04 40 43 43 43)]", bytes, 256);
    size_t second = first + bytes_of("[02000001 005313 c0(04 40 43 43 43)] [02000001 005312 c0(03 a1(61) 43 41)]", bytes + first, 256 - first);
    size_t length = second + bytes_of("[02000001 005314 c0(01 43)] 0000", bytes + second, 256 - second), cut;
    CHECK(amqp1_up_to_wanted(bytes, length) == first && amqp1_up_to_wanted(bytes + first, length - first) == second - first);
    CHECK(amqp1_up_to_wanted(bytes + second, length - second) == length - second);
    for (cut = 0; cut < first; cut++)
        CHECK(amqp1_up_to_wanted(bytes, cut) == cut);
    memset(bytes, 0, 8);
    CHECK(amqp1_up_to_wanted(bytes, length) == length);
}

/* Any bytes at all, in memory of just their length: each reader stays inside. */
static void try_any_bytes(void)
{
    uint32_t seed = 1, round, at;
    for (round = 0; round < 20000; round++) {
        size_t length = round % 23;
        uint8_t *bytes = (uint8_t *)malloc(length ? length : 1), out[64];
        amqp1_bytes from = amqp1_bytes_at(bytes, length), data;
        if (!bytes)
            return;
        for (at = 0; at < length; at++) {
            seed = seed * 1664525 + 1013904223;
            bytes[at] = at < 3 && round % 2 ? (uint8_t)(at ? 0x53 : 0) : (uint8_t)(seed >> 24);
        }
        if (length > 3 && round % 4 == 1)
            bytes[3] = 0xc0;
        amqp1_read_data(from, &data);
        amqp1_turn_begin(out, sizeof out, from, 1);
        EACH(amqp1_up_to_wanted(bytes, length) <= length);
        for (at = 0; at < 4; at++)
            amqp1_bytes_field(from, at);
        free(bytes);
    }
}

void try_writers(void)
{
    amqp1 engine = begun(), place = AMQP1_EMPTY;
    uint8_t none[1] = { 0 };
    CHECK(attaches(&engine, "out", AMQP1_SENDER, AMQP1_FIRST) == 0);
    CHECK(hears_one(&engine, "[02000003 005312 c0(03 a1(6f7574) 5205 41)]", AMQP1_KIND_ATTACHED));
    try_payload(&engine);
    try_performatives(&engine);
    amqp1_free(&engine);
    CHECK(amqp1_start(&place, key, none, 0) == AMQP1_BAD_ARGUMENT && place.full == 0);
    try_rows();
    try_bad_rows();
    try_longest();
    try_back();
    try_message();
    try_turn();
    try_up_to_wanted();
    try_any_bytes();
}
