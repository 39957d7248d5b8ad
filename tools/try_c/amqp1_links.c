/* Tests of libamqp1: links on either end, flows, deliveries that come and dispositions both ways, and how links end. */
#include "amqp1_try.h"

/* The texts of names and addresses in performatives. */
#define OUT "a1(6f7574)"
#define IN "a1(696e)"
#define TERMINUS "d00000000500000001 40"
#define AT_Q "d00000000700000001 a1(71)"
#define ACCEPTED_STATE "00532445"

/* The record of an Attach says which termini it has, its max-message-size and its settle modes. */
static int attach_is(unsigned termini, uint64_t limit, unsigned sender, unsigned receiver)
{
    return heard[0].outcome == termini && heard[0].first == (uint32_t)limit && heard[0].last == (uint32_t)(limit >> 32) && heard[0].credit == sender &&
           heard[0].available == receiver;
}

/* An engine with a link on which this side sends: output handle 0, input handle 5. */
static amqp1 sender_attached(void)
{
    amqp1 engine = begun();
    uint8_t attach[128];
    uint32_t handle = 99;
    size_t length;
    CHECK(amqp1_link(&engine, 7, AMQP1_SENDER, AMQP1_FIRST, "out", &handle) == AMQP1_DONE && handle == 0);
    CHECK(amqp1_link(&engine, 7, AMQP1_SENDER, AMQP1_FIRST, "out", &handle) == AMQP1_REFUSED && refused_as(&engine, "DuplicatedLinkName", ""));
    CHECK(amqp1_link(&engine, 8, AMQP1_SENDER, AMQP1_FIRST, "out", &handle) == AMQP1_REFUSED && refused_as(&engine, "NoSession", ""));
    CHECK(amqp1_write_attach(attach, sizeof attach, &length, "out", 0, AMQP1_SENDER, 0, AMQP1_FIRST, NULL, "q", 3) ==
          AMQP1_DONE);
    CHECK(amqp1_attach(&engine, 7, attach, length) == AMQP1_DONE);
    CHECK(sends(&engine, "[02000000 005312 c0(0a " OUT " 43 42 5000 40 005328 " TERMINUS " 005329 " AT_Q " 40 40 5203)]"));
    CHECK(hears_one(&engine, "[02000003 005312 c0(03 " OUT " 5205 41)]", AMQP1_KIND_ATTACHED));
    CHECK(heard[0].session == 7 && heard[0].input == 5 && heard[0].output == 0 && heard[0].flags == (AMQP1_FLAG_RECEIVER | AMQP1_FLAG_LINKED));
    CHECK(is(amqp1_bytes_field(amqp1_performative(heard_bytes, heard), AMQP1_ATTACH_NAME), "6f7574"));
    CHECK(attach_is(0, 0, 2, 0));
    return engine;
}

/* The peer's flow of the link: a delivery count of 3, and a credit of 10; and one of the session. */
static void try_flows(amqp1 *engine)
{
    CHECK(hears_one(engine, "[02000003 005313 c0(07 43 5240 43 520a 5205 5203 520a)]", AMQP1_KIND_FLOW));
    CHECK(heard[0].session == 7 && heard[0].input == 5 && heard[0].output == 0 && heard[0].count == 3 && heard[0].credit == 10);
    CHECK(heard[0].flags == (AMQP1_FLAG_LINKED | AMQP1_FLAG_COUNTED | AMQP1_FLAG_CREDITED) && heard[0].available == 0);
    CHECK(hears_one(engine, "[02000003 005313 c0(0a 43 5240 43 520a 5205 40 40 5207 41 41)]", AMQP1_KIND_FLOW));
    CHECK(heard[0].flags == (AMQP1_FLAG_LINKED | AMQP1_FLAG_AVAILABLE | AMQP1_FLAG_DRAIN | AMQP1_FLAG_ECHO) && heard[0].available == 7);
    CHECK(hears_one(engine, "[02000003 005313 c0(04 43 5240 43 520a)]", AMQP1_KIND_FLOW));
    CHECK(heard[0].session == 7 && heard[0].input == AMQP1_NONE && heard[0].output == AMQP1_NONE && heard[0].flags == 0);
}

/* A message in one transfer, and one in two, by PERF. */
static void try_transfers(amqp1 *engine)
{
    uint8_t transfer[64];
    size_t length;
    CHECK(amqp1_write_transfer(transfer, sizeof transfer, &length, 0, "t0", 2, 0, 0, 0) == AMQP1_DONE);
    CHECK(amqp1_transfer(engine, 7, 1, transfer, length, (const uint8_t *)"hello", 5) == AMQP1_DONE);
    CHECK(sends(engine, "[02000000 005314 c0(05 43 43 a0(7430) 43 42) 68656c6c6f]"));
    CHECK(amqp1_write_transfer(transfer, sizeof transfer, &length, 0, "t1", 2, 0, 0, 1) == AMQP1_DONE);
    CHECK(amqp1_transfer(engine, 7, 1, transfer, length, (const uint8_t *)"wor", 3) == AMQP1_DONE);
    CHECK(amqp1_write_transfer(transfer, sizeof transfer, &length, 0, NULL, 0, 0, 0, 0) == AMQP1_DONE);
    CHECK(amqp1_transfer(engine, 7, 0, transfer, length, (const uint8_t *)"ld", 2) == AMQP1_DONE);
    CHECK(sends(engine, "[02000000 005314 c0(06 43 5201 a0(7431) 43 42 41) 776f72] [02000000 005314 c0(05 43 40 40 40 42) 6c64]"));
    CHECK(amqp1_transfer(engine, 7, 1, transfer, length, NULL, 0) == AMQP1_REFUSED && refused_as(engine, "IllegalState", ""));
    CHECK(amqp1_transfer(engine, 8, 1, transfer, length, NULL, 0) == AMQP1_REFUSED && refused_as(engine, "NoSession", ""));
}

/* Asks for a transfer on this handle by PERF, and for one by a head. Whether both are taken; else both are refused, since no attached link has the
   handle, and nothing goes out. */
static int are_taken(amqp1 *engine, uint32_t handle)
{
    uint8_t transfer[64];
    amqp1_head head = head_of(7, handle, AMQP1_FLAG_NUMBERED | AMQP1_FLAG_TAGGED, 1, 1);
    amqp1_sent sent = { 7, 7 };
    amqp1_went went;
    size_t length;
    int32_t status;
    CHECK(amqp1_write_transfer(transfer, sizeof transfer, &length, handle, "t", 1, 0, 0, 0) == AMQP1_DONE);
    status = amqp1_transfer(engine, 7, 1, transfer, length, (const uint8_t *)"x", 1);
    if (status == AMQP1_REFUSED)
        CHECK(refused_as(engine, "UnattachedHandle", ""));
    CHECK(amqp1_send(engine, &head, 1, (const uint8_t *)"tx", 2, &sent, 1, &went) == AMQP1_DONE && went.taken == 1 && went.used == 2);
    if (status == AMQP1_DONE && sent.refusal == 0)
        return 1;
    CHECK(status == AMQP1_REFUSED && sent.refusal == AMQP1_WHY_SESSION_UNATTACHED_HANDLE && sent.number == 0 && sends(engine, ""));
    return 0;
}

/* A link takes transfers on this side's handle once the peer has attached it, until either side detaches it, whatever the peer's handle is. */
static void try_unattached(void)
{
    amqp1 engine = sender_attached();
    uint8_t detach[64];
    uint32_t handle = 99;
    size_t length;
    /* handles that no link has, as the peer's of the first one */
    CHECK(!are_taken(&engine, 4) && !are_taken(&engine, 5) && !are_taken(&engine, AMQP1_NONE));
    /* links that were allotted handles, and that the peer has not attached */
    CHECK(amqp1_link(&engine, 7, AMQP1_SENDER, AMQP1_FIRST, "a", &handle) == AMQP1_DONE && handle == 1 && !are_taken(&engine, 1));
    CHECK(attaches(&engine, "b", AMQP1_SENDER, AMQP1_FIRST) == 2 && !are_taken(&engine, 2));
    /* the peer attaches one by a handle that is this side's of the first one */
    CHECK(hears_one(&engine, "[02000003 005312 c0(03 a1(62) 43 41)]", AMQP1_KIND_ATTACHED) && are_taken(&engine, 2));
    CHECK(sends(&engine, "[02000000 005314 c0(05 5202 43 a0(74) 43 42) 78] [02000000 005314 c0(05 5202 5201 a0(74) 40 42) 78]"));
    CHECK(are_taken(&engine, 0));
    CHECK(sends(&engine, "[02000000 005314 c0(05 43 5202 a0(74) 43 42) 78] [02000000 005314 c0(05 43 5203 a0(74) 40 42) 78]"));
    /* this side detaches it, and the peer answers */
    CHECK(amqp1_write_detach(detach, sizeof detach, &length, 2, 1, NULL, NULL) == AMQP1_DONE);
    CHECK(amqp1_detach(&engine, 7, 1, detach, length) == AMQP1_DONE && sends(&engine, "[02000000 005316 c0(02 5202 41)]"));
    CHECK(!are_taken(&engine, 2));
    CHECK(hears_one(&engine, "[02000003 005316 c0(02 43 41)]", AMQP1_KIND_DETACHED) && !are_taken(&engine, 2));
    /* another link gets its handle, and from the peer the handle of the first one, which has none then */
    CHECK(attaches(&engine, "c", AMQP1_SENDER, AMQP1_FIRST) == 2 && !are_taken(&engine, 2));
    CHECK(hears_one(&engine, "[02000003 005312 c0(03 a1(63) 5205 41)]", AMQP1_KIND_ATTACHED) && heard[0].output == 2);
    CHECK(!are_taken(&engine, 0) && are_taken(&engine, 2));
    CHECK(sends(&engine, "[02000000 005314 c0(05 5202 5204 a0(74) 43 42) 78] [02000000 005314 c0(05 5202 5205 a0(74) 40 42) 78]"));
    /* the peer detaches it, and this side answers */
    CHECK(hears_one(&engine, "[02000003 005316 c0(02 5205 41)]", AMQP1_KIND_DETACHED) && heard[0].output == 2 && !are_taken(&engine, 2));
    CHECK(amqp1_detach(&engine, 7, 0, detach, length) == AMQP1_DONE && sends(&engine, "[02000000 005316 c0(02 5202 41)]"));
    CHECK(!are_taken(&engine, 2));
    amqp1_free(&engine);
}

/* What Attaches say: as a receiver, with both termini, one of them, or none. */
static void try_attaches(void)
{
    amqp1 engine = begun();
    CHECK(attaches(&engine, "a", AMQP1_SENDER, AMQP1_FIRST) == 0 && attaches(&engine, "b", AMQP1_SENDER, AMQP1_FIRST) == 1);
    CHECK(attaches(&engine, "c", AMQP1_SENDER, AMQP1_FIRST) == 2 && attaches(&engine, "d", AMQP1_SENDER, AMQP1_FIRST) == 3);
    CHECK(hears_one(&engine, "[02000003 005312 c0(0b a1(61) 43 41 5001 5001 00532845 00532945 40 40 40 80 0000000500000007)]", AMQP1_KIND_ATTACHED));
    CHECK(attach_is(3, ((uint64_t)5 << 32) + 7, 1, 1) && heard[0].output == 0 && heard[0].count == 0);
    CHECK(hears_one(&engine, "[02000003 005312 c0(0b a1(62) 5201 41 5002 5000 00532845 40 40 40 40 5309)]", AMQP1_KIND_ATTACHED));
    CHECK(attach_is(1, 9, 2, 0) && heard[0].output == 1);
    CHECK(hears_one(&engine, "[02000003 005312 c0(07 a1(63) 5202 41 40 40 40 00532945)]", AMQP1_KIND_ATTACHED));
    CHECK(attach_is(2, 0, 2, 0) && heard[0].output == 2);
    CHECK(hears_one(&engine, "[02000003 005312 c0(0b a1(64) 5203 41 5000 40 40 40 40 40 40 80 ffffffffffffffff)]", AMQP1_KIND_ATTACHED));
    CHECK(attach_is(0, UINT64_MAX, 0, 0) && heard[0].output == 3);
    amqp1_free(&engine);
}

/* The peer accepts both deliveries, unsettled, and the engine settles them; then one of the peer's that is settled, with a state of no number. */
static void try_dispositions(amqp1 *engine)
{
    CHECK(hears_one(engine, "[02000003 005315 c0(05 41 43 5201 42 " ACCEPTED_STATE ")]", AMQP1_KIND_DISPOSITION));
    CHECK(heard[0].session == 7 && heard[0].first == 0 && heard[0].last == 1 && heard[0].outcome == AMQP1_ACCEPTED);
    CHECK(heard[0].flags == (AMQP1_FLAG_RECEIVER | AMQP1_FLAG_STATED) && heard[0].output == AMQP1_NONE && heard[0].input == AMQP1_NONE);
    CHECK(is(amqp1_performative(heard_bytes, heard), "005315 c0(05 41 43 5201 42 " ACCEPTED_STATE ")"));
    CHECK(sends(engine, "[02000000 005315 c0(05 42 43 5201 41 " ACCEPTED_STATE ")]"));
    CHECK(hears_one(engine, "[02000003 005315 c0(05 41 5209 40 41 00 a3(666f6f) 45)]", AMQP1_KIND_DISPOSITION));
    CHECK(heard[0].first == 9 && heard[0].last == 9 && heard[0].outcome == AMQP1_OTHER_STATE && amqp1_has(heard, AMQP1_FLAG_SETTLED));
    CHECK(amqp1_settle(engine, 7, AMQP1_SENDER, 0, 1) == AMQP1_DONE && sends(engine, ""));
    CHECK(amqp1_settle(engine, 8, AMQP1_SENDER, 0, 1) == AMQP1_REFUSED);
}

/* This side detaches, and the peer answers: no live link has the handle then. */
static void try_detach(amqp1 *engine)
{
    uint8_t detach[64];
    size_t length;
    CHECK(amqp1_write_detach(detach, sizeof detach, &length, 0, 1, NULL, NULL) == AMQP1_DONE);
    CHECK(amqp1_detach(engine, 7, 1, detach, length) == AMQP1_DONE && sends(engine, "[02000000 005316 c0(02 43 41)]"));
    CHECK(hears_one(engine, "[02000003 005316 c0(02 5205 41)]", AMQP1_KIND_DETACHED));
    CHECK(heard[0].input == 5 && heard[0].output == AMQP1_NONE && heard[0].flags == (AMQP1_FLAG_LINKED | AMQP1_FLAG_FOR_GOOD));
}

/* A link on which this side receives, whose attach the peer sent first: on input handle 6. */
static amqp1 receiving(void)
{
    amqp1 engine = begun();
    uint8_t text[128];
    uint32_t handle = 99;
    size_t length;
    CHECK(hears_refused(&engine, "[02000003 005312 c0(0a " IN " 5206 42 40 40 40 40 40 40 5209)]", AMQP1_WHY_SESSION_LINK_NAME_NOT_FOUND));
    CHECK(heard[0].kind == AMQP1_KIND_ATTACH_WANTED && heard[0].session == 7 && heard[0].input == 6 && heard[0].output == AMQP1_NONE);
    CHECK(heard[0].flags == (AMQP1_FLAG_LINKED | AMQP1_FLAG_COUNTED) && heard[0].count == 9 && attach_is(0, 0, 2, 0));
    CHECK(amqp1_link_on(&engine, 7, 6, AMQP1_RECEIVER, AMQP1_SECOND, "in", &handle) == AMQP1_DONE && handle == 0);
    CHECK(amqp1_write_attach(text, sizeof text, &length, "in", handle, AMQP1_RECEIVER, 2, AMQP1_SECOND, "q", NULL, 0) ==
          AMQP1_DONE);
    CHECK(amqp1_attach(&engine, 7, text, length) == AMQP1_DONE);
    CHECK(sends(&engine, "[02000000 005312 c0(07 " IN " 43 41 40 5001 005328 " AT_Q " 005329 " TERMINUS ")]"));
    CHECK(amqp1_write_flow(text, sizeof text, &length, handle, NULL, 100, 0, 0) == AMQP1_DONE);
    CHECK(amqp1_flow(&engine, 7, text, length) == AMQP1_DONE);
    CHECK(sends(&engine, "[02000000 005313 c0(07 43 5240 43 5240 43 40 5264)]"));
    return engine;
}

/* Three deliveries come, and are settled, by numbers and by PERF. */
static void try_settling(amqp1 *engine)
{
    uint8_t text[64];
    size_t length;
    CHECK(amqp1_write_disposition(text, sizeof text, &length, AMQP1_RECEIVER, 2, 2, 1, AMQP1_REJECTED) == AMQP1_DONE);
    CHECK(hears(engine, "[02000003 005314 c0(05 5206 43 a0(61) 43 42) 01] [02000003 005314 c0(05 5206 5201 a0(62) 43 42) 02]"
                        "[02000003 005314 c0(05 5206 5202 a0(63) 43 42) 03]") == 3);
    CHECK(amqp1_dispose(engine, 7, AMQP1_RECEIVER, 0, 1, 0, AMQP1_ACCEPTED) == AMQP1_DONE);
    CHECK(sends(engine, "[02000000 005315 c0(05 41 43 5201 40 " ACCEPTED_STATE ")]"));
    CHECK(amqp1_disposition(engine, 7, text, length) == AMQP1_DONE && sends(engine, "[02000000 005315 c0(05 41 5202 5202 41 00532545)]"));
    CHECK(amqp1_dispose(engine, 7, AMQP1_RECEIVER, 0, 1, 1, AMQP1_NO_STATE) == AMQP1_DONE);
    CHECK(sends(engine, "[02000000 005315 c0(04 41 43 5201 41)]"));
    CHECK(amqp1_dispose(engine, 7, AMQP1_RECEIVER, 5, 5, 1, AMQP1_RELEASED) == AMQP1_DONE);
    CHECK(sends(engine, "[02000000 005315 c0(05 41 5205 5205 41 00532645)]"));
    CHECK(amqp1_dispose(engine, 7, AMQP1_SENDER, 5, 6, 1, AMQP1_MODIFIED) == AMQP1_DONE);
    CHECK(sends(engine, "[02000000 005315 c0(05 42 5205 5206 41 00532745)]"));
    CHECK(amqp1_dispose(engine, 8, AMQP1_RECEIVER, 0, 0, 1, AMQP1_ACCEPTED) == AMQP1_REFUSED && refused_as(engine, "NoSession", ""));
    CHECK(amqp1_dispose(engine, 7, AMQP1_RECEIVER, 0, 0, 1, AMQP1_REJECTED) == AMQP1_BAD_ARGUMENT && sends(engine, ""));
#ifndef __cplusplus
    /* numbers that a byte cannot say are none of these, and not what is left of them in a byte */
    CHECK(amqp1_dispose(engine, 7, AMQP1_RECEIVER, 0, 0, 1, (enum amqp1_outcome)257) == AMQP1_BAD_ARGUMENT && sends(engine, ""));
    CHECK(amqp1_dispose(engine, 7, (enum amqp1_role)257, 0, 0, 1, AMQP1_ACCEPTED) == AMQP1_BAD_ARGUMENT && sends(engine, ""));
#endif
    CHECK(amqp1_settle(engine, 7, AMQP1_RECEIVER, 0, 2) == AMQP1_DONE && sends(engine, ""));
}

/* The peer detaches with an error, and this side answers. */
static void try_detached(amqp1 *engine)
{
    uint8_t text[64];
    size_t length;
    CHECK(amqp1_write_detach(text, sizeof text, &length, 0, 1, "foo", "bar") == AMQP1_DONE);
    CHECK(hears_one(engine, "[02000003 005316 c0(03 5206 41 00531d c0(01 a3(626172)))]", AMQP1_KIND_DETACHED));
    CHECK(heard[0].session == 7 && heard[0].output == 0 && heard[0].flags == (AMQP1_FLAG_LINKED | AMQP1_FLAG_FOR_GOOD | AMQP1_FLAG_ERROR));
    CHECK(amqp1_detach(engine, 7, 0, text, length) == AMQP1_DONE);
    CHECK(sends(engine, "[02000000 005316 c0(03 43 41 00531d c0(02 a3(666f6f) a1(626172)))]"));
    CHECK(hears_refused(engine, "[02000003 005314 c0(05 5206 5203 a0(63) 43 42) 03]", AMQP1_WHY_SESSION_UNATTACHED_HANDLE));
}

/* A transfer comes to the sending end. */
static void try_to_sender(amqp1 *engine)
{
    CHECK(hears_refused(engine, "[02000003 005314 c0(05 5205 5203 a0(63) 43 42) 03]", AMQP1_WHY_SESSION_TRANSFER_TO_SENDER));
    CHECK(heard[0].output == 0 && heard[0].input == 5 && heard[0].payload == 1);
}

/* Frames that the peer does not take, since they are longer than 1,024 bytes: an Attach, whose call tells it, and the answer to a disposition whose
   state is as long. */
static void try_too_long(void)
{
    static uint8_t text[2048], frame[2048];
    char address[1200];
    amqp1 engine = sender_attached();
    amqp1_record record;
    amqp1_took took;
    uint32_t handle = 99, unfit = 99;
    size_t length;
    size_t front = bytes_of("00000000 02000003 005315 d0 00000000 00000005 41 43 43 42 005327 d0 00000455 00000001 b0 0000044c", frame, 64);
    memset(address, 'a', sizeof address - 1);
    address[sizeof address - 1] = 0;
    CHECK(amqp1_link(&engine, 7, AMQP1_RECEIVER, AMQP1_FIRST, "long", &handle) == AMQP1_DONE && handle == 1);
    CHECK(amqp1_write_attach(text, sizeof text, &length, "long", 1, AMQP1_RECEIVER, 2, AMQP1_FIRST, address, "q", 0) ==
          AMQP1_DONE);
    CHECK(amqp1_attach(&engine, 7, text, length) == AMQP1_REFUSED);
    CHECK(refused_as(&engine, "TooLarge", "") && sends(&engine, "") && amqp1_unfit(&engine, &unfit) == AMQP1_DONE);
    CHECK(amqp1_write_transfer(text, sizeof text, &length, 0, "t", 1, 0, 0, 0) == AMQP1_DONE);
    CHECK(amqp1_transfer(&engine, 7, 1, text, length, NULL, 0) == AMQP1_DONE);
    CHECK(sends(&engine, "[02000000 005314 c0(05 43 43 a0(74) 43 42)]"));
    amqp1_u32_at(frame, (uint32_t)(front + 1100));
    amqp1_u32_at(frame + 12, (uint32_t)(front + 1100 - 16));
    CHECK(amqp1_take(&engine, 0, frame, front + 1100, &record, 1, &took) == AMQP1_DONE && took.taken == front + 1100);
    CHECK(record.kind == AMQP1_KIND_DISPOSITION && record.outcome == AMQP1_MODIFIED && sends(&engine, ""));
    CHECK(amqp1_unfit(&engine, &handle) == AMQP1_DONE && handle == unfit + 1);
    amqp1_free(&engine);
}

void try_links(void)
{
    amqp1 engine = sender_attached();
    try_too_long();
    try_unattached();
    try_attaches();
    try_flows(&engine);
    try_transfers(&engine);
    try_dispositions(&engine);
    try_to_sender(&engine);
    try_detach(&engine);
    amqp1_free(&engine);
    engine = receiving();
    try_settling(&engine);
    try_detached(&engine);
    amqp1_free(&engine);
}
