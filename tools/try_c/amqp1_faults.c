/* Tests of libamqp1: what a peer may not do on a link with credit, by a peer that is a script, and by one that knows no credit. */
#include "amqp1_faces.h"

/* What stands before a frame's performative, and the front of a Transfer on the peer's handle 6: the number and the tag of its delivery, and its format. */
#define FRAME "[02000003 "
#define INPUT_6 "005314 c0("

/* An engine with a link on which it receives: this side's handle 0, and the peer's 6, with a delivery count of 9. Its messages have up to 4 bytes. */
static amqp1 receiving(uint32_t credit)
{
    amqp1 engine = begun();
    amqp1_event event;
    uint8_t text[128];
    uint32_t link = 99;
    size_t length = attach_text(text, sizeof text, "in", AMQP1_RECEIVER, "q", "q", 4);
    CHECK(amqp1_link(&engine, 7, AMQP1_RECEIVER, AMQP1_FIRST, "in", &link) == AMQP1_DONE && link == 0);
    CHECK(amqp1_link_attach(&engine, 7, text, length, text, 0, 0, 0, &link) == AMQP1_DONE && link == 0);
    CHECK(amqp1_grant(&engine, 7, 0, 9) == AMQP1_NOTHING);
    CHECK(hears_one(&engine, "[02000003 005312 c0(0a a1(696e) 5206 42 40 40 00532845 00532945 40 40 5209)]", AMQP1_KIND_ATTACHED));
    CHECK(amqp1_link_event(&engine, heard, 0, &event) == AMQP1_DONE && event.kind == AMQP1_EVENT_ATTACHED && event.detail == AMQP1_LIFE_ATTACHED);
    CHECK(credit == 0 || amqp1_grant(&engine, 7, 0, credit) == AMQP1_DONE);
    CHECK(amqp1_output(&engine, text, sizeof text, &length) == AMQP1_DONE);
    return engine;
}

/* Frames come, each with a record: what the last one is to the links. */
static amqp1_event hears_last(amqp1 *engine, const char *digits)
{
    size_t at, count = hears(engine, digits);
    amqp1_event event;
    memset(&event, 0xee, sizeof event);
    CHECK(count > 0);
    for (at = 0; at < count; at++)
        CHECK(amqp1_link_event(engine, heard + at, 7 + at, &event) == AMQP1_DONE);
    return event;
}

/* Whether an event says that its transfer names this delivery, or none where the number is NONE. */
static int is_numbered(const amqp1_event *event, uint32_t number)
{
    if (number == AMQP1_NONE)
        return !event->first && !event->last && !event->flags;
    return event->first == number && event->last == number && event->flags == AMQP1_EVENT_NUMBERED;
}

/* The last of these frames may not come, with the number of its delivery, if it says one: the link ends for it, with this condition, and what comes behind
   is passed over. */
static void try_fault(const char *digits, uint32_t credit, uint32_t number, enum amqp1_fault fault, const char *condition)
{
    amqp1 engine = receiving(credit);
    amqp1_event event = hears_last(&engine, digits), next;
    amqp1_bytes error;
    uint8_t out[256];
    size_t length;
    CHECK(event.kind == AMQP1_EVENT_FAULT && event.link == 0 && event.detail == (unsigned)fault && event.session == 7);
    CHECK(!event.given && !event.size && is_numbered(&event, number));
    if (event.detail != (unsigned)fault)
        printf("  fault %u of event %u for %s\n", (unsigned)event.detail, (unsigned)event.kind, digits);
    next = hears_last(&engine, FRAME INPUT_6 "05 5206 5209 a0(79) 43 41)]");
    CHECK(next.kind == AMQP1_EVENT_PASSED_OVER && next.link == 0 && next.detail == 0 && next.session == 7 && next.credit == event.credit);
    CHECK(!next.given && !next.size && is_numbered(&next, 9));
    CHECK(amqp1_link_remove(&engine, 7, 0) == AMQP1_NOT_DETACHED && amqp1_link_respond(&engine, &next, 0) == AMQP1_NOTHING);
    CHECK(amqp1_link_respond(&engine, &event, 0) == AMQP1_DONE && amqp1_link_respond(&engine, &event, 0) == AMQP1_NOTHING);
    CHECK(amqp1_output(&engine, out, sizeof out, &length) == AMQP1_DONE && amqp1_frame_code(amqp1_bytes_at(out, length)) == AMQP1_DETACH_CODE);
    CHECK(amqp1_u32_of(out) == length && amqp1_boolean_field(amqp1_bytes_at(out + 8, length - 8), AMQP1_DETACH_CLOSED));
    CHECK(amqp1_field(amqp1_bytes_at(out + 8, length - 8), AMQP1_DETACH_ERROR, &error));
    error = amqp1_bytes_field(error, AMQP1_ERROR_CONDITION);
    CHECK(error.length == strlen(condition) && !memcmp(error.at, condition, error.length));
    event = hears_last(&engine, FRAME "005316 c0(02 5206 41)]");
    CHECK(event.kind == AMQP1_EVENT_ENDED && event.link == 0 && event.detail == AMQP1_END_ANSWERED && event.flags == AMQP1_EVENT_FOR_GOOD);
    amqp1_free(&engine);
}

static void try_each_fault(void)
{
    static const char field[] = "amqp:invalid-field";
    const uint32_t none = AMQP1_NONE;
    try_fault(FRAME INPUT_6 "05 5206 43 a0(61) 43 42) 01]", 0, 0, AMQP1_FAULT_OVER_CREDIT, "amqp:link:transfer-limit-exceeded");
    try_fault(FRAME INPUT_6 "05 5206 43 a0(61) 43 42) 01]" FRAME INPUT_6 "05 5206 5201 a0(62) 43 41) 01]", 1, 1, AMQP1_FAULT_OVER_CREDIT,
              "amqp:link:transfer-limit-exceeded");
    try_fault(FRAME "005313 c0(07 43 5240 43 520a 5206 5263 43)]", 5, none, AMQP1_FAULT_COUNT_PAST_LIMIT, field);
    try_fault(FRAME INPUT_6 "05 5206 40 40 40 42) 01]", 5, none, AMQP1_FAULT_NONE_UNDER_WAY, field);
    try_fault(FRAME INPUT_6 "05 5206 40 a0(61) 43 42) 01]", 5, none, AMQP1_FAULT_NO_NUMBER, field);
    try_fault(FRAME INPUT_6 "05 5206 43 40 43 42) 01]", 5, 0, AMQP1_FAULT_NO_TAG, field);
    try_fault(FRAME INPUT_6 "06 5206 43 a0(61) 43 42 41) 01]" FRAME INPUT_6 "05 5206 5201 a0(61) 43 42) 01]", 5, 1, AMQP1_FAULT_OTHER_DELIVERY, field);
    try_fault(FRAME INPUT_6 "06 5206 43 a0(61) 43 42 41) 01]" FRAME INPUT_6 "05 5206 40 a0(62) 43 42) 01]", 5, none, AMQP1_FAULT_OTHER_DELIVERY, field);
    try_fault(FRAME INPUT_6 "06 5206 43 a0(61) 43 42 41) 01]" FRAME INPUT_6 "05 5206 40 40 5201 42) 01]", 5, none, AMQP1_FAULT_OTHER_FORMAT, field);
    try_fault(FRAME INPUT_6 "06 5206 43 a0(61) 43 42 41) 0101]" FRAME INPUT_6 "05 5206 40 40 40 42) 010101]", 5, none, AMQP1_FAULT_TOO_LARGE,
              "amqp:link:message-size-exceeded");
}

/* A delivery whose number is not the next one is told again once those before it are settled; a fault that is none asks for nothing. */
static void try_not_next(void)
{
    amqp1 engine = receiving(5);
    amqp1_event event = hears_last(&engine, FRAME INPUT_6 "05 5206 5209 a0(61) 43 42) 01]"), old = event;
    amqp1_unsettled delivery;
    CHECK(event.kind == AMQP1_EVENT_PART && event.first == 9 && event.last == 9 && event.size == 1 && event.credit == 4);
    CHECK(hears_one(&engine, FRAME INPUT_6 "05 5206 5203 a0(62) 43 42) 02]", AMQP1_KIND_TRANSFER));
    CHECK(amqp1_link_event(&engine, heard, 8, &event) == AMQP1_NOT_NEXT && !memcmp(&event, &old, sizeof event));
    CHECK(amqp1_link_settle(&engine, 7, AMQP1_RECEIVER, 9, 9, 1, AMQP1_ACCEPTED) == AMQP1_DONE);
    CHECK(amqp1_link_settled(&engine, 7, AMQP1_RECEIVER, 9, 9, &delivery) == AMQP1_DONE && is_unsettled(&delivery, 9, 0, 7));
    CHECK(amqp1_link_event(&engine, heard, 8, &event) == AMQP1_DONE && event.first == 3 && event.credit == 3);
    event.kind = AMQP1_EVENT_FAULT;
    event.detail = 99;
    CHECK(amqp1_link_respond(&engine, &event, 0) == AMQP1_NOTHING);
    amqp1_free(&engine);
}

/* The sender of a plain engine knows no credit: three deliveries come where two are granted. */
static void try_over_credit(void)
{
    uint8_t text[128];
    amqp1_head heads[3];
    amqp1_sent sent[3];
    amqp1_went went;
    uint32_t link = 99;
    size_t length;
    meet();
    client.is_plain = 1;
    CHECK(amqp1_link(&client.engine, CLIENTS, AMQP1_SENDER, AMQP1_FIRST, "out", &link) == AMQP1_DONE && link == 0);
    length = attach_text(text, sizeof text, "out", AMQP1_SENDER, "q", "q", 0);
    CHECK(amqp1_attach(&client.engine, CLIENTS, text, length) == AMQP1_DONE);
    passes(&client, &server);
    CHECK(answers_link(&server, "out", AMQP1_RECEIVER, 0, 0, 0) == 0 && amqp1_grant(&server.engine, SERVERS, 0, 2) == AMQP1_DONE);
    passes(&server, &client);
    heads[0] = heads[1] = heads[2] = head_of(CLIENTS, 0, AMQP1_FLAG_NUMBERED | AMQP1_FLAG_TAGGED, 1, 0);
    CHECK(amqp1_send(&client.engine, heads, 3, key, 3, sent, 3, &went) == AMQP1_DONE && passes(&client, &server) == 3);
    CHECK(is_part(&server, 1, 0, 1, 0, 0, AMQP1_EVENT_FIRST | AMQP1_EVENT_LAST));
    CHECK(server.events[2].kind == AMQP1_EVENT_FAULT && server.events[2].detail == AMQP1_FAULT_OVER_CREDIT && is_numbered(server.events + 2, 2));
    passes(&server, &client);
    CHECK(client.detached.kind == AMQP1_KIND_DETACHED && !strcmp(client.condition, "amqp:link:transfer-limit-exceeded"));
    CHECK(amqp1_write_detach(text, sizeof text, &length, 0, 1, NULL, NULL) == AMQP1_DONE);
    CHECK(amqp1_detach(&client.engine, CLIENTS, 0, text, length) == AMQP1_DONE && passes(&client, &server) == 1);
    CHECK(is_event(&server, 0, AMQP1_EVENT_ENDED, 0, AMQP1_END_ANSWERED, 0, AMQP1_EVENT_FOR_GOOD));
    part();
}

void try_faults(void)
{
    try_each_fault();
    try_not_next();
    try_over_credit();
}
