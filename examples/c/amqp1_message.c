/* Messages with properties: see amqp1_message.h. */
#include "amqp1_message.h"

enum { PROPERTIES = 0x73, ID = 0, TO = 2, REPLY_TO = 4, CORRELATION_ID = 5 };

amqp1_bytes text_of(const char *string)
{
    return amqp1_bytes_at((const uint8_t *)string, strlen(string));
}

static void put(amqp1_text *text, amqp1_bytes it)
{
    if (it.length)
        amqp1_put_bytes(text, 0xa1, it.at, it.length);
    else
        amqp1_put_null(text);
}

int send_message(uint32_t link, uint32_t number, const message *it)
{
    uint8_t bytes[1024];
    amqp1_text text = amqp1_text_at(bytes + 4, sizeof bytes - 4);
    amqp1_head head = { 0, link, 0, 0, AMQP1_FLAG_TAGGED | AMQP1_FLAG_FORMATTED, 4 };
    amqp1_told told;
    size_t length, list = amqp1_begin_list(&text, PROPERTIES, 6);
    int32_t status;
    put(&text, it->id);
    amqp1_put_null(&text);
    put(&text, it->to);
    amqp1_put_null(&text);
    put(&text, it->reply_to);
    put(&text, it->correlation_id);
    amqp1_end_list(&text, list);
    amqp1_put(&text, "\0\x53\x75", 3);
    amqp1_put_bytes(&text, 0xa0, it->body.at, it->body.length);
    must("a message's text", amqp1_written(&text, &length));
    amqp1_u32_at(bytes, number);
    head.payload = (uint32_t)length;
    status = amqp1_link_send(&engine, &head, bytes, 4 + length, number, &told);
    if (status == AMQP1_REFUSED && told.refusal >= AMQP1_WHY_LINK_NO_SENDER && told.refusal <= AMQP1_WHY_LINK_NO_CREDIT)
        return 0;
    must("a message", status);
    return 1;
}

void expect_reply(const message *it)
{
    char body[64];
    int length = snprintf(body, sizeof body, "reply to request %.*s", (int)it->correlation_id.length,
                          (const char *)it->correlation_id.at);
    if (!it->correlation_id.length || !is_text(it->body, body, (size_t)length))
        fail("a reply to no request");
}

uint32_t settled_by(const amqp1_event *event)
{
    amqp1_unsettled delivery;
    uint32_t count = 0;
    while (event->kind == AMQP1_EVENT_SETTLED && amqp1_link_settled_of(&engine, event, &delivery) == AMQP1_DONE)
        count++;
    return count;
}

message read_message(amqp1_bytes payload)
{
    message it;
    amqp1_bytes left = payload, value;
    uint64_t descriptor;
    memset(&it, 0, sizeof it);
    if (!amqp1_read_data(payload, &it.body))
        fail("a message that is not of one data section");
    for (; left.length && amqp1_read_described(left, &descriptor, &value); left.at += amqp1_value_length(left)) {
        if (descriptor == PROPERTIES) {
            it.id = amqp1_bytes_field(left, ID);
            it.to = amqp1_bytes_field(left, TO);
            it.reply_to = amqp1_bytes_field(left, REPLY_TO);
            it.correlation_id = amqp1_bytes_field(left, CORRELATION_ID);
            break;
        }
        left.length -= amqp1_value_length(left);
    }
    return it;
}
