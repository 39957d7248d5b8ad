/* Replies to requests at an address of a server, and closes. A reply goes to the request's reply-to, with its
   message-id as the correlation-id. It takes one request after the other. amqp1_requester.c asks.

       amqp1_replier HOST PORT ADDRESS [COUNT [USER PASSWORD | CA [CERTIFICATE KEY]]]

   Build it by `cc amqp1_replier.c amqp1_message.c amqp1_socket.c $(pkg-config --cflags --libs amqp1)`. */
#include "amqp1_message.h"

static uint32_t in, out = AMQP1_NONE, sent, accepted;
static char to[256], id[256], body[256];

static void take_request(const amqp1_event *event, message it)
{
    string_of(it.reply_to, to, sizeof to);
    string_of(it.id, id, sizeof id);
    snprintf(body, sizeof body, "reply to %.*s", (int)it.body.length, (const char *)it.body.at);
    must("a disposition", amqp1_link_accept(&engine, event));
    if (out == AMQP1_NONE)
        must("a sender", amqp1_sender(&engine, 0, "replies", to, &out));
}

/* The reply goes out once there is credit for it, and then the next request may come. */
static void reply(void)
{
    message it = { { 0, 0 }, text_of(to), { 0, 0 }, text_of(id), text_of(body) };
    if (!*body || !send_message(out, sent, &it))
        return;
    *body = 0, sent++;
    must("credit", amqp1_grant(&engine, 0, in, 1));
}

void take_record(const amqp1_record *record, const uint8_t *input)
{
    amqp1_event event = go_on(record, input);
    if (record->kind == AMQP1_KIND_BEGUN)
        must("a receiver", amqp1_receiver(&engine, 0, "requests", the_address, 0, &in));
    if (event.kind == AMQP1_EVENT_ATTACHED && event.link == in)
        must("credit", amqp1_grant(&engine, 0, in, 1));
    if (event.kind == AMQP1_EVENT_PART)
        take_request(&event, read_message(amqp1_payload(input, record)));
    accepted += settled_by(&event);
    reply();
}

int main(int words_count, char **words)
{
    run_client(words_count, words, "amqp1_replier", &accepted);
    printf("%u replies, all accepted\n", (unsigned)accepted);
    return 0;
}
