/* Sends requests to an address of a server, has each replied to at ADDRESS.replies, and closes. A request's id comes
   back as the reply's correlation-id. amqp1_replier.c replies.

       amqp1_requester HOST PORT ADDRESS [COUNT [USER PASSWORD | CA [CERTIFICATE KEY]]]

   Build it by `cc amqp1_requester.c amqp1_message.c amqp1_socket.c $(pkg-config --cflags --libs amqp1)`. */
#include "amqp1_message.h"

static uint32_t out = AMQP1_NONE, in, asked, replied;
static char back[256];

static void ask(void)
{
    char body[32];
    message it = { { 0, 0 }, { 0, 0 }, text_of(back), { 0, 0 }, { 0, 0 } };
    for (; asked < messages; asked++) {
        snprintf(body, sizeof body, "request %u", (unsigned)asked);
        it.id = text_of(body + strlen("request ")), it.body = text_of(body);
        if (!send_message(out, asked, &it))
            return;
    }
}

static void take_reply(const amqp1_event *event, message reply)
{
    expect_reply(&reply);
    must("a disposition", amqp1_link_accept(&engine, event));
    replied++;
}

void take_record(const amqp1_record *record, const uint8_t *input)
{
    amqp1_event event = go_on(record, input);
    if (record->kind == AMQP1_KIND_BEGUN)
        must("a receiver", amqp1_receiver(&engine, 0, "replies", back, 10, &in));
    if (event.kind == AMQP1_EVENT_ATTACHED && event.link == in)
        must("a sender", amqp1_sender(&engine, 0, "requests", the_address, &out));
    if (event.kind == AMQP1_EVENT_FLOW && event.link == out)
        ask();
    settled_by(&event);
    if (event.kind == AMQP1_EVENT_PART)
        take_reply(&event, read_message(amqp1_payload(input, record)));
}

int main(int words_count, char **words)
{
    snprintf(back, sizeof back, "%s.replies", words_count > 3 ? words[3] : "");
    run_client(words_count, words, "amqp1_requester", &replied);
    printf("%u requests, each replied to\n", (unsigned)replied);
    return 0;
}
