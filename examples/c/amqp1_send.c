/* Sends messages to an address of a broker as it gives credit, and then receives them back: both ends of a link in one
   client over libamqp1.

       amqp1_send HOST PORT ADDRESS [COUNT [USER PASSWORD | CA [CERTIFICATE KEY]]]

   Build it by `cc amqp1_send.c amqp1_socket.c $(pkg-config --cflags --libs amqp1)`, for TLS with `-DAMQP1_TLS -lssl
   -lcrypto`. The status is 0 where all came back, and both sides have closed. */
#include "amqp1_socket.h"

/* How many messages were sent, settled by the peer, and received; and the link on which they are sent. */
static uint32_t sent, settled, received, link_to;

static void send_some(uint32_t credit)
{
    amqp1_head head = { 0, link_to, 0, 0, AMQP1_FLAG_TAGGED | AMQP1_FLAG_FORMATTED, 4 };
    amqp1_told told;
    uint8_t bytes[64];
    for (; credit && sent < messages; credit--, sent++) {
        head.payload = message_of(sent, bytes);
        must("a message", amqp1_link_send(&engine, &head, bytes, 4 + head.payload, sent, &told));
    }
}

/* Messages are settled: once all are, a link is attached on which they come back. */
static void settle(const amqp1_event *event)
{
    amqp1_unsettled delivery;
    uint32_t link_from, before = settled;
    while (amqp1_link_settled_of(&engine, event, &delivery) == AMQP1_DONE)
        settled++;
    if (settled != messages || settled == before)
        return;
    printf("sent %u messages, all settled by the peer\n", (unsigned)sent);
    must("a receiver", amqp1_receiver(&engine, 0, "from", the_address, window, &link_from));
}

static void receive(const amqp1_record *record, const amqp1_event *event, const uint8_t *input)
{
    amqp1_bytes data;
    if (received < 3 && amqp1_read_data(amqp1_payload(input, record), &data))
        printf("received %.*s\n", (int)data.length, (const char *)data.at);
    if (!(event->flags & AMQP1_EVENT_PRESETTLED))
        must("a disposition", amqp1_link_accept(&engine, event));
    received++;
}

void take_record(const amqp1_record *record, const uint8_t *input)
{
    amqp1_event event = go_on(record, input);
    if (record->kind == AMQP1_KIND_BEGUN)
        must("a sender", amqp1_sender(&engine, 0, "to", the_address, &link_to));
    else if (event.kind == AMQP1_EVENT_FLOW && event.link == link_to)
        send_some(event.credit);
    else if (event.kind == AMQP1_EVENT_SETTLED)
        settle(&event);
    else if (event.kind == AMQP1_EVENT_PART)
        receive(record, &event, input);
}

int main(int words_count, char **words)
{
    run_client(words_count, words, "amqp1_send", &received);
    printf("received %u messages\n", (unsigned)received);
    return 0;
}
