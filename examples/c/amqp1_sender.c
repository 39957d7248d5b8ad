/* Sends messages to an address of a server as it gives credit, has each accepted, and closes. It logs in by ANONYMOUS,
   by PLAIN, or, over TLS, by EXTERNAL.

       amqp1_sender HOST PORT ADDRESS [COUNT [USER PASSWORD | CA [CERTIFICATE KEY]]]

   Build it by `cc amqp1_sender.c amqp1_socket.c $(pkg-config --cflags --libs amqp1)`, for TLS with `-DAMQP1_TLS -lssl
   -lcrypto`. The status is 0 where all were accepted, and both sides have closed. */
#include "amqp1_socket.h"

static uint32_t link_to, sent, accepted;

void take_record(const amqp1_record *record, const uint8_t *input)
{
    amqp1_head head = { 0, link_to, 0, 0, AMQP1_FLAG_TAGGED | AMQP1_FLAG_FORMATTED, 4 };
    amqp1_event event = go_on(record, input);
    amqp1_unsettled delivery;
    amqp1_told told;
    uint8_t bytes[64];
    if (record->kind == AMQP1_KIND_BEGUN)
        must("a sender", amqp1_sender(&engine, 0, "to", the_address, &link_to));
    for (; event.kind == AMQP1_EVENT_FLOW && event.credit && sent < messages; event.credit--) {
        head.payload = message_of(sent, bytes);
        must("a message", amqp1_link_send(&engine, &head, bytes, 4 + head.payload, sent++, &told));
    }
    if (event.kind == AMQP1_EVENT_SETTLED && record->outcome != AMQP1_ACCEPTED)
        fail("a message was not accepted");
    while (event.kind == AMQP1_EVENT_SETTLED && amqp1_link_settled_of(&engine, &event, &delivery) == AMQP1_DONE)
        accepted++;
}

int main(int words_count, char **words)
{
    run_client(words_count, words, "amqp1_sender", &accepted);
    printf("sent %u messages, all accepted\n", (unsigned)accepted);
    return 0;
}
