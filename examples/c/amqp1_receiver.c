/* Receives messages from an address of a server, accepts each, and closes. It logs in by ANONYMOUS, by PLAIN, or, over
   TLS, by EXTERNAL. It gives credit for a hundred, which the library renews, so more may come than are awaited: those
   are not accepted.

       amqp1_receiver HOST PORT ADDRESS [COUNT [USER PASSWORD | CA [CERTIFICATE KEY]]]

   Build it by `cc amqp1_receiver.c amqp1_socket.c $(pkg-config --cflags --libs amqp1)`, for TLS with `-DAMQP1_TLS -lssl
   -lcrypto`. The status is 0 where all were accepted, and both sides have closed. */
#include "amqp1_socket.h"

static uint32_t received;

void take_record(const amqp1_record *record, const uint8_t *input)
{
    amqp1_event event = go_on(record, input);
    amqp1_bytes data;
    uint32_t link;
    if (record->kind == AMQP1_KIND_BEGUN)
        must("a receiver", amqp1_receiver(&engine, 0, "from", the_address, window, &link));
    if (event.kind != AMQP1_EVENT_PART)
        return;
    if (record->flags & AMQP1_FLAG_MORE)
        fail("a message in parts, which amqp1_sender does not send");
    if (amqp1_read_data(amqp1_payload(input, record), &data))
        printf("received %.*s\n", (int)data.length, (const char *)data.at);
    if (!(event.flags & AMQP1_EVENT_PRESETTLED))
        must("a disposition", amqp1_link_accept(&engine, &event));
    received++;
}

int main(int words_count, char **words)
{
    run_client(words_count, words, "amqp1_receiver", &received);
    printf("received %u messages, all accepted\n", (unsigned)received);
    return 0;
}
