/* Serves clients, one after the other: lets each in by PLAIN, as one user, or by ANONYMOUS; accepts what it sends, and
   sends it messages as long as it gives credit, on one link. `amqp1_server PORT CLIENTS USER PASSWORD [CERTIFICATE
   KEY]`, for TLS with the last two; the status is 0 where each was let in, and has closed. Build it by `cc
   amqp1_server.c amqp1_serving.c amqp1_socket.c $(pkg-config --cflags --libs amqp1)`. */
#include "amqp1_socket.h"

static uint32_t link_to = AMQP1_NONE, sent;
static const char *user, *password;

static void send_some(uint32_t session, uint32_t credit)
{
    amqp1_head head = { session, link_to, 0, 0, AMQP1_FLAG_TAGGED | AMQP1_FLAG_FORMATTED, 4 };
    amqp1_told told;
    uint8_t bytes[64];
    for (; credit; credit--, sent++) {
        head.payload = message_of(sent, bytes);
        must("a message", amqp1_link_send(&engine, &head, bytes, 4 + head.payload, sent, &told));
    }
}

void take_record(const amqp1_record *record, const uint8_t *input)
{
    amqp1_event event = serve_on(record, input, user, password);
    if (event.kind == AMQP1_EVENT_ATTACHED && amqp1_has(record, AMQP1_FLAG_RECEIVER))
        link_to = event.link, sent = 0;
    else if (event.kind == AMQP1_EVENT_ENDED && event.link == link_to)
        link_to = AMQP1_NONE;
    else if (event.kind == AMQP1_EVENT_FLOW && event.link == link_to)
        send_some(event.session, event.credit);
    else if (event.kind == AMQP1_EVENT_PART && event.flags & AMQP1_EVENT_LAST
        && !(event.flags & AMQP1_EVENT_PRESETTLED))
        must("a disposition", amqp1_link_accept(&engine, &event));
}

int main(int count, char **words)
{
    int listening, left;
    if (count != 5 && count != 7)
        fail("usage: amqp1_server PORT CLIENTS USER PASSWORD [CERTIFICATE KEY]");
    user = words[3], password = words[4];
    listening = listen_on(words[1], words[5], count == 7 ? words[6] : NULL);
    for (left = atoi(words[2]); left; left--, link_to = AMQP1_NONE)
        if (!serve_next(listening, "amqp1_server"))
            fail("a client that goes before it closes");
    return 0;
}
