/* For tools/try_live_durable.sh: messages go to a target that is to be as durable as the environment says by
   AMQP1_DURABLE, 0 to 2 (AMQP 1.0 part 3, section 3.5.5). It says how durable the target of the server's Attach is, and
   fails where a message is not accepted. It is built beside examples/c/amqp1_socket.c, and has the words of
   amqp1_sender. */
#include "amqp1_socket.h"

/* The place of durable in a target (section 3.5.4). */
enum { TARGET_DURABLE = 1 };

static uint32_t link_to, sent, accepted, asked, answered = AMQP1_NONE;

static void attach(void)
{
    amqp1_terminus to = amqp1_terminus_at(the_address);
    to.durable = asked;
    must("a sender", amqp1_sender_to(&engine, 0, "to", &to, &link_to));
}

static void take_attach(const amqp1_record *record, const uint8_t *input)
{
    amqp1_bytes target;
    if (!amqp1_field(amqp1_performative(input, record), AMQP1_ATTACH_TARGET, &target))
        fail("the server's Attach has no target");
    answered = (uint32_t)amqp1_number_field(target, TARGET_DURABLE, AMQP1_DURABLE_NONE);
}

static void send_some(uint32_t credit)
{
    amqp1_head head = { 0, link_to, 0, 0, AMQP1_FLAG_TAGGED | AMQP1_FLAG_FORMATTED, 4 };
    amqp1_told told;
    uint8_t bytes[64];
    for (; credit && sent < messages; credit--, sent++) {
        head.payload = message_of(sent, bytes);
        must("a message", amqp1_link_send(&engine, &head, bytes, 4 + head.payload, sent, &told));
    }
}

static void settle(const amqp1_record *record, const amqp1_event *event)
{
    amqp1_unsettled delivery;
    if (record->outcome != AMQP1_ACCEPTED)
        fail("a message was not accepted");
    while (amqp1_link_settled_of(&engine, event, &delivery) == AMQP1_DONE)
        accepted++;
}

void take_record(const amqp1_record *record, const uint8_t *input)
{
    amqp1_event event = go_on(record, input);
    if (record->kind == AMQP1_KIND_BEGUN)
        attach();
    else if (event.kind == AMQP1_EVENT_ATTACHED)
        take_attach(record, input);
    else if (event.kind == AMQP1_EVENT_FLOW)
        send_some(event.credit);
    else if (event.kind == AMQP1_EVENT_SETTLED)
        settle(record, &event);
}

int main(int words_count, char **words)
{
    const char *durable = getenv("AMQP1_DURABLE");
    if (!durable || sscanf(durable, "%u", &asked) != 1 || asked > AMQP1_DURABLE_UNSETTLED)
        fail("AMQP1_DURABLE: 0, 1 or 2");
    run_client(words_count, words, "amqp1_durable", &accepted);
    printf("durable %u is answered by %u, and %u messages are accepted\n", (unsigned)asked, (unsigned)answered,
           (unsigned)accepted);
    return 0;
}
