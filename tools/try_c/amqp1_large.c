/* For tools/try_live.sh: a delivery that is aborted, and then a message of 1 MiB in as many frames as it needs, go to an address of a server; the message
   comes back, and is compared. It is built beside examples/c/amqp1_socket.c, and has the words of amqp1_sender, with a COUNT of 1. Where the environment has
   AMQP1_NOT_ABORTED the message goes alone. */
#include "amqp1_socket.h"

enum { SIZE = 1 << 20, ROOM = SIZE + 64, ABORTED = 1, LARGE = 2 };

static uint8_t data[SIZE], sent[ROOM], came[ROOM];
static size_t sent_length, came_length;
static uint32_t link_to, state, parts_sent, parts_came, received;

/* Sends a part of a delivery: how many of the bytes it has. */
static size_t send_part(const amqp1_head *head, const uint8_t *bytes, size_t length, uint64_t given)
{
    amqp1_told told;
    must("a part", amqp1_link_send(&engine, head, bytes, length, given, &told));
    return head->tag_size + head->payload;
}

/* Two parts of a message, of which no more comes. */
static void send_aborted(void)
{
    amqp1_head head = { 0, link_to, 0, 1000, AMQP1_FLAG_TAGGED | AMQP1_FLAG_FORMATTED | AMQP1_FLAG_MORE, 4 };
    send_part(&head, sent, sent_length, ABORTED);
    head.tag_size = 0;
    head.flags = AMQP1_FLAG_MORE;
    send_part(&head, sent, sent_length, ABORTED);
    head.flags = AMQP1_FLAG_ABORTED;
    head.payload = 0;
    send_part(&head, sent, sent_length, ABORTED);
}

static void send_large(void)
{
    amqp1_head head = { 0, link_to, 0, 0, AMQP1_FLAG_TAGGED | AMQP1_FLAG_FORMATTED, 4 };
    amqp1_parts cut;
    size_t at = 0;
    sent[3] = LARGE;
    head.payload = (uint32_t)sent_length - 4;
    do {
        must("a cut", amqp1_cut(&engine, &head, sent + at, head.tag_size, &cut));
        at += send_part(&cut.part, sent + at, sent_length - at, LARGE);
        head = cut.rest;
        parts_sent++;
    } while (cut.more);
}

/* Each of both takes one of the credit. */
static void send_next(uint32_t credit)
{
    for (; credit && state < LARGE; credit--)
        if (++state == ABORTED)
            send_aborted();
        else
            send_large();
}

/* The message is settled, and is fetched; the delivery that was aborted is not. */
static void settle(const amqp1_record *record, const amqp1_event *event)
{
    amqp1_unsettled delivery;
    uint32_t link;
    while (amqp1_link_settled_of(&engine, event, &delivery) == AMQP1_DONE) {
        if (delivery.given != LARGE || record->outcome != AMQP1_ACCEPTED)
            fail("another delivery is settled, or the message is not accepted");
        must("a receiver", amqp1_receiver(&engine, 0, "from", the_address, window, &link));
    }
}

static void receive(const amqp1_record *record, const amqp1_event *event, const uint8_t *input)
{
    amqp1_bytes payload = amqp1_payload(input, record), is;
    if (payload.length > sizeof came - came_length || event->flags & AMQP1_EVENT_ABORTED)
        fail("another message comes");
    memcpy(came + came_length, payload.at, payload.length);
    came_length += payload.length;
    parts_came++;
    if (!(event->flags & AMQP1_EVENT_LAST))
        return;
    if (event->size != came_length || !amqp1_read_data(amqp1_bytes_at(came, came_length), &is) || !is_text(is, (const char *)data, sizeof data))
        fail("another message comes");
    if (!(event->flags & AMQP1_EVENT_PRESETTLED))
        must("a disposition", amqp1_link_accept(&engine, event));
    received++;
}

void take_record(const amqp1_record *record, const uint8_t *input)
{
    amqp1_event event = go_on(record, input);
    if (record->kind == AMQP1_KIND_BEGUN)
        must("a sender", amqp1_sender(&engine, 0, "to", the_address, &link_to));
    else if (event.kind == AMQP1_EVENT_FLOW && event.link == link_to)
        send_next(event.credit);
    else if (event.kind == AMQP1_EVENT_SETTLED)
        settle(record, &event);
    else if (event.kind == AMQP1_EVENT_PART)
        receive(record, &event, input);
}

int main(int words_count, char **words)
{
    size_t at;
    for (at = 0; at < sizeof data; at++)
        data[at] = (uint8_t)(at * 7 + at / 251);
    state = getenv("AMQP1_NOT_ABORTED") ? ABORTED : 0;
    must("a message", amqp1_write_data(sent + 4, sizeof sent - 4, &sent_length, data, sizeof data));
    sent_length += 4;
    run_client(words_count, words, "amqp1_large", &received);
    printf("%s%u bytes in %u parts there and %u back\n", getenv("AMQP1_NOT_ABORTED") ? "" : "an aborted delivery, and ", (unsigned)sizeof data,
           (unsigned)parts_sent, (unsigned)parts_came);
    return 0;
}
