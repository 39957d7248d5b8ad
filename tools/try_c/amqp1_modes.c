/* For tools/try_live.sh: messages go to a server on a link, and come back on another, both of the settle modes that the
   environment names by AMQP1_MODES, as "2 1": the sender's (0 unsettled, 1 settled, 2 mixed) and the receiver's (0
   first, 1 second). It says by which modes the server answers, and who settled what; and fails where that is not what
   these modes say, where a delivery is given back twice or never, or where something is left once both have detached.
   It is built beside examples/c/amqp1_socket.c, and has the words of amqp1_sender. */
#include "amqp1_socket.h"
#include <malloc.h>

enum { UNSETTLED, SETTLED, MIXED, KEPT = 160000 };

/* What is counted of one link: what was sent or came, settled and not, and who settled the rest. */
static struct {
    uint32_t link, snd, rcv, settled, unsettled, by_peer, by_us;
} to, from;

static unsigned snd_mode, rcv_mode;
static uint32_t done;
static uint8_t *given_back;
static size_t kept;

static uint32_t attach(const char *name, enum amqp1_role role)
{
    enum amqp1_rcv_settle_mode mode = rcv_mode ? AMQP1_SECOND : AMQP1_FIRST;
    const char *here = the_address;
    uint8_t text[512];
    uint32_t link;
    size_t length;
    must("a link", amqp1_link(&engine, 0, role, mode, name, &link));
    must("an attach's text",
         amqp1_write_attach(text, sizeof text, &length, name, link, role, snd_mode, mode, here, here, 0));
    must("an attach", amqp1_link_attach(&engine, 0, text, length, text, 0, 0, 0, &link));
    return link;
}

/* As the mode of the sender says; of mixed each second one is settled. */
static int is_sent_settled(uint32_t number)
{
    return snd_mode == SETTLED || (snd_mode == MIXED && number & 1);
}

static void send_some(uint32_t credit)
{
    amqp1_head head = { 0, to.link, 0, 0, 0, 4 };
    uint8_t bytes[64];
    amqp1_told told;
    for (; credit && to.settled + to.unsettled < messages; credit--) {
        uint32_t number = to.settled + to.unsettled;
        head.payload = message_of(number, bytes);
        head.flags = AMQP1_FLAG_TAGGED | AMQP1_FLAG_FORMATTED | (is_sent_settled(number) ? AMQP1_FLAG_SETTLED : 0);
        must("a message", amqp1_link_send(&engine, &head, bytes, 4 + head.payload, number, &told));
        *(is_sent_settled(number) ? &to.settled : &to.unsettled) += 1;
    }
}

/* What came unsettled is accepted: settled at once, or, where both Attaches say second, once the sender has. */
static void receive(const amqp1_record *record, const amqp1_event *event, const uint8_t *input)
{
    uint32_t number = from.settled + from.unsettled;
    amqp1_bytes data;
    char text[32];
    int length = snprintf(text, sizeof text, "message %u", (unsigned)number);
    if (!amqp1_read_data(amqp1_payload(input, record), &data) || !is_text(data, text, (size_t)length))
        fail("another message comes");
    if (event->flags & AMQP1_EVENT_PRESETTLED) {
        from.settled++;
        return;
    }
    from.unsettled++;
    if (rcv_mode && from.rcv) {
        must("an outcome", amqp1_link_settle(&engine, 0, AMQP1_RECEIVER, event->first, event->last, 0, AMQP1_ACCEPTED));
    } else {
        must("a disposition", amqp1_link_accept(&engine, event));
        from.by_us++;
    }
}

static void settle(const amqp1_record *record, const amqp1_event *event)
{
    int has_come = !!(event->flags & AMQP1_EVENT_RECEIVED), by_peer = !!(event->flags & AMQP1_EVENT_BY_PEER);
    amqp1_unsettled delivery;
    while (amqp1_link_settled_of(&engine, event, &delivery) == AMQP1_DONE) {
        if (!has_come && (record->outcome != AMQP1_ACCEPTED || delivery.given >= messages ||
                          is_sent_settled((uint32_t)delivery.given) || given_back[delivery.given]++))
            fail("a message is not accepted, or is settled that was already");
        if (has_come)
            *(by_peer ? &from.by_peer : &from.by_us) += 1;
        else
            *(by_peer ? &to.by_peer : &to.by_us) += 1;
    }
}

/* A link is over, and nothing is left on it: then comes the next one, or the end. */
static void go_over(uint32_t link)
{
    amqp1_unsettled delivery;
    if (amqp1_link_left(&engine, 0, link, &delivery) != AMQP1_NOTHING)
        fail("a delivery is left unsettled");
    must("a link's end", amqp1_link_remove(&engine, 0, link));
    if (link == to.link) {
        to.link = AMQP1_NONE;
        from.link = attach("from", AMQP1_RECEIVER);
        return;
    }
    /* a record of a delivery that is open has some 120 bytes: what has grown holds no thousands of them */
    if (mallinfo2().uordblks > kept + KEPT)
        fail("memory is kept of what is settled");
    done = messages;
}

/* Detaches a link once each message is settled. */
static void detach_where_done(void)
{
    static int is_sent, is_received;
    if (!is_sent && to.settled + to.unsettled == messages && to.by_peer + to.by_us == to.unsettled) {
        is_sent = 1;
        must("a detach", amqp1_link_detach(&engine, 0, to.link, 1, NULL, 0));
    }
    if (!is_received && from.settled + from.unsettled == messages && from.by_peer + from.by_us == from.unsettled) {
        is_received = 1;
        must("a detach", amqp1_link_detach(&engine, 0, from.link, 1, NULL, 0));
    }
}

static void take_attach(const amqp1_record *record)
{
    if (record->output == to.link) {
        to.snd = record->credit, to.rcv = record->available;
    } else {
        from.snd = record->credit, from.rcv = record->available;
        must("credit", amqp1_grant(&engine, 0, from.link, messages));
    }
}

static void take_link_event(const amqp1_record *record, const amqp1_event *event, const uint8_t *input)
{
    if (event->kind == AMQP1_EVENT_ATTACHED)
        take_attach(record);
    else if (event->kind == AMQP1_EVENT_FLOW && event->link == to.link)
        send_some(event->credit);
    else if (event->kind == AMQP1_EVENT_SETTLED)
        settle(record, event);
    else if (event->kind == AMQP1_EVENT_PART)
        receive(record, event, input);
    else if (event->kind == AMQP1_EVENT_ENDED)
        go_over(event->link);
}

void take_record(const amqp1_record *record, const uint8_t *input)
{
    amqp1_event event;
    if (record->kind == AMQP1_KIND_DETACHED && !amqp1_has(record, AMQP1_FLAG_ERROR))
        must("a detach", amqp1_link_follow(&engine, record, &event));
    else
        event = go_on(record, input);
    if (record->kind == AMQP1_KIND_BEGUN) {
        kept = mallinfo2().uordblks;
        to.link = attach("to", AMQP1_SENDER), from.link = AMQP1_NONE;
    }
    take_link_event(record, &event, input);
    detach_where_done();
}

static const char *modes_of(uint32_t snd, uint32_t rcv)
{
    static const char *const names[6] = { "unsettled first",  "unsettled second", "settled first",
                                          "settled second",   "mixed first",      "mixed second" };
    return names[snd % 3 * 2 + rcv % 2];
}

int main(int words_count, char **words)
{
    const char *modes = getenv("AMQP1_MODES");
    if (!modes || sscanf(modes, "%u %u", &snd_mode, &rcv_mode) != 2 || snd_mode > MIXED || rcv_mode > 1)
        fail("AMQP1_MODES: two numbers, as \"2 1\"");
    given_back = (uint8_t *)calloc(words_count > 4 ? (size_t)atoi(words[4]) : 5, 1);
    run_client(words_count, words, "amqp1_modes", &done);
    if ((from.snd == SETTLED && from.unsettled) || (from.snd == UNSETTLED && from.settled))
        fail("messages come settled otherwise than the server's Attach says");
    printf("there, %s answered by %s: %u settled, %u unsettled, of them %u settled by the peer and %u by this side\n",
           modes_of(snd_mode, rcv_mode), modes_of(to.snd, to.rcv), to.settled, to.unsettled, to.by_peer, to.by_us);
    printf("back, %s answered by %s: %u settled, %u unsettled, of them %u settled by the peer and %u by this side\n",
           modes_of(snd_mode, rcv_mode), modes_of(from.snd, from.rcv), from.settled, from.unsettled, from.by_peer,
           from.by_us);
    free(given_back);
    return 0;
}
