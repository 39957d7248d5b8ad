/* For tools/try_live.sh: serves one client on one link, by the settle modes that the client's Attach names. What comes
   is accepted: settled at once in the mode first, and in the mode second once the client has settled; a client that
   receives gets COUNT messages. It says by which modes the link went, and who settled what; and fails where something
   is left once the client has detached. It is built beside examples/c/amqp1_socket.c and amqp1_serving.c:

       amqp1_modes_served PORT COUNT [CERTIFICATE KEY] */
#include "amqp1_socket.h"

static struct {
    uint32_t link, snd, rcv, sends, settled, unsettled, by_peer, by_us;
} of = { AMQP1_NONE, 0, 0, 0, 0, 0, 0, 0 };

static uint32_t count;

/* This side's end of the client's link, by the same modes. */
static void take_link(const amqp1_record *record, const uint8_t *input)
{
    enum amqp1_role role = amqp1_has(record, AMQP1_FLAG_RECEIVER) ? AMQP1_SENDER : AMQP1_RECEIVER;
    enum amqp1_rcv_settle_mode mode = record->available ? AMQP1_SECOND : AMQP1_FIRST;
    char name[256];
    uint8_t text[1024];
    size_t length;
    amqp1_event event;
    of.snd = record->credit, of.rcv = record->available, of.sends = role == AMQP1_SENDER;
    string_of(amqp1_bytes_field(amqp1_performative(input, record), AMQP1_ATTACH_NAME), name, sizeof name);
    must("a link", amqp1_link_on(&engine, record->session, record->input, role, mode, name, &of.link));
    must("an attach's text", amqp1_write_attach(text, sizeof text, &length, name, of.link, role, of.snd, mode,
                                                "examples", "examples", 0));
    must("an attach", amqp1_link_attach(&engine, record->session, text, length, text, 0, 0, 0, &of.link));
    must("an attach's event", amqp1_link_wanted(&engine, record, of.link, &event));
    if (!of.sends)
        must("credit", amqp1_grant(&engine, record->session, of.link, count));
}

/* Of the mode mixed each second message is sent settled. */
static void send_some(const amqp1_event *event)
{
    amqp1_head head = { event->session, of.link, 0, 0, 0, 4 };
    uint32_t credit = event->credit;
    amqp1_told told;
    uint8_t bytes[64];
    for (; credit && of.settled + of.unsettled < count; credit--) {
        uint32_t number = of.settled + of.unsettled, is_settled = of.snd == 1 || (of.snd == 2 && number & 1);
        head.payload = message_of(number, bytes);
        head.flags = AMQP1_FLAG_TAGGED | AMQP1_FLAG_FORMATTED | (is_settled ? AMQP1_FLAG_SETTLED : 0);
        must("a message", amqp1_link_send(&engine, &head, bytes, 4 + head.payload, number, &told));
        *(is_settled ? &of.settled : &of.unsettled) += 1;
    }
}

static void receive(const amqp1_event *event)
{
    if (event->flags & AMQP1_EVENT_PRESETTLED) {
        of.settled++;
        return;
    }
    of.unsettled++;
    if (!of.rcv) {
        must("a disposition", amqp1_link_accept(&engine, event));
        of.by_us++;
    } else {
        must("an outcome", amqp1_link_settle(&engine, event->session, AMQP1_RECEIVER, event->first, event->last, 0,
                                             AMQP1_ACCEPTED));
    }
}

static void take_event(const amqp1_event *event)
{
    amqp1_unsettled delivery;
    if (event->kind == AMQP1_EVENT_FLOW && of.sends)
        send_some(event);
    else if (event->kind == AMQP1_EVENT_PART && event->flags & AMQP1_EVENT_LAST)
        receive(event);
    while (event->kind == AMQP1_EVENT_SETTLED && amqp1_link_settled_of(&engine, event, &delivery) == AMQP1_DONE)
        *(event->flags & AMQP1_EVENT_BY_PEER ? &of.by_peer : &of.by_us) += 1;
    if (event->kind == AMQP1_EVENT_ENDED &&
        amqp1_link_left(&engine, event->session, event->link, &delivery) == AMQP1_DONE)
        fail("a delivery is left unsettled");
}

void take_record(const amqp1_record *record, const uint8_t *input)
{
    amqp1_event event;
    must("a record", amqp1_link_follow(&engine, record, &event));
    take_event(&event);
    if (record->kind == AMQP1_KIND_LOGIN_ASKED)
        must("a login", amqp1_login(&engine, AMQP1_LOGIN_OK));
    else if (record->kind == AMQP1_KIND_ATTACH_WANTED)
        take_link(record, input);
    else
        answer(record, input, &event);
}

/* Also where the client hangs up without a Close, as uAMQP does: then the status is 1. */
static void tell(void)
{
    static const char *const modes[6] = { "unsettled first",  "unsettled second", "settled first",
                                          "settled second",   "mixed first",      "mixed second" };
    printf("%s, %s: %u settled, %u unsettled, of them %u settled by the peer and %u by this side\n",
           of.sends ? "sends" : "receives", modes[of.snd % 3 * 2 + of.rcv % 2], of.settled, of.unsettled, of.by_peer,
           of.by_us);
}

int main(int words_count, char **words)
{
    uint8_t key[16], open[64];
    size_t length;
    if (words_count != 3 && words_count != 5)
        fail("usage: amqp1_modes_served PORT COUNT [CERTIFICATE KEY]");
    count = (uint32_t)atoi(words[2]);
    accept_on(listen_on(words[1], words[3], words_count == 5 ? words[4] : NULL), key);
    must("an open's text", amqp1_write_open(open, sizeof open, &length, "amqp1_modes_served", NULL, 65536, 255, 0));
    must("an engine", amqp1_start_server(&engine, key, now(), LIMIT, "ANONYMOUS", open, length));
    must("an open", amqp1_open(&engine));
    atexit(tell);
    return !run();
}
