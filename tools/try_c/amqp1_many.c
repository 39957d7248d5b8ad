/* Tests of libamqp1: 10,000 deliveries each way on links with a credit of 100, settled, unsettled and in parts: each is given back once, and nothing is
   left. After the first 2,000 the heap of both engines grows by 8 KiB at most, less than half a byte for each delivery. And 2,000 that are aborted. */
#include "amqp1_faces.h"
#include <malloc.h>

enum { FEW = 2000, MANY = 12000, WINDOW = 100, MORE = 8192 };

/* How far a side is: deliveries that it sent, unsettled ones of these, those that were given back, and those that came whole. */
typedef struct way {
    uint32_t link, sent, unsettled, given_back, received;
} way;

static way of_client, of_server;

/* The heap that this process uses; under valgrind and the sanitizers it is not known, and always 0. */
static size_t held(void)
{
    return mallinfo2().uordblks;
}

/* Each third one is settled, and each seventh in two parts. */
static void send_next(face *from, way *it)
{
    unsigned settled = it->sent % 3 ? 0 : AMQP1_FLAG_SETTLED;
    amqp1_told told;
    if (it->sent % 7 == 0) {
        EACH(sends_part(from, it->link, settled | AMQP1_FLAG_MORE, 20, given_with(it->sent), &told) == AMQP1_DONE);
        EACH(is_told(&told, it->sent, 0, 0, 0));
    }
    EACH(sends_part(from, it->link, settled, 10, given_with(it->sent), &told) == AMQP1_DONE && is_told(&told, it->sent, 0, 0, 0));
    it->unsettled += !settled;
    it->sent++;
}

/* Sends as many as there is credit for. */
static void send_all(face *from, way *it, uint32_t most)
{
    amqp1_told told;
    uint32_t credit = 0;
    while (amqp1_link_credit(&from->engine, from->session, it->link, &credit) == AMQP1_DONE && credit && it->sent < most)
        send_next(from, it);
    if (!credit)
        EACH(sends_part(from, it->link, 0, 10, 7, &told) == AMQP1_REFUSED && is_told(&told, 0, AMQP1_WHY_LINK_NO_CREDIT, 0, 0));
}

/* A part came: the last one of a delivery that is unsettled is accepted. */
static void receive(face *to, way *it, const amqp1_event *event)
{
    EACH(event->first == it->received && event->credit <= WINDOW);
    if (!(event->flags & AMQP1_EVENT_LAST))
        return;
    EACH(event->size == (it->received % 7 ? 10 : 30) && !(event->flags & AMQP1_EVENT_PRESETTLED) == (it->received % 3 != 0));
    if (!(event->flags & AMQP1_EVENT_PRESETTLED))
        EACH(amqp1_link_accept(&to->engine, event) == AMQP1_DONE);
    it->received++;
}

/* Deliveries are settled: each one of them that was unsettled is given back, in order. */
static void settle(face *it, way *of, const amqp1_event *event)
{
    amqp1_unsettled delivery;
    while (amqp1_link_settled_of(&it->engine, event, &delivery) == AMQP1_DONE) {
        EACH(delivery.given == given_with(delivery.number) && delivery.link == of->link && delivery.number % 3);
        of->given_back++;
    }
}

static void go_on(face *from, face *to, way *it)
{
    size_t at, count = passes(from, to);
    for (at = 0; at < count; at++) {
        if (to->events[at].kind == AMQP1_EVENT_PART)
            receive(to, it, to->events + at);
        if (to->events[at].kind == AMQP1_EVENT_SETTLED)
            settle(to, it, to->events + at);
    }
}

/* So many deliveries pass each way, those before counted. */
static void go(uint32_t most)
{
    int round;
    for (round = 0; round < 1000 && (of_client.received < most || of_server.received < most); round++) {
        send_all(&client, &of_client, most);
        send_all(&server, &of_server, most);
        go_on(&client, &server, &of_server);
        go_on(&server, &client, &of_client);
    }
    go_on(&client, &server, &of_server);
    go_on(&server, &client, &of_client);
    CHECK(of_client.sent == most && of_server.sent == most && of_client.received == most && of_server.received == most);
    CHECK(of_client.given_back == of_client.unsettled && of_server.given_back == of_server.unsettled);
}

static void start_links(void)
{
    meet();
    memset(&of_client, 0, sizeof of_client);
    memset(&of_server, 0, sizeof of_server);
    CHECK(amqp1_sender(&client.engine, CLIENTS, "up", "q", &of_client.link) == AMQP1_DONE);
    passes(&client, &server);
    answers_link(&server, "up", AMQP1_RECEIVER, WINDOW / 2, WINDOW, 0);
    CHECK(amqp1_sender(&server.engine, SERVERS, "down", "q", &of_server.link) == AMQP1_DONE);
    passes(&server, &client);
    answers_link(&client, "down", AMQP1_RECEIVER, WINDOW / 2, WINDOW, 0);
    passes(&client, &server);
    passes(&server, &client);
    CHECK(credit_of(&client, of_client.link) == WINDOW && credit_of(&server, of_server.link) == WINDOW);
}

static int is_left(face *it)
{
    amqp1_unsettled delivery;
    return amqp1_link_left_of(&it->engine, it->session, AMQP1_SENDER, &delivery) != AMQP1_NOTHING ||
           amqp1_link_left_of(&it->engine, it->session, AMQP1_RECEIVER, &delivery) != AMQP1_NOTHING;
}

/* The client sends, and the server receives, and settles second: so its session keeps a record of each delivery that is under way. */
static void start_second(void)
{
    uint8_t attach[128];
    uint32_t link = 99;
    size_t length = attach_text(attach, sizeof attach, "out", AMQP1_RECEIVER, "q", "q", 0);
    meet();
    CHECK(amqp1_sender(&client.engine, CLIENTS, "out", "q", &link) == AMQP1_DONE && link == 0);
    passes(&client, &server);
    CHECK(amqp1_link_on(&server.engine, SERVERS, server.wanted.input, AMQP1_RECEIVER, AMQP1_SECOND, "out", &link) == AMQP1_DONE);
    CHECK(amqp1_link_attach(&server.engine, SERVERS, attach, length, attach, 0, 5, 10, &link) == AMQP1_DONE && link == 0);
    CHECK(amqp1_link_wanted(&server.engine, &server.wanted, 0, server.events) == AMQP1_DONE);
    CHECK(amqp1_link_respond(&server.engine, server.events, 0) == AMQP1_DONE && passes(&server, &client) == 2);
}

/* So many deliveries are begun and aborted. */
static void abort_up_to(uint32_t *number, uint32_t end)
{
    amqp1_told told;
    for (; *number < end; ++*number) {
        EACH(sends_part(&client, 0, AMQP1_FLAG_MORE, 20, 7, &told) == AMQP1_DONE && is_told(&told, *number, 0, 0, 0));
        EACH(passes(&client, &server) == 1);
        EACH(sends_part(&client, 0, AMQP1_FLAG_ABORTED, 0, 7, &told) == AMQP1_DONE && is_told(&told, *number, 0, 1, 7));
        EACH(passes(&client, &server) == 1 && (server.events[0].flags & AMQP1_EVENT_ABORTED) && (server.events[0].flags & AMQP1_EVENT_GIVEN));
        passes(&server, &client);
    }
}

static void try_aborted(void)
{
    uint32_t number = 0;
    size_t before;
    start_second();
    abort_up_to(&number, 200);
    before = held();
    abort_up_to(&number, FEW);
    CHECK(held() <= before + MORE);
    part();
}

void try_many(void)
{
    size_t before;
    try_aborted();
    start_links();
    go(FEW);
    before = held();
    go(MANY);
    CHECK(held() <= before + MORE);
    CHECK(!is_left(&client) && !is_left(&server));
    part();
}
