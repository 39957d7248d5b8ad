/* Tests of libamqp1: links with credit that have nothing in common: of two sessions, and many of one; counts that wrap; and states that settle nothing. */
#include "amqp1_faces.h"

enum { LINKS = 100, WHOLE = AMQP1_EVENT_FIRST | AMQP1_EVENT_LAST };

static amqp1_told told;
static amqp1_unsettled delivery;

/* A second session begins: 8 of the client's, and 4 of the server's. */
static void begin_another(void)
{
    uint8_t begin[64];
    size_t length;
    client.session = CLIENTS + 1;
    server.session = SERVERS + 1;
    CHECK(amqp1_write_begin(begin, sizeof begin, &length, 0, 5000, 5000, 255) == AMQP1_DONE);
    CHECK(amqp1_begin(&client.engine, client.session, begin, length) == AMQP1_DONE);
    exchanges();
}

/* The same name and the same handle in either session: what is said of one is not said of the other. */
static void try_two_sessions(void)
{
    uint32_t link = 99;
    meet_by_link(5, 10, 0);
    CHECK(sends_one(&client, 0, 0, 0) && passes(&client, &server) == 1);
    begin_another();
    CHECK(sends_part(&client, 0, 0, 3, 5, &told) == AMQP1_REFUSED && is_told(&told, 0, AMQP1_WHY_LINK_NO_SENDER, 0, 0));
    CHECK(amqp1_sender(&client.engine, client.session, "out", "q", &link) == AMQP1_DONE && link == 0);
    passes(&client, &server);
    CHECK(answers_link(&server, "out", AMQP1_RECEIVER, 2, 3, 0) == 0 && passes(&server, &client) == 2 && credit_of(&client, 0) == 3);
    CHECK(sends_one(&client, 0, 0, 0) && passes(&client, &server) == 1 && is_part(&server, 0, 0, 0, 3, 2, WHOLE));
    CHECK(amqp1_link_accept(&server.engine, server.events) == AMQP1_DONE && passes(&server, &client) == 1 && is_settled(&client, 0, 0, 0, AMQP1_EVENT_BY_PEER));
    CHECK(amqp1_link_settled_of(&client.engine, client.events, &delivery) == AMQP1_DONE && is_unsettled(&delivery, 0, 0, given_with(70)));
    CHECK(amqp1_link_forget(&client.engine, client.session) == AMQP1_DONE && credit_of(&client, 0) == 0);
    client.session = CLIENTS;
    CHECK(credit_of(&client, 0) == 9 && sends_one(&client, 0, 0, 1));
    CHECK(amqp1_link_left_of(&client.engine, CLIENTS, AMQP1_SENDER, &delivery) == AMQP1_DONE && is_unsettled(&delivery, 0, 0, given_with(70)));
    part();
}

/* Every link has credit of its own, and a delivery on each; they are detached, and their handles are free. */
static void try_many_links(void)
{
    uint32_t link, at;
    char name[16];
    meet();
    for (at = 0; at < LINKS; at++) {
        snprintf(name, sizeof name, "link %u", (unsigned)at);
        EACH(amqp1_sender(&client.engine, CLIENTS, name, "q", &link) == AMQP1_DONE && link == at);
        passes(&client, &server);
        EACH(answers_link(&server, name, AMQP1_RECEIVER, 1, at + 1, 0) == at);
        passes(&server, &client);
        EACH(is_event(&client, 1, AMQP1_EVENT_FLOW, at, 0, at + 1, 0));
    }
    for (at = 0; at < LINKS; at++)
        EACH(credit_of(&client, at) == at + 1 && sends_one(&client, at, 0, at) && credit_of(&client, at) == at);
    CHECK(passes(&client, &server) == LINKS);
    for (at = 0; at < LINKS; at++)
        EACH(is_part(&server, at, at, at, 3, at, WHOLE));
    CHECK(amqp1_link_settle(&server.engine, SERVERS, AMQP1_RECEIVER, 0, LINKS - 1, 1, AMQP1_ACCEPTED) == AMQP1_DONE);
    passes(&server, &client);
    CHECK(is_settled(&client, client.count - 1, 0, LINKS - 1, AMQP1_EVENT_BY_PEER));
    for (at = 0; at < LINKS; at++) {
        EACH(amqp1_link_settled_of(&client.engine, client.events + client.count - 1, &delivery) == AMQP1_DONE);
        EACH(is_unsettled(&delivery, at, at, given_with(70 + at)));
        EACH(amqp1_link_detach(&client.engine, CLIENTS, at, 1, key, 0) == AMQP1_DONE);
    }
    CHECK(passes(&client, &server) == LINKS && passes(&server, &client) == LINKS);
    for (at = 0; at < LINKS; at++)
        EACH(amqp1_link_remove(&client.engine, CLIENTS, at) == AMQP1_DONE && amqp1_link_remove(&server.engine, SERVERS, at) == AMQP1_UNSETTLED);
    part();
}

/* A delivery count near 2^32 goes on from 0. */
static void try_wrapping_count(void)
{
    uint8_t text[128];
    uint32_t link = 99, at;
    size_t length;
    meet();
    CHECK(amqp1_link(&client.engine, CLIENTS, AMQP1_SENDER, AMQP1_FIRST, "out", &link) == AMQP1_DONE);
    CHECK(amqp1_write_attach(text, sizeof text, &length, "out", 77, AMQP1_SENDER, 2, AMQP1_FIRST, "q", "q", 0xfffffffe) == AMQP1_DONE);
    CHECK(amqp1_link_attach(&client.engine, CLIENTS, text, length, text, 0, 0, 0, &link) == AMQP1_DONE && link == 0);
    passes(&client, &server);
    CHECK(server.wanted.count == 0xfffffffe && answers_link(&server, "out", AMQP1_RECEIVER, 3, 4, 0) == 0);
    for (at = 0; at < 10; at++) {
        passes(&server, &client);
        CHECK(credit_of(&client, 0) >= 3 && sends_one(&client, 0, AMQP1_FLAG_SETTLED, at) && passes(&client, &server) == 1);
        CHECK(is_part(&server, 0, 0, at, 3, credit_of(&client, 0), WHOLE | AMQP1_EVENT_PRESETTLED));
    }
    part();
}

/* The state Received settles nothing; an outcome that a receiver has by hand, as Rejected, settles like the others. */
static void try_states(void)
{
    static const uint8_t received[] = { 0, 0x53, 0x15, 0xc0, 13, 5, 0x41, 0x43, 0x43, 0x42, 0, 0x53, 0x23, 0xc0, 3, 2, 0x43, 0x44 };
    uint8_t text[64];
    size_t length;
    meet_by_link(5, 10, 0);
    CHECK(sends_one(&client, 0, 0, 0) && sends_one(&client, 0, 0, 1) && passes(&client, &server) == 2);
    CHECK(amqp1_disposition(&server.engine, SERVERS, received, sizeof received - 2) == AMQP1_BAD_ARGUMENT);
    CHECK(amqp1_write_disposition(text, sizeof text, &length, AMQP1_RECEIVER, 0, 1, 0, AMQP1_REJECTED) == AMQP1_DONE);
    CHECK(amqp1_disposition(&server.engine, SERVERS, received, sizeof received) == AMQP1_DONE && passes(&server, &client) == 0);
    CHECK(amqp1_disposition(&server.engine, SERVERS, text, length) == AMQP1_DONE && passes(&server, &client) == 1 && is_settled(&client, 0, 0, 1, 0));
    CHECK(amqp1_link_settled_of(&client.engine, client.events, &delivery) == AMQP1_DONE && is_unsettled(&delivery, 0, 0, given_with(70)));
    part();
}

/* Ranges that are empty, or wide: what is settled is what lies in them. */
static void try_ranges(void)
{
    meet_by_link(5, 10, 0);
    CHECK(sends_one(&client, 0, 0, 0) && sends_one(&client, 0, 0, 1) && sends_one(&client, 0, 0, 2));
    CHECK(amqp1_link_settled(&client.engine, CLIENTS, AMQP1_SENDER, 2, 1, &delivery) == AMQP1_NOTHING);
    CHECK(amqp1_link_settled(&client.engine, CLIENTS, AMQP1_SENDER, 3, 0x7fffffff, &delivery) == AMQP1_NOTHING);
    CHECK(amqp1_link_settled(&client.engine, CLIENTS, AMQP1_SENDER, 0xfffffff0, 0, &delivery) == AMQP1_DONE && is_unsettled(&delivery, 0, 0, given_with(70)));
    CHECK(amqp1_link_settled(&client.engine, CLIENTS, AMQP1_SENDER, 0xfffffff0, 0, &delivery) == AMQP1_NOTHING);
    CHECK(amqp1_link_settled(&client.engine, CLIENTS, AMQP1_SENDER, 0, 0x7ffffffe, &delivery) == AMQP1_DONE && is_unsettled(&delivery, 1, 0, given_with(71)));
    CHECK(amqp1_link_settled(&client.engine, CLIENTS, AMQP1_SENDER, 2, 2, &delivery) == AMQP1_DONE && is_unsettled(&delivery, 2, 0, given_with(72)));
    CHECK(amqp1_link_settled(&client.engine, CLIENTS, AMQP1_SENDER, 0, 0x7ffffffe, &delivery) == AMQP1_NOTHING);
    part();
}

void try_apart(void)
{
    try_two_sessions();
    try_many_links();
    try_wrapping_count();
    try_states();
    try_ranges();
}
